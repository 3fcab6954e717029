/* The calls that measure.c makes, over the functions of the module that bench/native compiles: those take a slice by the address of
   its pointer and length. */
#include "../tests/proved_calls.h"

struct slice { const void *at; size_t length; };
#define LENT(at, length) (&(struct slice){(at), (length)})
#define NET_TYPES struct slice *, struct slice *, struct slice *, struct slice *, struct slice *
#define NET_LENT LENT(parent, parents), LENT(wire, wires), LENT(kind, kinds), LENT(pin, pins), LENT(polarity, polarities)

uint32_t module_read_net(struct slice *, uint32_t *, uint32_t *, uint8_t *, NET_TYPES, uint64_t *);
uint32_t module_check(uint32_t, uint32_t, uint8_t, NET_TYPES, struct slice *, struct slice *, uint64_t *, uint64_t *);
uint32_t module_solve(uint32_t, uint32_t, uint8_t, NET_TYPES, struct slice *, struct slice *, uint64_t *);
uint32_t module_finish(uint32_t, uint32_t, uint8_t, NET_TYPES, struct slice *, struct slice *, struct slice *, struct slice *, uint64_t *);

uint32_t proved_read_net(const uint8_t *bytes, size_t length, uint32_t *limit, uint32_t *cb, uint8_t *repeater,
                         uint16_t *parent, size_t parents, uint32_t *wire, size_t wires, uint8_t *kind, size_t kinds,
                         uint32_t *pin, size_t pins, uint8_t *polarity, size_t polarities, uint64_t *place)
{
    return module_read_net(LENT(bytes, length), limit, cb, repeater, NET_LENT, place);
}

uint32_t proved_solve(uint32_t limit, uint32_t cb, uint8_t repeater, const uint16_t *parent, size_t parents,
                      const uint32_t *wire, size_t wires, const uint8_t *kind, size_t kinds, const uint32_t *pin, size_t pins,
                      const uint8_t *polarity, size_t polarities, uint16_t *entry_wire, size_t entry_wires,
                      uint32_t *offset, size_t offsets, uint64_t *place)
{
    return module_solve(limit, cb, repeater, NET_LENT, LENT(entry_wire, entry_wires), LENT(offset, offsets), place);
}

uint32_t proved_finish(uint32_t limit, uint32_t cb, uint8_t repeater, const uint16_t *parent, size_t parents,
                       const uint32_t *wire, size_t wires, const uint8_t *kind, size_t kinds, const uint32_t *pin, size_t pins,
                       const uint8_t *polarity, size_t polarities, const uint16_t *given, size_t givens,
                       const uint32_t *given_offset, size_t given_offsets, uint16_t *entry_wire, size_t entry_wires,
                       uint32_t *offset, size_t offsets, uint64_t *place)
{
    return module_finish(limit, cb, repeater, NET_LENT, LENT(given, givens), LENT(given_offset, given_offsets),
                         LENT(entry_wire, entry_wires), LENT(offset, offsets), place);
}

uint32_t proved_check(uint32_t limit, uint32_t cb, uint8_t repeater, const uint16_t *parent, size_t parents,
                      const uint32_t *wire, size_t wires, const uint8_t *kind, size_t kinds, const uint32_t *pin, size_t pins,
                      const uint8_t *polarity, size_t polarities, const uint16_t *entry_wire, size_t entry_wires,
                      const uint32_t *offset, size_t offsets, uint64_t *source, uint64_t *place)
{
    return module_check(limit, cb, repeater, NET_LENT, LENT(entry_wire, entry_wires), LENT(offset, offsets), source, place);
}
