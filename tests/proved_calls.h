/* The proved calls behind the calls of calls.h, and the functions of crate proved_calls that make
   them: a slice is a pointer and then a length. */
#ifndef PROVED_CALLS_H
#define PROVED_CALLS_H

#include "calls.h"

uint32_t proved_read_net(const uint8_t *bytes, size_t length,
                         uint32_t *limit, uint32_t *cb, uint8_t *repeater,
                         uint16_t *parent, size_t parents, uint32_t *wire, size_t wires,
                         uint8_t *kind, size_t kinds, uint32_t *pin, size_t pins,
                         uint8_t *polarity, size_t polarities, uint64_t *place);
uint32_t proved_write_net(uint32_t limit, uint32_t cb, uint8_t repeater,
                          const uint16_t *parent, size_t parents,
                          const uint32_t *wire, size_t wires, const uint8_t *kind, size_t kinds,
                          const uint32_t *pin, size_t pins,
                          const uint8_t *polarity, size_t polarities,
                          uint8_t *bytes, size_t room, uint64_t *place);
uint32_t proved_read_placement(const uint8_t *bytes, size_t length,
                               uint16_t *entry_wire, size_t entry_wires,
                               uint32_t *offset, size_t offsets, uint64_t *place);
uint32_t proved_write_placement(const uint16_t *entry_wire, size_t entry_wires,
                                const uint32_t *offset, size_t offsets,
                                uint8_t *bytes, size_t room, uint64_t *place);
uint32_t proved_judge(uint32_t limit, uint32_t cb, uint8_t repeater,
                      const uint16_t *parent, size_t parents, const uint32_t *wire, size_t wires,
                      const uint8_t *kind, size_t kinds, const uint32_t *pin, size_t pins,
                      const uint8_t *polarity, size_t polarities, uint64_t *place);

uint32_t proved_solve(uint32_t limit, uint32_t cb, uint8_t repeater,
                      const uint16_t *parent, size_t parents, const uint32_t *wire, size_t wires,
                      const uint8_t *kind, size_t kinds, const uint32_t *pin, size_t pins,
                      const uint8_t *polarity, size_t polarities,
                      uint16_t *entry_wire, size_t entry_wires,
                      uint32_t *offset, size_t offsets, uint64_t *place);
uint32_t proved_check(uint32_t limit, uint32_t cb, uint8_t repeater,
                      const uint16_t *parent, size_t parents, const uint32_t *wire, size_t wires,
                      const uint8_t *kind, size_t kinds, const uint32_t *pin, size_t pins,
                      const uint8_t *polarity, size_t polarities,
                      const uint16_t *entry_wire, size_t entry_wires,
                      const uint32_t *offset, size_t offsets, uint64_t *source, uint64_t *place);
uint32_t proved_list_drives(uint32_t limit, uint32_t cb, uint8_t repeater,
                            const uint16_t *parent, size_t parents,
                            const uint32_t *wire, size_t wires, const uint8_t *kind, size_t kinds,
                            const uint32_t *pin, size_t pins,
                            const uint8_t *polarity, size_t polarities,
                            const uint16_t *entry_wire, size_t entry_wires,
                            const uint32_t *offset, size_t offsets,
                            uint64_t *out, size_t room, uint64_t *source, uint64_t *place);

uint32_t proved_carry(const uint32_t limits[4], const uint8_t repeaters[2],
                      const uint16_t *parent, size_t parents, const uint32_t *wire, size_t wires,
                      const uint8_t *kind, size_t kinds, const uint32_t *pin, size_t pins,
                      const uint8_t *polarity, size_t polarities,
                      const uint16_t *parent2, size_t parents2,
                      const uint32_t *wire2, size_t wires2, const uint8_t *kind2, size_t kinds2,
                      const uint32_t *pin2, size_t pins2,
                      const uint8_t *polarity2, size_t polarities2,
                      const uint16_t *entry_wire, size_t entry_wires,
                      uint32_t *offset, size_t offsets, uint64_t told[2]);

uint32_t proved_finish(uint32_t limit, uint32_t cb, uint8_t repeater,
                       const uint16_t *parent, size_t parents, const uint32_t *wire, size_t wires,
                       const uint8_t *kind, size_t kinds, const uint32_t *pin, size_t pins,
                       const uint8_t *polarity, size_t polarities,
                       const uint16_t *given, size_t givens,
                       const uint32_t *given_offset, size_t given_offsets,
                       uint16_t *entry_wire, size_t entry_wires,
                       uint32_t *offset, size_t offsets, uint64_t *place);

extern const struct calls proved_calls;

/* For compare_searches, compare_carries and compare_finishes. */
int64_t least_proved(const struct ref_net *net, struct ref_placement *placement);
struct ref_answer carry_proved(const struct ref_net *first, const struct ref_net *second,
                               struct ref_placement *placement, int *refused_net);
struct ref_answer finish_proved(const struct ref_net *net, const struct ref_placement *given,
                                struct entry_columns to);

#endif
