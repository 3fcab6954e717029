/* C written for speed alone, to measure the proved crates against: the same calls, numbers and
   places; of several least placements it gives any. It shares nothing with the crates nor with
   tests/reference.c, to which bench/compare_fast.c and tests/compare_calls.c hold it. */
#ifndef FAST_H
#define FAST_H

#include <stdbool.h>
#include <stddef.h>
#include <stdint.h>

enum { PLACES = 1025, CHILDREN = 8, ENTRIES = 4096 };

/* number 0: success, place is what the call answers. Else the refusal and its place. */
struct answer { uint32_t number; uint64_t place; };

struct limits { uint32_t limit, pin; uint8_t type; };

/* Five columns of the same length. Lent to be filled, `places` is the room. */
struct columns {
    size_t places;
    uint16_t *parent;
    uint32_t *wire;
    uint8_t *kind;
    uint32_t *pin;
    uint8_t *polarity;
};

static inline bool limits_good(const struct limits *limits)
{
    return limits->limit - 1 < 1000000 && limits->type <= 1
        && 2 * (uint64_t)limits->pin < limits->limit;
}

/* children[v] gets the number of node v's children where the net is sound; PLACES are lent. */
struct answer fast_judge(const struct limits *limits, const struct columns *net,
                         uint16_t *children);
struct answer fast_read_net(const uint8_t *bytes, size_t length, struct limits *limits,
                            const struct columns *room);
struct answer fast_solve(const struct limits *limits, const struct columns *net,
                         uint16_t *wire, uint32_t *offset, size_t room);
struct answer fast_check(const struct limits *limits, const struct columns *net,
                         const uint16_t *wire, const uint32_t *offset, size_t entries,
                         uint64_t *source);
/* Type 0 alone. `given` is kept; what is added goes into `wire` and `offset`. */
struct answer fast_finish(const struct limits *limits, const struct columns *net,
                          const uint16_t *given, const uint32_t *given_offset, size_t givens,
                          uint16_t *wire, uint32_t *offset, size_t room);

/* The parts of fast_solve, of a net that is judged: by the pass of fast_finish with nothing
   given, and by frontiers. */
struct answer fast_solve_buffers(const struct limits *limits, const struct columns *net,
                                 uint16_t *wire, uint32_t *offset, size_t room);
struct answer fast_solve_inverters(const struct limits *limits, const struct columns *net,
                                   const uint16_t *children,
                                   uint16_t *wire, uint32_t *offset, size_t room);

#endif
