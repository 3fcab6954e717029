/* Who is measured: the fast C, and beside it whoever comes by -DMORE_CONTENDERS='"file.h"', a file
   that declares functions of these types and defines CONTENDERS, a line for each. A call that is
   not there is NULL. */
#ifndef CONTENDERS_H
#define CONTENDERS_H

#include "fast.h"

typedef struct answer reader(const uint8_t *bytes, size_t length, struct limits *limits,
                             const struct columns *room);
typedef struct answer solver(const struct limits *limits, const struct columns *net,
                             uint16_t *wire, uint32_t *offset, size_t room);
typedef struct answer checker(const struct limits *limits, const struct columns *net,
                              const uint16_t *wire, const uint32_t *offset, size_t entries,
                              uint64_t *source);
typedef struct answer finisher(const struct limits *limits, const struct columns *net,
                               const uint16_t *given, const uint32_t *given_offset, size_t givens,
                               uint16_t *wire, uint32_t *offset, size_t room);

struct contender {
    const char *name;
    reader *read;
    solver *solve;
    checker *check;
    finisher *finish;
};

#ifdef MORE_CONTENDERS
#include MORE_CONTENDERS
#else
#define CONTENDERS
#endif

static const struct contender contenders[] = {
    {"fast C", fast_read_net, fast_solve, fast_check, fast_finish},
    CONTENDERS
};
enum { CONTENDING = sizeof contenders / sizeof *contenders };

#endif
