/* The library's calls as the tests see them: one function pointer a call, slices as a pointer
   and a length. Whatever is put under test comes with an adapter that fills a `struct calls`. */
#ifndef CALLS_H
#define CALLS_H

#include "reference.h"

/* A net in memory, or five columns lent to be filled. The lengths may differ. */
struct net_columns {
    uint16_t *parent;
    uint32_t *wire;
    uint8_t *kind;
    uint32_t *pin;
    uint8_t *polarity;
    size_t parents, wires, kinds, pins, polarities;
};

/* A placement in memory, or two columns lent to be filled. */
struct entry_columns {
    uint16_t *wire;
    uint32_t *offset;
    size_t wires, offsets;
};

/* Each answers number and place; on success number is 0 and place what the call answers: places
   filled, bytes written, or the count (the judge's is 0). A call that is not there is NULL. */
struct calls {
    const char *name;
    struct ref_answer (*read_net)(const uint8_t *bytes, size_t length,
                                  struct ref_limits *limits, struct net_columns to);
    struct ref_answer (*read_placement)(const uint8_t *bytes, size_t length,
                                        struct entry_columns to);
    struct ref_answer (*write_net)(struct ref_limits limits, struct net_columns net,
                                   uint8_t *bytes, size_t room);
    struct ref_answer (*write_placement)(struct entry_columns placement,
                                         uint8_t *bytes, size_t room);
    struct ref_answer (*judge)(struct ref_limits limits, struct net_columns net);
    struct ref_answer (*solve)(struct ref_limits limits, struct net_columns net,
                               struct entry_columns to);
    struct ref_answer (*check)(struct ref_limits limits, struct net_columns net,
                               struct entry_columns placement, uint64_t *source);
    /* As check without 11 and 12, then 9 for the lent column; on success the loads stand in it. */
    struct ref_answer (*drives)(struct ref_limits limits, struct net_columns net,
                                struct entry_columns placement,
                                uint64_t *drives, size_t room, uint64_t *source);
    /* *refused_net is 1 or 2 where a net was refused, else 0. */
    struct ref_answer (*carry)(struct ref_limits first_limits, struct net_columns first,
                               struct ref_limits second_limits, struct net_columns second,
                               struct entry_columns placement, int *refused_net);
    /* On success the added entries stand in the first places of `to`. */
    struct ref_answer (*finish)(struct ref_limits limits, struct net_columns net,
                                struct entry_columns given, struct entry_columns to);
};

extern const struct calls ref_calls;

#endif
