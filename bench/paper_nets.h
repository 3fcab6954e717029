/* Nets of the kind the paper measures (its Section VI), and chains and stars. */
#ifndef PAPER_NETS_H
#define PAPER_NETS_H

#include "../tests/chance.h"
#include "fast.h"

struct net {
    struct limits limits;
    struct columns columns;              /* point into the arrays below */
    uint16_t parent[PLACES];
    uint32_t wire[PLACES];
    uint8_t kind[PLACES];
    uint32_t pin[PLACES];
    uint8_t polarity[PLACES];
};

enum form { POINTS, CHAIN_NET, STAR_NET };

/* C_b is 37.5 fF and a wire has 0.177 fF a micrometre; sinks have 2.04 to 200 fF, most of them
   few. `nodes` does not count node 0 and is at least 1. With `mixed` the sinks of a type 1 net
   have polarities by chance, else all are plus. */
void make_net(struct chance *chance, struct net *net, enum form form, uint32_t nodes,
              uint32_t limit, uint8_t type, bool mixed);

/* The net file. Answers its length, at most 14,351. */
size_t file_of(const struct net *net, uint8_t *bytes);

#endif
