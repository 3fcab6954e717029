/* The solver on nets whose least count is known beforehand: RULES 9.1 to 9.13, the net that one
   label a polarity gets wrong, rooms short and exact, eight children of every mix, and the largest
   nets, up to a least count past 10,000,000,000. Something under test comes in as in compare_calls.c.

     known_nets */
#include "calls.h"
#include "random_nets.h"

#include <inttypes.h>
#include <stdio.h>
#include <stdlib.h>

static const struct calls *const tried[] = {
    &ref_calls,
#ifdef MORE_CALLS
    MORE_CALLS
#endif
};
enum { TRIED = sizeof tried / sizeof *tried };

struct node { uint16_t parent; uint32_t wire; uint8_t kind; uint32_t pin; uint8_t polarity; };

#define BRANCH(parent, wire) {parent, wire, 0, 0, 0}
#define PLUS(parent, wire, pin) {parent, wire, 1, pin, 0}
#define MINUS(parent, wire, pin) {parent, wire, 1, pin, 1}

struct known {
    const char *what;
    struct ref_limits limits;
    size_t nodes;                        /* without node 0 */
    struct node node[7];
    uint32_t number;
    uint64_t place;
};

#define TEN {10, 2, 0}
#define TEN_INVERTERS {10, 2, 1}

static const struct known table[] = {
    {"wire 6, pin 4", TEN, 1, {PLUS(0, 6, 4)}, 0, 0},
    {"wire 7, pin 4", TEN, 1, {PLUS(0, 7, 4)}, 0, 1},
    {"wire 14, pin 4", TEN, 1, {PLUS(0, 14, 4)}, 0, 1},
    {"wire 15, pin 4", TEN, 1, {PLUS(0, 15, 4)}, 0, 2},
    {"the same, C_U 11", {11, 2, 0}, 1, {PLUS(0, 15, 4)}, 0, 1},
    {"wire 0, pin 10", TEN, 1, {PLUS(0, 0, 10)}, 0, 0},
    {"wire 0, pin 11", TEN, 1, {PLUS(0, 0, 11)}, 8, 0},
    {"five sinks of pin 3", TEN, 5,
     {PLUS(0, 0, 3), PLUS(0, 0, 3), PLUS(0, 0, 3), PLUS(0, 0, 3), PLUS(0, 0, 3)}, 0, 5},
    {"six such sinks", TEN, 6,
     {PLUS(0, 0, 3), PLUS(0, 0, 3), PLUS(0, 0, 3), PLUS(0, 0, 3), PLUS(0, 0, 3), PLUS(0, 0, 3)},
     8, 0},
    {"sinks of pin 7 and 5", TEN, 2, {PLUS(0, 0, 7), PLUS(0, 0, 5)}, 0, 1},
    {"one plus and one minus sink", TEN_INVERTERS, 2, {PLUS(0, 0, 1), MINUS(0, 0, 1)}, 0, 1},
    {"minus pin 10 and plus pin 9", TEN_INVERTERS, 2, {MINUS(0, 0, 10), PLUS(0, 0, 9)}, 0, 3},
    {"the twelfth row", TEN_INVERTERS, 4,
     {BRANCH(0, 0), PLUS(0, 0, 6), MINUS(1, 0, 1), PLUS(1, 0, 7)}, 0, 2},
    {"one minus sink", TEN_INVERTERS, 1, {MINUS(0, 1, 1)}, 0, 0},
};

static void fail(const char *name, const char *what, struct ref_answer have)
{
    printf("%s, %s: %" PRIu32 ", %" PRIu64 "\n", name, what, have.number, have.place);
    exit(1);
}

static struct net_columns columns_of(struct ref_net *net)
{
    size_t n = net->nodes;
    return (struct net_columns){net->parent, net->wire, net->kind, net->pin, net->polarity,
                                n, n, n, n, n};
}

/* The answer must be this; a placement must be legal and as long as it says. */
static void holds(const struct calls *calls, const char *what, struct ref_net *net,
                  size_t wires, size_t offsets, struct ref_answer want)
{
    static struct ref_placement p;
    struct entry_columns to = {p.wire, p.offset, wires, offsets};
    struct ref_answer have = calls->solve(net->limits, columns_of(net), to);
    if (have.number != want.number || have.place != want.place)
        fail(calls->name, what, have);
    p.entries = have.place;
    if (have.number == 0 && !is_legal(net, &p))
        fail(calls->name, what, (struct ref_answer){11, 0});
}

static void net_of(const struct known *row, struct ref_net *net)
{
    memset(net, 0, sizeof *net);
    net->limits = row->limits;
    net->nodes = row->nodes + 1;
    for (size_t i = 0; i < row->nodes; i++) {
        net->parent[i + 1] = row->node[i].parent;
        net->wire[i + 1] = row->node[i].wire;
        net->kind[i + 1] = row->node[i].kind;
        net->pin[i + 1] = row->node[i].pin;
        net->polarity[i + 1] = row->node[i].polarity;
    }
}

/* Each row with much room, with room exact, and with either column one short. */
static void try_row(const struct calls *calls, const struct known *row)
{
    static struct ref_net net;
    net_of(row, &net);
    struct ref_answer want = {row->number, row->place}, short_of = {9, row->place};
    holds(calls, row->what, &net, REF_ENTRIES, REF_ENTRIES, want);
    if (row->number != 0)
        return;
    holds(calls, row->what, &net, row->place, row->place, want);
    if (row->place == 0)
        return;
    holds(calls, row->what, &net, row->place - 1, REF_ENTRIES, short_of);
    holds(calls, row->what, &net, REF_ENTRIES, row->place - 1, short_of);
}

static const struct known design = {
    "the net that one label a polarity gets wrong", TEN_INVERTERS, 6,
    {BRANCH(0, 0), PLUS(0, 0, 4), BRANCH(1, 0), PLUS(1, 0, 1), MINUS(3, 0, 1), PLUS(3, 0, 7)}, 0, 2,
};

/* A source with eight sinks, each plus or minus and light or heavy, as the bits of `mix` say. */
static void eight_children(struct ref_net *net, uint32_t mix)
{
    memset(net, 0, sizeof *net);
    net->limits = (struct ref_limits){17, 2, 1};
    net->nodes = 9;
    for (uint32_t i = 0; i < 8; i++) {
        net->kind[i + 1] = 1;
        net->polarity[i + 1] = mix >> i & 1;
        net->pin[i + 1] = mix >> (8 + i) & 1 ? 5 : 1;
        net->wire[i + 1] = i % 3;
    }
}

static void try_mixes(const struct calls *calls)
{
    static struct ref_net net;
    for (uint32_t mix = 0; mix < 1u << 16; mix++) {
        eight_children(&net, mix);
        int64_t least = ref_least_frontier(&net, NULL);
        holds(calls, "eight children", &net, REF_ENTRIES, REF_ENTRIES,
              least == REF_NONE ? (struct ref_answer){8, 0}
                                : (struct ref_answer){0, (uint64_t)least});
    }
}

/* A chain of 1,024 wires: C_U 1 and C_b 0 want an entry at each unit but the last. */
static void long_chain(struct ref_net *net, uint8_t type, uint32_t wire, uint32_t pin)
{
    memset(net, 0, sizeof *net);
    net->limits = (struct ref_limits){1, 0, type};
    net->nodes = REF_NODES;
    for (size_t node = 1; node < REF_NODES; node++) {
        net->parent[node] = (uint16_t)(node - 1);
        net->wire[node] = wire;
    }
    net->kind[REF_NODES - 1] = 1;
    net->pin[REF_NODES - 1] = pin;
}

struct largest { const char *what; uint32_t wire, pin, more; size_t room; struct ref_answer want; };

static const struct largest chains[] = {
    {"1,024 wires of 10,000,000", 10000000, 0, 0, REF_ENTRIES, {9, 10239999999}},
    {"the same with pin 1", 10000000, 1, 0, REF_ENTRIES, {9, 10240000000}},
    {"the same with pin C_U + 1", 10000000, 2, 0, REF_ENTRIES, {8, 0}},
    {"1,024 wires of 4", 4, 1, 0, REF_ENTRIES, {0, 4096}},
    {"1,024 wires of 4, room one short", 4, 1, 0, REF_ENTRIES - 1, {9, 4096}},
    {"1,024 wires of 4, one unit more", 4, 1, 1, REF_ENTRIES, {9, 4097}},
};

static void try_largest(const struct calls *calls)
{
    static struct ref_net net;
    for (size_t i = 0; i < 2 * sizeof chains / sizeof *chains; i++) {
        const struct largest *chain = &chains[i / 2];
        long_chain(&net, i % 2, chain->wire, chain->pin);
        net.wire[7] += chain->more;
        holds(calls, chain->what, &net, chain->room, REF_ENTRIES, chain->want);
    }
}

/* Chains, stars of stars, combs and trees of 1,024 wires against the reference. */
static void try_shapes(const struct calls *calls)
{
    static struct ref_net net;
    struct chance chance = {4711};
    struct size size = {.wires = 1024, .limit = 900, .wire = 100, .pin = 30};
    for (int i = 0; i < 8 * SHAPES; i++) {
        uint32_t limit = 100 + chance_upto(&chance, size.limit);
        struct ref_limits limits = {limit, chance_upto(&chance, limit / 3), (uint8_t)(i / SHAPES % 2)};
        random_shape(&chance, &net, (enum shape)(i % SHAPES), 1024, limits, size);
        int64_t least = ref_least_frontier(&net, NULL);
        holds(calls, "1,024 wires", &net, REF_ENTRIES, REF_ENTRIES,
              least == REF_NONE        ? (struct ref_answer){8, 0}
              : least > REF_ENTRIES    ? (struct ref_answer){9, (uint64_t)least}
                                       : (struct ref_answer){0, (uint64_t)least});
    }
}

int main(void)
{
    for (int i = 0; i < TRIED; i++) {
        if (tried[i]->solve == NULL)
            continue;
        for (size_t row = 0; row < sizeof table / sizeof *table; row++)
            try_row(tried[i], &table[row]);
        try_row(tried[i], &design);
        try_mixes(tried[i]);
        if (i > 0)                       /* the reference counts entry by entry */
            try_largest(tried[i]);
        try_shapes(tried[i]);
        printf("known nets: %s solves them\n", tried[i]->name);
    }
    return 0;
}
