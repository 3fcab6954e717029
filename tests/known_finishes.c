/* The finisher on half-buffered nets whose answer is known beforehand: overloaded entries, entries
   at a wire's ends and in series, points that are overfull, refusals in their order, rooms short
   and exact, 4,096 given entries, given and added ones past 4,096, a least number past
   10,000,000,000. Something under test comes in as in compare_calls.c.

     known_finishes */
#include "calls.h"
#include "random_nets.h"

#include <inttypes.h>
#include <stdio.h>
#include <stdlib.h>

static const struct calls *const tried[] = {
    &ref_calls,
#ifdef MORE_CALLS
    MORE_CALLS
#endif
};
enum { TRIED = sizeof tried / sizeof *tried, LENT = REF_ENTRIES + 8 };

struct node { uint16_t parent; uint32_t wire; uint8_t kind; uint32_t pin; };
struct entry { uint16_t wire; uint32_t offset; };

#define BRANCH(parent, wire) {parent, wire, 0, 0}
#define SINK(parent, wire, pin) {parent, wire, 1, pin}

struct known {
    const char *what;
    struct ref_limits limits;
    size_t nodes;                        /* without node 0 */
    struct node node[6];
    size_t entries;
    struct entry given[6];
    uint32_t number;
    uint64_t place;
};

#define TEN {10, 2, 0}
#define SIX_ONES 6, {SINK(0, 0, 1), SINK(0, 0, 1), SINK(0, 0, 1), SINK(0, 0, 1), SINK(0, 0, 1), \
                     SINK(0, 0, 1)}
#define ONE_ON_EACH 6, {{1, 0}, {2, 0}, {3, 0}, {4, 0}, {5, 0}, {6, 0}}
#define FIVE_THREES(parent) SINK(parent, 0, 3), SINK(parent, 0, 3), SINK(parent, 0, 3), \
                            SINK(parent, 0, 3), SINK(parent, 0, 3)
#define FORK 3, {BRANCH(0, 3), SINK(1, 0, 7), SINK(1, 0, 5)}

static const struct known table[] = {
    {"legal as given", TEN, 1, {SINK(0, 14, 4)}, 1, {{1, 6}}, 0, 0},
    {"the source over", TEN, 1, {SINK(0, 14, 4)}, 1, {{1, 5}}, 0, 1},
    {"the entry over", TEN, 1, {SINK(0, 14, 4)}, 1, {{1, 7}}, 0, 1},
    {"at the wire's end", TEN, 1, {SINK(0, 14, 4)}, 1, {{1, 14}}, 0, 1},
    {"none given", TEN, 1, {SINK(0, 14, 4)}, 0, {{0, 0}}, 0, 1},
    {"two at offset 0", TEN, 1, {SINK(0, 15, 4)}, 2, {{1, 0}, {1, 0}}, 0, 1},
    {"a gap between given ones", TEN, 1, {SINK(0, 30, 4)}, 2, {{1, 6}, {1, 23}}, 0, 2},
    {"none between given ones", TEN, 1, {SINK(0, 30, 4)}, 2, {{1, 6}, {1, 14}}, 0, 1},
    {"a pin over C_U", TEN, 1, {SINK(0, 0, 11)}, 1, {{1, 0}}, 8, 0},
    {"five sinks of pin 3", TEN, 5, {FIVE_THREES(0)}, 1, {{1, 0}}, 0, 4},
    {"the heaviest of four arms", TEN, 4,
     {SINK(0, 0, 3), SINK(0, 0, 6), SINK(0, 0, 3), SINK(0, 0, 9)}, 1, {{4, 0}}, 0, 1},
    {"six sinks of pin 1, one on each", TEN, SIX_ONES, ONE_ON_EACH, 8, 0},
    {"the same with none given", TEN, SIX_ONES, 0, {{0, 0}}, 0, 0},
    {"the same with C_b 0", {10, 0, 0}, SIX_ONES, ONE_ON_EACH, 0, 0},
    {"a fork, its stem given", TEN, FORK, 1, {{1, 0}}, 0, 1},
    {"a fork, an arm given", TEN, FORK, 1, {{2, 0}}, 0, 0},
    {"a stem over five pins 3", TEN, 6, {BRANCH(0, 7), FIVE_THREES(1)}, 2, {{2, 0}, {2, 0}}, 0, 5},
    {"10,000,000 units", {1, 0, 0}, 1, {SINK(0, 10000000, 0)}, 1, {{1, 5000000}}, 9, 9999998},
    {"out of order", TEN, 1, {SINK(0, 6, 4)}, 2, {{1, 3}, {1, 2}}, 10, 1},
    /* At the wire's end, where the point above is overfull. */
    {"one of two arms cut off", TEN, 2, {SINK(0, 3, 6), SINK(0, 3, 6)}, 1, {{1, 3}}, 0, 1},
    {"its own entry over too", TEN, 2, {SINK(0, 3, 8), SINK(0, 3, 6)}, 1, {{1, 3}}, 0, 2},
    {"cut off twice", TEN, 2, {SINK(0, 3, 6), SINK(0, 3, 6)}, 2, {{1, 3}, {1, 3}}, 0, 1},
    {"six arms, five cut off", TEN, 6,
     {SINK(0, 3, 1), SINK(0, 3, 1), SINK(0, 3, 1), SINK(0, 3, 1), SINK(0, 3, 1), SINK(0, 3, 1)},
     5, {{1, 3}, {2, 3}, {3, 3}, {4, 3}, {5, 3}}, 8, 0},
    {"a branch point, both arms cut off", TEN, 3, {BRANCH(0, 7), SINK(1, 2, 8), SINK(1, 0, 9)},
     2, {{2, 2}, {3, 0}}, 0, 1},
    /* A pin counts above a given entry as below it; 0 units between two are enough. */
    {"8 units above a given one", TEN, 1, {SINK(0, 12, 4)}, 1, {{1, 4}}, 0, 0},
    {"9 units above a given one", TEN, 1, {SINK(0, 13, 4)}, 1, {{1, 4}}, 0, 1},
    {"given where it is needed, in series", TEN, 1, {SINK(0, 14, 4)}, 3, {{1, 6}, {1, 6}, {1, 6}},
     0, 0},
    /* One refusal before another. */
    {"type 1 and out of order", {10, 2, 1}, 1, {SINK(0, 6, 4)}, 2, {{1, 3}, {1, 2}}, 3, 0},
    {"type 1, no net", {10, 2, 1}, 1, {BRANCH(0, 6)}, 2, {{1, 3}, {1, 2}}, 5, 1},
    {"type 1, a wire too long", {10, 2, 1}, 1, {SINK(0, 10000001, 4)}, 0, {{0, 0}}, 3, 1},
    {"past its wire and a pin over C_U", TEN, 1, {SINK(0, 6, 11)}, 1, {{1, 7}}, 10, 0},
    {"on no wire", TEN, 1, {SINK(0, 6, 4)}, 2, {{1, 6}, {2, 0}}, 10, 1},
    {"on wire 0", TEN, 1, {SINK(0, 6, 4)}, 1, {{0, 0}}, 10, 0},
};

/* ------------------------------------------------------------ one call */

/* A net, what is given, and how long the lent columns are. */
struct half {
    struct ref_net net;
    struct ref_placement given;
    size_t wires, offsets;
};

static void fail(const char *name, const char *what, const char *why, struct ref_answer have)
{
    printf("%s, %s: %s; %" PRIu32 ", %" PRIu64 "\n", name, what, why, have.number, have.place);
    exit(1);
}

/* Calls, with `given` for the given entries' columns. Afterwards *added holds what was added, and
   every other place lent must be as it came. */
static struct ref_answer ask(const struct calls *calls, const char *what, struct half *half,
                             struct entry_columns given, struct ref_placement *added)
{
    static uint16_t wire[LENT];
    static uint32_t offset[LENT];
    struct ref_net *net = &half->net;
    size_t n = net->nodes;
    struct net_columns columns = {net->parent, net->wire, net->kind, net->pin, net->polarity,
                                  n, n, n, n, n};
    struct entry_columns to = {wire, offset, half->wires, half->offsets};
    memset(wire, 0xA5, sizeof wire);
    memset(offset, 0xA5, sizeof offset);
    struct ref_answer have = calls->finish(net->limits, columns, given, to);
    added->entries = have.number == 0 && have.place <= REF_ENTRIES ? have.place : 0;
    for (size_t i = added->entries; i < LENT; i++)
        if (wire[i] != 0xA5A5 || offset[i] != 0xA5A5A5A5)
            fail(calls->name, what, "a place is changed that is not an added entry's", have);
    memcpy(added->wire, wire, added->entries * sizeof *wire);
    memcpy(added->offset, offset, added->entries * sizeof *offset);
    return have;
}

static void holds(const struct calls *calls, const char *what, struct half *half,
                  struct ref_answer want)
{
    static struct ref_placement added;
    struct ref_placement *p = &half->given;
    struct entry_columns given = {p->wire, p->offset, p->entries, p->entries};
    struct ref_answer have = ask(calls, what, half, given, &added);
    if (have.number != want.number || have.place != want.place)
        fail(calls->name, what, "another answer than is due", have);
    if (have.number == 0 && !ref_completes(&half->net, &half->given, &added))
        fail(calls->name, what, "the whole is not legal", have);
}

/* With much room; then a refusal with none, a success with room exact and with either column one
   short. `want` is the answer with much room. */
static void try_rooms(const struct calls *calls, const char *what, struct half *half,
                      struct ref_answer want)
{
    size_t exact = want.number == 0 ? want.place : 0;
    half->wires = half->offsets = LENT;
    holds(calls, what, half, want);
    half->wires = half->offsets = exact;
    holds(calls, what, half, want);
    if (exact == 0)
        return;
    half->wires = exact - 1;
    holds(calls, what, half, (struct ref_answer){9, exact});
    half->wires = LENT;
    half->offsets = exact - 1;
    holds(calls, what, half, (struct ref_answer){9, exact});
}

static void half_of(const struct known *row, struct half *half)
{
    memset(half, 0, sizeof *half);
    half->net.limits = row->limits;
    half->net.nodes = row->nodes + 1;
    for (size_t i = 0; i < row->nodes; i++) {
        half->net.parent[i + 1] = row->node[i].parent;
        half->net.wire[i + 1] = row->node[i].wire;
        half->net.kind[i + 1] = row->node[i].kind;
        half->net.pin[i + 1] = row->node[i].pin;
    }
    half->given.entries = row->entries;
    for (size_t i = 0; i < row->entries; i++) {
        half->given.wire[i] = row->given[i].wire;
        half->given.offset[i] = row->given[i].offset;
    }
}

static void try_table(const struct calls *calls)
{
    static struct half half;
    for (size_t i = 0; i < sizeof table / sizeof *table; i++) {
        half_of(&table[i], &half);
        try_rooms(calls, table[i].what, &half,
                  (struct ref_answer){table[i].number, table[i].place});
    }
}

/* ------------------------------------------------------------ unequal columns */

struct lengths {
    const char *what;
    uint8_t type;
    size_t given_wires, given_offsets;
    uint32_t number;
};

static const struct lengths unequal[] = {
    {"type 1, wires longer", 1, 2, 1, 3}, {"type 1, offsets longer", 1, 1, 2, 3},
    {"wires longer", 0, 2, 1, 7}, {"offsets longer", 0, 1, 2, 7},
    {"wires empty", 0, 0, 1, 7}, {"offsets empty", 0, 1, 0, 7},
    {"4,097 given", 0, REF_ENTRIES + 1, REF_ENTRIES + 1, 7},
};

/* The entries are out of order besides: that comes later. */
static void try_unequal(const struct calls *calls)
{
    static const struct known bare = {"", TEN, 1, {SINK(0, 14, 4)}, 0, {{0, 0}}, 0, 0};
    static uint16_t wire[LENT] = {1, 1};
    static uint32_t offset[LENT] = {6, 5};
    static struct half half;
    static struct ref_placement added;
    half_of(&bare, &half);
    for (size_t i = 0; i < 2 * sizeof unequal / sizeof *unequal; i++) {
        const struct lengths *lengths = &unequal[i / 2];
        struct entry_columns given = {wire, offset, lengths->given_wires, lengths->given_offsets};
        half.net.limits.type = lengths->type;
        half.wires = half.offsets = i % 2 == 0 ? LENT : 0;
        struct ref_answer answer = ask(calls, lengths->what, &half, given, &added);
        if (answer.number != lengths->number || answer.place != 0)
            fail(calls->name, lengths->what, "another answer than is due", answer);
    }
}

/* ------------------------------------------------------------ many entries */

/* The same entry so many times. */
static void repeat(struct ref_placement *p, uint16_t wire, uint32_t offset, size_t times)
{
    for (; times > 0; times--) {
        p->wire[p->entries] = wire;
        p->offset[p->entries++] = offset;
    }
}

static void try_series(const struct calls *calls)
{
    static const struct known one = {"", TEN, 1, {SINK(0, 14, 4)}, 0, {{0, 0}}, 0, 0};
    static struct half half;
    half_of(&one, &half);
    repeat(&half.given, 1, 5, REF_ENTRIES);
    try_rooms(calls, "4,096 times the same, the source over", &half, (struct ref_answer){0, 1});
    half_of(&one, &half);
    repeat(&half.given, 1, 6, REF_ENTRIES);
    try_rooms(calls, "4,096 times the same, legal", &half, (struct ref_answer){0, 0});
    half_of(&one, &half);
    repeat(&half.given, 1, 7, REF_ENTRIES);
    try_rooms(calls, "4,096 times the same, the lowest over", &half, (struct ref_answer){0, 1});
}

/* A chain of 1,024 wires with C_U 1 and C_b 0: an entry at each unit but the topmost. On each wire
   the entry at `offset` is given so many times. */
struct chain {
    const char *what;
    uint32_t wire, pin, offset;
    size_t times;
    struct ref_answer want;
};

static const struct chain chains[] = {
    {"1,024 wires of 4, one given on each", 4, 1, 0, 1, {0, 3072}},
    {"1,024 wires of 4, four given on each: 7,168 in all", 4, 1, 0, 4, {0, 3072}},
    {"1,024 wires of 4, four given at the ends", 4, 1, 4, 4, {0, 3073}},
    {"1,024 wires of 5, four given on each: 8,192 in all", 5, 1, 2, 4, {0, 4096}},
    {"1,024 wires of 5, four given at the ends", 5, 1, 5, 4, {9, 4097}},
    {"1,024 wires of 5, pin over C_U", 5, 2, 2, 4, {8, 0}},
};

/* The reference counts entry by entry: these are for the others. */
static const struct chain largest[] = {
    {"1,024 wires of 10,000,000", 10000000, 0, 5000000, 1, {9, 10239998975}},
    {"the same, given at the ends", 10000000, 0, 10000000, 1, {9, 10239998976}},
    {"the same, four on each", 10000000, 0, 10000000, 4, {9, 10239998976}},
    {"the same with pin 1", 10000000, 1, 0, 4, {9, 10239998976}},
    {"the same with pin C_U + 1", 10000000, 2, 0, 4, {8, 0}},
};

static void try_chain(const struct calls *calls, const struct chain *chain)
{
    static struct half half;
    memset(&half, 0, sizeof half);
    half.net.limits = (struct ref_limits){1, 0, 0};
    half.net.nodes = REF_NODES;
    for (size_t node = 1; node < REF_NODES; node++) {
        half.net.parent[node] = (uint16_t)(node - 1);
        half.net.wire[node] = chain->wire;
        repeat(&half.given, (uint16_t)node, chain->offset, chain->times);
    }
    half.net.kind[REF_NODES - 1] = 1;
    half.net.pin[REF_NODES - 1] = chain->pin;
    try_rooms(calls, chain->what, &half, chain->want);
}

/* Chains, stars of stars, combs and trees of 1,024 wires with 4,096 given entries or fewer, against
   the reference. */
static void try_shapes(const struct calls *calls)
{
    static const uint32_t given[] = {0, 60, 1024, REF_ENTRIES};
    static struct half half;
    struct chance chance = {1861};
    struct size size = {.wires = 1024, .limit = 300, .wire = 100, .pin = 20};
    for (int i = 0; i < 8 * SHAPES; i++) {
        uint32_t limit = 40 + chance_upto(&chance, size.limit);
        struct ref_limits limits = {limit, chance_upto(&chance, limit / 9), 0};
        random_shape(&chance, &half.net, (enum shape)(i % SHAPES), 1024, limits, size);
        random_entries(&chance, &half.net, &half.given, given[i / SHAPES % 4]);
        int64_t least = ref_least_added(&half.net, &half.given, NULL);
        try_rooms(calls, "1,024 wires", &half,
                  least == REF_NONE     ? (struct ref_answer){8, 0}
                  : least > REF_ENTRIES ? (struct ref_answer){9, (uint64_t)least}
                                        : (struct ref_answer){0, (uint64_t)least});
    }
}

int main(void)
{
    for (int i = 0; i < TRIED; i++) {
        if (tried[i]->finish == NULL)
            continue;
        try_table(tried[i]);
        try_unequal(tried[i]);
        try_series(tried[i]);
        for (size_t row = 0; row < sizeof chains / sizeof *chains; row++)
            try_chain(tried[i], &chains[row]);
        for (size_t row = 0; i > 0 && row < sizeof largest / sizeof *largest; row++)
            try_chain(tried[i], &largest[row]);
        try_shapes(tried[i]);
        printf("half-buffered nets that are known: %s finishes them\n", tried[i]->name);
    }
    return 0;
}
