/* Inverters: frontiers from the last wire to the first, then down again in rising order.

   At a wire's top, for each polarity: the least count m, and the least load handed up with m, with
   m + 1 and with m + 2 entries, which is the lower one of C_b and the first. Three facts keep this
   small.
   - One inverter at a wire's upper end turns the polarity and hands up C_b, and whatever holds an
     inverter hands up C_b or more. So the two polarities' least counts differ by at most one, and
     the one that is `late` hands up just C_b. Where they are equal, both hold an inverter, and one
     more hands up C_b. Counts go into one running sum.
   - One at a wire's lower end does the same there: of a node's two polarities the dearer one is
     never needed.
   - Where the least loads of a node's wires fit together, its load with no and with one inverter
     more comes from their sum and the greatest gain of one wire. A row of loads, one place for
     each inverter more, is made only where they do not, and made again on the way down. */
#include "fast.h"

#include <string.h>

/* At polarity 0 and 1: the least load, and the least with one inverter more. `late` is 1 where
   polarity 0 costs one more than the other, LATE where polarity 1 does: a node adds them up. */
struct top { uint32_t load[2], more[2], late; };
enum { LATE = 1 << 16, ROW = 2 * CHILDREN + 1 };

/* load[p][x]: what lies below a node with its least count and x more. Of that count over[p] are
   what its wires have beyond their least. */
struct node { uint32_t load[2][2], over[2]; };

/* The polarities of a node with which to go on, what they cost beyond its wires, and their load. */
enum { PLUS = 1, MINUS = 2, BOTH = PLUS | MINUS };
struct state { uint32_t alive, count[2], load[2]; };

/* How a wire is served: 2 * polarity + inverters more, of the node below. Four of these, two bits
   each, for polarity 0, the same with one more, polarity 1, the same with one more. */
enum { FROM_PLUS = 0x04, FROM_MINUS = 0xEA, FROM_BOTH = 0x28, SINK_MINUS = 0xAA };

struct pass {
    const struct limits *limits;
    const struct columns *net;
    const uint16_t *children;
    uint64_t least;
    struct top top[PLACES];              /* the wires of one node side by side */
    struct node node[PLACES];
    uint16_t begin[PLACES];              /* a node's first wire in `top` */
    uint16_t slot[PLACES];               /* a wire's place there */
    uint8_t ways[PLACES];
    uint8_t share[PLACES];               /* what is dealt to a wire, by its place in `top` */
    uint8_t sense[PLACES];               /* a node's polarity */
};

static inline uint32_t lower(uint32_t a, uint32_t b)
{
    return a < b ? a : b;
}

/* The fewest inverters on a wire, whatever their parity; *load, its size and what lies below,
   becomes what it hands up: with any inverter more than C_b. */
static inline uint32_t fewest(uint32_t *load, const struct limits *limits)
{
    uint32_t span = limits->limit - limits->pin, count = 0;
    if (*load > limits->limit) {
        count = (*load - limits->limit + span - 1) / span;
        *load -= count * span;
    }
    return count;
}

/* ------------------------------------------------------------ rows */

/* A row that ends at place `last`, 2 or more, and one wire with it. Past its end the row falls no
   more, and one inverter more on the wire never hands up more: so nothing is read there. */
static void join(uint32_t *restrict to, const uint32_t *restrict row, uint32_t last,
                 const struct top *top, int p, uint32_t pin)
{
    uint32_t none = top->load[p], one = top->more[p], two = lower(none, pin);
    to[0] = none + row[0];
    to[1] = lower(none + row[1], one + row[0]);
    for (uint32_t e = 2; e <= last; e++)
        to[e] = lower(none + row[e], lower(one + row[e - 1], two + row[e - 2]));
    to[last + 1] = lower(one + row[last], two + row[last - 1]);
    to[last + 2] = two + row[last];
}

/* rows[k]: the least load of the first k wires with e inverters beyond their least. */
static void make_rows(uint32_t rows[][ROW], const struct top *top, uint32_t wires, int p,
                      uint32_t pin)
{
    rows[0][0] = 0;
    rows[1][0] = top[0].load[p];
    rows[1][1] = top[0].more[p];
    rows[1][2] = lower(top[0].load[p], pin);
    for (uint32_t k = 1; k < wires; k++)
        join(rows[k + 1], rows[k], 2 * k, &top[k], p, pin);
}

/* A node whose least loads are over C_U: the first place of the row that is not. */
static bool fit(struct node *node, const struct top *top, uint32_t wires, int p,
                const struct limits *limits)
{
    uint32_t rows[CHILDREN + 1][ROW], last = 2 * wires, e = 0;
    make_rows(rows, top, wires, p, limits->pin);
    if (rows[wires][last] > limits->limit)
        return false;
    while (rows[wires][e] > limits->limit)
        e++;
    node->load[p][0] = rows[wires][e];
    node->load[p][1] = rows[wires][lower(e + 1, last)];
    node->over[p] = e;
    return true;
}

/* The cheaper polarity first; the other only if it may cost as little. */
static __attribute__((noinline)) struct state fit_both(struct state state, struct node *node,
                                                       const struct top *top, uint32_t wires,
                                                       const struct limits *limits)
{
    int p = state.count[1] < state.count[0];
    state.alive = 0;
    for (int turn = 0; turn < 2; turn++, p = 1 - p) {
        if (state.alive != 0 && state.count[p] > state.count[1 - p])
            break;
        if (state.load[p] > limits->limit && !fit(node, top, wires, p, limits))
            continue;
        state.alive |= 1u << p;
        state.count[p] += node->over[p];
        state.load[p] = node->load[p][0];
    }
    return state;
}

/* Deals e inverters beyond their least out to a node's wires: as many as lower the load. */
static void deal(uint8_t *share, const struct top *top, uint32_t wires, int p, uint32_t e,
                 uint32_t pin)
{
    uint32_t rows[CHILDREN + 1][ROW];
    make_rows(rows, top, wires - 1, p, pin);
    for (uint32_t k = wires; k-- > 0;) {
        const uint32_t *rest = rows[k], last = 2 * k;
        e = lower(e, last + 2);
        uint32_t best = top[k].load[p] + rest[lower(e, last)];
        if (e >= 1 && top[k].more[p] + rest[lower(e - 1, last)] < best) {
            best = top[k].more[p] + rest[lower(e - 1, last)];
            share[k] = 1;
        }
        if (e >= 2 && lower(top[k].load[p], pin) + rest[e - 2] < best)
            share[k] = 2;
        e -= share[k];
    }
}

/* ------------------------------------------------------------ up */

/* A sink takes its fewest inverters, or one more for the other polarity. */
static inline bool lift_sink(struct pass *pass, size_t i)
{
    const struct limits *limits = pass->limits;
    uint32_t pin = pass->net->pin[i], p = pass->net->polarity[i], load = pass->net->wire[i] + pin;
    uint32_t slot = --pass->begin[pass->net->parent[i]], count = fewest(&load, limits);
    struct top *top = &pass->top[slot];
    pass->node[i].load[p][0] = pin;
    pass->slot[i] = (uint16_t)slot;
    pass->ways[i] = (uint8_t)(p * SINK_MINUS);
    pass->least += count;
    p = (p ^ count) & 1;
    top->load[p] = top->more[p] = load;
    top->load[1 - p] = top->more[1 - p] = limits->pin;
    top->late = p == 0 ? LATE : 1;
    return pin <= limits->limit;
}

/* What lies below a node, from its wires. */
static inline struct state close_node(struct pass *pass, size_t i)
{
    const struct top *top = pass->top + pass->begin[i];
    const uint32_t wires = pass->children[i], limit = pass->limits->limit;
    uint32_t plus = 0, minus = 0, plus_gain = 0, minus_gain = 0, late = 0;
    for (uint32_t k = 0; k < wires; k++) {
        uint32_t gain = top[k].load[0] - top[k].more[0], other = top[k].load[1] - top[k].more[1];
        plus += top[k].load[0];
        minus += top[k].load[1];
        plus_gain = gain > plus_gain ? gain : plus_gain;
        minus_gain = other > minus_gain ? other : minus_gain;
        late += top[k].late;
    }
    struct state state = {BOTH, {late % LATE, late / LATE}, {plus, minus}};
    pass->node[i] = (struct node){{{plus, plus - plus_gain}, {minus, minus - minus_gain}}, {0, 0}};
    if (plus > limit || minus > limit)
        state = fit_both(state, &pass->node[i], top, wires, pass->limits);
    if (state.alive == BOTH && state.count[0] != state.count[1])
        state.alive = state.count[0] < state.count[1] ? PLUS : MINUS;
    return state;
}

/* The four ways from a node over its wire, each with its fewest inverters, and which of them lead
   to either polarity with the least count and, of those, the least load. */
struct ways { uint32_t cost[4], load[4], turned[4], least[2], best[2]; };

static inline void weigh(struct ways *ways, const struct node *node, struct state state,
                         uint32_t wire, const struct limits *limits)
{
    *ways = (struct ways){.least = {UINT32_MAX, UINT32_MAX}};
    for (uint32_t way = 0; way < 4; way++) {
        uint32_t q = way >> 1, x = way & 1;
        ways->cost[way] = UINT32_MAX;
        if ((state.alive >> q & 1) == 0)
            continue;
        ways->load[way] = wire + node->load[q][x];
        uint32_t count = fewest(&ways->load[way], limits), p = (q ^ count) & 1;
        uint32_t cost = ways->cost[way] = state.count[q] + x + count;
        ways->turned[way] = p;
        if (cost < ways->least[p]
            || (cost == ways->least[p] && ways->load[way] < ways->load[ways->best[p]])) {
            ways->least[p] = cost;
            ways->best[p] = way;
        }
    }
}

/* Polarity p at the top: which ways serve it, with no and with one inverter more. */
static inline uint32_t settle(struct top *top, const struct ways *ways, uint32_t p, uint32_t pin)
{
    uint32_t other = 1 - p, first = ways->best[p], second = first;
    if (ways->least[p] > ways->least[other]) {           /* one atop the other's best */
        top->load[p] = top->more[p] = pin;
        top->late = p == 0 ? 1 : LATE;
        return ways->best[other] | ways->best[other] << 2;
    }
    top->load[p] = top->more[p] = ways->load[first];
    if (ways->least[p] == ways->least[other]) {
        top->more[p] = pin;
        return first | ways->best[other] << 2;
    }
    for (uint32_t way = 0; way < 4; way++)
        if (ways->cost[way] == ways->least[p] + 1 && ways->turned[way] == p
            && ways->load[way] < top->more[p]) {
            top->more[p] = ways->load[way];
            second = way;
        }
    return first | second << 2;
}

static __attribute__((noinline)) uint8_t climb_any(struct top *top, const struct node *node,
                                                   struct state state, uint32_t wire,
                                                   const struct limits *limits, uint64_t *least)
{
    struct ways ways;
    weigh(&ways, node, state, wire, limits);
    top->late = 0;
    *least += lower(ways.least[0], ways.least[1]);
    uint32_t plus = settle(top, &ways, 0, limits->pin);
    return (uint8_t)(plus | settle(top, &ways, 1, limits->pin) << 4);
}

/* The wire over a node; most wires need no inverter for what lies below them. */
static inline void climb(struct pass *pass, size_t i, struct state state)
{
    const struct node *node = &pass->node[i];
    const uint32_t limit = pass->limits->limit, pin = pass->limits->pin, wire = pass->net->wire[i];
    const uint32_t plus = wire + state.load[0], minus = wire + state.load[1];
    const uint32_t slot = --pass->begin[pass->net->parent[i]];
    struct top *top = &pass->top[slot];
    pass->slot[i] = (uint16_t)slot;
    if (state.alive == BOTH && plus <= limit && minus <= limit) {
        *top = (struct top){{plus, minus}, {pin, pin}, 0};
        pass->least += state.count[0];
        pass->ways[i] = FROM_BOTH;
    } else if (state.alive == PLUS && plus <= limit) {
        *top = (struct top){{plus, pin}, {wire + node->load[0][1], pin}, LATE};
        pass->least += state.count[0];
        pass->ways[i] = FROM_PLUS;
    } else if (state.alive == MINUS && minus <= limit) {
        *top = (struct top){{pin, minus}, {pin, wire + node->load[1][1]}, 1};
        pass->least += state.count[1];
        pass->ways[i] = FROM_MINUS;
    } else {
        pass->ways[i] = climb_any(top, node, state, wire, pass->limits, &pass->least);
    }
}

/* All wires from the last to the first. False where nothing is legal. */
static inline bool ascend(struct pass *pass)
{
    for (size_t i = pass->net->places - 1; i > 0; i--) {
        if (pass->children[i] == 0) {
            if (!lift_sink(pass, i))
                return false;
            continue;
        }
        struct state state = close_node(pass, i);
        if (state.alive == 0)
            return false;
        climb(pass, i, state);
    }
    struct state source = close_node(pass, 0);
    pass->sense[0] = source.alive == MINUS;
    pass->least += source.count[pass->sense[0]];
    return source.alive != 0;
}

/* ------------------------------------------------------------ down */

static inline void deal_below(struct pass *pass, size_t i, uint32_t p, uint32_t surplus)
{
    uint32_t e = pass->node[i].over[p] + surplus, begin = pass->begin[i];
    if (e > 0)
        deal(pass->share + begin, pass->top + begin, pass->children[i], (int)p, e,
             pass->limits->pin);
}

static inline void descend(struct pass *pass, uint16_t *to_wire, uint32_t *to_offset)
{
    const uint32_t limit = pass->limits->limit, pin = pass->limits->pin, span = limit - pin;
    size_t at = 0;
    memset(pass->share, 0, pass->net->places);
    deal_below(pass, 0, pass->sense[0], 0);
    for (size_t i = 1; i < pass->net->places; i++) {
        uint32_t p = pass->sense[pass->net->parent[i]], slot = pass->slot[i];
        uint32_t two = pass->share[slot] & 2, one = pass->share[slot] & 1;
        uint32_t way = pass->ways[i] >> (4 * p + 2 * one) & 3, q = way >> 1, x = way & 1;
        uint32_t size = pass->net->wire[i], load = pass->node[i].load[q][x], whole = size + load;
        uint32_t count = fewest(&whole, pass->limits), offset = limit - load;
        pass->sense[i] = (uint8_t)q;
        for (count += (count ^ p ^ q) & 1; count > 0; count--, offset += span) {
            to_wire[at] = (uint16_t)i;
            to_offset[at++] = lower(offset, size);
        }
        for (; two > 0; two--) {
            to_wire[at] = (uint16_t)i;
            to_offset[at++] = size;
        }
        if (pass->children[i] != 0)
            deal_below(pass, i, q, x);
    }
}

struct answer fast_solve_inverters(const struct limits *limits, const struct columns *net,
                                   const uint16_t *children,
                                   uint16_t *wire, uint32_t *offset, size_t room)
{
    struct pass pass;
    uint32_t end = 0;
    pass.limits = limits;
    pass.net = net;
    pass.children = children;
    pass.least = 0;
    for (size_t i = 0; i < net->places; i++)
        pass.begin[i] = (uint16_t)(end += children[i]);  /* filled from the last wire on */
    if (!ascend(&pass))
        return (struct answer){8, 0};
    if (pass.least > room || pass.least > ENTRIES)
        return (struct answer){9, pass.least};
    descend(&pass, wire, offset);
    return (struct answer){0, pass.least};
}
