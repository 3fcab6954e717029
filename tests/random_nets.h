/* Random nets and placements from a fixed seed, for C programs that test something. */
#ifndef RANDOM_NETS_H
#define RANDOM_NETS_H

#include "chance.h"
#include "reference.h"

#include <stdbool.h>
#include <string.h>

/* ------------------------------------------------------------ nets */

/* How large a net and its numbers may be. */
struct size { uint32_t wires, limit, wire, pin; };

enum shape { CHAIN, STAR, COMB, ANY_TREE, SHAPES };

static inline uint32_t children_of(const struct ref_net *net, size_t node)
{
    uint32_t children = 0;
    for (size_t other = 1; other < net->nodes; other++)
        children += net->parent[other] == node;
    return children;
}

/* Where node net->nodes is hung. A star is eight sinks a point, filled from the source on; a
   comb is a chain of branch points with a tooth at each. No point gets a ninth child. */
static inline uint16_t pick_parent(struct chance *chance, const struct ref_net *net,
                                   enum shape shape)
{
    uint16_t node = (uint16_t)net->nodes, parent = 0;
    if (shape == CHAIN)
        return (uint16_t)(node - 1);
    if (shape == COMB)
        return (uint16_t)(node % 2 == 1 && node > 1 ? node - 2 : node < 3 ? 0 : node - 3);
    if (shape == STAR)
        while (children_of(net, parent) == 8)
            parent++;
    else
        do
            parent = (uint16_t)chance_upto(chance, node - 1u);
        while (children_of(net, parent) == 8);
    return parent;
}

/* Points without children are sinks, all others branch points: no branch point is childless. */
static inline void fill_nodes(struct chance *chance, struct ref_net *net, struct size size)
{
    for (size_t node = 1; node < net->nodes; node++) {
        bool sink = children_of(net, node) == 0;
        net->kind[node] = sink;
        net->wire[node] = chance_upto(chance, size.wire);
        if (chance_upto(chance, 3) == 0)
            net->wire[node] = 0;
        net->pin[node] = sink ? chance_upto(chance, size.pin) : 0;
        net->polarity[node] =
            sink && net->limits.type == 1 ? (uint8_t)chance_upto(chance, 1) : 0;
    }
}

/* A net of a given shape, type and limits, with a given number of wires. */
static inline void random_shape(struct chance *chance, struct ref_net *net, enum shape shape,
                                uint32_t wires, struct ref_limits limits, struct size size)
{
    memset(net, 0, sizeof *net);
    net->limits = limits;
    net->nodes = 1;
    while (net->nodes <= wires) {
        net->parent[net->nodes] = pick_parent(chance, net, shape);
        net->nodes++;
    }
    fill_nodes(chance, net, size);
}

/* Any net within the sizes. */
static inline void random_net(struct chance *chance, struct ref_net *net, struct size size)
{
    enum shape shape = (enum shape)chance_upto(chance, SHAPES - 1);
    uint32_t wires = 1 + chance_upto(chance, size.wires - 1);
    struct ref_limits limits;
    limits.limit = 1 + chance_upto(chance, size.limit - 1);
    if (limits.limit < size.limit / 2 && chance_upto(chance, 2) > 0)
        limits.limit = size.limit - limits.limit;               /* low limits seldom serve */
    limits.pin = chance_upto(chance, (limits.limit - 1) / 2);
    limits.type = (uint8_t)chance_upto(chance, 1);
    random_shape(chance, net, shape, wires, limits, size);
}

/* A net that eases the first one. */
static inline void random_eased(struct chance *chance, const struct ref_net *first,
                                struct ref_net *second)
{
    *second = *first;
    second->limits.limit += chance_upto(chance, 2);
    if (second->limits.limit > 1000000)
        second->limits.limit = 1000000;
    second->limits.pin -= chance_upto(chance, second->limits.pin) / 2;
    for (size_t node = 1; node < first->nodes; node++) {
        if (chance_upto(chance, 1) == 0)
            second->wire[node] -= chance_upto(chance, first->wire[node]);
        if (chance_upto(chance, 1) == 0)
            second->pin[node] -= chance_upto(chance, first->pin[node]);
    }
}

/* ------------------------------------------------------------ placements */

static inline bool is_legal(const struct ref_net *net, const struct ref_placement *p)
{
    return ref_check(net, p->wire, p->entries, p->offset, p->entries, NULL, NULL).number == 0;
}

/* Puts an entry where it belongs in the order. There must be room. */
static inline void put_in(struct ref_placement *p, uint16_t wire, uint32_t offset)
{
    size_t at = p->entries++;
    for (; at > 0 && (p->wire[at - 1] > wire
                      || (p->wire[at - 1] == wire && p->offset[at - 1] > offset)); at--) {
        p->wire[at] = p->wire[at - 1];
        p->offset[at] = p->offset[at - 1];
    }
    p->wire[at] = wire;
    p->offset[at] = offset;
}

/* Leaves an entry out. */
static inline void take_out(struct ref_placement *p, size_t at)
{
    p->entries--;
    memmove(p->wire + at, p->wire + at + 1, (p->entries - at) * sizeof *p->wire);
    memmove(p->offset + at, p->offset + at + 1, (p->entries - at) * sizeof *p->offset);
}

/* An entry (two inverters) more, or an offset moved, where that stays legal. */
static inline void stir(struct chance *chance, const struct ref_net *net, struct ref_placement *p)
{
    struct ref_placement before = *p;
    if (p->entries > 0 && chance_upto(chance, 1) == 0) {
        size_t at = chance_upto(chance, (uint32_t)p->entries - 1);
        p->offset[at] = chance_upto(chance, net->wire[p->wire[at]]);
    } else if (p->entries + 2 <= REF_ENTRIES) {
        uint16_t wire = (uint16_t)(1 + chance_upto(chance, (uint32_t)net->nodes - 2));
        for (int i = 0; i <= net->limits.type; i++)
            put_in(p, wire, chance_upto(chance, net->wire[wire]));
    }
    if (!is_legal(net, p))
        *p = before;
}

/* A legal placement, not only a least one; false where there is none within 4,096 entries. */
static inline bool random_legal(struct chance *chance, const struct ref_net *net,
                                struct ref_placement *p)
{
    int64_t least = ref_least_frontier(net, p);
    if (least < 0 || least > REF_ENTRIES)
        return false;
    for (uint32_t tries = chance_upto(chance, 8); tries > 0; tries--)
        stir(chance, net, p);
    return true;
}

/* One entry changed, dropped, doubled or exchanged with its neighbour: often no longer legal. */
static inline void perturb(struct chance *chance, struct ref_placement *p)
{
    if (p->entries == 0)
        return;
    size_t at = chance_upto(chance, (uint32_t)p->entries - 1);
    uint16_t wire = p->wire[at];
    uint32_t offset = p->offset[at];
    switch (chance_upto(chance, 6)) {
    case 0: p->offset[at] = offset + 1; break;
    case 1: p->offset[at] = offset - (offset > 0); break;
    case 2: p->wire[at] = (uint16_t)(wire + 1); break;
    case 3: p->wire[at] = (uint16_t)(wire - 1); break;
    case 4: p->offset[at] = chance_upto(chance, 2 * offset + 1); break;
    case 5:
        if (p->entries < REF_ENTRIES)
            put_in(p, wire, offset);
        break;
    default: take_out(p, at);
    }
}

/* Entries anywhere on the net's wires, in order. */
static inline void random_entries(struct chance *chance, const struct ref_net *net,
                                  struct ref_placement *p, uint32_t entries)
{
    p->entries = 0;
    while (p->entries < entries) {
        uint16_t wire = (uint16_t)(1 + chance_upto(chance, (uint32_t)net->nodes - 2));
        put_in(p, wire, chance_upto(chance, net->wire[wire]));
    }
}

/* ------------------------------------------------------------ damaged bytes */

/* One byte changed, put in or left out; all from a byte on cut off; bytes put after the end; or
   what stands before the end field shortened by a sink. Answers the new length: at most 3 more,
   and the buffer must have room for them. */
static inline size_t damage(struct chance *chance, uint8_t *bytes, size_t length)
{
    static const uint8_t likely[] = {0, 1, 2, 3, 4, 8, 0x11, 0x12, 0x7F, 0x80, 0xFF};
    size_t at = length == 0 ? 0 : chance_upto(chance, (uint32_t)length - 1);
    uint8_t byte = likely[chance_upto(chance, sizeof likely - 1)];
    switch (length == 0 ? 4 : chance_upto(chance, 6)) {
    case 0:
        bytes[at] = byte;
        return length;
    case 1:
        bytes[at] ^= (uint8_t)(1u << chance_upto(chance, 7));
        return length;
    case 2:
        memmove(bytes + at + 1, bytes + at, length - at);
        bytes[at] = byte;
        return length + 1;
    case 3:
        memmove(bytes + at, bytes + at + 1, length - at - 1);
        return length - 1;
    case 4:
        memset(bytes + length, byte, 3);
        return length + 1 + chance_upto(chance, 2);
    case 5:
        if (length < 17)
            return at;
        memmove(bytes + length - 17, bytes + length - 3, 3);
        return length - 14;
    default:
        return at;
    }
}

#endif
