/* The reference behind the calls of calls.h. Everything is made aside and copied on success. */
#include "calls.h"

#include <stdbool.h>
#include <string.h>

static struct ref_answer answer(uint32_t number, uint64_t place)
{
    return (struct ref_answer){number, place};
}

static size_t lower(size_t a, size_t b)
{
    return a < b ? a : b;
}

static size_t room_of(struct net_columns c)
{
    return lower(lower(lower(c.parents, c.wires), lower(c.kinds, c.pins)), c.polarities);
}

static struct ref_answer judge(struct ref_limits limits, struct net_columns c)
{
    struct ref_answer judged = ref_judge(limits, c.parent, c.parents, c.wire, c.wires, c.kind,
                                         c.kinds, c.pin, c.pins, c.polarity, c.polarities);
    return judged.number == 0 ? answer(0, 0) : judged;
}

/* The columns of a judged net as a net. */
static void take(struct ref_net *net, struct ref_limits limits, struct net_columns c)
{
    net->limits = limits;
    net->nodes = c.parents;
    memcpy(net->parent, c.parent, c.parents * sizeof *c.parent);
    memcpy(net->wire, c.wire, c.parents * sizeof *c.wire);
    memcpy(net->kind, c.kind, c.parents);
    memcpy(net->pin, c.pin, c.parents * sizeof *c.pin);
    memcpy(net->polarity, c.polarity, c.parents);
}

static void give(const struct ref_net *net, struct net_columns to)
{
    memcpy(to.parent, net->parent, net->nodes * sizeof *to.parent);
    memcpy(to.wire, net->wire, net->nodes * sizeof *to.wire);
    memcpy(to.kind, net->kind, net->nodes);
    memcpy(to.pin, net->pin, net->nodes * sizeof *to.pin);
    memcpy(to.polarity, net->polarity, net->nodes);
}

static void give_entries(const struct ref_placement *p, struct entry_columns to)
{
    memcpy(to.wire, p->wire, p->entries * sizeof *to.wire);
    memcpy(to.offset, p->offset, p->entries * sizeof *to.offset);
}

static struct ref_answer read_net(const uint8_t *bytes, size_t length, struct ref_limits *limits,
                                  struct net_columns to)
{
    static struct ref_net net;
    struct ref_answer read = ref_read_net(bytes, length, &net);
    if (read.number != 0)
        return read;
    if (room_of(to) < net.nodes)
        return answer(9, net.nodes);
    *limits = net.limits;
    give(&net, to);
    return read;
}

static struct ref_answer read_placement(const uint8_t *bytes, size_t length,
                                        struct entry_columns to)
{
    static struct ref_placement p;
    struct ref_answer read = ref_read_placement(bytes, length, &p);
    if (read.number != 0)
        return read;
    if (lower(to.wires, to.offsets) < p.entries)
        return answer(9, p.entries);
    give_entries(&p, to);
    return read;
}

static struct ref_answer write_net(struct ref_limits limits, struct net_columns c,
                                   uint8_t *bytes, size_t room)
{
    static uint8_t made[REF_NET_BYTES];
    static struct ref_net net;
    struct ref_answer judged = judge(limits, c);
    if (judged.number != 0)
        return judged;
    take(&net, limits, c);
    size_t length = ref_write_net(&net, made);
    if (room < length)
        return answer(9, length);
    memcpy(bytes, made, length);
    return answer(0, length);
}

static struct ref_answer write_placement(struct entry_columns e, uint8_t *bytes, size_t room)
{
    static uint8_t made[REF_PLACEMENT_BYTES];
    static struct ref_placement p;
    if (e.wires != e.offsets || e.wires > REF_ENTRIES)
        return answer(7, 0);
    for (size_t i = 0; i < e.wires; i++)
        if (e.wire[i] < 1 || e.wire[i] > 1024 || e.offset[i] > 10000000)
            return answer(3, i);
    p.entries = e.wires;
    memcpy(p.wire, e.wire, e.wires * sizeof *e.wire);
    memcpy(p.offset, e.offset, e.wires * sizeof *e.offset);
    size_t length = ref_write_placement(&p, made);
    if (room < length)
        return answer(9, length);
    memcpy(bytes, made, length);
    return answer(0, length);
}

static struct ref_answer solve(struct ref_limits limits, struct net_columns c,
                               struct entry_columns to)
{
    static struct ref_net net;
    static struct ref_placement p;
    struct ref_answer judged = judge(limits, c);
    if (judged.number != 0)
        return judged;
    take(&net, limits, c);
    int64_t least = ref_least_frontier(&net, &p);
    if (least == REF_NONE)
        return answer(8, 0);
    if (least > REF_ENTRIES || lower(to.wires, to.offsets) < (size_t)least)
        return answer(9, (uint64_t)least);
    give_entries(&p, to);
    return answer(0, (uint64_t)least);
}

static struct ref_answer check(struct ref_limits limits, struct net_columns c,
                               struct entry_columns e, uint64_t *source)
{
    static struct ref_net net;
    struct ref_answer judged = judge(limits, c);
    if (judged.number != 0)
        return judged;
    take(&net, limits, c);
    return ref_check(&net, e.wire, e.wires, e.offset, e.offsets, NULL, source);
}

static struct ref_answer drives(struct ref_limits limits, struct net_columns c,
                                struct entry_columns e, uint64_t *to, size_t room,
                                uint64_t *source)
{
    static uint64_t made[REF_ENTRIES];
    static struct ref_net net;
    uint64_t load = 0;
    struct ref_answer result = judge(limits, c);
    if (result.number != 0)
        return result;
    take(&net, limits, c);
    result = ref_list_drives(&net, e.wire, e.wires, e.offset, e.offsets, made, &load);
    if (result.number != 0)
        return result;
    if (room < e.wires)
        return answer(9, e.wires);
    memcpy(to, made, e.wires * sizeof *to);
    *source = load;
    return result;
}

static struct ref_answer carry(struct ref_limits first_limits, struct net_columns first,
                               struct ref_limits second_limits, struct net_columns second,
                               struct entry_columns e, int *refused_net)
{
    static struct ref_net a, b;
    static struct ref_placement p;
    *refused_net = 1;
    struct ref_answer result = judge(first_limits, first);
    if (result.number != 0)
        return result;
    *refused_net = 2;
    result = judge(second_limits, second);
    if (result.number != 0)
        return result;
    *refused_net = 0;
    take(&a, first_limits, first);
    take(&b, second_limits, second);
    result = ref_eases(&a, &b);
    if (result.number != 0)
        return result;
    if (e.wires != e.offsets || e.wires > REF_ENTRIES)
        return answer(7, 0);
    p.entries = e.wires;
    memcpy(p.wire, e.wire, e.wires * sizeof *e.wire);
    memcpy(p.offset, e.offset, e.wires * sizeof *e.offset);
    result = ref_carry(&a, &b, &p, refused_net);
    if (result.number == 0)
        give_entries(&p, e);
    return result;
}

static struct ref_answer finish(struct ref_limits limits, struct net_columns c,
                                struct entry_columns given, struct entry_columns to)
{
    static struct ref_net net;
    static struct ref_placement added;
    struct ref_answer result = judge(limits, c);
    if (result.number != 0)
        return result;
    take(&net, limits, c);
    result = ref_finish(&net, given.wire, given.wires, given.offset, given.offsets,
                        lower(to.wires, to.offsets), &added);
    if (result.number == 0)
        give_entries(&added, to);
    return result;
}

const struct calls ref_calls = {
    "reference", read_net, read_placement, write_net, write_placement, judge, solve, check, drives,
    carry, finish,
};
