/* See proved_calls.h. Everything lent ends at a fence, and what comes back is copied out again. */
#include "proved_calls.h"

#include "fence.h"

#include <string.h>

#define LEND(column, length) fence_lend(column, (length) * sizeof *(column))
#define TAKE_BACK(column, lent, length) memcpy(column, lent, (length) * sizeof *(column))

/* The columns' copies. */
static struct net_columns lend_net(struct net_columns c)
{
    c.parent = LEND(c.parent, c.parents);
    c.wire = LEND(c.wire, c.wires);
    c.kind = LEND(c.kind, c.kinds);
    c.pin = LEND(c.pin, c.pins);
    c.polarity = LEND(c.polarity, c.polarities);
    return c;
}

static struct entry_columns lend_entries(struct entry_columns e)
{
    e.wire = LEND(e.wire, e.wires);
    e.offset = LEND(e.offset, e.offsets);
    return e;
}

static uint64_t *lend_place(void)
{
    static const uint64_t unset = 0xA5A5A5A5A5A5A5A5u;
    return LEND(&unset, 1);
}

#define LIMITS(l) (l).limit, (l).pin, (l).type
#define COLUMNS(c) (c).parent, (c).parents, (c).wire, (c).wires, (c).kind, (c).kinds, \
                   (c).pin, (c).pins, (c).polarity, (c).polarities
#define ENTRIES(e) (e).wire, (e).wires, (e).offset, (e).offsets

static struct ref_answer read_net(const uint8_t *bytes, size_t length, struct ref_limits *limits,
                                  struct net_columns to)
{
    fence_anew();
    const uint8_t *file = LEND(bytes, length);
    struct net_columns lent = lend_net(to);
    uint32_t *limit = LEND(&limits->limit, 1), *cb = LEND(&limits->pin, 1);
    uint8_t *repeater = LEND(&limits->type, 1);
    uint64_t *place = lend_place();
    uint32_t number = proved_read_net(file, length, limit, cb, repeater, COLUMNS(lent), place);
    limits->limit = *limit;
    limits->pin = *cb;
    limits->type = *repeater;
    TAKE_BACK(to.parent, lent.parent, to.parents);
    TAKE_BACK(to.wire, lent.wire, to.wires);
    TAKE_BACK(to.kind, lent.kind, to.kinds);
    TAKE_BACK(to.pin, lent.pin, to.pins);
    TAKE_BACK(to.polarity, lent.polarity, to.polarities);
    return (struct ref_answer){number, *place};
}

static struct ref_answer read_placement(const uint8_t *bytes, size_t length,
                                        struct entry_columns to)
{
    fence_anew();
    const uint8_t *file = LEND(bytes, length);
    struct entry_columns lent = lend_entries(to);
    uint64_t *place = lend_place();
    uint32_t number = proved_read_placement(file, length, ENTRIES(lent), place);
    TAKE_BACK(to.wire, lent.wire, to.wires);
    TAKE_BACK(to.offset, lent.offset, to.offsets);
    return (struct ref_answer){number, *place};
}

static struct ref_answer write_net(struct ref_limits limits, struct net_columns net,
                                   uint8_t *bytes, size_t room)
{
    fence_anew();
    struct net_columns lent = lend_net(net);
    uint8_t *out = LEND(bytes, room);
    uint64_t *place = lend_place();
    uint32_t number = proved_write_net(LIMITS(limits), COLUMNS(lent), out, room, place);
    TAKE_BACK(bytes, out, room);
    return (struct ref_answer){number, *place};
}

static struct ref_answer write_placement(struct entry_columns placement, uint8_t *bytes,
                                         size_t room)
{
    fence_anew();
    struct entry_columns lent = lend_entries(placement);
    uint8_t *out = LEND(bytes, room);
    uint64_t *place = lend_place();
    uint32_t number = proved_write_placement(ENTRIES(lent), out, room, place);
    TAKE_BACK(bytes, out, room);
    return (struct ref_answer){number, *place};
}

static struct ref_answer judge(struct ref_limits limits, struct net_columns net)
{
    fence_anew();
    struct net_columns lent = lend_net(net);
    uint64_t *place = lend_place();
    uint32_t number = proved_judge(LIMITS(limits), COLUMNS(lent), place);
    return (struct ref_answer){number, *place};
}

static struct ref_answer solve(struct ref_limits limits, struct net_columns net,
                               struct entry_columns to)
{
    fence_anew();
    struct net_columns lent = lend_net(net);
    struct entry_columns list = lend_entries(to);
    uint64_t *place = lend_place();
    uint32_t number = proved_solve(LIMITS(limits), COLUMNS(lent), ENTRIES(list), place);
    TAKE_BACK(to.wire, list.wire, to.wires);
    TAKE_BACK(to.offset, list.offset, to.offsets);
    return (struct ref_answer){number, *place};
}

static struct ref_answer check(struct ref_limits limits, struct net_columns net,
                               struct entry_columns placement, uint64_t *source)
{
    fence_anew();
    struct net_columns lent = lend_net(net);
    struct entry_columns list = lend_entries(placement);
    uint64_t *load = LEND(source, 1), *place = lend_place();
    uint32_t number = proved_check(LIMITS(limits), COLUMNS(lent), ENTRIES(list), load, place);
    *source = *load;
    return (struct ref_answer){number, *place};
}

static struct ref_answer list_drives(struct ref_limits limits, struct net_columns net,
                                     struct entry_columns placement,
                                     uint64_t *drives, size_t room, uint64_t *source)
{
    fence_anew();
    struct net_columns lent = lend_net(net);
    struct entry_columns list = lend_entries(placement);
    uint64_t *out = LEND(drives, room), *load = LEND(source, 1), *place = lend_place();
    uint32_t number = proved_list_drives(LIMITS(limits), COLUMNS(lent), ENTRIES(list), out, room,
                                         load, place);
    TAKE_BACK(drives, out, room);
    *source = *load;
    return (struct ref_answer){number, *place};
}

static struct ref_answer carry(struct ref_limits first_limits, struct net_columns first,
                               struct ref_limits second_limits, struct net_columns second,
                               struct entry_columns placement, int *refused_net)
{
    fence_anew();
    struct net_columns a = lend_net(first), b = lend_net(second);
    struct entry_columns list = lend_entries(placement);
    const uint32_t limits[] = {first_limits.limit, first_limits.pin,
                               second_limits.limit, second_limits.pin};
    const uint8_t repeaters[] = {first_limits.type, second_limits.type};
    uint64_t *told = LEND(((uint64_t[]){9, 9}), 2);
    uint32_t number = proved_carry(LEND(limits, 4), LEND(repeaters, 2), COLUMNS(a), COLUMNS(b),
                                   ENTRIES(list), told);
    TAKE_BACK(placement.offset, list.offset, placement.offsets);
    *refused_net = (int)told[0];
    return (struct ref_answer){number, told[1]};
}

static struct ref_answer finish(struct ref_limits limits, struct net_columns net,
                                struct entry_columns given, struct entry_columns to)
{
    fence_anew();
    struct net_columns lent = lend_net(net);
    struct entry_columns half = lend_entries(given), list = lend_entries(to);
    uint64_t *place = lend_place();
    uint32_t number = proved_finish(LIMITS(limits), COLUMNS(lent), ENTRIES(half), ENTRIES(list),
                                    place);
    TAKE_BACK(to.wire, list.wire, to.wires);
    TAKE_BACK(to.offset, list.offset, to.offsets);
    return (struct ref_answer){number, *place};
}

const struct calls proved_calls = {
    .name = "proved", .read_net = read_net, .read_placement = read_placement,
    .write_net = write_net, .write_placement = write_placement, .judge = judge, .solve = solve,
    .check = check, .drives = list_drives, .carry = carry, .finish = finish,
};

static struct net_columns columns_of(const struct ref_net *net)
{
    static struct ref_net copy[2];
    static int which;
    which = 1 - which;                   /* a carry has two nets */
    copy[which] = *net;
    struct ref_net *c = &copy[which];
    size_t n = c->nodes;
    return (struct net_columns){c->parent, c->wire, c->kind, c->pin, c->polarity, n, n, n, n, n};
}

int64_t least_proved(const struct ref_net *net, struct ref_placement *p)
{
    struct entry_columns to = {p->wire, p->offset, REF_ENTRIES, REF_ENTRIES};
    struct ref_answer found = solve(net->limits, columns_of(net), to);
    if (found.number == 0)
        p->entries = found.place;
    return found.number == 0 || found.number == 9 ? (int64_t)found.place
         : found.number == 8                      ? REF_NONE
                                                  : -1 - (int64_t)found.number;
}

struct ref_answer carry_proved(const struct ref_net *first, const struct ref_net *second,
                               struct ref_placement *p, int *refused_net)
{
    struct entry_columns list = {p->wire, p->offset, p->entries, p->entries};
    return carry(first->limits, columns_of(first), second->limits, columns_of(second), list,
                 refused_net);
}

struct ref_answer finish_proved(const struct ref_net *net, const struct ref_placement *given,
                                struct entry_columns to)
{
    static struct ref_placement half;
    half = *given;
    struct entry_columns list = {half.wire, half.offset, half.entries, half.entries};
    return finish(net->limits, columns_of(net), list, to);
}
