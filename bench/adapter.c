/* See adapter.h. The fast C has columns of one length; other lengths are judged here. */
#include "adapter.h"

#include "fast.h"

static size_t lower(size_t a, size_t b)
{
    return a < b ? a : b;
}

static struct ref_answer turned(struct answer answer)
{
    return (struct ref_answer){answer.number, answer.place};
}

static struct limits limits_of(struct ref_limits limits)
{
    return (struct limits){limits.limit, limits.pin, limits.type};
}

static struct columns columns_of(struct net_columns c, size_t places)
{
    return (struct columns){places, c.parent, c.wire, c.kind, c.pin, c.polarity};
}

static size_t shortest(struct net_columns c)
{
    return lower(lower(lower(c.parents, c.wires), lower(c.kinds, c.pins)), c.polarities);
}

/* Unequal columns become empty ones: both are 7. */
static struct columns judged_columns(struct net_columns c)
{
    bool equal = c.parents == c.wires && c.parents == c.kinds && c.parents == c.pins
              && c.parents == c.polarities;
    return columns_of(c, equal ? c.parents : 0);
}

static struct ref_answer read_net(const uint8_t *bytes, size_t length, struct ref_limits *limits,
                                  struct net_columns to)
{
    struct columns room = columns_of(to, shortest(to));
    struct limits read;
    struct answer answer = fast_read_net(bytes, length, &read, &room);
    if (answer.number == 0) {
        limits->limit = read.limit;
        limits->pin = read.pin;
        limits->type = read.type;
    }
    return turned(answer);
}

static struct ref_answer judge(struct ref_limits limits, struct net_columns net)
{
    uint16_t children[PLACES];
    struct limits l = limits_of(limits);
    struct columns c = judged_columns(net);
    struct answer judged = fast_judge(&l, &c, children);
    return judged.number == 0 ? (struct ref_answer){0, 0} : turned(judged);
}

static struct ref_answer solve(struct ref_limits limits, struct net_columns net,
                               struct entry_columns to)
{
    struct limits l = limits_of(limits);
    struct columns c = judged_columns(net);
    return turned(fast_solve(&l, &c, to.wire, to.offset, lower(to.wires, to.offsets)));
}

static struct ref_answer check(struct ref_limits limits, struct net_columns net,
                               struct entry_columns list, uint64_t *source)
{
    struct limits l = limits_of(limits);
    struct columns c = judged_columns(net);
    size_t entries = list.wires == list.offsets ? list.wires : ENTRIES + 1;
    return turned(fast_check(&l, &c, list.wire, list.offset, entries, source));
}

static struct ref_answer finish(struct ref_limits limits, struct net_columns net,
                                struct entry_columns given, struct entry_columns to)
{
    struct limits l = limits_of(limits);
    struct columns c = judged_columns(net);
    size_t givens = given.wires == given.offsets ? given.wires : ENTRIES + 1;
    return turned(fast_finish(&l, &c, given.wire, given.offset, givens, to.wire, to.offset,
                              lower(to.wires, to.offsets)));
}

const struct calls fast_calls = {
    .name = "fast C", .read_net = read_net, .judge = judge, .solve = solve, .check = check,
    .finish = finish,
};
