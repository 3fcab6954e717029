/* See paper_nets.h. */
#include "paper_nets.h"

#include <string.h>

struct point { int32_t x, y; };          /* in micrometres */

static const int32_t SIDE = 2000;        /* 330 terminals then span about 25 mm, as in the paper */

static void clear(struct net *net, uint32_t limit, uint8_t type)
{
    memset(net, 0, sizeof *net);
    net->limits = (struct limits){limit, 3750, type};
    net->columns = (struct columns){1, net->parent, net->wire, net->kind, net->pin,
                                    net->polarity};
}

/* Units of a wire between two points: 17.7 a micrometre, along the axes, rounded up. */
static uint32_t units(struct point a, struct point b)
{
    int32_t dx = a.x < b.x ? b.x - a.x : a.x - b.x, dy = a.y < b.y ? b.y - a.y : a.y - b.y;
    return (uint32_t)((dx + dy) * 177 + 9) / 10;
}

/* 204 to 20,000, by the sixteenth power of an even chance: about 12 fF on average. */
static uint32_t pin_of(struct chance *chance)
{
    uint64_t part = chance_upto(chance, 65535);
    for (int i = 0; i < 4; i++)
        part = part * part >> 16;
    return 204 + (uint32_t)(part * 19797 >> 16);
}

static size_t add(struct net *net, size_t parent, uint32_t wire)
{
    size_t node = net->columns.places++;
    net->parent[node] = (uint16_t)parent;
    net->wire[node] = wire;
    net->kind[node] = 1;
    return node;
}

struct drawing {
    struct net *net;
    struct point at[PLACES];
    uint8_t children[PLACES];
    bool corner[PLACES];                 /* no terminal: only a sink's own place, of wire 0 */
};

/* The nearest terminal that may take another child; `inner`: that is a branch point already. */
static size_t nearest(const struct drawing *d, struct point here, bool inner)
{
    size_t best = 0;
    uint32_t least = UINT32_MAX;
    for (size_t node = 0; node < d->net->columns.places; node++) {
        uint32_t far = units(here, d->at[node]);
        bool open = !d->corner[node] && d->children[node] < 8
                 && (!inner || d->net->kind[node] == 0);
        if (open && far < least) {
            least = far;
            best = node;
        }
    }
    return best;
}

/* Hangs a terminal at the nearest one. A sink that gets a child becomes a branch point with
   the sink hung to it by a wire of 0. */
static void attach(struct drawing *d, struct point here, uint32_t room)
{
    size_t near = nearest(d, here, room < 2);
    if (d->net->kind[near] == 1) {
        size_t own = add(d->net, near, 0);
        d->net->kind[near] = 0;
        d->corner[own] = true;
        d->at[own] = d->at[near];
        d->children[near]++;
    }
    size_t node = add(d->net, near, units(here, d->at[near]));
    d->at[node] = here;
    d->children[near]++;
}

static void spread(struct chance *chance, struct net *net, uint32_t nodes)
{
    static struct drawing d;
    memset(&d, 0, sizeof d);
    d.net = net;
    d.at[0] = (struct point){SIDE / 2, SIDE / 2};
    while (net->columns.places <= nodes) {
        struct point here = {(int32_t)chance_upto(chance, (uint32_t)SIDE),
                             (int32_t)chance_upto(chance, (uint32_t)SIDE)};
        attach(&d, here, nodes + 1 - (uint32_t)net->columns.places);
    }
}

void make_net(struct chance *chance, struct net *net, enum form form, uint32_t nodes,
              uint32_t limit, uint8_t type, bool mixed)
{
    clear(net, limit, type);
    if (form == POINTS)
        spread(chance, net, nodes);
    while (net->columns.places <= nodes) {
        size_t node = net->columns.places;
        size_t parent = form == CHAIN_NET ? node - 1 : (node - 1) / 8;
        net->kind[parent] = 0;
        add(net, parent, chance_upto(chance, 2000));
    }
    for (size_t node = 1; node <= nodes; node++) {
        net->pin[node] = net->kind[node] == 1 ? pin_of(chance) : 0;
        net->polarity[node] =
            net->kind[node] == 1 && type == 1 && mixed ? (uint8_t)chance_upto(chance, 1) : 0;
    }
}

/* ------------------------------------------------------------ as a file */

static uint8_t *number(uint8_t *to, uint32_t value, int size)
{
    for (int i = size - 1; i >= 0; i--)
        *to++ = (uint8_t)(value >> 8 * i);
    return to;
}

size_t file_of(const struct net *net, uint8_t *bytes)
{
    uint8_t *to = number(number(bytes, 0x01, 1), 9, 2);
    to = number(number(to, net->limits.limit, 4), net->limits.pin, 4);
    to = number(to, net->limits.type, 1);
    for (size_t node = 1; node < net->columns.places; node++) {
        bool sink = net->kind[node] == 1;
        to = number(number(to, sink ? 0x03 : 0x02, 1), sink ? 11 : 6, 2);
        to = number(number(to, net->parent[node], 2), net->wire[node], 4);
        if (sink)
            to = number(number(to, net->pin[node], 4), net->polarity[node], 1);
    }
    return (size_t)(number(number(to, 0x7F, 1), 0, 2) - bytes);
}
