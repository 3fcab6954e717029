/* The net-file reader: one pass over the fields into columns of its own, with no branch on which
   of the two kinds a node is; what is left at the end, or a fault, goes to a careful pass. The
   columns are then copied to those lent. */
#include "fast.h"

#include <string.h>

enum { BRANCH = 0x020006, SINK = 0x03000B, END = 0x7F0000 };  /* tag and length */

struct found {
    size_t nodes;                        /* node 0 counted */
    uint16_t parent[PLACES];
    uint32_t wire[PLACES], pin[PLACES];
    uint8_t kind[PLACES], polarity[PLACES], children[PLACES];
};

/* The machines in view have the low byte first, the files the high one. */
static inline uint32_t two(const uint8_t *at)
{
    uint16_t number;
    memcpy(&number, at, sizeof number);
    return __builtin_bswap16(number);
}

static inline uint32_t four(const uint8_t *at)
{
    uint32_t number;
    memcpy(&number, at, sizeof number);
    return __builtin_bswap32(number);
}

/* A node's field, with 14 bytes to read whatever it is; `sink` is 1 or 0. 3, 4, or 0 where the
   node may stand. */
static inline uint32_t take(struct found *net, const uint8_t *field, uint32_t sink, uint8_t type)
{
    size_t i = net->nodes;
    uint32_t parent = two(field + 3), wire = four(field + 5);
    uint32_t pin = four(field + 9) & -sink, polarity = field[13] & -sink;
    if (wire > 10000000 || pin > 1000000 || polarity > type)
        return 3;
    if (i == PLACES || parent >= i || net->kind[parent] == 1 || net->children[parent] == CHILDREN)
        return 4;
    net->children[parent]++;
    net->parent[i] = (uint16_t)parent;
    net->wire[i] = wire;
    net->kind[i] = (uint8_t)sink;
    net->pin[i] = pin;
    net->polarity[i] = (uint8_t)polarity;
    net->children[i] = 0;
    net->nodes++;
    return 0;
}

/* The fields from *at on as far as 14 bytes are there and they are nodes. *at goes along. */
static inline uint32_t take_most(struct found *net, const uint8_t *bytes, size_t length,
                                 uint8_t type, size_t *at)
{
    uint32_t fault = 0;
    while (length - *at >= 14) {
        uint32_t head = four(bytes + *at) >> 8, sink = head == SINK;
        if (!sink && head != BRANCH)
            break;
        fault = take(net, bytes + *at, sink, type);
        if (fault != 0)
            break;
        *at += 9 + 5 * sink;
    }
    return fault;
}

/* The fields after the limits: where the end stands, or the refusal. */
static struct answer take_all(struct found *net, const uint8_t *bytes, size_t length, uint8_t type)
{
    size_t at = 12;
    uint32_t fault = take_most(net, bytes, length, type, &at);
    while (fault == 0) {
        uint8_t field[14] = {0};
        size_t left = length - at;
        if (left < 3)
            return (struct answer){1, at};
        uint32_t size = two(bytes + at + 1), head = (uint32_t)bytes[at] << 16 | size;
        if (head != BRANCH && head != SINK && head != END)
            return (struct answer){2, at};
        if (left - 3 < size)
            return (struct answer){1, at};
        if (head == END)
            return (struct answer){0, at};
        memcpy(field, bytes + at, 3 + size);
        fault = take(net, field, head == SINK, type);
        at += fault == 0 ? 3 + size : 0;
    }
    return (struct answer){fault, at};
}

static struct answer read_limits(const uint8_t *bytes, size_t length, struct limits *limits)
{
    if (length < 3)
        return (struct answer){1, 0};
    if (bytes[0] != 0x01 || two(bytes + 1) != 9)
        return (struct answer){2, 0};
    if (length < 12)
        return (struct answer){1, 0};
    *limits = (struct limits){four(bytes + 3), four(bytes + 7), bytes[11]};
    return (struct answer){limits_good(limits) ? 0 : 3, 0};
}

/* The lowest point that should have a child and has none, or the number of nodes. */
static size_t first_childless(const struct found *net)
{
    uint8_t childless = 0;
    size_t node = 0;
    for (size_t i = 0; i < net->nodes; i++)
        childless |= (net->kind[i] | net->children[i]) == 0;
    if (!childless)
        return net->nodes;
    while ((net->kind[node] | net->children[node]) != 0)
        node++;
    return node;
}

struct answer fast_read_net(const uint8_t *bytes, size_t length, struct limits *limits,
                            const struct columns *room)
{
    struct found net;
    struct limits read;
    struct answer answer = read_limits(bytes, length, &read);
    if (answer.number != 0)
        return answer;
    net.nodes = 1;
    net.parent[0] = 0;
    net.wire[0] = net.pin[0] = 0;
    net.kind[0] = net.polarity[0] = net.children[0] = 0;
    answer = take_all(&net, bytes, length, read.type);
    if (answer.number != 0)
        return answer;
    if (answer.place + 3 < length)
        return (struct answer){6, answer.place + 3};
    size_t childless = first_childless(&net);
    if (childless < net.nodes)
        return (struct answer){5, childless};
    if (room->places < net.nodes)
        return (struct answer){9, net.nodes};
    *limits = read;
    memcpy(room->parent, net.parent, net.nodes * sizeof *net.parent);
    memcpy(room->wire, net.wire, net.nodes * sizeof *net.wire);
    memcpy(room->kind, net.kind, net.nodes);
    memcpy(room->pin, net.pin, net.nodes * sizeof *net.pin);
    memcpy(room->polarity, net.polarity, net.nodes);
    return (struct answer){0, net.nodes};
}
