/* The judge: passes without a branch say whether all is well. Only where it is not does a second
   one look for the first fault, in the order of RULES 5.4. */
#include "fast.h"

#include <string.h>

/* Every value in its range, and every parent before its node. A loop a width, for vectors. */
static bool values_good(const struct limits *limits, const struct columns *net)
{
    const uint8_t *kind = net->kind, *polarity = net->polarity, type = limits->type;
    const size_t places = net->places;
    uint8_t byte = 0;
    uint16_t late = 0;
    uint32_t over = 0;
    for (size_t i = 1; i < places; i++)
        byte |= (kind[i] & 0xFE) | (polarity[i] & ~(kind[i] & type));
    for (size_t i = 1; i < places; i++)
        late |= net->parent[i] >= (uint16_t)i;
    for (size_t i = 1; i < places; i++)
        over |= net->wire[i] > 10000000;
    for (size_t i = 1; i < places; i++)
        over |= net->pin[i] > 1000000u * kind[i];
    return (byte | late | over) == 0;
}

/* Children where they may be, and nowhere else. */
static bool children_good(const struct columns *net, uint16_t *children)
{
    const size_t places = net->places;
    uint16_t wrong = 0;
    memset(children, 0, places * sizeof *children);
    for (size_t i = 1; i < places; i++)
        children[net->parent[i]]++;
    for (size_t i = 0; i < places; i++)
        wrong |= (net->kind[i] == (children[i] != 0)) | (children[i] > CHILDREN);
    return wrong == 0;
}

static struct answer first_fault(const struct limits *limits, const struct columns *net)
{
    uint8_t children[PLACES] = {0};
    size_t childless = 0;
    for (size_t i = 1; i < net->places; i++) {
        bool sink = net->kind[i] == 1;
        if (net->kind[i] > 1 || net->wire[i] > 10000000 || net->pin[i] > (sink ? 1000000u : 0)
            || net->polarity[i] > (sink ? limits->type : 0))
            return (struct answer){3, i};
        size_t parent = net->parent[i];
        if (parent >= i || net->kind[parent] == 1 || children[parent] == CHILDREN)
            return (struct answer){4, i};
        children[parent]++;
    }
    while (net->kind[childless] + children[childless] != 0)
        childless++;
    return (struct answer){5, childless};
}

struct answer fast_judge(const struct limits *limits, const struct columns *net,
                         uint16_t *children)
{
    if (net->places - 1 >= PLACES)
        return (struct answer){7, 0};
    if (!limits_good(limits) || net->parent[0] || net->wire[0] || net->kind[0] || net->pin[0]
        || net->polarity[0])
        return (struct answer){3, 0};
    if (!values_good(limits, net) || !children_good(net, children))
        return first_fault(limits, net);
    return (struct answer){0, net->places};
}
