/* The checker: one pass over the entries, one over the nodes from the last to the first that
   hands loads to parents, one over the sinks. Only a fault is looked for in order. */
#include "fast.h"

#include <string.h>

static size_t first_misplaced(const struct columns *net, const uint16_t *wire,
                              const uint32_t *offset, size_t entries)
{
    for (size_t e = 0; e < entries; e++) {
        if (wire[e] == 0 || wire[e] >= net->places || offset[e] > net->wire[wire[e]])
            return e;
        if (e > 0 && (wire[e] < wire[e - 1]
                      || (wire[e] == wire[e - 1] && offset[e] < offset[e - 1])))
            return e;
    }
    return entries;
}

/* In order first: then the first and the last wire are the outermost. */
static bool all_stand(const struct columns *net, const uint16_t *wire, const uint32_t *offset,
                      size_t entries)
{
    uint32_t wrong = 0;
    if (entries == 0)
        return true;
    for (size_t e = 1; e < entries; e++)
        wrong |= (wire[e] < wire[e - 1])
               | ((wire[e] == wire[e - 1]) & (offset[e] < offset[e - 1]));
    if (wrong || wire[0] == 0 || wire[entries - 1] >= net->places)
        return false;
    for (size_t e = 0; e < entries; e++)
        wrong |= offset[e] > net->wire[wire[e]];
    return !wrong;
}

/* What lies below the source. *first becomes the first entry that drives more than C_U, if one
   does: they are met from the last to the first. */
static uint64_t hand_up(const struct limits *limits, const struct columns *net,
                        const uint16_t *wire, const uint32_t *offset, size_t entries,
                        size_t *first)
{
    uint64_t below[PLACES];
    size_t e = entries;
    for (size_t i = 0; i < net->places; i++)
        below[i] = net->pin[i];
    for (size_t i = net->places - 1; i > 0; i--) {
        uint64_t up = net->wire[i] + below[i];
        if (e > 0 && wire[e - 1] == i) {
            up = net->wire[i] - offset[e - 1] + limits->pin;
            for (; e > 1 && wire[e - 2] == i; e--)
                if (offset[e - 1] - offset[e - 2] + limits->pin > limits->limit)
                    *first = e - 1;
            if (offset[--e] + below[i] > limits->limit)
                *first = e;
        }
        below[net->parent[i]] += up;
    }
    return below[0];
}

/* The lowest sink whose sum is not of the first sink's parity, or 0. */
static size_t wrong_sink(const struct columns *net, const uint16_t *wire, size_t entries)
{
    uint8_t odd[PLACES], first = 2;
    memset(odd, 0, net->places);
    for (size_t e = 0; e < entries; e++)
        odd[wire[e]] ^= 1;
    for (size_t i = 1; i < net->places; i++) {
        odd[i] ^= odd[net->parent[i]];
        if (net->kind[i] == 0)
            continue;
        uint8_t sum = odd[i] ^ net->polarity[i];
        if (first == 2)
            first = sum;
        if (sum != first)
            return i;
    }
    return 0;
}

struct answer fast_check(const struct limits *limits, const struct columns *net,
                         const uint16_t *wire, const uint32_t *offset, size_t entries,
                         uint64_t *source)
{
    uint16_t children[PLACES];
    struct answer judged = fast_judge(limits, net, children);
    if (judged.number != 0)
        return judged;
    if (entries > ENTRIES)
        return (struct answer){7, 0};
    if (!all_stand(net, wire, offset, entries))
        return (struct answer){10, first_misplaced(net, wire, offset, entries)};
    size_t over = entries + 1;
    uint64_t load = hand_up(limits, net, wire, offset, entries, &over);
    if (over > entries && load > limits->limit)
        over = entries;
    if (over <= entries)
        return (struct answer){11, over};
    size_t sink = limits->type == 1 ? wrong_sink(net, wire, entries) : 0;
    if (sink != 0)
        return (struct answer){12, sink};
    *source = load;
    return (struct answer){0, entries};
}
