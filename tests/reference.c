/* See reference.h. Written from the rules; plain before fast. */
#include "reference.h"

#include <assert.h>
#include <stdbool.h>
#include <stdlib.h>
#include <string.h>

static struct ref_answer answer(uint32_t number, uint64_t place)
{
    return (struct ref_answer){number, place};
}

/* ------------------------------------------------------------ files read */

struct cursor { const uint8_t *bytes; size_t length, at; };      /* at: start of a field */

static uint32_t number_at(const uint8_t *bytes, size_t size)
{
    uint32_t number = 0;
    for (size_t i = 0; i < size; i++)
        number = number << 8 | bytes[i];
    return number;
}

static int length_of(uint8_t tag)
{
    switch (tag) {
    case 0x01: return 9;
    case 0x02: return 6;
    case 0x03: return 11;
    case 0x11: return 2;
    case 0x12: return 6;
    case 0x7F: return 0;
    default: return -1;
    }
}

/* 0 where a whole field stands at the cursor, with one of the due tags; else 1 or 2. */
static uint32_t field_fault(const struct cursor *in, const char *due)
{
    size_t left = in->length - in->at;
    if (left < 3)
        return 1;
    const uint8_t *start = in->bytes + in->at;
    if (start[0] == 0 || strchr(due, start[0]) == NULL)
        return 2;
    if ((int)number_at(start + 1, 2) != length_of(start[0]))
        return 2;
    return left - 3 < (size_t)length_of(start[0]) ? 1 : 0;
}

static void next_field(struct cursor *in)
{
    in->at += 3 + (size_t)length_of(in->bytes[in->at]);
}

static bool limits_good(struct ref_limits limits)
{
    return limits.limit >= 1 && limits.limit <= 1000000
        && 2 * (uint64_t)limits.pin < limits.limit && limits.type <= 1;
}

static bool node_good(const struct ref_net *net, size_t node)
{
    if (net->kind[node] > 1 || net->wire[node] > 10000000)
        return false;
    if (net->kind[node] == 0)
        return net->pin[node] == 0 && net->polarity[node] == 0;
    return net->pin[node] <= 1000000 && net->polarity[node] <= net->limits.type;
}

static bool parent_good(const struct ref_net *net, size_t node)
{
    size_t parent = net->parent[node], siblings = 0;
    if (parent >= node || net->kind[parent] == 1)
        return false;
    for (size_t other = 1; other < node; other++)
        siblings += net->parent[other] == parent;
    return siblings < 8;
}

/* The lowest branch point or source without child, or `nodes` where there is none. */
static size_t childless(const struct ref_net *net)
{
    bool has[REF_NODES] = {false};
    for (size_t node = 1; node < net->nodes; node++)
        has[net->parent[node]] = true;
    size_t node = 0;
    while (node < net->nodes && (net->kind[node] == 1 || has[node]))
        node++;
    return node;
}

/* The branch or sink at the cursor becomes the net's next node. */
static uint32_t take_node(const struct cursor *in, struct ref_net *net)
{
    const uint8_t *value = in->bytes + in->at + 3;
    bool sink = in->bytes[in->at] == 0x03;
    struct ref_net one = {.limits = net->limits};       /* judged alone: node 1,025 has no place */
    one.kind[0] = sink;
    one.wire[0] = number_at(value + 2, 4);
    one.pin[0] = sink ? number_at(value + 6, 4) : 0;
    one.polarity[0] = sink ? value[10] : 0;
    if (!node_good(&one, 0))
        return 3;
    if (net->nodes == REF_NODES)
        return 4;
    size_t node = net->nodes;
    net->parent[node] = (uint16_t)number_at(value, 2);
    net->wire[node] = one.wire[0];
    net->kind[node] = one.kind[0];
    net->pin[node] = one.pin[0];
    net->polarity[node] = one.polarity[0];
    if (!parent_good(net, node))
        return 4;
    net->nodes++;
    return 0;
}

static uint32_t take_limits(const struct cursor *in, struct ref_net *net)
{
    const uint8_t *value = in->bytes + in->at + 3;
    memset(net, 0, sizeof *net);
    net->limits = (struct ref_limits){number_at(value, 4), number_at(value + 4, 4), value[8]};
    net->nodes = 1;
    return limits_good(net->limits) ? 0 : 3;
}

struct ref_answer ref_read_net(const uint8_t *bytes, size_t length, struct ref_net *net)
{
    struct cursor in = {bytes, length, 0};
    uint32_t fault = field_fault(&in, "\x01");
    if (fault == 0)
        fault = take_limits(&in, net);
    while (fault == 0) {
        next_field(&in);
        fault = field_fault(&in, "\x02\x03\x7F");
        if (fault == 0 && bytes[in.at] == 0x7F)
            break;
        if (fault == 0)
            fault = take_node(&in, net);
    }
    if (fault != 0)
        return answer(fault, in.at);
    if (in.at + 3 < length)
        return answer(6, in.at + 3);
    if (childless(net) < net->nodes)
        return answer(5, childless(net));
    return answer(0, net->nodes);
}

static uint32_t take_entry(const struct cursor *in, struct ref_placement *placement, size_t entry)
{
    const uint8_t *value = in->bytes + in->at + 3;
    uint32_t wire = number_at(value, 2), offset = number_at(value + 2, 4);
    if (wire < 1 || wire > 1024 || offset > 10000000)
        return 3;
    placement->wire[entry] = (uint16_t)wire;
    placement->offset[entry] = offset;
    return 0;
}

struct ref_answer ref_read_placement(const uint8_t *bytes, size_t length,
                                     struct ref_placement *placement)
{
    struct cursor in = {bytes, length, 0};
    uint32_t fault = field_fault(&in, "\x11");
    if (fault == 0) {
        placement->entries = number_at(bytes + 3, 2);
        fault = placement->entries > REF_ENTRIES ? 3 : 0;
    }
    for (size_t entry = 0; fault == 0 && entry < placement->entries; entry++) {
        next_field(&in);
        fault = field_fault(&in, "\x12");
        if (fault == 0)
            fault = take_entry(&in, placement, entry);
    }
    if (fault == 0) {
        next_field(&in);
        fault = field_fault(&in, "\x7F");
    }
    if (fault != 0)
        return answer(fault, in.at);
    if (in.at + 3 < length)
        return answer(6, in.at + 3);
    return answer(0, placement->entries);
}

/* ------------------------------------------------------------ files written */

static uint8_t *put(uint8_t *to, uint32_t number, int size)
{
    for (int i = size; i > 0; i--)
        *to++ = (uint8_t)(number >> 8 * (i - 1));
    return to;
}

static uint8_t *put_header(uint8_t *to, uint8_t tag)
{
    return put(put(to, tag, 1), (uint32_t)length_of(tag), 2);
}

size_t ref_write_net(const struct ref_net *net, uint8_t *bytes)
{
    uint8_t *to = put_header(bytes, 0x01);
    to = put(put(to, net->limits.limit, 4), net->limits.pin, 4);
    to = put(to, net->limits.type, 1);
    for (size_t node = 1; node < net->nodes; node++) {
        to = put_header(to, net->kind[node] == 1 ? 0x03 : 0x02);
        to = put(put(to, net->parent[node], 2), net->wire[node], 4);
        if (net->kind[node] == 1)
            to = put(put(to, net->pin[node], 4), net->polarity[node], 1);
    }
    return (size_t)(put_header(to, 0x7F) - bytes);
}

size_t ref_write_placement(const struct ref_placement *placement, uint8_t *bytes)
{
    uint8_t *to = put(put_header(bytes, 0x11), (uint32_t)placement->entries, 2);
    for (size_t entry = 0; entry < placement->entries; entry++) {
        to = put_header(to, 0x12);
        to = put(put(to, placement->wire[entry], 2), placement->offset[entry], 4);
    }
    return (size_t)(put_header(to, 0x7F) - bytes);
}

/* ------------------------------------------------------------ columns judged */

struct ref_answer ref_judge_net(const struct ref_net *net)
{
    if (net->nodes < 1 || net->nodes > REF_NODES)
        return answer(7, 0);
    if (!limits_good(net->limits))
        return answer(3, 0);
    if (net->parent[0] || net->wire[0] || net->kind[0] || net->pin[0] || net->polarity[0])
        return answer(3, 0);
    for (size_t node = 1; node < net->nodes; node++) {
        if (!node_good(net, node))
            return answer(3, node);
        if (!parent_good(net, node))
            return answer(4, node);
    }
    if (childless(net) < net->nodes)
        return answer(5, childless(net));
    return answer(0, net->nodes);
}

struct ref_answer ref_judge(struct ref_limits limits,
                            const uint16_t *parent, size_t parents,
                            const uint32_t *wire, size_t wires,
                            const uint8_t *kind, size_t kinds,
                            const uint32_t *pin, size_t pins,
                            const uint8_t *polarity, size_t polarities)
{
    struct ref_net net = {.limits = limits, .nodes = parents};
    if (wires != parents || kinds != parents || pins != parents || polarities != parents)
        return answer(7, 0);
    if (parents < 1 || parents > REF_NODES)
        return answer(7, 0);
    memcpy(net.parent, parent, parents * sizeof *parent);
    memcpy(net.wire, wire, parents * sizeof *wire);
    memcpy(net.kind, kind, parents * sizeof *kind);
    memcpy(net.pin, pin, parents * sizeof *pin);
    memcpy(net.polarity, polarity, parents * sizeof *polarity);
    return ref_judge_net(&net);
}

/* ------------------------------------------------------------ the checker */

/* The question goes down from the source: a node asks each wire, a wire the node below it. */
struct check {
    const struct ref_net *net;
    const uint16_t *wire;
    const uint32_t *offset;
    size_t entries;
    uint64_t drives[2 * REF_ENTRIES];    /* given and added entries together may be so many */
    uint8_t parity[REF_NODES];           /* of the inverters from the source to a node */
};

static uint64_t handed_up(struct check *check, size_t wire);

static uint64_t load_below(struct check *check, size_t node)
{
    const struct ref_net *net = check->net;
    if (net->kind[node] == 1)
        return net->pin[node];
    uint64_t load = 0;
    for (size_t child = node + 1; child < net->nodes; child++)
        if (net->parent[child] == node)
            load += handed_up(check, child);
    return load;
}

static uint64_t handed_up(struct check *check, size_t wire)
{
    const struct ref_net *net = check->net;
    size_t first = 0, last;
    while (first < check->entries && check->wire[first] < wire)
        first++;
    for (last = first; last < check->entries && check->wire[last] == wire; )
        last++;
    check->parity[wire] = (check->parity[net->parent[wire]] + (last - first)) & 1;
    uint64_t load = load_below(check, wire);
    uint32_t from = 0;
    for (size_t entry = first; entry < last; entry++) {
        check->drives[entry] = check->offset[entry] - from + load;
        from = check->offset[entry];
        load = net->limits.pin;
    }
    return net->wire[wire] - from + load;
}

static bool misplaced(const struct check *check, size_t entry)
{
    size_t wire = check->wire[entry];
    if (wire < 1 || wire >= check->net->nodes || check->offset[entry] > check->net->wire[wire])
        return true;
    if (entry == 0 || wire > check->wire[entry - 1])
        return false;
    return wire < check->wire[entry - 1] || check->offset[entry] < check->offset[entry - 1];
}

static struct ref_answer judge_parity(const struct check *check)
{
    const struct ref_net *net = check->net;
    int first = -1;
    for (size_t node = 1; node < net->nodes && net->limits.type == 1; node++) {
        if (net->kind[node] == 0)
            continue;
        int here = check->parity[node] ^ net->polarity[node];
        if (first == -1)
            first = here;
        if (here != first)
            return answer(12, node);
    }
    return answer(0, check->entries);
}

/* 10; then the loads are in *check and the source's in *source. */
static struct ref_answer weigh_list(struct check *check, const struct ref_net *net,
                                    const uint16_t *wire, const uint32_t *offset, size_t entries,
                                    uint64_t *source)
{
    check->net = net;
    check->wire = wire;
    check->offset = offset;
    check->entries = entries;
    for (size_t entry = 0; entry < entries; entry++)
        if (misplaced(check, entry))
            return answer(10, entry);
    check->parity[0] = 0;
    *source = load_below(check, 0);
    return answer(0, entries);
}

/* The net's refusals and 7 before that. */
static struct ref_answer weigh(struct check *check, const struct ref_net *net,
                               const uint16_t *wire, size_t wires,
                               const uint32_t *offset, size_t offsets, uint64_t *source)
{
    struct ref_answer judged = ref_judge_net(net);
    if (judged.number != 0)
        return judged;
    if (wires != offsets || wires > REF_ENTRIES)
        return answer(7, 0);
    return weigh_list(check, net, wire, offset, wires, source);
}

/* 11, then 12. */
static struct ref_answer judge_loads(const struct check *check, uint64_t source)
{
    uint32_t limit = check->net->limits.limit;
    for (size_t entry = 0; entry < check->entries; entry++)
        if (check->drives[entry] > limit)
            return answer(11, entry);
    return source > limit ? answer(11, check->entries) : judge_parity(check);
}

static struct ref_answer check_or_list(bool listing, const struct ref_net *net,
                                       const uint16_t *wire, size_t wires,
                                       const uint32_t *offset, size_t offsets,
                                       uint64_t *drives, uint64_t *source)
{
    static struct check check;
    uint64_t load = 0;
    struct ref_answer result = weigh(&check, net, wire, wires, offset, offsets, &load);
    if (result.number == 0 && !listing)
        result = judge_loads(&check, load);
    if (result.number == 0 && drives != NULL)
        memcpy(drives, check.drives, wires * sizeof *drives);
    if (result.number == 0 && source != NULL)
        *source = load;
    return result;
}

struct ref_answer ref_check(const struct ref_net *net,
                            const uint16_t *wire, size_t wires,
                            const uint32_t *offset, size_t offsets,
                            uint64_t *drives, uint64_t *source)
{
    return check_or_list(false, net, wire, wires, offset, offsets, drives, source);
}

struct ref_answer ref_list_drives(const struct ref_net *net,
                                  const uint16_t *wire, size_t wires,
                                  const uint32_t *offset, size_t offsets,
                                  uint64_t *drives, uint64_t *source)
{
    return check_or_list(true, net, wire, wires, offset, offsets, drives, source);
}

uint32_t ref_check_files(const uint8_t *net, size_t net_length,
                         const uint8_t *placement, size_t placement_length)
{
    static struct ref_net n;
    static struct ref_placement p;
    struct ref_answer read = ref_read_net(net, net_length, &n);
    if (read.number == 0)
        read = ref_read_placement(placement, placement_length, &p);
    if (read.number == 0)
        read = ref_check(&n, p.wire, p.entries, p.offset, p.entries, NULL, NULL);
    return read.number;
}

/* ------------------------------------------------------------ the carry */

struct ref_answer ref_eases(const struct ref_net *first, const struct ref_net *second)
{
    struct ref_limits a = first->limits, b = second->limits;
    if (b.limit < a.limit || b.pin > a.pin || b.type != a.type || first->nodes != second->nodes)
        return answer(13, 0);
    for (size_t node = 0; node < first->nodes; node++) {
        bool same = first->parent[node] == second->parent[node]
                 && first->kind[node] == second->kind[node]
                 && first->polarity[node] == second->polarity[node];
        bool lower = second->wire[node] <= first->wire[node]
                  && second->pin[node] <= first->pin[node];
        if (!same || !lower)
            return answer(13, node);
    }
    return answer(0, 0);
}

struct ref_answer ref_carry(const struct ref_net *first, const struct ref_net *second,
                            struct ref_placement *placement, int *refused_net)
{
    *refused_net = 1;
    struct ref_answer result = ref_judge_net(first);
    if (result.number != 0)
        return result;
    *refused_net = 2;
    result = ref_judge_net(second);
    if (result.number != 0)
        return result;
    *refused_net = 0;
    result = ref_eases(first, second);
    if (result.number == 0)
        result = ref_check(first, placement->wire, placement->entries,
                           placement->offset, placement->entries, NULL, NULL);
    for (size_t entry = 0; result.number == 0 && entry < placement->entries; entry++)
        if (placement->offset[entry] > second->wire[placement->wire[entry]])
            placement->offset[entry] = second->wire[placement->wire[entry]];
    return result;
}

/* ------------------------------------------------------------ the least count, exhaustively

   Every placement is tried that has at most enough() = 2 + ceil(w / D) entries on a wire of
   size w, D = C_U - C_b. That is enough: put entries at o1, o1 + D, o1 + 2D .. and at w instead
   of those a legal placement has on a wire, o1 being its lowest; each drives at most C_U, the
   wire hands up C_b, the least that a wire with entries can, and one more at w sets the parity.
   So a wire that holds more need not, and if none within the bounds is legal none is.

   Wires are settled from the last to the first, so that all below a wire is known when it is
   its turn. What is left out, and why nothing is lost by it:
   - a stage or a node's load over C_U: no choice still open makes it less (all that lies below
     a node hangs on one driver);
   - two sinks below one node in disagreement: all choices still open lie above both;
   - as many entries as the best placement found so far;
   - a second arrangement of a wire's entries with the same number and the same topmost offset:
     all that is still open sees no difference. */

struct search {
    const struct ref_net *net;
    uint64_t below[REF_NODES];
    int parity[REF_NODES];               /* of the sinks below, -1 before the first of them */
    int64_t count, best;                 /* best: REF_NONE before the first */
};

static void settle_wire(struct search *search, size_t wire);

static int64_t enough(const struct ref_net *net, size_t wire)
{
    uint32_t between = net->limits.limit - net->limits.pin;
    return 2 + (net->wire[wire] + (int64_t)between - 1) / between;
}

/* The wire holds `entries` and hands up `load`: go on with the next wire. */
static void hand_up(struct search *search, size_t wire, uint64_t load, int64_t entries)
{
    const struct ref_net *net = search->net;
    size_t parent = net->parent[wire];
    int parity = net->limits.type == 1 ? (int)((search->parity[wire] + entries) % 2) : 0;
    int before = search->parity[parent];
    if (search->below[parent] + load > net->limits.limit)
        return;
    if (before != -1 && before != parity)
        return;
    search->below[parent] += load;
    search->parity[parent] = parity;
    settle_wire(search, wire - 1);
    search->parity[parent] = before;
    search->below[parent] -= load;
}

struct wire_search {
    size_t wire;
    int64_t entries;                     /* on this wire so far */
    bool seen[REF_SMALL_WIRE + 3][REF_SMALL_WIRE + 1];          /* [entries][topmost offset] */
};

/* One more entry on the wire, anywhere from `low` up; `load` lies below `low`. */
static void add_entry(struct search *search, struct wire_search *on, uint32_t low, uint64_t load)
{
    const struct ref_net *net = search->net;
    uint32_t size = net->wire[on->wire];
    if (on->entries == enough(net, on->wire))
        return;
    on->entries++;
    search->count++;
    for (uint32_t offset = low; offset <= size; offset++) {
        if (search->best != REF_NONE && search->count >= search->best)
            break;
        if (offset - low + load > net->limits.limit || on->seen[on->entries][offset])
            continue;
        on->seen[on->entries][offset] = true;
        hand_up(search, on->wire, size - offset + (uint64_t)net->limits.pin, on->entries);
        add_entry(search, on, offset, net->limits.pin);
    }
    search->count--;
    on->entries--;
}

static void settle_wire(struct search *search, size_t wire)
{
    if (search->best != REF_NONE && search->count >= search->best)
        return;
    if (wire == 0) {
        search->best = search->count;
        return;
    }
    struct wire_search on = {.wire = wire};
    uint64_t load = search->below[wire];
    hand_up(search, wire, search->net->wire[wire] + load, 0);
    add_entry(search, &on, 0, load);
}

int64_t ref_least_exhaustive(const struct ref_net *net)
{
    static struct search search;
    search.net = net;
    search.count = 0;
    search.best = REF_NONE;
    for (size_t node = 0; node < net->nodes; node++) {
        assert(net->wire[node] <= REF_SMALL_WIRE);
        search.below[node] = net->pin[node];
        search.parity[node] = net->kind[node] == 1 ? net->polarity[node] : -1;
    }
    settle_wire(&search, net->nodes - 1);
    return search.best;
}

/* ------------------------------------------------------------ the least count, by full frontiers

   For each point of the tree and each polarity all pairs (count, load) are kept that no other
   pair beats in both; no count is left out for being far from the least. (Polarity 0: inverters
   on the way to a sink below, plus its polarity, are even. Type 0 has polarity 0 alone.)
   On a wire, for each number of entries the one arrangement is tried in which each entry stands
   as high as its stage allows: pushing an entry up takes load from every stage above it, and
   the least is handed up when the topmost stands highest. Numbers are tried until the topmost
   stands at the wire's upper end, and one more for the other parity; more hand up no less. */

struct pair {
    int64_t count;
    uint64_t load;
    size_t from;        /* on a wire: the pair at its lower node; at a node: the pair before */
    size_t wire;        /* on a wire: its number, and how many entries stand on it */
    int64_t entries;
    size_t child;       /* at a node: the pair of the child wire just joined */
    uint32_t low, size; /* finishing, on a piece of a wire: where it begins, how long it is, */
    uint64_t below;     /* and what lies below it */
};

struct run { size_t first, size; };                   /* pairs next to each other in the store */

struct store { struct pair *pair; size_t size, room; };

static void keep(struct store *store, struct pair pair)
{
    if (store->size == store->room) {
        store->room = 2 * store->room + 256;
        store->pair = realloc(store->pair, store->room * sizeof *store->pair);
        assert(store->pair != NULL);
    }
    store->pair[store->size++] = pair;
}

static int by_count(const void *one, const void *other)
{
    const struct pair *a = one, *b = other;
    if (a->count != b->count)
        return a->count < b->count ? -1 : 1;
    return (a->load > b->load) - (a->load < b->load);
}

/* All pairs from `first` on: those over the limit and the beaten ones go. */
static struct run thin(struct store *store, size_t first, uint64_t limit)
{
    size_t kept = first;
    qsort(store->pair + first, store->size - first, sizeof *store->pair, by_count);
    for (size_t i = first; i < store->size; i++) {
        struct pair pair = store->pair[i];
        if (pair.load <= limit && (kept == first || pair.load < store->pair[kept - 1].load))
            store->pair[kept++] = pair;
    }
    store->size = kept;
    return (struct run){first, kept - first};
}

static uint32_t at_most(uint64_t a, uint32_t size)
{
    return a < size ? (uint32_t)a : size;
}

/* From one pair at the lower node: all numbers of entries whose parity is `parity`
   (type 0: all numbers). */
static void along_wire(struct store *store, const struct ref_net *net, size_t wire, size_t from,
                       int parity)
{
    uint64_t size = net->wire[wire], limit = net->limits.limit, pin = net->limits.pin;
    struct pair below = store->pair[from];
    struct pair pair = {.from = from, .wire = wire, .count = below.count};
    bool every = net->limits.type == 0;
    uint32_t top = at_most(limit - below.load, net->wire[wire]);
    pair.load = size + below.load;
    if (every || parity == 0)
        keep(store, pair);
    for (bool done = false; !done; top = at_most(top + limit - pin, net->wire[wire])) {
        pair.entries++;
        pair.count++;
        pair.load = size - top + pin;
        bool fits = every || pair.entries % 2 == parity;
        if (fits && pair.load <= limit)
            keep(store, pair);
        done = top == size && fits;
    }
}

static struct run over_wire(struct store *store, const struct ref_net *net, size_t wire,
                            const struct run below[2], int polarity)
{
    size_t first = store->size;
    for (int q = 0; q < 2; q++)
        for (size_t i = 0; i < below[q].size; i++)
            along_wire(store, net, wire, below[q].first + i, q ^ polarity);
    return thin(store, first, net->limits.limit);
}

static struct run join(struct store *store, uint64_t limit, struct run one, struct run other)
{
    size_t first = store->size;
    for (size_t i = 0; i < one.size; i++) {
        for (size_t j = 0; j < other.size; j++) {
            struct pair a = store->pair[one.first + i], b = store->pair[other.first + j];
            keep(store, (struct pair){.count = a.count + b.count, .load = a.load + b.load,
                                      .from = one.first + i, .child = other.first + j});
        }
    }
    return thin(store, first, limit);
}

/* Which entries a pair at a node stands for: number and lowest offset, for each wire. */
struct chosen { int64_t entries[REF_NODES]; uint64_t below[REF_NODES]; };

static void follow(const struct store *store, const struct ref_net *net, size_t at,
                   struct chosen *chosen)
{
    for (; store->pair[at].child != 0; at = store->pair[at].from) {
        const struct pair *top = &store->pair[store->pair[at].child];
        chosen->entries[top->wire] = top->entries;
        chosen->below[top->wire] = store->pair[top->from].load;
        follow(store, net, top->from, chosen);
    }
}

static void write_out(const struct ref_net *net, const struct chosen *chosen,
                      struct ref_placement *placement)
{
    placement->entries = 0;
    for (size_t wire = 1; wire < net->nodes; wire++) {
        uint64_t load = chosen->below[wire];
        uint32_t top = 0;
        for (int64_t i = 0; i < chosen->entries[wire]; i++) {
            top = at_most(top + net->limits.limit - load, net->wire[wire]);
            placement->wire[placement->entries] = (uint16_t)wire;
            placement->offset[placement->entries++] = top;
            load = net->limits.pin;
        }
    }
}

/* The pair of least count at the source, or 0. Pair 0 of the store means no pair. */
static size_t best_at_source(struct store *store, const struct ref_net *net)
{
    static struct run at[REF_NODES][2];
    keep(store, (struct pair){0});
    for (size_t node = 0; node < net->nodes; node++) {
        for (int p = 0; p < 2; p++) {
            bool sink = net->kind[node] == 1;
            bool open = sink ? p == net->polarity[node] : p <= net->limits.type;
            bool fits = net->pin[node] <= net->limits.limit;
            at[node][p] = (struct run){store->size, open && fits};
            if (open && fits)
                keep(store, (struct pair){.load = net->pin[node]});
        }
    }
    for (size_t wire = net->nodes - 1; wire > 0; wire--) {
        size_t up = net->parent[wire];
        for (int p = 0; p <= net->limits.type; p++) {
            struct run top = over_wire(store, net, wire, at[wire], p);
            at[up][p] = join(store, net->limits.limit, at[up][p], top);
        }
    }
    size_t best = 0;
    for (int p = 0; p < 2; p++)
        if (at[0][p].size > 0
            && (best == 0 || store->pair[at[0][p].first].count < store->pair[best].count))
            best = at[0][p].first;
    return best;
}

int64_t ref_least_frontier(const struct ref_net *net, struct ref_placement *placement)
{
    static struct store store;
    static struct chosen chosen;
    store.size = 0;
    size_t best = best_at_source(&store, net);
    if (best == 0)
        return REF_NONE;
    int64_t least = store.pair[best].count;
    if (placement != NULL && least <= REF_ENTRIES) {
        memset(&chosen, 0, sizeof chosen);
        follow(&store, net, best, &chosen);
        write_out(net, &chosen, placement);
    }
    return least;
}

/* ------------------------------------------------------------ finishing: is a whole legal?

   Given and added entries together, in list order. Equal ones are equal values: which of them was
   given cannot be seen. */

static bool goes_first(const struct ref_placement *one, size_t i,
                       const struct ref_placement *other, size_t j)
{
    if (i == one->entries || j == other->entries)
        return j == other->entries;
    if (one->wire[i] != other->wire[j])
        return one->wire[i] < other->wire[j];
    return one->offset[i] <= other->offset[j];
}

bool ref_completes(const struct ref_net *net, const struct ref_placement *given,
                   const struct ref_placement *added)
{
    static uint16_t wire[2 * REF_ENTRIES];
    static uint32_t offset[2 * REF_ENTRIES];
    static struct check check;
    size_t entries = given->entries + added->entries, g = 0, a = 0;
    uint64_t source = 0;
    while (g + a < entries) {
        bool first = goes_first(given, g, added, a);
        wire[g + a] = first ? given->wire[g] : added->wire[a];
        offset[g + a] = first ? given->offset[g] : added->offset[a];
        *(first ? &g : &a) += 1;
    }
    struct ref_answer weighed = weigh_list(&check, net, wire, offset, entries, &source);
    return weighed.number == 0 && judge_loads(&check, source).number == 0;
}

/* ------------------------------------------------------------ the fewest added, exhaustively

   Every list of added entries is tried that has at most enough_added() = 1 + ceil(w / D) of them
   on a wire of size w, D = C_U - C_b. That is enough: take a legal whole that holds the given
   entries, and a wire on which it has entries, the lowest of them all at o1. Leave the given ones
   where they are, and instead of the added ones put some at o1, o1 + D, o1 + 2D .. below w, and
   one at w. No given one stands below o1, so the lowest drives what it drove; every other one,
   given or added, has one within D below it and drives at most C_U; the wire hands up C_b, the
   least that a wire with entries can. So a wire to which more are added need not have more, and
   if nothing within the bounds completes the given entries nothing does.

   Wires are settled from the last to the first, as above. What is left out, and why nothing is
   lost by it:
   - a stage or a node's load over C_U: no choice still open makes it less;
   - as many added entries as the best completion found so far;
   - a second arrangement of a wire's added entries with the same number and the same topmost
     offset: the given ones up to there are passed, and all that is still open sees no difference;
   - an added entry below a given one at the same offset: it is the same list. */

struct adding {
    const struct ref_net *net;
    const struct ref_placement *given;
    size_t first[REF_NODES + 1];         /* a wire's given entries begin here, before the next's */
    uint64_t below[REF_NODES];
    int64_t count, best;                 /* of added ones; best: REF_NONE before the first */
};

static void begin_adding(struct adding *adding, const struct ref_net *net,
                         const struct ref_placement *given)
{
    adding->net = net;
    adding->given = given;
    for (size_t wire = 0, entry = 0; wire <= net->nodes; wire++) {
        while (entry < given->entries && given->wire[entry] < wire)
            entry++;
        adding->first[wire] = entry;
    }
}

/* A place on a wire: the load below it down to `low`, and the next given entry. */
struct point { uint32_t low; uint64_t load; size_t next; };

/* Past the given entries up to `high`; false where one of them drives too much. */
static bool pass_given(const struct adding *adding, size_t wire, uint32_t high, struct point *at)
{
    const struct ref_limits limits = adding->net->limits;
    const uint32_t *offset = adding->given->offset;
    for (; at->next < adding->first[wire + 1] && offset[at->next] <= high; at->next++) {
        if (offset[at->next] - at->low + at->load > limits.limit)
            return false;
        at->low = offset[at->next];
        at->load = limits.pin;
    }
    return true;
}

static void complete_wire(struct adding *adding, size_t wire);

static int64_t enough_added(const struct ref_net *net, size_t wire)
{
    uint32_t between = net->limits.limit - net->limits.pin;
    return 1 + (net->wire[wire] + (int64_t)between - 1) / between;
}

/* Nothing more is added on the wire: go on with the next one. */
static void leave_wire(struct adding *adding, size_t wire, struct point at)
{
    const struct ref_net *net = adding->net;
    size_t parent = net->parent[wire];
    if (!pass_given(adding, wire, net->wire[wire], &at))
        return;
    uint64_t load = net->wire[wire] - at.low + at.load;
    if (adding->below[parent] + load > net->limits.limit)
        return;
    adding->below[parent] += load;
    complete_wire(adding, wire - 1);
    adding->below[parent] -= load;
}

struct wire_adding {
    size_t wire;
    int64_t added;                       /* on this wire so far */
    bool seen[REF_SMALL_WIRE + 2][REF_SMALL_WIRE + 1];          /* [added][topmost offset] */
};

/* One more is added on the wire, anywhere from the point up. */
static void add_one(struct adding *adding, struct wire_adding *on, struct point from)
{
    const struct ref_net *net = adding->net;
    if (on->added == enough_added(net, on->wire))
        return;
    on->added++;
    adding->count++;
    for (uint32_t offset = from.low; offset <= net->wire[on->wire]; offset++) {
        struct point at = from;
        if (adding->best != REF_NONE && adding->count >= adding->best)
            break;
        if (!pass_given(adding, on->wire, offset, &at))
            break;
        if (offset - at.low + at.load > net->limits.limit || on->seen[on->added][offset])
            continue;
        on->seen[on->added][offset] = true;
        at.low = offset;
        at.load = net->limits.pin;
        leave_wire(adding, on->wire, at);
        add_one(adding, on, at);
    }
    adding->count--;
    on->added--;
}

static void complete_wire(struct adding *adding, size_t wire)
{
    if (adding->best != REF_NONE && adding->count >= adding->best)
        return;
    if (wire == 0) {
        adding->best = adding->count;
        return;
    }
    struct wire_adding on = {.wire = wire};
    struct point node = {0, adding->below[wire], adding->first[wire]};
    leave_wire(adding, wire, node);
    add_one(adding, &on, node);
}

int64_t ref_least_added_exhaustive(const struct ref_net *net, const struct ref_placement *given)
{
    static struct adding adding;
    begin_adding(&adding, net, given);
    adding.count = 0;
    adding.best = REF_NONE;
    for (size_t node = 0; node < net->nodes; node++) {
        assert(net->wire[node] <= REF_SMALL_WIRE);
        adding.below[node] = net->pin[node];
    }
    complete_wire(&adding, net->nodes - 1);
    return adding.best;
}

/* ------------------------------------------------------------ the fewest added, by full frontiers

   All pairs (added, load) that no other beats in both, as above, at one polarity; a wire is
   climbed from one given entry to the next. A given entry drives whatever pair lies below it, if
   that is within C_U, and hands up C_b. */

/* On one piece of a wire: every number of entries, each as high as its stage allows. */
static void along_piece(struct store *store, struct ref_limits limits, struct pair piece)
{
    uint32_t top = at_most(limits.limit - piece.below, piece.size);
    piece.load = piece.size + piece.below;
    keep(store, piece);
    for (bool done = false; !done; top = at_most((uint64_t)top + limits.limit - limits.pin,
                                                 piece.size)) {
        piece.entries++;
        piece.count++;
        piece.load = piece.size - top + (uint64_t)limits.pin;
        if (piece.load <= limits.limit)
            keep(store, piece);
        done = top == piece.size;
    }
}

static struct run over_pieces(struct store *store, const struct adding *adding, size_t wire,
                              struct run at)
{
    const struct ref_limits limits = adding->net->limits;
    struct pair piece = {.wire = wire};
    for (size_t next = adding->first[wire]; ; next++) {
        bool lowest = next == adding->first[wire], topmost = next == adding->first[wire + 1];
        uint32_t high = topmost ? adding->net->wire[wire] : adding->given->offset[next];
        size_t first = store->size;
        piece.size = high - piece.low;
        for (size_t i = 0; i < at.size; i++) {
            piece.from = at.first + i;
            piece.count = store->pair[piece.from].count;
            piece.below = lowest ? store->pair[piece.from].load : limits.pin;
            along_piece(store, limits, piece);
        }
        at = thin(store, first, limits.limit);
        if (topmost)
            return at;
        piece.low = high;
    }
}

static void insert(struct ref_placement *to, size_t wire, uint32_t offset)
{
    size_t at = to->entries++;
    for (; at > 0 && (to->wire[at - 1] > wire
                      || (to->wire[at - 1] == wire && to->offset[at - 1] > offset)); at--) {
        to->wire[at] = to->wire[at - 1];
        to->offset[at] = to->offset[at - 1];
    }
    to->wire[at] = (uint16_t)wire;
    to->offset[at] = offset;
}

/* The entries that a pair at a node stands for. */
static void list_added(const struct store *store, struct ref_limits limits, size_t at,
                       struct ref_placement *added)
{
    for (; store->pair[at].child != 0; at = store->pair[at].from) {
        size_t down = store->pair[at].child;
        for (; store->pair[down].wire != 0; down = store->pair[down].from) {
            const struct pair *piece = &store->pair[down];
            uint64_t load = piece->below;
            uint32_t top = 0;
            for (int64_t i = 0; i < piece->entries; i++) {
                top = at_most(top + limits.limit - load, piece->size);
                insert(added, piece->wire, piece->low + top);
                load = limits.pin;
            }
        }
        list_added(store, limits, down, added);
    }
}

int64_t ref_least_added(const struct ref_net *net, const struct ref_placement *given,
                        struct ref_placement *added)
{
    static struct store store;
    static struct run at[REF_NODES];
    static struct adding adding;
    uint64_t limit = net->limits.limit;
    begin_adding(&adding, net, given);
    store.size = 0;
    keep(&store, (struct pair){0});      /* pair 0 means no pair */
    for (size_t node = 0; node < net->nodes; node++) {
        at[node] = (struct run){store.size, net->pin[node] <= limit};
        keep(&store, (struct pair){.load = net->pin[node]});
    }
    for (size_t wire = net->nodes - 1; wire > 0; wire--) {
        size_t up = net->parent[wire];
        at[up] = join(&store, limit, at[up], over_pieces(&store, &adding, wire, at[wire]));
    }
    if (at[0].size == 0)
        return REF_NONE;
    int64_t least = store.pair[at[0].first].count;
    if (added != NULL && least <= REF_ENTRIES) {
        added->entries = 0;
        list_added(&store, net->limits, at[0].first, added);
    }
    return least;
}

/* ------------------------------------------------------------ finishing, the whole call */

struct ref_answer ref_finish(const struct ref_net *net,
                             const uint16_t *wire, size_t wires,
                             const uint32_t *offset, size_t offsets,
                             size_t room, struct ref_placement *added)
{
    static struct ref_placement given;
    struct ref_answer judged = ref_judge_net(net);
    if (judged.number == 0 && net->limits.type == 1)
        judged = answer(3, 0);
    if (judged.number == 0)              /* 7 and 10 */
        judged = ref_list_drives(net, wire, wires, offset, offsets, NULL, NULL);
    if (judged.number != 0)
        return judged;
    given.entries = wires;
    memcpy(given.wire, wire, wires * sizeof *wire);
    memcpy(given.offset, offset, wires * sizeof *offset);
    int64_t least = ref_least_added(net, &given, added);
    if (least == REF_NONE)
        return answer(8, 0);
    if (least > REF_ENTRIES || (uint64_t)least > room)
        return answer(9, (uint64_t)least);
    return answer(0, (uint64_t)least);
}
