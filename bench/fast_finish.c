/* Finishing in one pass from the last wire to the first, beside the given entries from the last
   to the first: to what lies above it a given buffer is a sink of pin C_b. Each piece of wire
   takes as few buffers as serve, each as high as its load allows, and a node still over C_U gets
   one atop its heaviest wires. A second pass, over the wires that got any, writes them. A net
   without given entries is solved by the same passes. */
#include "fast.h"

#include <string.h>

/* What a wire gets: buffers as high as they may be; one at its upper end. BESIDE: it has given
   ones, too, and the lowest stands in `first`, where node i's list has served its turn. */
enum { SPACED = 1, TOPPED = 2, BESIDE = 4 };

struct given { const uint16_t *wire; const uint32_t *offset; size_t entries; };

struct pass {
    const struct columns *net;
    struct given given;
    uint32_t limit, pin, span;
    uint64_t added;
    uint32_t below[PLACES], top[PLACES];   /* the load below a node; what a wire hands up */
    uint16_t first[PLACES], next[PLACES];  /* a node's wires, a list */
    uint8_t marks[PLACES + 7];             /* for each wire; read eight at once */
};

/* The first entry on no wire, past its wire or out of order; their number for none. */
static size_t first_misplaced(const struct columns *net, struct given given)
{
    uint64_t before = 0;
    for (size_t entry = 0; entry < given.entries; entry++) {
        size_t wire = given.wire[entry];
        uint64_t here = (uint64_t)wire << 32 | given.offset[entry];
        if (wire - 1 >= net->places - 1 || given.offset[entry] > net->wire[wire] || here < before)
            return entry;
        before = here;
    }
    return given.entries;
}

/* How many buffers a piece takes whose wire and lower end weigh `load`, over C_U. */
static inline uint32_t taken(const struct pass *pass, uint32_t load)
{
    return (load - pass->limit + pass->span - 1) / pass->span;
}

/* Buffers atop an overloaded node's heaviest wires until it is within C_U or nothing helps. */
static bool relieve(struct pass *pass, size_t node)
{
    uint32_t load = pass->below[node];
    while (load > pass->limit) {
        size_t heaviest = 0;
        uint32_t most = pass->pin;
        for (size_t wire = pass->first[node]; wire != 0; wire = pass->next[wire])
            if (pass->top[wire] > most) {
                most = pass->top[wire];
                heaviest = wire;
            }
        if (heaviest == 0)
            return false;
        load -= most - pass->pin;
        pass->top[heaviest] = pass->pin;
        pass->marks[heaviest] |= TOPPED;
        pass->added++;
    }
    pass->below[node] = load;
    return true;
}

/* The pieces below wire i's given entries, of which `entry` is the topmost; *count grows by what
   they take. Answers the lowest one, which is also how many entries lie before it. */
static size_t settle_given(struct pass *pass, size_t i, size_t entry, uint32_t *count)
{
    const uint32_t *offset = pass->given.offset;
    for (; entry > 0 && pass->given.wire[entry - 1] == i; entry--) {
        uint32_t load = offset[entry] - offset[entry - 1] + pass->pin;
        if (load > pass->limit)
            *count += taken(pass, load);
    }
    uint32_t load = offset[entry] + pass->below[i];
    if (load > pass->limit)
        *count += taken(pass, load);
    pass->first[i] = (uint16_t)entry;
    return entry;
}

/* All wires from the last to the first. False where a node cannot be brought within C_U. */
static bool ascend(struct pass *pass)
{
    const uint16_t *parent = pass->net->parent;
    const uint32_t *size = pass->net->wire;
    const uint32_t limit = pass->limit;
    size_t left = pass->given.entries, led = left > 0 ? pass->given.wire[left - 1] : 0;
    for (size_t i = pass->net->places - 1;; i--) {
        if (pass->below[i] > limit && !relieve(pass, i))
            return false;
        if (i == 0)
            return true;
        uint32_t whole = size[i] + pass->below[i], count = 0;
        uint8_t beside = 0;
        if (i == led) {
            whole = size[i] - pass->given.offset[left - 1] + pass->pin;
            left = settle_given(pass, i, left - 1, &count);
            led = left > 0 ? pass->given.wire[left - 1] : 0;
            beside = BESIDE;
        }
        if (whole > limit) {
            uint32_t more = taken(pass, whole);
            whole -= more * pass->span;
            count += more;
        }
        if (count != 0) {
            pass->added += count;
            pass->marks[i] = SPACED | beside;
        }
        size_t up = parent[i];
        pass->top[i] = whole;
        pass->next[i] = pass->first[up];
        pass->first[up] = (uint16_t)i;
        pass->below[up] += whole;
    }
}

struct lent { uint16_t *wire; uint32_t *offset; size_t at; };

/* The buffers of a piece from `low`, where `load` lies below, to `high`. */
static void write_piece(const struct pass *pass, struct lent *to, size_t i, uint32_t low,
                        uint32_t load, uint32_t high)
{
    for (uint32_t offset = low + pass->limit - load; offset < high; offset += pass->span) {
        to->wire[to->at] = (uint16_t)i;
        to->offset[to->at++] = offset;
    }
}

static void write_wire(const struct pass *pass, struct lent *to, size_t i)
{
    const struct given *given = &pass->given;
    uint32_t low = 0, load = pass->below[i], size = pass->net->wire[i];
    if (pass->marks[i] & BESIDE)
        for (size_t e = pass->first[i]; e < given->entries && given->wire[e] == i; e++) {
            write_piece(pass, to, i, low, load, given->offset[e]);
            low = given->offset[e];
            load = pass->pin;
        }
    if (pass->marks[i] & SPACED)
        write_piece(pass, to, i, low, load, size);
    if (pass->marks[i] & TOPPED) {
        to->wire[to->at] = (uint16_t)i;
        to->offset[to->at++] = size;
    }
}

static void write_out(const struct pass *pass, struct lent to)
{
    for (size_t i = 0; to.at < pass->added; i += 8) {
        uint64_t eight;
        memcpy(&eight, pass->marks + i, sizeof eight);
        for (size_t wire = i; eight != 0 && wire < i + 8; wire++)
            if (pass->marks[wire] != 0)
                write_wire(pass, &to, wire);
    }
}

/* Of a net that is judged, and given entries that stand. */
static struct answer add(const struct limits *limits, const struct columns *net,
                         struct given given, struct lent to, size_t room)
{
    struct pass pass;
    pass.net = net;
    pass.given = given;
    pass.limit = limits->limit;
    pass.pin = limits->pin;
    pass.span = limits->limit - limits->pin;
    pass.added = 0;
    memcpy(pass.below, net->pin, net->places * sizeof *net->pin);
    memset(pass.first, 0, net->places * sizeof *pass.first);
    memset(pass.marks, 0, net->places + 7);
    if (!ascend(&pass))
        return (struct answer){8, 0};
    if (pass.added > room || pass.added > ENTRIES)
        return (struct answer){9, pass.added};
    write_out(&pass, to);
    return (struct answer){0, pass.added};
}

struct answer fast_finish(const struct limits *limits, const struct columns *net,
                          const uint16_t *given, const uint32_t *given_offset, size_t givens,
                          uint16_t *wire, uint32_t *offset, size_t room)
{
    uint16_t children[PLACES];
    struct given kept = {given, given_offset, givens};
    struct answer judged = fast_judge(limits, net, children);
    if (judged.number != 0)
        return judged;
    if (limits->type != 0)
        return (struct answer){3, 0};
    if (givens > ENTRIES)
        return (struct answer){7, 0};
    size_t misplaced = first_misplaced(net, kept);
    if (misplaced < givens)
        return (struct answer){10, misplaced};
    return add(limits, net, kept, (struct lent){wire, offset, 0}, room);
}

struct answer fast_solve_buffers(const struct limits *limits, const struct columns *net,
                                 uint16_t *wire, uint32_t *offset, size_t room)
{
    return add(limits, net, (struct given){NULL, NULL, 0}, (struct lent){wire, offset, 0}, room);
}
