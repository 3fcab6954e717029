/* The fast C in this folder against the tests' reference, on random nets, placements and files,
   whole and torn, from a fixed seed.

     compare_fast [NETS]                three times 20,000 and 2,200 larger ones unless said */
#include "../tests/fence.h"
#include "../tests/random_nets.h"
#include "fast.h"
#include "fig4.h"
#include "paper_nets.h"

#include <inttypes.h>
#include <stdio.h>
#include <stdlib.h>

static struct columns columns_of(struct ref_net *net)
{
    return (struct columns){net->nodes, net->parent, net->wire, net->kind, net->pin,
                            net->polarity};
}

static struct limits limits_of(const struct ref_net *net)
{
    return (struct limits){net->limits.limit, net->limits.pin, net->limits.type};
}

static void fail(const char *call, const struct ref_net *net)
{
    static uint8_t bytes[REF_NET_BYTES];
    size_t length = ref_write_net(net, bytes);
    printf("%s differs, net file ", call);
    for (size_t i = 0; i < length; i++)
        printf("%02x", bytes[i]);
    printf("\n");
    exit(1);
}

static void try_solver(struct ref_net *net)
{
    static struct ref_placement found;
    struct limits limits = limits_of(net);
    struct columns columns = columns_of(net);
    int64_t least = ref_least_frontier(net, NULL);
    memset(&found, 0xA5, sizeof found);                  /* no answer of the net before */
    struct answer answer = fast_solve(&limits, &columns, found.wire, found.offset, REF_ENTRIES);
    if (least == REF_NONE ? answer.number != 8 || answer.place != 0
                          : answer.place != (uint64_t)least)
        fail("solver's count", net);
    if (least != REF_NONE && answer.number != (least > REF_ENTRIES ? 9u : 0u))
        fail("solver's number", net);
    if (answer.number == 9 && fast_solve(&limits, &columns, NULL, NULL, SIZE_MAX).number != 9)
        fail("solver's number with room", net);
    found.entries = (size_t)answer.place;
    if (answer.number == 0 && !is_legal(net, &found))
        fail("solver's placement", net);
    if (answer.number == 0 && least > 0
        && fast_solve(&limits, &columns, NULL, NULL, (size_t)least - 1).number != 9)
        fail("solver's room", net);
}

/* One label a polarity gives a legal placement's count: never below the least. */
static void try_one_label(struct ref_net *net, long *worse)
{
    struct limits limits = limits_of(net);
    struct columns columns = columns_of(net);
    int64_t least = ref_least_frontier(net, NULL);
    if (limits.type == 0)
        return;
    uint64_t count = one_label_count(&limits, &columns);
    if (count < (uint64_t)least)
        fail("one label", net);
    *worse += count > (uint64_t)least;
}

static void try_checker(struct ref_net *net, const struct ref_placement *p)
{
    struct limits limits = limits_of(net);
    struct columns columns = columns_of(net);
    uint64_t source = 7, right = 7;
    struct ref_answer want =
        ref_check(net, p->wire, p->entries, p->offset, p->entries, NULL, &right);
    struct answer have = fast_check(&limits, &columns, p->wire, p->offset, p->entries, &source);
    if (have.number != want.number || have.place != want.place || source != right)
        fail("checker", net);
}

static void try_placements(struct chance *chance, struct ref_net *net, long *seen)
{
    static struct ref_placement p;
    random_entries(chance, net, &p, chance_upto(chance, 6));
    try_checker(net, &p);
    if (!random_legal(chance, net, &p))
        return;
    try_checker(net, &p);
    perturb(chance, &p);
    try_checker(net, &p);
    *seen += 1;
}

static void same_columns(const struct ref_net *want, const struct ref_net *have)
{
    size_t n = want->nodes;
    if (memcmp(want->parent, have->parent, n * sizeof *want->parent) != 0
        || memcmp(want->wire, have->wire, n * sizeof *want->wire) != 0
        || memcmp(want->kind, have->kind, n) != 0
        || memcmp(want->pin, have->pin, n * sizeof *want->pin) != 0
        || memcmp(want->polarity, have->polarity, n) != 0)
        fail("reader's columns", want);
}

/* A file made of this net's. No byte past it may be read. */
static void try_file(const uint8_t *bytes, size_t length, const struct ref_net *net)
{
    static struct ref_net want, have;
    struct columns columns = columns_of(&have);
    struct limits limits;
    columns.places = PLACES;
    struct ref_answer right = ref_read_net(bytes, length, &want);
    fence_anew();
    struct answer answer = fast_read_net(fence_lend(bytes, length), length, &limits, &columns);
    if (answer.number != right.number || answer.place != right.place)
        fail("reader", net);
    if (answer.number == 0)
        same_columns(&want, &have);
}

static void try_reader(struct chance *chance, const struct ref_net *net)
{
    static uint8_t bytes[REF_NET_BYTES + 10];
    size_t length = ref_write_net(net, bytes);
    for (uint32_t times = chance_upto(chance, 3); times > 0; times--)
        length = damage(chance, bytes, length);
    try_file(bytes, length, net);
}

/* A chain of 1,024 wires, and the same with one node more at the source. */
static void try_too_many(struct chance *chance)
{
    static const uint8_t more[17] = {0x03, 0, 11, [14] = 0x7F};
    static uint8_t bytes[REF_NET_BYTES];
    static struct ref_net net;
    struct size size = {.wire = 9, .pin = 9};
    random_shape(chance, &net, CHAIN, 1024, (struct ref_limits){.limit = 10, .pin = 2}, size);
    size_t length = ref_write_net(&net, bytes);
    try_file(bytes, length, &net);
    memcpy(bytes + length - 3, more, sizeof more);
    try_file(bytes, length + 14, &net);
}

/* C_U 1, C_b 0, 1,024 wires of 10,000,000: every unit of wire or pin but one wants its own
   buffer, as each stage holds one unit. The answer has to come without a loop over them. */
static void try_largest(struct chance *chance, enum shape shape)
{
    static struct ref_net net;
    struct ref_limits limits = {.limit = 1, .pin = 0, .type = 0};
    struct size size = {.wire = 0, .pin = 1};
    random_shape(chance, &net, shape, 1024, limits, size);
    uint64_t units = 0;
    for (size_t node = 1; node < net.nodes; node++) {
        net.wire[node] = 10000000;
        units += net.wire[node] + (uint64_t)net.pin[node];
    }
    struct limits same = limits_of(&net);
    struct columns columns = columns_of(&net);
    struct answer answer = fast_solve(&same, &columns, NULL, NULL, SIZE_MAX);
    if (answer.number != 9 || answer.place != units - 1)
        fail("solver's largest count", &net);
}

/* The same of inverters, on one wire: any parity will do. */
static void try_longest(void)
{
    static struct ref_net net = {.limits = {.limit = 1, .type = 1}, .nodes = 2,
                                 .wire = {0, 10000000}, .kind = {0, 1}};
    struct limits limits = limits_of(&net);
    struct columns columns = columns_of(&net);
    struct answer answer = fast_solve(&limits, &columns, NULL, NULL, SIZE_MAX);
    if (answer.number != 9 || answer.place != 9999999)
        fail("solver's longest wire", &net);
}

/* ------------------------------------------------------------ finishing

   A given buffer cuts the net: what hangs below it is a net with the buffer for its source, and
   to what lies above it is a sink of pin C_b. The pieces are solved apart by the reference. */

static size_t join_node(struct ref_net *piece, size_t parent, uint32_t wire, uint8_t kind,
                        uint32_t pin)
{
    size_t node = piece->nodes++;
    piece->parent[node] = (uint16_t)parent;
    piece->wire[node] = wire;
    piece->kind[node] = kind;
    piece->pin[node] = pin;
    return node;
}

/* The offset of the topmost entry on a wire, or -1. */
static int64_t topmost(const struct ref_placement *given, size_t wire)
{
    int64_t top = -1;
    for (size_t entry = 0; entry < given->entries; entry++)
        if (given->wire[entry] == wire)
            top = given->offset[entry];
    return top;
}

/* All that hangs from a node, which is node `at` of the piece, as far as the next given ones. */
static void hang(struct ref_net *piece, const struct ref_net *net,
                 const struct ref_placement *given, size_t node, size_t at)
{
    for (size_t wire = node + 1; wire < net->nodes; wire++) {
        int64_t top = topmost(given, wire);
        if (net->parent[wire] != node)
            continue;
        if (top >= 0)
            join_node(piece, at, net->wire[wire] - (uint32_t)top, 1, net->limits.pin);
        else
            hang(piece, net, given, wire,
                 join_node(piece, at, net->wire[wire], net->kind[wire], net->pin[wire]));
    }
}

/* What hangs below a given entry, or below the source for the number of entries. */
static int64_t least_below(const struct ref_net *net, const struct ref_placement *given,
                           size_t entry)
{
    static struct ref_net piece;
    memset(&piece, 0, sizeof piece);
    piece.limits = net->limits;
    piece.nodes = 1;
    if (entry == given->entries) {
        hang(&piece, net, given, 0, 0);
    } else if (entry > 0 && given->wire[entry - 1] == given->wire[entry]) {
        join_node(&piece, 0, given->offset[entry] - given->offset[entry - 1], 1, net->limits.pin);
    } else {
        size_t node = given->wire[entry];
        hang(&piece, net, given, node,
             join_node(&piece, 0, given->offset[entry], net->kind[node], net->pin[node]));
    }
    return ref_least_frontier(&piece, NULL);
}

static int64_t least_added(const struct ref_net *net, const struct ref_placement *given)
{
    int64_t sum = 0;
    for (size_t entry = 0; entry <= given->entries; entry++) {
        int64_t least = least_below(net, given, entry);
        if (least == REF_NONE)
            return REF_NONE;
        sum += least;
    }
    return sum;
}

/* The call on columns that hold 7 everywhere; no place past the answer may be touched. */
static struct answer finished(struct ref_net *net, const struct ref_placement *given,
                              struct ref_placement *added, size_t room)
{
    struct limits limits = limits_of(net);
    struct columns columns = columns_of(net);
    for (size_t i = 0; i < REF_ENTRIES; i++)
        added->offset[i] = added->wire[i] = 7;
    struct answer answer = fast_finish(&limits, &columns, given->wire, given->offset,
                                       given->entries, added->wire, added->offset, room);
    added->entries = answer.number == 0 ? (size_t)answer.place : 0;
    for (size_t i = added->entries; i < REF_ENTRIES; i++)
        if (added->offset[i] != 7 || added->wire[i] != 7)
            fail("finishing's columns", net);
    return answer;
}

/* Given and added together, which may be more than a placement holds: then only the added. */
static void try_whole(const struct ref_net *net, const struct ref_placement *given,
                      const struct ref_placement *added)
{
    static struct ref_placement whole;
    whole = *given;
    if (ref_list_drives(net, added->wire, added->entries, added->offset, added->entries, NULL,
                        NULL).number != 0)
        fail("finishing's order", net);
    if (given->entries + added->entries > REF_ENTRIES)
        return;
    for (size_t i = 0; i < added->entries; i++)
        put_in(&whole, added->wire[i], added->offset[i]);
    if (!is_legal(net, &whole))
        fail("finishing's placement", net);
}

static void try_finish(struct ref_net *net, const struct ref_placement *given, long *done)
{
    static struct ref_placement added;
    struct answer answer = finished(net, given, &added, REF_ENTRIES);
    struct ref_answer judged = ref_list_drives(net, given->wire, given->entries, given->offset,
                                               given->entries, NULL, NULL);
    if (net->limits.type == 1)
        judged = (struct ref_answer){3, 0};
    if (judged.number == 0) {
        int64_t least = least_added(net, given);
        judged.number = least == REF_NONE ? 8 : least > REF_ENTRIES ? 9 : 0;
        judged.place = least == REF_NONE ? 0 : (uint64_t)least;
    }
    if (answer.number != judged.number || answer.place != judged.place)
        fail("finishing", net);
    if (answer.number != 0)
        return;
    try_whole(net, given, &added);
    *done += 1;
    if (answer.place > 0 && finished(net, given, &added, (size_t)answer.place - 1).number != 9)
        fail("finishing's room", net);
}

/* Entries anywhere, with some doubled and some at a wire's ends; then one of them changed. */
static void try_givens(struct chance *chance, struct ref_net *net, long *done)
{
    static struct ref_placement given;
    random_entries(chance, net, &given, chance_upto(chance, 7));
    for (size_t i = given.entries; i > 0 && chance_upto(chance, 1) == 0; i--)
        put_in(&given, given.wire[i - 1], given.offset[i - 1]);
    for (size_t i = 0; i < 2; i++) {
        uint16_t wire = (uint16_t)(1 + chance_upto(chance, (uint32_t)net->nodes - 2));
        if (chance_upto(chance, 2) == 0)
            put_in(&given, wire, i == 0 ? 0 : net->wire[wire]);
    }
    try_finish(net, &given, done);
    perturb(chance, &given);
    try_finish(net, &given, done);
}

/* C_U 1, C_b 0: a count far over 4,096, whatever the room; and 4,096 given ones, which leave the
   added their room. */
static void try_extremes(void)
{
    static struct ref_net net;
    static struct ref_placement given = {1, {1}, {5000000}}, added;
    net = (struct ref_net){.limits = {.limit = 1}, .nodes = 2, .wire = {0, 10000000},
                           .kind = {0, 1}};
    struct answer answer = finished(&net, &given, &added, SIZE_MAX);
    if (answer.number != 9 || answer.place != 9999998)
        fail("finishing's largest count", &net);
    net.limits = (struct ref_limits){.limit = 10, .pin = 2};
    net.wire[1] = 14;
    net.pin[1] = 4;
    for (given.entries = 0; given.entries < REF_ENTRIES; )
        put_in(&given, 1, 5);
    answer = finished(&net, &given, &added, 1);
    if (answer.number != 0 || answer.place != 1 || added.wire[0] != 1)
        fail("finishing beside 4,096", &net);
}

/* ------------------------------------------------------------ all of it */

struct seen { long nets, legal, done, worse; };

static void try_net(struct chance *chance, struct ref_net *net, struct seen *seen)
{
    try_solver(net);
    try_one_label(net, &seen->worse);
    try_placements(chance, net, &seen->legal);
    try_reader(chance, net);
    try_givens(chance, net, &seen->done);
    seen->nets++;
}

static void report(const char *what, uint32_t wires, struct seen seen)
{
    printf("%ld %s of up to %u wires, %ld with a legal placement, %ld finished: same answers; "
           "one label a polarity does not do for %ld\n", seen.nets, what, wires, seen.legal,
           seen.done, seen.worse);
}

static void random_ones(struct chance *chance, struct size size, long nets)
{
    static struct ref_net net;
    struct seen seen = {0, 0, 0, 0};
    while (seen.nets < nets) {
        random_net(chance, &net, size);
        try_net(chance, &net, &seen);
    }
    report("nets", size.wires, seen);
}

/* Those that are measured: the paper's kind, chains and stars. */
static void paper_ones(struct chance *chance, uint32_t nodes, long nets)
{
    static struct net made;
    static struct ref_net net;
    struct seen seen = {0, 0, 0, 0};
    while (seen.nets < nets) {
        uint32_t limit = 20000 << chance_upto(chance, 5);
        uint8_t type = (uint8_t)chance_upto(chance, 1);
        make_net(chance, &made, (enum form)chance_upto(chance, STAR_NET),
                 1 + chance_upto(chance, nodes - 1), limit, type, chance_upto(chance, 3) > 0);
        net.limits = (struct ref_limits){made.limits.limit, made.limits.pin, made.limits.type};
        net.nodes = made.columns.places;
        memcpy(net.parent, made.parent, sizeof net.parent);
        memcpy(net.wire, made.wire, sizeof net.wire);
        memcpy(net.kind, made.kind, sizeof net.kind);
        memcpy(net.pin, made.pin, sizeof net.pin);
        memcpy(net.polarity, made.polarity, sizeof net.polarity);
        try_net(chance, &net, &seen);
    }
    report("nets of those that are measured", nodes, seen);
}

int main(int count, char **word)
{
    long nets = count > 1 ? atol(word[1]) : 20000;
    struct chance chance = {4711};
    for (enum shape shape = CHAIN; shape < SHAPES; shape++)
        try_largest(&chance, shape);
    try_longest();
    try_too_many(&chance);
    try_extremes();
    random_ones(&chance, (struct size){.wires = 6, .limit = 9, .wire = 4, .pin = 5}, nets);
    random_ones(&chance, (struct size){.wires = 14, .limit = 40, .wire = 60, .pin = 15}, nets);
    random_ones(&chance, (struct size){.wires = 14, .limit = 40, .wire = 6, .pin = 8}, nets);
    random_ones(&chance, (struct size){.wires = 60, .limit = 200, .wire = 300, .pin = 30},
                nets / 10);
    paper_ones(&chance, 1024, nets / 100);
    return 0;
}
