/* Finishers of half-buffered nets, on random nets of buffers from a fixed seed with given entries
   of every kind: none, legal ones, legal ones of which some are gone, any, at either end of their
   wires, equal ones in series, all the children of a point. The reference is held to the
   exhaustive search on small nets and to the plain search where none is given; any other finisher,
   by one line in `finishers`, to the reference: the same number and place, every place lent but
   not filled as it came, and the whole judged by the checker.
   Each net is eased too, each given offset cut to its new wire (demand 3): what could be finished
   still can be, with no more added, and the first net's whole, cut, is legal on the second.

     cc -include adapters.h '-DMORE_FINISHES={"finish", my_finish},' ...

     compare_finishes [NETS]            five times 20,000 unless said; a quarter of large numbers */
#include "calls.h"
#include "random_nets.h"

#include <inttypes.h>
#include <stdio.h>
#include <stdlib.h>

/* As struct calls' finish, of a net and entries whose columns are equal. */
typedef struct ref_answer finish(const struct ref_net *net, const struct ref_placement *given,
                                 struct entry_columns to);

struct named { const char *name; finish *finish; };

static size_t room_of(size_t wires, size_t offsets)
{
    return wires < offsets ? wires : offsets;
}

static struct ref_answer reference(const struct ref_net *net, const struct ref_placement *given,
                                   struct entry_columns to)
{
    static struct ref_placement added;
    size_t n = given->entries;
    struct ref_answer found = ref_finish(net, given->wire, n, given->offset, n,
                                         room_of(to.wires, to.offsets), &added);
    if (found.number == 0) {
        memcpy(to.wire, added.wire, added.entries * sizeof *to.wire);
        memcpy(to.offset, added.offset, added.entries * sizeof *to.offset);
    }
    return found;
}

static const struct named finishers[] = {
    {"reference", reference},
#ifdef MORE_FINISHES
    MORE_FINISHES
#endif
};
enum { FINISHERS = sizeof finishers / sizeof *finishers, ROOM = 500, LENT = ROOM + 4 };

struct half {
    struct ref_net net;
    struct ref_placement given;
    size_t wires, offsets;               /* of the lent columns */
};

static void print_hex(const char *name, const uint8_t *bytes, size_t length)
{
    printf("%s ", name);
    for (size_t i = 0; i < length; i++)
        printf("%02x", bytes[i]);
    printf("\n");
}

static void fail(const struct half *half, const char *name, const char *what,
                 struct ref_answer have)
{
    static uint8_t bytes[REF_PLACEMENT_BYTES];
    printf("%s: %s; %" PRIu32 ", %" PRIu64 "; rooms %zu and %zu\n", name, what, have.number,
           have.place, half->wires, half->offsets);
    print_hex("net", bytes, ref_write_net(&half->net, bytes));
    print_hex("given", bytes, ref_write_placement(&half->given, bytes));
    exit(1);
}

/* ------------------------------------------------------------ one net */

/* Is every place lent, from `from` on, as it came? */
static bool untouched(const uint16_t *wire, const uint32_t *offset, size_t from)
{
    for (size_t i = from; i < LENT; i++)
        if (wire[i] != 0xA5A5 || offset[i] != 0xA5A5A5A5)
            return false;
    return true;
}

/* What a finisher answers. Where it adds entries, *whole becomes given and added ones. */
static struct ref_answer ask(const struct half *half, const struct named *finisher,
                             struct ref_placement *whole)
{
    static struct ref_placement added;
    memset(added.wire, 0xA5, LENT * sizeof *added.wire);
    memset(added.offset, 0xA5, LENT * sizeof *added.offset);
    struct entry_columns to = {added.wire, added.offset, half->wires, half->offsets};
    struct ref_answer have = finisher->finish(&half->net, &half->given, to);
    if (have.number == 0 && have.place > room_of(half->wires, half->offsets))
        fail(half, finisher->name, "more than the room", have);
    added.entries = have.number == 0 ? have.place : 0;
    if (!untouched(added.wire, added.offset, added.entries))
        fail(half, finisher->name, "a place is changed that is not an added entry's", have);
    if (have.number != 0)
        return have;
    if (!ref_completes(&half->net, &half->given, &added))
        fail(half, finisher->name, "the whole is not legal", have);
    whole->entries = half->given.entries;
    memcpy(whole->wire, half->given.wire, whole->entries * sizeof *whole->wire);
    memcpy(whole->offset, half->given.offset, whole->entries * sizeof *whole->offset);
    for (size_t i = 0; i < added.entries; i++)
        put_in(whole, added.wire[i], added.offset[i]);
    return have;
}

static int64_t least_of(struct ref_answer answer)
{
    return answer.number == 8 ? REF_NONE : (int64_t)answer.place;
}

/* The reference against what is known of it. */
static void hold_reference(const struct half *half, bool small, struct ref_answer right)
{
    int64_t least = least_of(right);
    if (right.number != 0 && right.number != 8 && right.number != 9)
        fail(half, "reference", "a refusal that is not due", right);
    if ((right.number == 9) != (least > (int64_t)room_of(half->wires, half->offsets)))
        fail(half, "reference", "a refusal for want of room that is not due, or none", right);
    if (small && ref_least_added_exhaustive(&half->net, &half->given) != least)
        fail(half, "exhaustive", "another least number than the reference's", right);
    if (half->given.entries == 0 && ref_least_frontier(&half->net, NULL) != least)
        fail(half, "frontier", "another least count than with none given", right);
    if (is_legal(&half->net, &half->given) != (least == 0))
        fail(half, "checker", "legal and yet something to add, or the reverse", right);
}

static struct ref_answer agree(const struct half *half, bool small,
                               struct ref_placement whole[FINISHERS])
{
    struct ref_answer right = ask(half, &finishers[0], &whole[0]);
    hold_reference(half, small, right);
    for (int i = 1; i < FINISHERS; i++) {
        struct ref_answer have = ask(half, &finishers[i], &whole[i]);
        if (have.number != right.number || have.place != right.place)
            fail(half, finishers[i].name, "another answer than the reference's", have);
    }
    return right;
}

/* ------------------------------------------------------------ the eased net */

static void cut(const struct ref_net *net, struct ref_placement *p)
{
    for (size_t i = 0; i < p->entries; i++)
        if (p->offset[i] > net->wire[p->wire[i]])
            p->offset[i] = net->wire[p->wire[i]];
}

/* `first` was answered with `before`, and made the wholes where that is a success. */
static void ease(struct chance *chance, const struct half *first, bool small,
                 struct ref_answer before, struct ref_placement whole[FINISHERS])
{
    static struct half second;
    static struct ref_placement other[FINISHERS];
    random_eased(chance, &first->net, &second.net);
    second.given = first->given;
    second.wires = first->wires;
    second.offsets = first->offsets;
    cut(&second.net, &second.given);
    struct ref_answer after = agree(&second, small, other);
    if (before.number == 8)
        return;
    if (after.number == 8)
        fail(&second, "ease", "what could be finished cannot be any more", before);
    if (after.place > before.place)
        fail(&second, "ease", "the eased net needs more", before);
    for (int i = 0; i < FINISHERS && before.number == 0; i++) {
        cut(&second.net, &whole[i]);
        if (!is_legal(&second.net, &whole[i]))
            fail(&second, finishers[i].name, "the first net's whole, cut, is not legal", before);
    }
}

/* ------------------------------------------------------------ given entries */

enum kind { NONE_GIVEN, LEGAL, SOME_GONE, ANY_PLACE, AT_AN_END, IN_SERIES, ALL_CHILDREN, KINDS };

static void drop_some(struct chance *chance, struct ref_placement *p)
{
    for (size_t i = p->entries; i > 0; i--)
        if (chance_upto(chance, 2) == 0)
            take_out(p, i - 1);
}

static void put_some(struct chance *chance, const struct ref_net *net, enum kind kind,
                     struct ref_placement *p)
{
    for (uint32_t times = 1 + chance_upto(chance, (uint32_t)net->nodes / 2); times > 0; times--) {
        uint16_t wire = (uint16_t)(1 + chance_upto(chance, (uint32_t)net->nodes - 2));
        uint32_t offset = chance_upto(chance, net->wire[wire]);
        if (kind == AT_AN_END)
            offset = chance_upto(chance, 1) ? net->wire[wire] : 0;
        uint32_t equal = kind == IN_SERIES ? 1 + chance_upto(chance, 3) : 1;
        for (; equal > 0; equal--)
            put_in(p, wire, offset);
    }
}

/* At the upper end of a point's child wires, of all or almost all: it may be too much for it. */
static void top_children(struct chance *chance, const struct ref_net *net, struct ref_placement *p)
{
    uint16_t parent = net->parent[1 + chance_upto(chance, (uint32_t)net->nodes - 2)];
    for (size_t wire = 1; wire < net->nodes; wire++)
        if (net->parent[wire] == parent && chance_upto(chance, 7) > 0)
            put_in(p, (uint16_t)wire, net->wire[wire]);
}

static void make_given(struct chance *chance, const struct ref_net *net, enum kind kind,
                       struct ref_placement *p)
{
    p->entries = 0;
    if (kind == LEGAL || kind == SOME_GONE) {
        if (!random_legal(chance, net, p))
            p->entries = 0;
        if (kind == SOME_GONE)
            drop_some(chance, p);
    } else if (kind == ALL_CHILDREN) {
        top_children(chance, net, p);
    } else if (kind != NONE_GIVEN) {
        put_some(chance, net, kind, p);
    }
}

/* Of six columns five have room enough, unless very many are needed. */
static size_t some_room(struct chance *chance)
{
    return chance_upto(chance, 5) == 0 ? chance_upto(chance, 6) : ROOM + chance_upto(chance, 4);
}

/* ------------------------------------------------------------ many nets */

static void run(struct chance *chance, struct size size, long nets, bool small)
{
    static struct half half;
    static struct ref_placement whole[FINISHERS];
    long none = 0, nothing = 0, no_room = 0;
    double given = 0, added = 0;
    for (long i = 0; i < nets; i++) {
        random_net(chance, &half.net, size);
        half.net.limits.type = 0;
        memset(half.net.polarity, 0, sizeof half.net.polarity);
        make_given(chance, &half.net, (enum kind)(i % KINDS), &half.given);
        half.wires = some_room(chance);
        half.offsets = some_room(chance);
        struct ref_answer answer = agree(&half, small, whole);
        ease(chance, &half, small, answer, whole);
        given += (double)half.given.entries;
        none += answer.number == 8;
        no_room += answer.number == 9;
        nothing += answer.number == 0 && answer.place == 0;
        added += answer.number == 8 ? 0 : (double)answer.place;
    }
    printf("%s: %ld half-buffered nets, %.2f given on average; %ld cannot be finished, "
           "%ld need nothing, %ld need more than the room; %.2f added on average\n",
           small ? "small" : "large", nets, given / (double)nets, none, nothing, no_room,
           added / (double)(nets - none));
}

int main(int count, char **word)
{
    long nets = count > 1 ? atol(word[1]) : 20000;
    struct chance chance = {2026};
    run(&chance, (struct size){.wires = 6, .limit = 9, .wire = 5, .pin = 5}, nets, true);
    run(&chance, (struct size){.wires = 5, .limit = 9, .wire = 12, .pin = 2}, nets, true);
    run(&chance, (struct size){.wires = 9, .limit = 10, .wire = 0, .pin = 7}, nets, true);
    run(&chance, (struct size){.wires = 14, .limit = 40, .wire = 60, .pin = 15}, nets, false);
    run(&chance, (struct size){.wires = 20, .limit = 40, .wire = 9, .pin = 9}, nets, false);
    run(&chance, (struct size){.wires = 9, .limit = 1000000, .wire = 10000000, .pin = 300000},
        nets / 4, false);
    for (int i = 1; i < FINISHERS; i++)
        printf("half-buffered nets and eased ones: %s finishes them\n", finishers[i].name);
    return 0;
}
