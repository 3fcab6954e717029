/* Every call of calls.h against the reference, on random files, columns and rooms from a fixed
   seed: the same number and place, and afterwards every byte of everything lent the same. Of the
   solver's answer: legal, of the same count, and nothing else changed. Of the finisher's: the same
   of the added entries together with the given ones.
   Something under test comes in by

     cc -include adapters.h '-DMORE_CALLS=&my_calls,' ...       extern const struct calls my_calls;

     compare_calls [TRIALS]             of each call, 20,000 unless said */
#include "calls.h"
#include "random_nets.h"

#include <inttypes.h>
#include <stdio.h>
#include <stdlib.h>

enum { COLUMN = 1032, LIST = 4104, FILE_ROOM = REF_PLACEMENT_BYTES + 32 };

enum call { READ_NET, READ_PLACEMENT, WRITE_NET, WRITE_PLACEMENT, JUDGE, SOLVE, CHECK, DRIVES,
            CARRY, FINISH, CALLS };

static const char *const NAME[] = {"read_net", "read_placement", "write_net", "write_placement",
                                   "judge", "solve", "check", "drives", "carry", "finish"};

static const struct calls *const tried[] = {
    &ref_calls,
#ifdef MORE_CALLS
    MORE_CALLS
#endif
};

/* All that is lent to a call. Net 1 is the carry's second net. */
struct trial {
    struct ref_limits limits[2];
    uint16_t parent[2][COLUMN];
    uint32_t wire[2][COLUMN];
    uint8_t kind[2][COLUMN];
    uint32_t pin[2][COLUMN];
    uint8_t polarity[2][COLUMN];
    uint16_t entry_wire[LIST];
    uint32_t offset[LIST];
    uint16_t given_wire[LIST];           /* to the finisher */
    uint32_t given_offset[LIST];
    uint64_t drives[LIST], source;
    uint8_t file[FILE_ROOM];
    size_t long_as[2][5];                /* the columns' lengths */
    size_t wires, offsets, loads, bytes; /* the lengths of the others */
    size_t given_wires, given_offsets;
    int refused_net;
};

/* ------------------------------------------------------------ one call */

static struct net_columns columns_of(struct trial *t, int net)
{
    const size_t *n = t->long_as[net];
    return (struct net_columns){t->parent[net], t->wire[net], t->kind[net], t->pin[net],
                            t->polarity[net], n[0], n[1], n[2], n[3], n[4]};
}

static struct entry_columns given_to(struct trial *t)
{
    return (struct entry_columns){t->given_wire, t->given_offset, t->given_wires,
                                  t->given_offsets};
}

static bool has(const struct calls *c, enum call call)
{
    switch (call) {
    case READ_NET: return c->read_net != NULL;
    case READ_PLACEMENT: return c->read_placement != NULL;
    case WRITE_NET: return c->write_net != NULL;
    case WRITE_PLACEMENT: return c->write_placement != NULL;
    case JUDGE: return c->judge != NULL;
    case SOLVE: return c->solve != NULL;
    case CHECK: return c->check != NULL;
    case DRIVES: return c->drives != NULL;
    case CARRY: return c->carry != NULL;
    default: return c->finish != NULL;
    }
}

static struct ref_answer run(const struct calls *c, enum call call, struct trial *t)
{
    struct net_columns net = columns_of(t, 0);
    struct entry_columns list = {t->entry_wire, t->offset, t->wires, t->offsets};
    switch (call) {
    case READ_NET: return c->read_net(t->file, t->bytes, &t->limits[0], net);
    case READ_PLACEMENT: return c->read_placement(t->file, t->bytes, list);
    case WRITE_NET: return c->write_net(t->limits[0], net, t->file, t->bytes);
    case WRITE_PLACEMENT: return c->write_placement(list, t->file, t->bytes);
    case JUDGE: return c->judge(t->limits[0], net);
    case SOLVE: return c->solve(t->limits[0], net, list);
    case CHECK: return c->check(t->limits[0], net, list, &t->source);
    case DRIVES:
        return c->drives(t->limits[0], net, list, t->drives, t->loads, &t->source);
    case FINISH: return c->finish(t->limits[0], net, given_to(t), list);
    default:
        return c->carry(t->limits[0], net, t->limits[1], columns_of(t, 1), list, &t->refused_net);
    }
}

static void fail(const char *name, enum call call, const char *what)
{
    printf("%s, %s: %s\n", name, NAME[call], what);
    exit(1);
}

static void net_of(const struct trial *t, int which, struct ref_net *net)
{
    net->limits = t->limits[which];
    net->nodes = t->long_as[which][0];
    memcpy(net->parent, t->parent[which], net->nodes * sizeof *net->parent);
    memcpy(net->wire, t->wire[which], net->nodes * sizeof *net->wire);
    memcpy(net->kind, t->kind[which], net->nodes);
    memcpy(net->pin, t->pin[which], net->nodes * sizeof *net->pin);
    memcpy(net->polarity, t->polarity[which], net->nodes);
}

static void placement_of(const uint16_t *wire, const uint32_t *offset, size_t entries,
                         struct ref_placement *p)
{
    p->entries = entries;
    memcpy(p->wire, wire, entries * sizeof *wire);
    memcpy(p->offset, offset, entries * sizeof *offset);
}

/* Is what a solver or a finisher gave legal, together with what was given? */
static bool serves(const struct trial *t, enum call call, size_t count)
{
    static struct ref_net net;
    static struct ref_placement given, made;
    net_of(t, 0, &net);
    placement_of(t->entry_wire, t->offset, count, &made);
    if (call == SOLVE)
        return is_legal(&net, &made);
    placement_of(t->given_wire, t->given_offset, t->given_wires, &given);
    return ref_completes(&net, &given, &made);
}

/* It may give other entries, as many. Where they serve, the reference's take their place. */
static void judge_entries(const char *name, enum call call, struct trial *have,
                          const struct trial *want, size_t count)
{
    if (!serves(have, call, count))
        fail(name, call, "the placement is not legal");
    memmove(have->entry_wire, want->entry_wire, count * sizeof *want->entry_wire);
    memmove(have->offset, want->offset, count * sizeof *want->offset);
}

/* The bytes between a record's fields are nobody's. */
static void clear_gaps(struct trial *t)
{
    for (int i = 0; i < 2; i++) {
        uint32_t limit = t->limits[i].limit, pin = t->limits[i].pin;
        uint8_t type = t->limits[i].type;
        memset(&t->limits[i], 0, sizeof t->limits[i]);
        t->limits[i].limit = limit;
        t->limits[i].pin = pin;
        t->limits[i].type = type;
    }
}

static uint32_t agree(enum call call, const struct trial *start)
{
    static struct trial want, have;
    memcpy(&want, start, sizeof want);
    struct ref_answer right = run(tried[0], call, &want);
    bool judged = right.number == 0 && (call == SOLVE || call == FINISH);
    if (judged)
        judge_entries("reference", call, &want, &want, (size_t)right.place);
    clear_gaps(&want);
    for (size_t i = 1; i < sizeof tried / sizeof *tried; i++) {
        const char *name = tried[i]->name;
        if (!has(tried[i], call))
            continue;
        memcpy(&have, start, sizeof have);
        struct ref_answer answer = run(tried[i], call, &have);
        if (answer.number != right.number || answer.place != right.place) {
            printf("%" PRIu32 " at %" PRIu64 ", the reference %" PRIu32 " at %" PRIu64 "\n",
                   answer.number, answer.place, right.number, right.place);
            fail(name, call, "another answer");
        }
        if (judged)
            judge_entries(name, call, &have, &want, (size_t)right.place);
        clear_gaps(&have);
        if (memcmp(&have, &want, sizeof have) != 0)
            fail(name, call, "something lent is not as it should be");
    }
    return right.number;
}

/* ------------------------------------------------------------ trials */

static void lend_net(struct trial *t, int which, const struct ref_net *net)
{
    t->limits[which].limit = net->limits.limit;
    t->limits[which].pin = net->limits.pin;
    t->limits[which].type = net->limits.type;
    memcpy(t->parent[which], net->parent, sizeof net->parent);
    memcpy(t->wire[which], net->wire, sizeof net->wire);
    memcpy(t->kind[which], net->kind, sizeof net->kind);
    memcpy(t->pin[which], net->pin, sizeof net->pin);
    memcpy(t->polarity[which], net->polarity, sizeof net->polarity);
    for (int i = 0; i < 5; i++)
        t->long_as[which][i] = net->nodes;
}

/* A length near the needed one, seldom short. */
static size_t near_length(struct chance *chance, size_t needed, size_t most)
{
    uint32_t how = chance_upto(chance, 11);
    size_t length = how == 0 ? needed - (needed > 0) : how < 9 ? needed : needed + how - 8;
    return chance_upto(chance, 40) == 0 ? 0 : length < most ? length : most;
}

/* Columns with a value or a length that is not as it should be. */
static void break_net(struct chance *chance, struct trial *t, int which)
{
    static const uint32_t likely[] = {0, 1, 2, 3, 9, 200, 1000000, 1000001, 10000000, 10000001,
                                      0x80000000u, 0xFFFFFFFFu};
    uint32_t value = likely[chance_upto(chance, sizeof likely / sizeof *likely - 1)];
    size_t node = chance_upto(chance, (uint32_t)t->long_as[which][0] - 1);
    size_t none_or_many = chance_upto(chance, 1) * 1026;
    switch (chance_upto(chance, 10)) {
    case 0: t->parent[which][node] = (uint16_t)value; break;
    case 1: t->wire[which][node] = value; break;
    case 2: t->kind[which][node] = (uint8_t)value; break;
    case 3: t->pin[which][node] = value; break;
    case 4: t->polarity[which][node] = (uint8_t)value; break;
    case 5: t->limits[which].limit = value; break;
    case 6: t->limits[which].pin = value; break;
    case 7: t->limits[which].type = (uint8_t)value; break;
    case 8: t->long_as[which][chance_upto(chance, 4)] = near_length(chance, node, COLUMN); break;
    case 9: t->parent[which][t->long_as[which][0] - 1] = 0; break;   /* often a ninth child */
    default:
        for (int i = 0; i < 5; i++)
            t->long_as[which][i] = none_or_many;
    }
}

static void lend_entries(struct chance *chance, struct trial *t, const struct ref_placement *p)
{
    memcpy(t->entry_wire, p->wire, p->entries * sizeof *p->wire);
    memcpy(t->offset, p->offset, p->entries * sizeof *p->offset);
    t->wires = t->offsets = p->entries;
    t->loads = near_length(chance, p->entries, LIST);
    if (chance_upto(chance, 15) == 0)
        t->wires = near_length(chance, p->entries, LIST);
    if (chance_upto(chance, 15) == 0 && p->entries > 0)
        t->offset[chance_upto(chance, (uint32_t)p->entries - 1)] = 10000001;
}

/* Given columns that are unequal, too long, or hold an entry that may not stand, now and then. */
static void lend_given(struct chance *chance, struct trial *t, const struct ref_placement *p)
{
    memcpy(t->given_wire, p->wire, p->entries * sizeof *p->wire);
    memcpy(t->given_offset, p->offset, p->entries * sizeof *p->offset);
    t->given_wires = t->given_offsets = p->entries;
    if (chance_upto(chance, 15) == 0)
        t->given_wires = near_length(chance, p->entries, LIST);
    if (chance_upto(chance, 60) == 0)
        t->given_wires = t->given_offsets = REF_ENTRIES + 1;
    if (chance_upto(chance, 15) == 0 && p->entries > 0)
        t->given_offset[chance_upto(chance, (uint32_t)p->entries - 1)] = 10000001;
}

static size_t length_of_net(const struct ref_net *net)
{
    static uint8_t bytes[REF_NET_BYTES];
    return ref_write_net(net, bytes);
}

static void lend_file(struct chance *chance, struct trial *t, size_t length)
{
    t->bytes = length;
    for (uint32_t times = chance_upto(chance, 3); times > 1; times--)
        t->bytes = damage(chance, t->file, t->bytes);
}

/* What is particular to a call: files to be read, rooms, broken columns. */
static void adapt(struct chance *chance, enum call call, struct trial *t,
                  const struct ref_net *net, const struct ref_placement *p)
{
    size_t least = p->entries;
    if (call == READ_NET) {
        lend_file(chance, t, ref_write_net(net, t->file));
        memset(t->parent[0], 0xA5, sizeof t->parent[0]);
        memset(t->wire[0], 0xA5, sizeof t->wire[0]);
        for (int i = 0; i < 5; i++)
            t->long_as[0][i] = near_length(chance, net->nodes + (i != 0), COLUMN);
    }
    if (call == READ_PLACEMENT)
        lend_file(chance, t, ref_write_placement(p, t->file));
    if (call == READ_PLACEMENT || call == SOLVE || call == FINISH) {
        memset(t->entry_wire, 0xA5, sizeof t->entry_wire);
        memset(t->offset, 0xA5, sizeof t->offset);
        t->wires = near_length(chance, least, LIST);
        t->offsets = near_length(chance, least + 1, LIST);
    }
    if (call == WRITE_NET)
        t->bytes = near_length(chance, length_of_net(net), FILE_ROOM);
    if (call == WRITE_PLACEMENT)
        t->bytes = near_length(chance, 8 + 9 * least, FILE_ROOM);
    if (call != READ_NET && chance_upto(chance, call == JUDGE ? 1 : 4) == 0)
        break_net(chance, t, call == CARRY ? (int)chance_upto(chance, 1) : 0);
}

/* A net of buffers but for a few, and p given: some of its entries gone, others put anywhere. What
   is to be added takes p's place. */
static void make_half(struct chance *chance, struct trial *t, struct ref_net *net,
                      struct ref_placement *p)
{
    static struct ref_placement added;
    if (chance_upto(chance, 15) > 0) {
        net->limits.type = 0;
        memset(net->polarity, 0, sizeof net->polarity);
    }
    for (uint32_t times = chance_upto(chance, 4); times > 0 && p->entries > 0; times--)
        take_out(p, chance_upto(chance, (uint32_t)p->entries - 1));
    for (uint32_t times = chance_upto(chance, 3); times > 0 && p->entries < REF_ENTRIES; times--) {
        uint16_t wire = (uint16_t)(1 + chance_upto(chance, (uint32_t)net->nodes - 2));
        put_in(p, wire, chance_upto(chance, net->wire[wire]));
    }
    lend_given(chance, t, p);
    added.entries = 0;
    if (net->limits.type == 0 && ref_list_drives(net, p->wire, p->entries, p->offset, p->entries,
                                                 NULL, NULL).number == 0)
        ref_least_added(net, p, &added);
    *p = added;
}

static void make_trial(struct chance *chance, enum call call, struct trial *t)
{
    static struct ref_net net, second;
    static struct ref_placement p;
    struct size small = {.wires = 12, .limit = 40, .wire = 20, .pin = 8};
    struct size large = {.wires = 1024, .limit = 900, .wire = 100, .pin = 30};
    memset(t, 0xA5, sizeof *t);
    do
        random_net(chance, &net, chance_upto(chance, 300) == 0 ? large : small);
    while (!random_legal(chance, &net, &p) && chance_upto(chance, 3) != 0);
    if (call == SOLVE && ref_least_frontier(&net, &p) == REF_NONE)
        p.entries = 0;
    if (call != SOLVE && chance_upto(chance, 2) == 0)
        perturb(chance, &p);
    if (call != SOLVE && chance_upto(chance, 500) == 0)
        random_entries(chance, &net, &p, chance_upto(chance, 1) ? 4096 : 300);
    if (call == FINISH)
        make_half(chance, t, &net, &p);
    random_eased(chance, &net, &second);
    lend_net(t, 0, &net);
    lend_net(t, 1, chance_upto(chance, 9) == 0 ? &net : &second);
    lend_entries(chance, t, &p);
    adapt(chance, call, t, &net, &p);
}

int main(int count, char **word)
{
    static struct trial t;
    long trials = count > 1 ? atol(word[1]) : 20000;
    struct chance chance = {55};
    for (enum call call = READ_NET; call < CALLS; call++) {
        long seen[14] = {0};
        for (long i = 0; i < trials; i++) {
            make_trial(&chance, call, &t);
            seen[agree(call, &t)]++;
        }
        printf("%s: %ld trials,", NAME[call], trials);
        for (size_t i = 0; i < sizeof tried / sizeof *tried; i++)
            printf(" %s%s", has(tried[i], call) ? tried[i]->name : "-",
                   i + 1 < sizeof tried / sizeof *tried ? "," : ";");
        for (int number = 0; number < 14; number++)
            if (seen[number] > 0)
                printf(" %d: %ld", number, seen[number]);
        printf("\n");
    }
    return 0;
}
