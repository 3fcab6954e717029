/* The carry of random legal placements to random nets that ease the first, or almost do. Each
   carried placement is judged by the checker on the second net; carrying to the same net changes
   nothing; the second net's least count is no higher (demand 3). Any other carry is set beside
   the reference's by one line in `carries`.

     compare_carries [NETS]             20,000 unless said */
#include "random_nets.h"

#include <inttypes.h>
#include <stdio.h>
#include <stdlib.h>

/* As ref_carry: on success the offsets are changed, *refused_net names a refused net. */
typedef struct ref_answer carry(const struct ref_net *first, const struct ref_net *second,
                                struct ref_placement *placement, int *refused_net);

struct named { const char *name; carry *carry; };

static const struct named carries[] = {
    {"reference", ref_carry},
#ifdef MORE_CARRIES
    MORE_CARRIES
#endif
};

static void fail(const char *name, const char *what)
{
    printf("%s: %s\n", name, what);
    exit(1);
}

static bool same(const struct ref_placement *a, const struct ref_placement *b)
{
    return a->entries == b->entries
        && memcmp(a->wire, b->wire, a->entries * sizeof *a->wire) == 0
        && memcmp(a->offset, b->offset, a->entries * sizeof *a->offset) == 0;
}

/* All carries on the same nets; *placement becomes what they give. */
static struct ref_answer agree(const struct ref_net *first, const struct ref_net *second,
                               struct ref_placement *placement)
{
    static struct ref_placement mine, other;
    int named = 0, other_named = 0;
    mine = *placement;
    struct ref_answer answer = carries[0].carry(first, second, &mine, &named);
    if (answer.number != 0 && !same(&mine, placement))
        fail(carries[0].name, "a refusal that changes the placement");
    for (size_t i = 1; i < sizeof carries / sizeof *carries; i++) {
        other = *placement;
        struct ref_answer have = carries[i].carry(first, second, &other, &other_named);
        if (have.number != answer.number || have.place != answer.place || other_named != named)
            fail(carries[i].name, "another answer");
        if (!same(&mine, &other))
            fail(carries[i].name, "another placement");
    }
    *placement = mine;
    return answer;
}

/* One thing raised that easing may not raise, or a net that is none. */
static void spoil(struct chance *chance, struct ref_net *net)
{
    size_t node = 1 + chance_upto(chance, (uint32_t)net->nodes - 2);
    switch (chance_upto(chance, 5)) {
    case 0: net->wire[node] += 100; break;
    case 1: net->pin[node] += net->kind[node] == 1 ? 100 : 0; break;
    case 2: net->limits.limit = net->limits.limit / 2 + 1; break;
    case 3: net->limits.type ^= 1; break;
    case 4: net->wire[node] = 10000001; break;
    default: net->parent[node] = (uint16_t)node;
    }
}

static void try_nets(struct chance *chance, long *seen)
{
    static struct ref_net first, second;
    static struct ref_placement placement, carried;
    do
        random_net(chance, &first,
                   (struct size){.wires = 14, .limit = 40, .wire = 40, .pin = 12});
    while (!random_legal(chance, &first, &placement));
    random_eased(chance, &first, &second);
    carried = placement;
    if (agree(&first, &first, &carried).number != 0 || !same(&carried, &placement))
        fail("carry", "to the same net it changes something");
    if (agree(&first, &second, &carried).number != 0 || !is_legal(&second, &carried))
        fail("carry", "to an eased net it gives no legal placement");
    if (ref_least_frontier(&second, NULL) > ref_least_frontier(&first, NULL))
        fail("ease", "the eased net needs more");
    perturb(chance, &placement);
    seen[agree(&first, &second, &placement).number]++;
    spoil(chance, chance_upto(chance, 3) == 0 ? &first : &second);
    seen[agree(&first, &second, &placement).number]++;
}

int main(int count, char **word)
{
    long nets = count > 1 ? atol(word[1]) : 20000, seen[14] = {0};
    struct chance chance = {31337};
    for (long i = 0; i < nets; i++)
        try_nets(&chance, seen);
    printf("%ld carries legal on the eased net; near ones:", nets);
    for (int number = 0; number < 14; number++)
        if (seen[number] > 0)
            printf(" %d: %ld", number, seen[number]);
    printf("\n");
    return 0;
}
