/* A check of two files' bytes against the reference's, on random pairs from a fixed seed: legal,
   near-legal and damaged ones. Any other is set beside it by one line in `checks`, for example

     cc -DMORE_CHECKS='{"router", mustorgyel_check},' -include mustorgyel.h ...

     compare_checks [PAIRS]             60,000 unless said */
#include "random_nets.h"

#include <inttypes.h>
#include <stdio.h>
#include <stdlib.h>

/* Net file, placement file; answers the number alone. */
typedef uint32_t check(const uint8_t *net, size_t net_length,
                       const uint8_t *placement, size_t placement_length);

struct named { const char *name; check *check; };

static const struct named checks[] = {
    {"reference", ref_check_files},
#ifdef MORE_CHECKS
    MORE_CHECKS
#endif
};

struct file { uint8_t bytes[REF_PLACEMENT_BYTES + 16]; size_t length; };

static void print_hex(const char *name, const struct file *file)
{
    printf("%s ", name);
    for (size_t i = 0; i < file->length; i++)
        printf("%02x", file->bytes[i]);
    printf("\n");
}

/* The files are copied to blocks of just their length, so that a tool that watches memory sees
   a byte read too many; an empty file is NULL and 0. */
static uint32_t ask(check *check, const struct file *net, const struct file *placement)
{
    uint8_t *a = net->length ? malloc(net->length) : NULL;
    uint8_t *b = placement->length ? malloc(placement->length) : NULL;
    if (a != NULL)
        memcpy(a, net->bytes, net->length);
    if (b != NULL)
        memcpy(b, placement->bytes, placement->length);
    uint32_t number = check(a, net->length, b, placement->length);
    free(a);
    free(b);
    return number;
}

static uint32_t agree(const struct file *net, const struct file *placement)
{
    uint32_t right = ask(checks[0].check, net, placement);
    for (size_t i = 1; i < sizeof checks / sizeof *checks; i++) {
        uint32_t number = ask(checks[i].check, net, placement);
        if (number == right)
            continue;
        printf("%s answers %" PRIu32 ", the reference %" PRIu32 "\n", checks[i].name, number,
               right);
        print_hex("net", net);
        print_hex("placement", placement);
        exit(1);
    }
    return right;
}

static void damage_some(struct chance *chance, struct file *file)
{
    for (uint32_t times = 1 + chance_upto(chance, 2); times > 0; times--)
        file->length = damage(chance, file->bytes, file->length);
}

/* How a pair is made, by its number: two in eight legal, four near-legal, two damaged. */
static void make_pair(struct chance *chance, long number, struct file *net, struct file *placement)
{
    static struct ref_net n;
    static struct ref_placement p;
    struct size small = {.wires = 8, .limit = 30, .wire = 20, .pin = 8};
    struct size large = {.wires = 60, .limit = 200, .wire = 100, .pin = 30};
    long how = number % 8;
    do
        random_net(chance, &n, number % 3 == 0 ? large : small);
    while (!random_legal(chance, &n, &p));
    if (how == 2)
        random_entries(chance, &n, &p, chance_upto(chance, 5));
    for (long times = how - 2; times > 0 && how < 6; times--)
        perturb(chance, &p);
    net->length = ref_write_net(&n, net->bytes);
    placement->length = ref_write_placement(&p, placement->bytes);
    if (how == 6)
        damage_some(chance, net);
    if (how == 7)
        damage_some(chance, placement);
}

int main(int count, char **word)
{
    static struct file net, placement, empty;
    long pairs = count > 1 ? atol(word[1]) : 60000, seen[14] = {0};
    struct chance chance = {90210};
    agree(&empty, &empty);
    for (long i = 0; i < pairs; i++) {
        make_pair(&chance, i, &net, &placement);
        seen[agree(&net, &placement)]++;
    }
    agree(&net, &empty);
    printf("%ld pairs of files, %zu checks agree;", pairs, sizeof checks / sizeof *checks);
    for (int number = 0; number < 14; number++)
        if (seen[number] > 0)
            printf(" %d: %ld", number, seen[number]);
    printf("\n");
    return 0;
}
