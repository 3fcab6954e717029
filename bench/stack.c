/* The stack that a solver takes, in bytes below the function that calls it: the most on the
   paper's kind of net, a chain and a star. It runs on a stack that was painted before. */
#define _POSIX_C_SOURCE 200809L
#include "contenders.h"
#include "paper_nets.h"

#include <inttypes.h>
#include <pthread.h>
#include <stdio.h>
#include <stdlib.h>
#include <string.h>

enum { STACK = 4 << 20, PAINT = 0xA5 };

static _Alignas(4096) uint8_t stack[STACK];

struct run {
    const struct contender *who;
    const struct net *net;
    struct answer answer;
    size_t depth;
};

static void solve(struct run *run)
{
    static uint16_t wire[ENTRIES];
    static uint32_t offset[ENTRIES];
    run->answer = run->who->solve(&run->net->limits, &run->net->columns, wire, offset, ENTRIES);
}

static void *on_painted(void *given)
{
    struct run *run = given;
    const uint8_t *deepest = stack;
    solve(run);
    while (*deepest == PAINT)
        deepest++;
    run->depth = (size_t)((uint8_t *)__builtin_frame_address(0) - deepest);
    return NULL;
}

static size_t depth_of(const struct contender *who, const struct net *net)
{
    struct run run = {who, net, {0, 0}, 0};
    pthread_attr_t painted;
    pthread_t thread;
    solve(&run);                         /* once before: what the linker puts off takes stack */
    memset(stack, PAINT, sizeof stack);
    if (pthread_attr_init(&painted) != 0 || pthread_attr_setstack(&painted, stack, STACK) != 0
        || pthread_create(&thread, &painted, on_painted, &run) != 0
        || pthread_join(thread, NULL) != 0) {
        fprintf(stderr, "no thread on a stack of its own\n");
        exit(2);
    }
    if (run.answer.number != 0) {
        printf("refused %" PRIu32 "\n", run.answer.number);
        exit(1);
    }
    return run.depth;
}

static void row(uint32_t nodes, uint8_t type)
{
    static struct net net;
    size_t most[CONTENDING] = {0};
    for (enum form form = POINTS; form <= STAR_NET; form++) {
        struct chance chance = {77 + nodes};
        make_net(&chance, &net, form, nodes, 50000, type, true);
        for (int i = 0; i < CONTENDING; i++) {
            size_t depth = depth_of(&contenders[i], &net);
            most[i] = depth > most[i] ? depth : most[i];
        }
    }
    printf("| solve, %" PRIu32 " nodes, type %u |", nodes, type);
    for (int i = 0; i < CONTENDING; i++)
        printf(" %zu |", most[i]);
    printf("\n");
}

int main(void)
{
    printf("| Stack |");
    for (int i = 0; i < CONTENDING; i++)
        printf(" %s, bytes |", contenders[i].name);
    printf("\n|---|");
    for (int i = 0; i < CONTENDING; i++)
        printf("---|");
    printf("\n");
    for (uint8_t type = 0; type < 2; type++) {
        row(128, type);
        row(1024, type);
    }
    return 0;
}
