/* The exhaustive search against the frontier search, on random nets from a fixed seed; each
   placement that the frontier search gives is judged by the checker. Any other search is set
   beside them by one line in `searches`.

     compare_searches [SMALL_NETS [LARGE_NETS]]      three times 20,000 of each unless said */
#include "random_nets.h"

#include <inttypes.h>
#include <stdio.h>
#include <stdlib.h>

/* A search answers the least count or REF_NONE. Where it gives a placement, that is the last
   argument; a search that gives none leaves it as it is. */
typedef int64_t search(const struct ref_net *net, struct ref_placement *placement);

struct named { const char *name; search *least; bool only_small; };

static int64_t exhaustive(const struct ref_net *net, struct ref_placement *placement)
{
    (void)placement;
    return ref_least_exhaustive(net);
}

static const struct named searches[] = {
    {"frontier", ref_least_frontier, false},
    {"exhaustive", exhaustive, true},
#ifdef MORE_SEARCHES
    MORE_SEARCHES
#endif
};

static void fail(const struct ref_net *net, const char *name, int64_t least, int64_t found)
{
    static uint8_t bytes[REF_NET_BYTES];
    size_t length = ref_write_net(net, bytes);
    printf("%s gives %" PRId64 ", the first search %" PRId64 ", for the net file\n", name, found,
           least);
    for (size_t i = 0; i < length; i++)
        printf("%02x", bytes[i]);
    printf("\n");
    exit(1);
}

static int64_t agree(const struct ref_net *net, bool small)
{
    static struct ref_placement placement;
    int64_t least = REF_NONE;
    for (size_t i = 0; i < sizeof searches / sizeof *searches; i++) {
        if (searches[i].only_small && !small)
            continue;
        placement.entries = REF_ENTRIES + 1;                    /* none given */
        placement.wire[0] = 0;                                  /* nor left by the one before */
        int64_t found = searches[i].least(net, &placement);
        if (i == 0)
            least = found;
        if (found != least)
            fail(net, searches[i].name, least, found);
        if (placement.entries > REF_ENTRIES || found == REF_NONE || found > REF_ENTRIES)
            continue;
        if (placement.entries != (size_t)found || !is_legal(net, &placement))
            fail(net, "a placement that is not legal or not as long:", least, found);
    }
    return least;
}

static void run(struct chance *chance, struct size size, long nets, bool small)
{
    long none = 0, inverters = 0, most = 0;
    double sum = 0;
    for (long i = 0; i < nets; i++) {
        static struct ref_net net;
        random_net(chance, &net, size);
        int64_t least = agree(&net, small);
        none += least == REF_NONE;
        inverters += net.limits.type;
        sum += least == REF_NONE ? 0 : (double)least;
        most = least > most ? (long)least : most;
    }
    printf("%s: %ld nets, %ld of inverters, %ld without legal placement, "
           "least count %.2f on average, %ld at most\n",
           small ? "small" : "large", nets, inverters, none, sum / (double)(nets - none), most);
}

int main(int count, char **word)
{
    long small = count > 1 ? atol(word[1]) : 20000, large = count > 2 ? atol(word[2]) : 20000;
    struct chance chance = {1007};
    run(&chance, (struct size){.wires = 6, .limit = 9, .wire = 4, .pin = 5}, small, true);
    run(&chance, (struct size){.wires = 6, .limit = 9, .wire = 12, .pin = 2}, small, true);
    run(&chance, (struct size){.wires = 9, .limit = 9, .wire = 0, .pin = 5}, small, true);
    run(&chance, (struct size){.wires = 14, .limit = 40, .wire = 60, .pin = 15}, large, false);
    run(&chance, (struct size){.wires = 14, .limit = 40, .wire = 6, .pin = 8}, large, false);
    run(&chance, (struct size){.wires = 40, .limit = 99, .wire = 500, .pin = 20}, large, false);
    return 0;
}
