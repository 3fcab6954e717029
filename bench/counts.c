/* The counts of the paper's Fig. 4 beside the least count, on the paper's kind of net.
   Prints a table; `(no)` after a count: no legal placement has these numbers on its wires. */
#include "fig4.h"
#include "paper_nets.h"

#include <inttypes.h>
#include <stdio.h>

static const uint32_t NODES[] = {128, 330, 830, 1024};
static const uint32_t LIMITS[] = {50000, 100000, 200000, 400000, 800000};

static void print_fig4(struct fig4 result)
{
    if (!result.found)
        printf(" none |");
    else
        printf(" %" PRIu64 "%s |", result.count, result.legal ? "" : " (no)");
}

static void row(struct chance *chance, uint32_t nodes, uint32_t limit, bool mixed)
{
    static struct net net;
    static uint16_t wire[ENTRIES];
    static uint32_t offset[ENTRIES];
    make_net(chance, &net, POINTS, nodes, limit, 1, mixed);
    struct answer least = fast_solve(&net.limits, &net.columns, wire, offset, ENTRIES);
    printf("| %" PRIu32 " | %" PRIu32 " | %s |", nodes, limit, mixed ? "mixed" : "plus");
    if (least.number != 0)
        printf(" refused %" PRIu32 " |", least.number);
    else
        printf(" %" PRIu64 " |", least.place);
    printf(" %" PRIu64 " |", one_label_count(&net.limits, &net.columns));
    print_fig4(fig4_as_printed(&net.limits, &net.columns, false));
    print_fig4(fig4_as_printed(&net.limits, &net.columns, true));
    printf("\n");
}

int main(void)
{
    struct chance chance = {2001};
    printf("| Nodes | C_U | Sinks | Least | One label | Fig. 4 as printed | step 4 turned |\n");
    printf("|---|---|---|---|---|---|---|\n");
    for (int mixed = 0; mixed < 2; mixed++)
        for (size_t i = 0; i < sizeof NODES / sizeof *NODES; i++)
            for (size_t j = 0; j < sizeof LIMITS / sizeof *LIMITS; j++)
                row(&chance, NODES[i], LIMITS[j], mixed == 1);
    return 0;
}
