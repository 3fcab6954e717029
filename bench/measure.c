/* Time for each call on nets of the paper's kind, on chains and on stars, and for a shelf of nets
   from file to answer: microseconds, the best of many rounds. All that are measured have to answer
   alike.

     measure [CALL]                     all, or one of read, solve, check, finish, shelf */
#define _POSIX_C_SOURCE 199309L
#include "contenders.h"
#include "paper_nets.h"

#include <inttypes.h>
#include <stdio.h>
#include <stdlib.h>
#include <string.h>
#include <time.h>

enum { ROUNDS = 80 };

/* What a call works on. */
struct work {
    struct net net, filled;
    uint8_t file[14351];
    size_t length, entries;
    uint16_t wire[ENTRIES], found_wire[ENTRIES];
    uint32_t offset[ENTRIES], found_offset[ENTRIES];
};

/* Microseconds a call. */
struct times { double of[CONTENDING]; };

enum call { READ, SOLVE, CHECK, FINISH, SHELF };

static const char *const CALL[] = {"read", "solve", "check", "finish", "shelf"};

static const char *only;                 /* the one to measure; NULL for all */

static bool left_out(enum call call)
{
    return only != NULL && strcmp(only, CALL[call]) != 0;
}

static bool has(const struct contender *who, enum call call)
{
    switch (call) {
    case READ: return who->read != NULL;
    case SOLVE: return who->solve != NULL;
    case CHECK: return who->check != NULL;
    case FINISH: return who->finish != NULL;
    default: return who->read != NULL && who->solve != NULL;
    }
}

static double now(void)
{
    struct timespec t;
    clock_gettime(CLOCK_MONOTONIC, &t);
    return (double)t.tv_sec * 1e6 + (double)t.tv_nsec / 1e3;
}

/* ------------------------------------------------------------ a row */

static void print_cell(bool there, double figure)
{
    if (there)
        printf(" %.2f |", figure);
    else
        printf(" - |");
}

static void print_row(const char *what, uint64_t answer, enum call call, const struct times *times)
{
    printf("| %s | %" PRIu64 " |", what, answer);
    for (int i = 0; i < CONTENDING; i++)
        print_cell(has(&contenders[i], call), times->of[i]);
    for (int i = 1; i < CONTENDING; i++)
        print_cell(has(&contenders[i], call), times->of[i] / times->of[0]);
    printf("\n");
}

static void print_head(void)
{
    printf("| Call | Answer |");
    for (int i = 0; i < CONTENDING; i++)
        printf(" %s, µs |", contenders[i].name);
    for (int i = 1; i < CONTENDING; i++)
        printf(" ratio |");
    printf("\n|---|---|");
    for (int i = 0; i < 2 * CONTENDING - 1; i++)
        printf("---|");
    printf("\n");
}

/* Nothing that is refused is worth a time, and all have to answer the same. */
static void agree(const char *what, int i, struct answer answer, struct answer first)
{
    if (answer.number == 0 && answer.place == first.place)
        return;
    printf("%s: %s answers %" PRIu32 ", %" PRIu64 "\n", what, contenders[i].name, answer.number,
           answer.place);
    exit(1);
}

/* ------------------------------------------------------------ one call */

static struct answer once(const struct contender *who, enum call call, struct work *w)
{
    struct limits limits;
    uint64_t source = 0;
    switch (call) {
    case READ:
        return who->read(w->file, w->length, &limits, &w->filled.columns);
    case SOLVE:
        return who->solve(&w->net.limits, &w->net.columns, w->found_wire, w->found_offset, ENTRIES);
    case CHECK:
        return who->check(&w->net.limits, &w->net.columns, w->wire, w->offset, w->entries, &source);
    default:
        return who->finish(&w->net.limits, &w->net.columns, w->wire, w->offset, w->entries,
                           w->found_wire, w->found_offset, ENTRIES);
    }
}

/* Microseconds for one call, over as many as fill about 0.4 ms: short, so that among many
   rounds some are left undisturbed by whatever else runs. */
static double round_of(const struct contender *who, enum call call, struct work *w)
{
    long calls = 0;
    double start = now(), end;
    do {
        for (int i = 0; i < 4; i++)
            once(who, call, w);
        calls += 4;
        end = now();
    } while (end - start < 400);
    return (end - start) / (double)calls;
}

/* Rounds of all contenders take turns, so that a disturbance meets them alike. */
static struct times measure(const char *what, enum call call, struct work *w)
{
    struct times best = {{0}};
    if (left_out(call))
        return best;
    struct answer first = once(&contenders[0], call, w);
    for (int i = 0; i < CONTENDING; i++)
        if (has(&contenders[i], call))
            agree(what, i, once(&contenders[i], call, w), first);
    for (int round = 0; round < ROUNDS; round++)
        for (int i = 0; i < CONTENDING; i++) {
            double time = has(&contenders[i], call) ? round_of(&contenders[i], call, w) : 0;
            if (round == 0 || time < best.of[i])
                best.of[i] = time;
        }
    print_row(what, first.place, call, &best);
    return best;
}

/* ------------------------------------------------------------ what the calls work on */

/* A net on which any placement of buffers is legal: light, and a limit far above all of it. */
static void lighten(struct net *net)
{
    net->limits = (struct limits){1000000, 1, 0};
    for (size_t node = 1; node < net->columns.places; node++) {
        net->wire[node] /= 4;
        net->pin[node] /= 4;
        net->polarity[node] = 0;
    }
}

/* Entries spread evenly over the wires, in order. */
static void spread_entries(struct work *w, size_t entries)
{
    size_t wires = w->net.columns.places - 1;
    w->entries = entries;
    for (size_t i = 0; i < entries; i++) {
        w->wire[i] = (uint16_t)(1 + i * wires / entries);
        w->offset[i] = w->net.wire[w->wire[i]] / 2;
    }
}

/* Entries on wires and at offsets by chance, in order. */
static void scatter_entries(struct work *w, size_t entries)
{
    struct chance chance = {entries};
    uint32_t wires = (uint32_t)w->net.columns.places - 1;
    for (w->entries = 0; w->entries < entries; w->entries++) {
        uint16_t wire = (uint16_t)(1 + chance_upto(&chance, wires - 1));
        uint32_t offset = chance_upto(&chance, w->net.wire[wire]);
        size_t at = w->entries;
        for (; at > 0 && (w->wire[at - 1] > wire
                          || (w->wire[at - 1] == wire && w->offset[at - 1] > offset)); at--) {
            w->wire[at] = w->wire[at - 1];
            w->offset[at] = w->offset[at - 1];
        }
        w->wire[at] = wire;
        w->offset[at] = offset;
    }
}

static void lend_columns(struct work *w)
{
    w->filled.columns = (struct columns){PLACES, w->filled.parent, w->filled.wire, w->filled.kind,
                                         w->filled.pin, w->filled.polarity};
}

static void set_up(struct work *w, enum form form, uint32_t nodes, uint32_t limit, uint8_t type)
{
    struct chance chance = {77 + nodes};
    make_net(&chance, &w->net, form, nodes, limit, type, true);
    w->length = file_of(&w->net, w->file);
    lend_columns(w);
}

/* ------------------------------------------------------------ the calls, one net at a time */

static const char *const FORM[] = {"points", "chain", "star"};
static const uint32_t LIMIT[2] = {50000, 800000};

/* A net's times by C_U and type. */
struct solved { struct times by[2][2]; };

static struct solved solves(struct work *w, enum form form, uint32_t nodes)
{
    char what[80];
    struct solved solved;
    for (int i = 0; i < 4; i++) {
        uint8_t type = (uint8_t)(i % 2);
        set_up(w, form, nodes, LIMIT[i / 2], type);
        snprintf(what, sizeof what, "solve, %s, %u nodes, C_U %u, type %u", FORM[form], nodes,
                 LIMIT[i / 2], type);
        solved.by[i / 2][type] = measure(what, SOLVE, w);
    }
    return solved;
}

static void checks(struct work *w, enum form form, uint32_t nodes)
{
    char what[80];
    set_up(w, form, nodes, 100000, 0);
    lighten(&w->net);
    for (int i = 0; i < 3; i++) {
        spread_entries(w, (size_t[]){0, 100, 4096}[i]);
        snprintf(what, sizeof what, "check, %s, %u nodes, %zu entries", FORM[form], nodes,
                 w->entries);
        measure(what, CHECK, w);
    }
}

/* Eight pins are within the limit, and so is every sink: whatever is given, it can be finished. */
static void finishes(struct work *w, uint32_t nodes, uint32_t limit)
{
    char what[80];
    set_up(w, POINTS, nodes, limit, 0);
    for (int i = 0; i < 3; i++) {
        scatter_entries(w, (size_t[]){0, 10, 1000}[i]);
        snprintf(what, sizeof what, "finish, %s, %u nodes, C_U %u, %zu given", FORM[POINTS], nodes,
                 limit, w->entries);
        measure(what, FINISH, w);
    }
}

static struct solved all_calls(struct work *w, enum form form, uint32_t nodes)
{
    char what[80];
    set_up(w, form, nodes, 100000, 1);
    snprintf(what, sizeof what, "read, %s, %u nodes, %zu bytes", FORM[form], nodes, w->length);
    measure(what, READ, w);
    struct solved solved = solves(w, form, nodes);
    checks(w, form, nodes);
    return solved;
}

/* ------------------------------------------------------------ a shelf of nets, file to answer */

enum { NETS = 512, NODES = 330, PART = 32, PARTS = NETS / PART };

static uint8_t shelf[NETS * (15 + 14 * NODES)];          /* the files, one after another */
static size_t ends[NETS + 1];

static void fill_shelf(struct work *w, uint32_t limit, uint8_t type)
{
    for (size_t i = 0; i < NETS; i++) {
        struct chance chance = {1000 + i};
        make_net(&chance, &w->net, POINTS, NODES, limit, type, true);
        ends[i + 1] = ends[i] + file_of(&w->net, shelf + ends[i]);
    }
    lend_columns(w);
}

static struct answer from_shelf(const struct contender *who, size_t i, struct work *w)
{
    struct limits limits;
    struct columns net = w->filled.columns;
    struct answer answer = who->read(shelf + ends[i], ends[i + 1] - ends[i], &limits, &net);
    if (answer.number != 0)
        return answer;
    net.places = (size_t)answer.place;
    return who->solve(&limits, &net, w->found_wire, w->found_offset, ENTRIES);
}

/* One whole shelf. Its parts are timed apart, so that a disturbance of one does not count. */
static void shelf_round(const struct contender *who, double best[PARTS], struct work *w)
{
    double start = now(), end;
    for (size_t i = 0; i < NETS; i++) {
        from_shelf(who, i, w);
        if (i % PART != PART - 1)
            continue;
        end = now();
        best[i / PART] = end - start < best[i / PART] ? end - start : best[i / PART];
        start = end;
    }
}

static double sum_of(const double part[PARTS])
{
    double sum = 0;
    for (int i = 0; i < PARTS; i++)
        sum += part[i];
    return sum;
}

static uint64_t agreed_sum(const char *what, struct work *w)
{
    uint64_t sum = 0;
    for (size_t net = 0; net < NETS; net++) {
        struct answer first = from_shelf(&contenders[0], net, w);
        for (int i = 0; i < CONTENDING; i++)
            if (has(&contenders[i], SHELF))
                agree(what, i, from_shelf(&contenders[i], net, w), first);
        sum += first.place;
    }
    return sum;
}

/* Microseconds a net. */
static struct times shelves(struct work *w, uint32_t limit, uint8_t type)
{
    char what[80];
    double best[CONTENDING][PARTS];
    struct times times = {{0}};
    if (left_out(SHELF))
        return times;
    fill_shelf(w, limit, type);
    snprintf(what, sizeof what, "shelf, %d nets of %d nodes, C_U %u, type %u, a net", NETS, NODES,
             limit, type);
    uint64_t sum = agreed_sum(what, w);
    for (int i = 0; i < CONTENDING * PARTS; i++)
        best[i / PARTS][i % PARTS] = 1e30;
    for (int round = 0; round < ROUNDS; round++)
        for (int i = 0; i < CONTENDING; i++)
            if (has(&contenders[i], SHELF))
                shelf_round(&contenders[i], best[i], w);
    for (int i = 0; i < CONTENDING; i++)
        times.of[i] = sum_of(best[i]) / NETS;
    print_row(what, sum, SHELF, &times);
    return times;
}

/* ------------------------------------------------------------ the aims */

enum { HELD = CONTENDING > 1 };          /* who is held to the aims: the first beside the fast C */

static double ratio(const struct solved *solved, int limit, int type)
{
    return solved->by[limit][type].of[HELD] / solved->by[limit][type].of[0];
}

static void print_solves(const struct solved points[4], int type)
{
    printf("| solve, 128 / 330 / 1,024 nodes, type %d | 2.0 |", type);
    for (int i = 0; i < 2; i++)
        printf(" %.2f / %.2f / %.2f |", ratio(&points[0], i, type), ratio(&points[1], i, type),
               ratio(&points[3], i, type));
    printf("\n");
}

static void print_growth(const struct solved points[4], int type, int who, const char *most)
{
    printf("| solve, 1,024 nodes to 128, type %d, %s | %s |", type, contenders[who].name, most);
    for (int i = 0; i < 2; i++)
        printf(" %.2f |", points[3].by[i][type].of[who] / points[0].by[i][type].of[who]);
    printf("\n");
}

static void print_aims(const struct solved points[4], const struct solved *on_shelf)
{
    printf("\n| %s to %s | At most |", contenders[HELD].name, contenders[0].name);
    printf(" C_U %u | C_U %u |\n|---|---|---|---|\n", LIMIT[0], LIMIT[1]);
    for (int type = 0; type < 2 && !left_out(SOLVE); type++)
        print_solves(points, type);
    for (int type = 0; type < 2 && !left_out(SHELF); type++)
        printf("| shelf, file to answer, type %d | 2.5 | %.2f | %.2f |\n", type,
               ratio(on_shelf, 0, type), ratio(on_shelf, 1, type));
    for (int type = 0; type < 2 && !left_out(SOLVE); type++) {
        print_growth(points, type, HELD, "9");
        print_growth(points, type, 0, "-");
    }
}

static bool known(const char *word)
{
    bool any = word == NULL;
    for (enum call call = READ; call <= SHELF && !any; call++)
        any = strcmp(word, CALL[call]) == 0;
    return any;
}

int main(int count, char **word)
{
    static struct work w;
    struct solved points[4], on_shelf;
    only = count > 1 ? word[1] : NULL;
    if (!known(only)) {
        fprintf(stderr, "%s: nothing of that name is measured\n", only);
        return 2;
    }
    print_head();
    for (int i = 0; i < 4; i++)
        points[i] = all_calls(&w, POINTS, (uint32_t[]){128, 330, 830, 1024}[i]);
    all_calls(&w, CHAIN_NET, 1024);
    all_calls(&w, STAR_NET, 1024);
    finishes(&w, 330, 30000);
    finishes(&w, 1024, 30000);
    for (int i = 0; i < 4; i++)
        on_shelf.by[i / 2][i % 2] = shelves(&w, LIMIT[i / 2], (uint8_t)(i % 2));
    if (HELD && !(left_out(SOLVE) && left_out(SHELF)))
        print_aims(points, &on_shelf);
    return 0;
}
