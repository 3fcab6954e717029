/* reference.c asked line by line on standard input; compare_references.py compares its answers
   with those of reference.py. Files are in hex, "-" for an empty one:
     net F | placement F | rewrite F | check F F | files F F | carry F F F | least F | frontier F
     judge C_U C_b TYPE COLUMN COLUMN COLUMN COLUMN COLUMN   (numbers with commas, or "-")
     finish F COLUMN COLUMN ROOM | added F F                 (added: on small nets) */
#include "reference.h"

#include <inttypes.h>
#include <stdio.h>
#include <stdlib.h>
#include <string.h>

enum { LINE = 400000, BYTES = 60000, COLUMN = 5000 };

struct bytes { uint8_t at[BYTES]; size_t size; };

static struct bytes take_bytes(void)
{
    static struct bytes file;
    const char *hex = strtok(NULL, " \n");
    file.size = 0;
    if (strcmp(hex, "-") == 0)
        return file;
    for (; *hex; hex += 2) {
        char two[3] = {hex[0], hex[1], 0};
        file.at[file.size++] = (uint8_t)strtoul(two, NULL, 16);
    }
    return file;
}

static size_t take_column(uint32_t *column)
{
    char *text = strtok(NULL, " \n");
    size_t size = 0;
    if (strcmp(text, "-") == 0)
        return 0;
    for (char *end = text; ; text = end + 1) {
        column[size++] = (uint32_t)strtoul(text, &end, 10);
        if (*end != ',')
            return size;
    }
}

static void say(struct ref_answer answer)
{
    if (answer.number == 0)
        printf("read %" PRIu64 "\n", answer.place);
    else
        printf("refused %" PRIu32 " place %" PRIu64 "\n", answer.number, answer.place);
}

static uint32_t number(const uint8_t *at, int size)
{
    return size == 0 ? 0 : number(at, size - 1) << 8 | at[size - 1];
}

/* The net of a file without any judgement: columns may hold what no file may. */
static struct ref_net take_net(void)
{
    static struct ref_net net;
    struct bytes file = take_bytes();
    const uint8_t *at = file.at;
    net.limits = (struct ref_limits){number(at + 3, 4), number(at + 7, 4), at[11]};
    net.nodes = 1;
    for (at += 12; *at != 0x7F; at += 3 + at[2]) {
        net.parent[net.nodes] = (uint16_t)number(at + 3, 2);
        net.wire[net.nodes] = number(at + 5, 4);
        net.kind[net.nodes] = *at == 0x03;
        net.pin[net.nodes] = *at == 0x03 ? number(at + 9, 4) : 0;
        net.polarity[net.nodes++] = *at == 0x03 ? at[13] : 0;
    }
    return net;
}

static struct ref_placement take_placement(void)
{
    static struct ref_placement placement;
    struct bytes file = take_bytes();
    ref_read_placement(file.at, file.size, &placement);
    return placement;
}

static void do_net(void)
{
    static struct ref_net net;
    struct bytes file = take_bytes();
    say(ref_read_net(file.at, file.size, &net));
}

static void do_placement(void)
{
    static struct ref_placement placement;
    struct bytes file = take_bytes();
    say(ref_read_placement(file.at, file.size, &placement));
}

static void say_hex(const uint8_t *bytes, size_t size)
{
    for (size_t i = 0; i < size; i++)
        printf("%02x", bytes[i]);
    printf("\n");
}

static void do_rewrite(void)
{
    static struct ref_net net;
    static struct ref_placement placement;
    static uint8_t written[BYTES];
    struct bytes file = take_bytes();
    size_t size = 0;
    if (ref_read_net(file.at, file.size, &net).number == 0)
        size = ref_write_net(&net, written);
    else if (ref_read_placement(file.at, file.size, &placement).number == 0)
        size = ref_write_placement(&placement, written);
    say_hex(written, size);
}

typedef struct ref_answer loads(const struct ref_net *net, const uint16_t *wire, size_t wires,
                                const uint32_t *offset, size_t offsets,
                                uint64_t *drives, uint64_t *source);

static void do_loads(loads *loads)
{
    static uint64_t drives[REF_ENTRIES];
    uint64_t source = 0;
    struct ref_net net = take_net();
    struct ref_placement p = take_placement();
    struct ref_answer answer = loads(&net, p.wire, p.entries, p.offset, p.entries, drives, &source);
    if (answer.number != 0) {
        say(answer);
        return;
    }
    printf("count %" PRIu64 " source %" PRIu64, answer.place, source);
    for (size_t i = 0; i < p.entries; i++)
        printf(" %" PRIu64, drives[i]);
    printf("\n");
}

static void do_files(void)
{
    struct bytes net = take_bytes(), placement = take_bytes();
    printf("%" PRIu32 "\n", ref_check_files(net.at, net.size, placement.at, placement.size));
}

static void do_carry(void)
{
    static uint8_t written[BYTES];
    struct ref_net first = take_net(), second = take_net();
    struct ref_placement placement = take_placement();
    int refused = 0;
    struct ref_answer answer = ref_carry(&first, &second, &placement, &refused);
    if (answer.number != 0)
        printf("net %d ", refused), say(answer);
    else
        say_hex(written, ref_write_placement(&placement, written));
}

static void do_least(int exhaustive)
{
    struct ref_net net = take_net();
    static struct ref_placement found;
    int64_t least = ref_least_frontier(&net, &found);
    if (least >= 0 && least <= REF_ENTRIES) {
        struct ref_answer judged = ref_check(&net, found.wire, found.entries,
                                             found.offset, found.entries, NULL, NULL);
        if (judged.number != 0 || judged.place != (uint64_t)least)
            least = -100 - judged.number;
    }
    printf("%" PRId64 " %" PRId64 "\n", least, exhaustive ? ref_least_exhaustive(&net) : least);
}

static void do_judge(void)
{
    static uint32_t c[5][COLUMN];
    static uint16_t parent[COLUMN];
    static uint8_t kind[COLUMN], polarity[COLUMN];
    struct ref_limits limits;
    size_t n[5];
    limits.limit = (uint32_t)strtoul(strtok(NULL, " "), NULL, 10);
    limits.pin = (uint32_t)strtoul(strtok(NULL, " "), NULL, 10);
    limits.type = (uint8_t)strtoul(strtok(NULL, " "), NULL, 10);
    for (int i = 0; i < 5; i++)
        n[i] = take_column(c[i]);
    for (size_t i = 0; i < COLUMN; i++) {
        parent[i] = (uint16_t)c[0][i];
        kind[i] = (uint8_t)c[2][i];
        polarity[i] = (uint8_t)c[4][i];
    }
    say(ref_judge(limits, parent, n[0], c[1], n[1], kind, n[2], c[3], n[3], polarity, n[4]));
}

static void do_finish(void)
{
    static uint32_t wires[COLUMN], offsets[COLUMN];
    static uint16_t wire[COLUMN];
    static struct ref_placement given, added;
    struct ref_net net = take_net();
    size_t n = take_column(wires), m = take_column(offsets);
    size_t room = (size_t)strtoul(strtok(NULL, " \n"), NULL, 10);
    for (size_t i = 0; i < n; i++)
        wire[i] = (uint16_t)wires[i];
    struct ref_answer found = ref_finish(&net, wire, n, offsets, m, room, &added);
    if (found.number == 0) {
        given.entries = n;
        memcpy(given.wire, wire, n * sizeof *wire);
        memcpy(given.offset, offsets, n * sizeof *offsets);
    }
    if (found.number == 0 && (added.entries != found.place || !ref_completes(&net, &given, &added)))
        printf("no completion: ");
    say(found);
}

static void do_added(void)
{
    struct ref_net net = take_net();
    struct ref_placement given = take_placement();
    printf("%" PRId64 " %" PRId64 "\n", ref_least_added(&net, &given, NULL),
           ref_least_added_exhaustive(&net, &given));
}

static void act(const char *word)
{
    if (strcmp(word, "net") == 0)
        do_net();
    else if (strcmp(word, "placement") == 0)
        do_placement();
    else if (strcmp(word, "rewrite") == 0)
        do_rewrite();
    else if (strcmp(word, "check") == 0)
        do_loads(ref_check);
    else if (strcmp(word, "drives") == 0)
        do_loads(ref_list_drives);
    else if (strcmp(word, "files") == 0)
        do_files();
    else if (strcmp(word, "carry") == 0)
        do_carry();
    else if (strcmp(word, "judge") == 0)
        do_judge();
    else if (strcmp(word, "finish") == 0)
        do_finish();
    else if (strcmp(word, "added") == 0)
        do_added();
    else
        do_least(strcmp(word, "least") == 0);
}

int main(void)
{
    static char line[LINE];
    while (fgets(line, sizeof line, stdin) != NULL)
        act(strtok(line, " \n"));
    return 0;
}
