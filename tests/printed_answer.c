/* See printed_answer.h. With -DPRINTED_ANSWER_MAIN also a program:
     printed_answer NET_FILE < PRINTED_TEXT */
#include "printed_answer.h"
#include "reference.h"

#include <inttypes.h>
#include <stdbool.h>
#include <stdio.h>
#include <stdlib.h>
#include <string.h>

enum { LINE = 80, TEXT = LINE * (REF_ENTRIES + 2) };

static bool is_refusal(const char *text, uint32_t number, uint64_t place)
{
    char line[LINE];
    snprintf(line, sizeof line, "refused %" PRIu32 " place %" PRIu64 "\n", number, place);
    return strcmp(text, line) == 0;
}

/* The placement that the text names; false where a line does not begin as it should. */
static bool take_entries(const char *text, struct ref_placement *placement)
{
    unsigned wire;
    uint32_t offset;
    const char *line = strchr(text, '\n');
    placement->entries = 0;
    while (line != NULL && sscanf(line, "\nwire %u offset %" SCNu32, &wire, &offset) == 2) {
        if (placement->entries == REF_ENTRIES || wire > 1024)
            return false;
        placement->wire[placement->entries] = (uint16_t)wire;
        placement->offset[placement->entries++] = offset;
        line = strchr(line + 1, '\n');
    }
    return line != NULL;
}

/* What the program prints for this placement, byte for byte. */
static void print_answer(char *to, const struct ref_placement *p, const uint64_t *drives,
                         uint64_t source)
{
    to += sprintf(to, "least %zu\n", p->entries);
    for (size_t i = 0; i < p->entries; i++)
        to += sprintf(to, "wire %u offset %" PRIu32 " drives %" PRIu64 "\n", p->wire[i],
                      p->offset[i], drives[i]);
    sprintf(to, "source drives %" PRIu64 "\n", source);
}

const char *fault_in_answer(const uint8_t *bytes, size_t length, const char *text)
{
    static struct ref_net net;
    static struct ref_placement p;
    static uint64_t drives[REF_ENTRIES];
    static char right[TEXT];
    uint64_t source = 0;
    struct ref_answer read = ref_read_net(bytes, length, &net);
    if (read.number != 0)
        return is_refusal(text, read.number, read.place) ? NULL : "the file's refusal is another";
    int64_t least = ref_least_frontier(&net, NULL);
    if (least == REF_NONE)
        return is_refusal(text, 8, 0) ? NULL : "there is no legal placement";
    if (least > REF_ENTRIES)
        return is_refusal(text, 9, (uint64_t)least) ? NULL : "the least count is over 4,096";
    if (!take_entries(text, &p))
        return "not the lines of an answer";
    if (p.entries != (size_t)least)
        return "not as many entries as the least count";
    if (ref_check(&net, p.wire, p.entries, p.offset, p.entries, drives, &source).number != 0)
        return "the placement is not legal";
    print_answer(right, &p, drives, source);
    return strcmp(text, right) == 0 ? NULL : "a count, a load or a letter is wrong";
}

#ifdef PRINTED_ANSWER_MAIN
int main(int count, char **word)
{
    static uint8_t bytes[1 << 20];
    static char text[TEXT];
    FILE *file = count == 2 ? fopen(word[1], "rb") : NULL;
    if (file == NULL) {
        fprintf(stderr, "printed_answer NET_FILE < PRINTED_TEXT\n");
        return 2;
    }
    size_t length = fread(bytes, 1, sizeof bytes, file);
    text[fread(text, 1, sizeof text - 1, stdin)] = 0;
    fclose(file);
    const char *fault = fault_in_answer(bytes, length, text);
    puts(fault == NULL ? "right" : fault);
    return fault != NULL;
}
#endif
