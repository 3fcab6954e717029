/* What a router does: this file knows the library by its header alone. */
#include "../include/mustorgyel.h"

#include <pthread.h>
#include <stdio.h>
#include <stdlib.h>
#include <string.h>

/* examples/wire-14.net: C_U 10, C_b 2, buffers; one sink at a wire of 14, pin 4. And one byte more. */
static const uint8_t net[30] = {
    0x01, 0x00, 0x09, 0, 0, 0, 10, 0, 0, 0, 2, 0,
    0x03, 0x00, 0x0B, 0, 0, 0, 0, 0, 14, 0, 0, 0, 4, 0,
    0x7F, 0x00, 0x00, 0x00,
};

/* One entry on a wire at an offset. */
static void placement_of(uint8_t *file, uint8_t wire, uint8_t offset)
{
    const uint8_t bytes[17] = {0x11, 0, 2, 0, 1, 0x12, 0, 6, 0, wire, 0, 0, 0, offset, 0x7F, 0, 0};
    memcpy(file, bytes, sizeof bytes);
}

static const uint8_t none[8] = {0x11, 0, 2, 0, 0, 0x7F, 0, 0};

static void expect(const char *what, uint32_t want, uint32_t have)
{
    if (want == have)
        return;
    printf("%s: %u, not %u\n", what, (unsigned)have, (unsigned)want);
    exit(1);
}

/* ------------------------------------------------------------ the deepest net on a small stack */

enum { WIRES = 1024, STACK = 256 * 1024 };

static uint8_t chain[12 + 9 * (WIRES - 1) + 14 + 3];

static uint8_t *put(uint8_t *to, const uint8_t *bytes, size_t length)
{
    memcpy(to, bytes, length);
    return to + length;
}

/* 1,024 wires one below the other, a sink at the last. */
static void make_chain(void)
{
    const uint8_t limits[12] = {0x01, 0, 9, 0, 0, 0, 10, 0, 0, 0, 2, 0};
    const uint8_t end[3] = {0x7F, 0, 0};
    uint8_t *to = put(chain, limits, sizeof limits);
    for (unsigned node = 1; node <= WIRES; node++) {
        const uint8_t high = (uint8_t)((node - 1) >> 8), low = (uint8_t)(node - 1);
        const uint8_t branch[9] = {0x02, 0, 6, high, low, 0, 0, 0, 0};
        const uint8_t sink[14] = {0x03, 0, 11, high, low, 0, 0, 0, 0, 0, 0, 0, 4, 0};
        to = node < WIRES ? put(to, branch, sizeof branch) : put(to, sink, sizeof sink);
    }
    put(to, end, sizeof end);
}

static void *check_chain(void *answer)
{
    *(uint32_t *)answer = mustorgyel_check(chain, sizeof chain, none, sizeof none);
    return NULL;
}

static uint32_t on_small_stack(void)
{
    uint32_t answer = 99;
    pthread_attr_t small;
    pthread_t thread;
    make_chain();
    if (pthread_attr_init(&small) != 0 || pthread_attr_setstacksize(&small, STACK) != 0
        || pthread_create(&thread, &small, check_chain, &answer) != 0)
        return 98;
    pthread_join(thread, NULL);
    return answer;
}

int main(void)
{
    uint8_t one[17];
    for (uint8_t offset = 0; offset <= 14; offset++) {
        placement_of(one, 1, offset);
        expect("one entry serves at 6 only", offset == 6 ? MUSTORGYEL_LEGAL : MUSTORGYEL_OVERLOADED,
               mustorgyel_check(net, 29, one, 17));
    }
    placement_of(one, 1, 15);
    expect("an entry past its wire", MUSTORGYEL_MISPLACED, mustorgyel_check(net, 29, one, 17));
    placement_of(one, 2, 0);
    expect("an entry on no wire", MUSTORGYEL_MISPLACED, mustorgyel_check(net, 29, one, 17));
    placement_of(one, 0, 0);
    expect("wire 0 in a file", MUSTORGYEL_OUT_OF_RANGE, mustorgyel_check(net, 29, one, 17));
    expect("no entries", MUSTORGYEL_OVERLOADED, mustorgyel_check(net, 29, none, 8));
    expect("the net cut", MUSTORGYEL_FILE_ENDS, mustorgyel_check(net, 28, none, 8));
    expect("the net with a byte more", MUSTORGYEL_BYTES_AFTER_END, mustorgyel_check(net, 30, none, 8));
    expect("the placement cut", MUSTORGYEL_FILE_ENDS, mustorgyel_check(net, 29, none, 7));
    expect("the two exchanged", MUSTORGYEL_NOT_DUE, mustorgyel_check(none, 8, net, 29));
    expect("the net's refusal first", MUSTORGYEL_FILE_ENDS, mustorgyel_check(net, 28, none, 7));
    expect("no net file", MUSTORGYEL_FILE_ENDS, mustorgyel_check(NULL, 0, none, 8));
    expect("no placement file", MUSTORGYEL_FILE_ENDS, mustorgyel_check(net, 29, NULL, 0));
    expect("neither", MUSTORGYEL_FILE_ENDS, mustorgyel_check(NULL, 0, NULL, 0));
    expect("the deepest net on a stack of 256 KiB", MUSTORGYEL_LEGAL, on_small_stack());
    printf("the router's call from C: as docs/RULES.md says\n");
    return 0;
}
