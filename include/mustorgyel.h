/*
 * Mustorgyel, the call for the router: is this placement legal on this net?
 *
 *     uint32_t number = mustorgyel_check(net, net_length, placement, placement_length);
 *
 * net        the bytes of a net file        (docs/RULES.md, section 3)
 * placement  the bytes of a placement file
 *
 * Any bytes may be passed, and any length; a pointer may be NULL where its length is 0. Nothing is written through the pointers,
 * nothing is kept after the call, no memory is taken from the heap, and the call always returns. It may be made from several
 * threads at once.
 *
 * The answer is a number alone: MUSTORGYEL_LEGAL (0), or that of the first fault, looked for in the net file, then in the placement
 * file, then in the placement as it stands on the net.
 *
 * Stack: the deeper the net, the more, about 150 bytes for each node on the longest way down and 51,000 besides. Measured at most, as an
 * older kit (rattle-kit-5b) compiled it: 198,000 bytes, on a chain of 1,024 nodes without entries. A thread with 256 KiB of stack is enough.
 *
 * Link with librouter.a, which `tools/archives router` proves and writes to target/staticlib/, for x86-64 and for nothing else. It calls
 * memcpy and memset, no more:
 *
 *     cc -I include program.c target/staticlib/librouter.a -o program
 */
#ifndef MUSTORGYEL_H
#define MUSTORGYEL_H

#include <stddef.h>
#include <stdint.h>

#ifdef __cplusplus
extern "C" {
#endif

/* All that the call can answer: 0, and those of the refusals of docs/RULES.md, section 4, that two files can meet. */
enum mustorgyel_number {
    MUSTORGYEL_LEGAL = 0,            /* the first file is a net and the second a legal placement of it */
    MUSTORGYEL_FILE_ENDS = 1,        /* a file is over inside a field, or before its end field */
    MUSTORGYEL_NOT_DUE = 2,          /* a tag is unknown or may not come there, or a field's length is wrong */
    MUSTORGYEL_OUT_OF_RANGE = 3,     /* a value is outside its range */
    MUSTORGYEL_WRONG_PARENT = 4,     /* a parent is no lower node, is a sink, or has eight children; or there are too many nodes */
    MUSTORGYEL_CHILDLESS = 5,        /* a branch point or the source has no child */
    MUSTORGYEL_BYTES_AFTER_END = 6,  /* a file goes on behind its end field */
    MUSTORGYEL_MISPLACED = 10,       /* an entry's wire does not exist or is too short for it, or the entries are not in order */
    MUSTORGYEL_OVERLOADED = 11,      /* a driver, an entry or the source, drives more than C_U */
    MUSTORGYEL_WRONG_PARITY = 12     /* inverters: the sinks' polarities do not agree */
};

uint32_t mustorgyel_check(const uint8_t *net, size_t net_length,
                          const uint8_t *placement, size_t placement_length);

#ifdef __cplusplus
}
#endif

#endif
