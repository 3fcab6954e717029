/* The rules (docs/RULES.md) in plain C: a second opinion beside reference.py.
   It shares nothing with the crates, nor with the C programs in bench/. */
#ifndef REFERENCE_H
#define REFERENCE_H

#include <stdbool.h>
#include <stddef.h>
#include <stdint.h>

enum { REF_NODES = 1025, REF_ENTRIES = 4096, REF_NET_BYTES = 14351, REF_PLACEMENT_BYTES = 36872 };

/* number 0: success, and place holds the answer (places filled, bytes, or the count).
   Otherwise the refusal and its place. */
struct ref_answer { uint32_t number; uint64_t place; };

struct ref_limits { uint32_t limit, pin; uint8_t type; };       /* C_U, C_b, 0 or 1 */

struct ref_net {
    struct ref_limits limits;
    size_t nodes;                                               /* node 0 counted */
    uint16_t parent[REF_NODES];
    uint32_t wire[REF_NODES];
    uint8_t kind[REF_NODES];
    uint32_t pin[REF_NODES];
    uint8_t polarity[REF_NODES];
};

struct ref_placement {
    size_t entries;
    uint16_t wire[REF_ENTRIES];
    uint32_t offset[REF_ENTRIES];
};

/* Files. A refusal leaves *net or *placement in an unspecified state. */
struct ref_answer ref_read_net(const uint8_t *bytes, size_t length, struct ref_net *net);
struct ref_answer ref_read_placement(const uint8_t *bytes, size_t length,
                                     struct ref_placement *placement);
/* Unjudged; the bytes must have room. Answers how many were written. */
size_t ref_write_net(const struct ref_net *net, uint8_t *bytes);
size_t ref_write_placement(const struct ref_placement *placement, uint8_t *bytes);

/* Columns, each a pointer and a length. */
struct ref_answer ref_judge(struct ref_limits limits,
                            const uint16_t *parent, size_t parents,
                            const uint32_t *wire, size_t wires,
                            const uint8_t *kind, size_t kinds,
                            const uint32_t *pin, size_t pins,
                            const uint8_t *polarity, size_t polarities);
struct ref_answer ref_judge_net(const struct ref_net *net);

/* The checker. On success place is the count, *source the source's load and drives[i] what
   entry i drives; either may be NULL. drives needs a place for each entry. */
struct ref_answer ref_check(const struct ref_net *net,
                            const uint16_t *wire, size_t wires,
                            const uint32_t *offset, size_t offsets,
                            uint64_t *drives, uint64_t *source);
/* As ref_check without 11 and 12: what a placement drives that stands on its wires. */
struct ref_answer ref_list_drives(const struct ref_net *net,
                                  const uint16_t *wire, size_t wires,
                                  const uint32_t *offset, size_t offsets,
                                  uint64_t *drives, uint64_t *source);
uint32_t ref_check_files(const uint8_t *net, size_t net_length,
                         const uint8_t *placement, size_t placement_length);

/* The carry. *refused_net is 1 or 2 where a net was refused, else 0.
   On success the offsets are changed. */
struct ref_answer ref_carry(const struct ref_net *first, const struct ref_net *second,
                            struct ref_placement *placement, int *refused_net);
struct ref_answer ref_eases(const struct ref_net *first, const struct ref_net *second);

/* The least count of a judged net, or REF_NONE. The exhaustive search is for small nets:
   wires of at most REF_SMALL_WIRE. The frontier search takes any, in time that grows with the
   entries; *placement (may be NULL) gets a least placement if its count is at most 4,096. */
enum { REF_NONE = -1, REF_SMALL_WIRE = 24 };
int64_t ref_least_exhaustive(const struct ref_net *net);
int64_t ref_least_frontier(const struct ref_net *net, struct ref_placement *placement);

/* Finishing. Of given entries that stand in order on a judged net of type 0: the least number of
   added ones with which the whole is legal, or REF_NONE. The two searches are as those above;
   *added (may be NULL) gets the entries if they are at most 4,096. */
int64_t ref_least_added_exhaustive(const struct ref_net *net, const struct ref_placement *given);
int64_t ref_least_added(const struct ref_net *net, const struct ref_placement *given,
                        struct ref_placement *added);
/* Are the added entries in order, and is the whole legal? It may have more than 4,096 entries. */
bool ref_completes(const struct ref_net *net, const struct ref_placement *given,
                   const struct ref_placement *added);
/* The whole call; `room` is the shorter lent column. On success place is the number of entries
   in *added; a refusal leaves *added in an unspecified state. */
struct ref_answer ref_finish(const struct ref_net *net,
                             const uint16_t *wire, size_t wires,
                             const uint32_t *offset, size_t offsets,
                             size_t room, struct ref_placement *added);

#endif
