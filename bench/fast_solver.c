/* The solver: judged, then by the type. */
#include "fast.h"

struct answer fast_solve(const struct limits *limits, const struct columns *net,
                         uint16_t *wire, uint32_t *offset, size_t room)
{
    uint16_t children[PLACES];
    struct answer judged = fast_judge(limits, net, children);
    if (judged.number != 0)
        return judged;
    return limits->type == 0 ? fast_solve_buffers(limits, net, wire, offset, room)
                             : fast_solve_inverters(limits, net, children, wire, offset, room);
}
