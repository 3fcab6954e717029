/* The proved calls as contenders of measure.c. */
#include "../tests/proved_calls.h"

#define PROVED_COLUMNS(net) (net)->parent, (net)->places, (net)->wire, (net)->places, \
                            (net)->kind, (net)->places, (net)->pin, (net)->places, \
                            (net)->polarity, (net)->places

static struct answer proved_reader(const uint8_t *bytes, size_t length, struct limits *limits,
                                   const struct columns *room)
{
    struct answer answer;
    answer.number = proved_read_net(bytes, length, &limits->limit, &limits->pin, &limits->type,
                                    PROVED_COLUMNS(room), &answer.place);
    return answer;
}

static struct answer proved_solver(const struct limits *limits, const struct columns *net,
                                   uint16_t *wire, uint32_t *offset, size_t room)
{
    struct answer answer;
    answer.number = proved_solve(limits->limit, limits->pin, limits->type, PROVED_COLUMNS(net),
                                 wire, room, offset, room, &answer.place);
    return answer;
}

static struct answer proved_checker(const struct limits *limits, const struct columns *net,
                                    const uint16_t *wire, const uint32_t *offset, size_t entries,
                                    uint64_t *source)
{
    struct answer answer;
    answer.number = proved_check(limits->limit, limits->pin, limits->type, PROVED_COLUMNS(net),
                                 wire, entries, offset, entries, source, &answer.place);
    return answer;
}

static struct answer proved_finisher(const struct limits *limits, const struct columns *net,
                                     const uint16_t *given, const uint32_t *given_offset,
                                     size_t givens, uint16_t *wire, uint32_t *offset, size_t room)
{
    struct answer answer;
    answer.number = proved_finish(limits->limit, limits->pin, limits->type, PROVED_COLUMNS(net),
                                  given, givens, given_offset, givens, wire, room, offset, room,
                                  &answer.place);
    return answer;
}

#define CONTENDERS {"proved", proved_reader, proved_solver, proved_checker, proved_finisher},
