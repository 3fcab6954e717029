/* Random numbers from a seed, the same on every machine. */
#ifndef CHANCE_H
#define CHANCE_H

#include <stdint.h>

struct chance { uint64_t state; };

/* splitmix64: any seed will do. */
static inline uint64_t chance_next(struct chance *chance)
{
    uint64_t z = chance->state += 0x9E3779B97F4A7C15u;
    z = (z ^ z >> 30) * 0xBF58476D1CE4E5B9u;
    z = (z ^ z >> 27) * 0x94D049BB133111EBu;
    return z ^ z >> 31;
}

/* A number from 0 to most. */
static inline uint32_t chance_upto(struct chance *chance, uint32_t most)
{
    return (uint32_t)(chance_next(chance) % ((uint64_t)most + 1));
}

#endif
