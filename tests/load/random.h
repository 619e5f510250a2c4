/* Random numbers from a seed, the same on every machine. */
#ifndef RANDOM_H
#define RANDOM_H

#include <stdint.h>

struct random {
    uint64_t state; /* not 0 */
};

/* The next 32 random bits. */
static inline uint32_t random_bits(struct random *r)
{
    r->state ^= r->state >> 12;
    r->state ^= r->state << 25;
    r->state ^= r->state >> 27;
    return (uint32_t)((r->state * UINT64_C(2685821657736338717)) >> 32);
}

/* A number below n, which is at least 1. */
static inline uint32_t random_below(struct random *r, uint32_t n)
{
    return (uint32_t)(((uint64_t)random_bits(r) * n) >> 32);
}

/* True once in n times. */
static inline int random_once(struct random *r, uint32_t n)
{
    return random_below(r, n) == 0;
}

#endif
