/* A seeded generator (splitmix64), so that a run can be made again. */
#ifndef RANDOM_H
#define RANDOM_H

#include <stddef.h>
#include <stdint.h>

struct random {
    uint64_t state;
};

static inline uint64_t next(struct random *r)
{
    uint64_t z = r->state += 0x9e3779b97f4a7c15;
    z = (z ^ z >> 30) * 0xbf58476d1ce4e5b9;
    z = (z ^ z >> 27) * 0x94d049bb133111eb;
    return z ^ z >> 31;
}

/* a number below n, which is not 0 */
static inline size_t below(struct random *r, size_t n)
{
    return (size_t)(next(r) % n);
}

static inline void fill_random(struct random *r, uint8_t *to, size_t len)
{
    for (size_t i = 0; i < len; i++)
        to[i] = (uint8_t)next(r);
}

#endif
