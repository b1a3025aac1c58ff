/* Random numbers from a seed (splitmix64): the same seed gives the same numbers. */
#ifndef RANDOM_H
#define RANDOM_H

#include <stdint.h>
#include <string.h>

struct random {
    uint64_t state;
};

static inline uint64_t random_next(struct random *random)
{
    uint64_t word = random->state += 0x9e3779b97f4a7c15;

    word = (word ^ word >> 30) * 0xbf58476d1ce4e5b9;
    word = (word ^ word >> 27) * 0x94d049bb133111eb;
    return word ^ word >> 31;
}

/* A number below `limit`, which isn't 0. */
static inline uint64_t random_below(struct random *random, uint64_t limit)
{
    return random_next(random) % limit;
}

static inline void random_fill(struct random *random, uint8_t *octets, size_t length)
{
    for (size_t at = 0; at < length; at += sizeof(uint64_t)) {
        uint64_t word = random_next(random);
        size_t left = length - at;
        memcpy(octets + at, &word, left < sizeof word ? left : sizeof word);
    }
}

#endif
