#include "latency.h"

#include <string.h>

void latency_clear(struct latency *latency)
{
    memset(latency, 0, sizeof *latency);
}

static unsigned class_of(uint64_t nanoseconds)
{
    unsigned shift;

    if (nanoseconds < 2 * LATENCY_PARTS)
        return (unsigned)nanoseconds;
    shift = 63 - (unsigned)__builtin_clzll(nanoseconds) - 6;
    return (shift + 1) * LATENCY_PARTS + (unsigned)(nanoseconds >> shift) - LATENCY_PARTS;
}

static uint64_t end_of_class(unsigned number)
{
    unsigned shift;

    if (number < 2 * LATENCY_PARTS)
        return number;
    shift = number / LATENCY_PARTS - 1;
    return (((uint64_t)(number % LATENCY_PARTS + LATENCY_PARTS) + 1) << shift) - 1;
}

void latency_add(struct latency *latency, uint64_t nanoseconds)
{
    latency->classes[class_of(nanoseconds)]++;
    latency->total++;
    if (nanoseconds > latency->longest)
        latency->longest = nanoseconds;
}

double latency_at(const struct latency *latency, double share)
{
    uint64_t wanted = (uint64_t)(share * (double)latency->total), seen = 0;

    for (unsigned number = 0; number < LATENCY_CLASSES; number++) {
        seen += latency->classes[number];
        if (seen > wanted || (seen == latency->total && seen > 0)) {
            uint64_t end = end_of_class(number);
            return (double)(end < latency->longest ? end : latency->longest) / 1000;
        }
    }
    return 0;
}
