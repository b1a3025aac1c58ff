/* Counts of durations in nanoseconds, in classes that are at most 1.6 % wide. */
#ifndef LATENCY_H
#define LATENCY_H

#include <stdint.h>

enum { LATENCY_PARTS = 64, LATENCY_CLASSES = 60 * LATENCY_PARTS };

struct latency {
    uint64_t total;
    uint64_t longest;
    uint64_t classes[LATENCY_CLASSES];
};

void latency_clear(struct latency *latency);
void latency_add(struct latency *latency, uint64_t nanoseconds);
/* The duration that `share` of all (0 to 1) don't pass, in microseconds; 0 where there are none. */
double latency_at(const struct latency *latency, double share);

#endif
