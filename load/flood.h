/* Requests of one realm from a thread of its own: a flood, or a stream at a rate. Their answers
   are counted and not looked at. */
#ifndef FLOOD_H
#define FLOOD_H

#include <pthread.h>
#include <stdatomic.h>

#include "plan.h"

struct flood {
    const struct plan *plan;
    unsigned peer;
    unsigned realm;
    uint64_t rate; /* requests a second; 0 for as fast as it goes */
    uint64_t seconds; /* it ends by itself after these */
    atomic_bool stopped;
    uint64_t sent;
    uint64_t answered;
    pthread_t thread;
};

void flood_start(struct flood *flood);
/* Ends the thread; then the counts can be read. */
void flood_stop(struct flood *flood);

#endif
