/* Mutated datagrams from a seed, to all ports of the broker, at a bounded rate. */
#ifndef MUTATOR_H
#define MUTATOR_H

#include <pthread.h>
#include <stdatomic.h>

#include "plan.h"

enum port_kind { TO_AUTH, TO_ACCT, TO_OUT, TO_REVERSE, PORT_KINDS };

struct mutator {
    const struct plan *plan;
    atomic_bool stopped;
    atomic_bool done;
    uint64_t sent[PORT_KINDS];
    uint64_t signed_anew; /* of these, how many were sealed and signed after they were changed */
    uint64_t answers;     /* datagrams that came back to the senders */
    uint64_t forwarded;   /* reverse requests that came to a peer's `coa` endpoint */
    pthread_t thread;
};

void mutator_start(struct mutator *mutator);
void mutator_stop(struct mutator *mutator);

#endif
