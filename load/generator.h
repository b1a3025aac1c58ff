/* The generator: requests of all realms, in closed loop or paced, each answer checked. */
#ifndef GENERATOR_H
#define GENERATOR_H

#include "latency.h"
#include "meters.h"
#include "plan.h"
#include "sockets.h"

/* Counts since the generator was opened. */
struct tally {
    uint64_t sent;     /* requests, each counted once */
    uint64_t resent;   /* datagrams sent again */
    uint64_t lost;     /* requests without an answer after all tries */
    uint64_t late;     /* answers to no waiting request: given twice, or after all tries */
    uint64_t strange;  /* answers from another address than the request went to */
    uint64_t skipped;  /* paced requests that found all of their realm's slots waiting */
    uint64_t verdicts[VERDICTS];
};

struct slot {
    struct request request;
    uint64_t planned; /* the moment when it was to be sent first */
    uint32_t turn;
    uint16_t realm;
    uint8_t sends;
};

enum { IDENTIFIERS = 256 };

struct channel {
    int socket;
    struct outgoing outgoing;
    uint8_t last[IDENTIFIERS][MD5_SIZE];   /* Authenticators of the last requests */
    uint8_t former[IDENTIFIERS][MD5_SIZE]; /* and of those before them */
};

struct target {
    struct sockaddr_in address;
    struct secret secret;
};

struct generator {
    const struct plan *plan;
    struct random random;
    struct target *targets; /* by realm */
    struct slot *slots;
    uint64_t *deadlines; /* by slot; 0 for one that doesn't wait */
    unsigned slot_count;
    unsigned slots_a_channel;
    struct channel *channels;
    unsigned channel_count;
    int poller;
    uint64_t rate; /* 0 in closed loop */
    bool issuing;
    unsigned started;    /* closed loop: slots that were started */
    unsigned first_realm; /* paced: realms below get none */
    unsigned next_realm;
    uint32_t next_user[MOST_REALMS];
    uint64_t next_due;
    uint64_t next_expiry;
    struct tally tally;
    struct latency latency;
    struct incoming incoming;
};

struct generator *generator_open(const struct plan *plan);
/* Requests from now on: in closed loop where the rate is 0, of the realms from `first` on. */
void generator_start(struct generator *generator, uint64_t rate, unsigned first);
/* Sends and receives until a moment. */
void generator_run(struct generator *generator, uint64_t until);
/* Sends no new requests, and waits until none waits: at most `wait` for each try. */
void generator_drain(struct generator *generator);

#endif
