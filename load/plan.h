/* What the generator is asked to do. */
#ifndef PLAN_H
#define PLAN_H

#include "layout.h"

struct plan {
    uint64_t base;        /* the port that all others follow from */
    uint64_t realms;
    uint64_t outstanding; /* requests of a realm that wait at a time, at most */
    uint64_t turns;       /* Identifiers that a request slot takes in turn */
    uint64_t batch;       /* datagrams that one system call sends or receives, at most */
    uint64_t seconds;     /* of a measured window */
    uint64_t warmup;      /* seconds before it */
    uint64_t rate;        /* requests a second of all realms, where paced */
    uint64_t wait;        /* milliseconds until a request is sent again */
    uint64_t tries;       /* how often it is sent in all */
    uint64_t seed;
    uint64_t count;       /* mutated datagrams */
    uint64_t mutated_rate;
    uint64_t flood_rate;  /* requests a second of a flood; 0 for as fast as it goes */
    uint64_t spoilt;      /* of 1000 answers, how many have a mutated one before them */
    uint64_t threads;     /* 1: print the processor time of the broker's threads */
    uint64_t process;     /* the broker's process, 0 for none */
    const char *via;      /* "direct" or "broker" */
    const char *kind;     /* "access" or "accounting" */
    const char *board;    /* the file of the home servers' counts */
};

bool is_direct(const struct plan *plan);
enum code code_of(const struct plan *plan);
/* Where requests of a realm from a peer go, and with which secret. */
struct sockaddr_in target_address(const struct plan *plan, unsigned realm);
void target_secret(const struct plan *plan, unsigned realm, unsigned peer,
                   struct secret *secret);

#endif
