/* Measured windows and what is printed of them: lines `name=value` under a line `[label]`. */
#ifndef MEASURE_H
#define MEASURE_H

#include "generator.h"

/* Processor times of the three, in nanoseconds. */
struct used {
    uint64_t generator;
    uint64_t home;
    uint64_t broker;
};

/* Datagrams that found a socket's buffer full. */
struct dropped {
    uint64_t at_broker;
    uint64_t at_home;
};

struct window {
    uint64_t nanoseconds;
    struct dropped dropped;
    struct host_time host;
    struct tally tally;
    struct used used;
    struct thread_times before;
    struct thread_times after;
};

/* Runs a generator that was started: the warm-up, then the window. */
void measure(struct generator *generator, const struct board *board, uint64_t warmup,
             uint64_t seconds, struct window *window);
void print_window(const char *label, const struct generator *generator,
                  const struct window *window);
/* A row of the table of an hour-long run. */
void print_minute(const struct generator *generator, const struct window *window,
                  uint64_t minute);
/* All counts since the generator was opened. */
void print_totals(const struct generator *generator);
/* Answers that weren't good. */
uint64_t bad_answers(const struct tally *tally);

#endif
