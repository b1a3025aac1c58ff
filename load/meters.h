/* Time, processor time and memory of processes, and the home servers' counts. */
#ifndef METERS_H
#define METERS_H

#include <stdatomic.h>
#include <stdbool.h>
#include <stdint.h>
#include <stdio.h>
#include <sys/types.h>

#include "exchange.h"

uint64_t now_nanoseconds(void);
void pause_until(uint64_t moment);
/* Processor time of a process, user and system, all its threads; 0 where it can't be read. */
uint64_t processor_time(pid_t process);
uint64_t own_thread_time(void);
/* VmRSS in KiB; 0 where it can't be read. */
uint64_t resident_memory(pid_t process);
bool is_alive(pid_t process);
/* What the host took of the machine's processors, and all their time, in ticks. */
struct host_time {
    uint64_t stolen;
    uint64_t all;
};

struct host_time read_host_time(void);
/* Datagrams that found the buffer of their socket full, of sockets that are open now. */
uint64_t dropped_datagrams(unsigned first_port, unsigned end_port);

/* Processor time of each thread that is alive, by name, in microseconds an exchange. */
enum { MOST_THREADS = 600 };
struct thread_times {
    unsigned count;
    struct {
        pid_t thread;
        char name[20];
        uint64_t nanoseconds;
    } threads[MOST_THREADS];
};

void read_threads(struct thread_times *times, pid_t process);
void print_threads(FILE *file, const struct thread_times *before,
                   const struct thread_times *after, uint64_t exchanges);

/* What home servers count and obey, in a file that the generator maps as well. */
struct board {
    pid_t process;
    _Atomic uint64_t findings[FINDINGS];
    _Atomic uint64_t swallowed;         /* requests of the dead realm */
    _Atomic uint64_t spoilt;            /* mutated answers that were sent before good ones */
    _Atomic int32_t dead_realm;         /* its requests get no answer; -1 for none */
    _Atomic uint32_t spoilt_in_1000;    /* how many answers have a mutated one before them */
};

/* Maps the file, which is made where it isn't there; ends the program where it can't. */
struct board *open_board(const char *path);

#endif
