/* Mutated datagrams: good packets with bits flipped, octets cut, lengths changed. */
#ifndef MUTATE_H
#define MUTATE_H

#include <stddef.h>

#include "random.h"

enum { LARGEST_DATAGRAM = 65507 };

/* Changes a packet in a buffer of `room` octets, one to three times, and answers its new size.
   What is changed, and how, the random numbers alone decide. */
size_t mutate(struct random *random, uint8_t *octets, size_t length, size_t room);

#endif
