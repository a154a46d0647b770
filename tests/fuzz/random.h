/* A seeded generator of random numbers (splitmix64). */
#ifndef RANDOM_H
#define RANDOM_H

#include <stddef.h>
#include <stdint.h>

void random_seed(uint64_t seed);
uint64_t random_word(void);
/* 0 to bound - 1; bound is not 0. */
size_t random_below(size_t bound);

#define PICK(list) ((list)[random_below(sizeof(list) / sizeof((list)[0]))])

#endif
