/* A small generator of random numbers, the same on every machine. */
#ifndef RANDOM_H
#define RANDOM_H

#include <stddef.h>
#include <stdint.h>

void random_seed(uint64_t seed);
uint32_t random_number(void);
uint32_t below(uint32_t end);
uint8_t random_byte(void);

/* True once in `n` times. */
int one_in(uint32_t n);

void random_fill(uint8_t *bytes, size_t length);

#endif
