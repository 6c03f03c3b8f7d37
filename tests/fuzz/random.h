/* Random numbers that come from a seed and the number of a case alone, so that every case can be made again by itself. */
#ifndef FUZZ_RANDOM_H
#define FUZZ_RANDOM_H

#include <stddef.h>
#include <stdint.h>

struct random {
    uint64_t state;
};

struct random random_of(uint64_t seed, uint64_t number);

uint64_t random_next(struct random *r);

/* One of 0 to count - 1. */
size_t below(struct random *r, size_t count);

/* Yes, once in so many times. */
int one_in(struct random *r, size_t times);

/* Mostly one of the `count` known numbers from `first` on; sometimes one beside them, one that is known if only its low bits are
 * looked at, or any. */
uint32_t some_number(struct random *r, uint32_t first, uint32_t count);

void fill(struct random *r, uint8_t *bytes, size_t count);

#endif
