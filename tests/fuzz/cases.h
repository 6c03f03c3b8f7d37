/* The kinds of cases: each is made of the random numbers that it is given, and fails if a call does anything but what it must. */
#ifndef FUZZ_CASES_H
#define FUZZ_CASES_H

#include "random.h"

/* Seal and open, by key and with a prepared key. */
void sealing_case(struct random *d);

/* Fork and unfork, the same. */
void block_case(struct random *d);

/* Rounds. */
void rounds_case(struct random *d);

/* Preparing alone. */
void prepare_case(struct random *d);

#endif
