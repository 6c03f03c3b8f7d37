/* Which case runs, what was called and answered, and how a case that fails is told. */
#ifndef FUZZ_REPORT_H
#define FUZZ_REPORT_H

#include <stdint.h>

enum entry { SEAL, OPEN, ROUNDS, FORK, UNFORK, PREPARE, SEAL_PREPARED, OPEN_PREPARED, FORK_PREPARED, UNFORK_PREPARED, ENTRIES };

/* From now on a call that touches what it may not, or does not end, is told with its case. */
void report_faults(void);

/* A case begins. If it runs alone, each of its calls is shown before it is made. */
void report_case(uint64_t seed, uint64_t number, int alone);

/* A call is about to be made, with arguments that the format shows. */
void report_call(enum entry entry, const char *format, ...);

/* A call gave this number; it fails if another was due. */
void report_answer(enum entry entry, uint32_t number, uint32_t due);

/* Says what is wrong and how to run the case alone, and ends the program. */
void fail(const char *format, ...);

/* The line at the end, and whether every number that each entry point can answer was seen: 0 if so, else 1. */
int report_end(uint64_t seed, uint64_t cases);

#endif
