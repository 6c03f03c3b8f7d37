/* Which calls were made, what memcheck reported while they ran, and what was wrong with them. */
#ifndef SECRETS_TALLY_H
#define SECRETS_TALLY_H

#include <stdint.h>

/* Those that are given a scheme come first. */
enum entry { SEAL, OPEN, SEAL_PREPARED, OPEN_PREPARED, FORK, UNFORK, FORK_PREPARED, UNFORK_PREPARED, PREPARE, ENTRIES };

/* What a call judges of its secrets before it answers so: whether a prepared key is admitted; whether a run is authentic. All else that an
 * answer goes by is lengths and numbers. */
int judges_key(enum entry entry, uint32_t due);
int judges_run(enum entry entry, uint32_t due);

/* From now on a call may be reported once for each of the two that it judges. */
void tally_allow_answers(void);

/* A call begins: what memcheck reports until its end is its own. */
void tally_begin(void);

/* It has ended. `number` is the scheme's or cipher's, `due` the answer that it has to give. 1 if it was not reported; if it
 * was, memcheck takes what was read there for public from then on. */
int tally_end(enum entry entry, uint32_t number, uint32_t due);

/* What must be so of the call that ended last. */
void hold(int so, const char *what);

/* 0 if all was as it must be and memcheck reported no call, else 1. Prints what was wrong; or how many seals, opens of authentic runs, opens of
 * forged ones, forks, unforks, preparations and refused calls there were, how many of all these had a prepared key, and how many were
 * reported for judging a run, and for judging a prepared key. */
int tally_told(void);

#endif
