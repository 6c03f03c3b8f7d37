#include "tally.h"
#include "auraski.h"
#include "secret.h"

#include <stdio.h>

/* Schemes and ciphers are numbered from 1; a call under none of them stands at 0. */
enum { NUMBERS = 8, ANSWERS = 11 };

static const char *const names[ENTRIES] = {
    "auraski_seal",   "auraski_open",          "auraski_seal_prepared",   "auraski_open_prepared", "auraski_fork",
    "auraski_unfork", "auraski_fork_prepared", "auraski_unfork_prepared", "auraski_prepare"};

static struct {
    unsigned calls, reports;
} of[ENTRIES][NUMBERS];
static unsigned answered[ENTRIES][ANSWERS], before, runs_reported, keys_reported, reported, failures;
static int answers_allowed;
static struct {
    enum entry entry;
    uint32_t number, due;
} last;

static int is_prepared(enum entry entry)
{
    return entry == SEAL_PREPARED || entry == OPEN_PREPARED || entry == FORK_PREPARED || entry == UNFORK_PREPARED;
}

int judges_key(enum entry entry, uint32_t due)
{
    return is_prepared(entry) && due != AURASKI_UNKNOWN;
}

int judges_run(enum entry entry, uint32_t due)
{
    return (entry == OPEN || entry == OPEN_PREPARED) && (due == AURASKI_DONE || due == AURASKI_FORGED);
}

void tally_allow_answers(void)
{
    answers_allowed = 1;
}

void tally_begin(void)
{
    before = reports();
}

int tally_end(enum entry entry, uint32_t number, uint32_t due)
{
    unsigned more = reports() - before;
    last.entry = entry;
    last.number = number;
    last.due = due;
    answered[entry][due]++;
    of[entry][number].calls++;
    of[entry][number].reports += more;
    unsigned key = (unsigned)judges_key(entry, due), run = (unsigned)judges_run(entry, due);
    if (answers_allowed && more > 0 && more <= key + run) {
        /* A prepared key is judged first. */
        keys_reported += key;
        runs_reported += more - key;
        return 1;
    }
    reported += more;
    return more == 0;
}

void hold(int so, const char *what)
{
    if (!so) {
        failures++;
        printf("secrets: %s, %s %u, where %u is due: %s\n", names[last.entry], last.entry < FORK ? "scheme" : "cipher", (unsigned)last.number,
               (unsigned)last.due, what);
    }
}

static void tell_reports(void)
{
    for (int entry = 0; entry < ENTRIES; entry++) {
        for (int number = 0; number < NUMBERS; number++) {
            if (of[entry][number].reports > 0) {
                printf("secrets: %s, %s %d: %u calls, %u reports\n", names[entry], entry < FORK ? "scheme" : "cipher", number,
                       of[entry][number].calls, of[entry][number].reports);
            }
        }
    }
}

static unsigned refused(void)
{
    unsigned count = 0;
    for (int entry = 0; entry < ENTRIES; entry++) {
        for (int answer = 1; answer < ANSWERS; answer++) {
            count += answer == AURASKI_FORGED ? 0 : answered[entry][answer];
        }
    }
    return count;
}

static unsigned with_prepared_key(void)
{
    unsigned count = 0;
    for (int entry = 0; entry < ENTRIES; entry++) {
        for (int number = 0; number < NUMBERS; number++) {
            count += is_prepared(entry) ? of[entry][number].calls : 0;
        }
    }
    return count;
}

/* By key and with a prepared key. */
static unsigned both(enum entry entry, enum entry prepared, uint32_t answer)
{
    return answered[entry][answer] + answered[prepared][answer];
}

int tally_told(void)
{
    if (reported > 0 || failures > 0) {
        tell_reports();
        return 1;
    }
    printf("%u %u %u %u %u %u %u %u %u %u\n", both(SEAL, SEAL_PREPARED, AURASKI_DONE), both(OPEN, OPEN_PREPARED, AURASKI_DONE),
           both(OPEN, OPEN_PREPARED, AURASKI_FORGED), both(FORK, FORK_PREPARED, AURASKI_DONE), both(UNFORK, UNFORK_PREPARED, AURASKI_DONE),
           answered[PREPARE][AURASKI_DONE], refused(), with_prepared_key(), runs_reported, keys_reported);
    return 0;
}
