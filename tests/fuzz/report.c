#define _POSIX_C_SOURCE 200809L
#include "report.h"

#include <inttypes.h>
#include <signal.h>
#include <stdarg.h>
#include <stdio.h>
#include <string.h>
#include <unistd.h>

enum { NUMBERS = 11, NO_MORE = -1, LONGEST_CASE_SECONDS = 300 };

static const char *const names[ENTRIES] = {"seal",    "open",          "rounds",        "fork",          "unfork",
                                           "prepare", "seal_prepared", "open_prepared", "fork_prepared", "unfork_prepared"};
/* The numbers that each can answer. */
static const int can_answer[ENTRIES][NUMBERS] = {
    [SEAL] = {0, 1, 2, 3, 5, 7, 8, 10, NO_MORE},
    [OPEN] = {0, 1, 2, 3, 4, 5, 6, 7, 8, 10, NO_MORE},
    [ROUNDS] = {0, 1, 3, 8, 10, NO_MORE},
    [FORK] = {0, 1, NO_MORE},
    [UNFORK] = {0, 1, NO_MORE},
    [PREPARE] = {0, 1, 2, NO_MORE},
    [SEAL_PREPARED] = {0, 1, 2, 3, 5, 7, 8, 10, NO_MORE},
    [OPEN_PREPARED] = {0, 1, 2, 3, 4, 5, 6, 7, 8, 10, NO_MORE},
    [FORK_PREPARED] = {0, 1, 2, NO_MORE},
    [UNFORK_PREPARED] = {0, 1, 2, NO_MORE},
};

static uint64_t answers[ENTRIES][NUMBERS];
static int runs_alone;
/* How to run the case alone, written out before it begins: a handler of a fault may only write. */
static char again[96];

static void say_and_end(const char *what)
{
    const char *parts[] = {"fuzz: ", what, "; the case alone: ", again, "\n"};
    for (size_t i = 0; i < sizeof parts / sizeof parts[0]; i++) {
        if (write(STDERR_FILENO, parts[i], strlen(parts[i])) < 0) {
            break;
        }
    }
    _exit(1);
}

static void on_fault(int fault)
{
    say_and_end(fault == SIGALRM ? "a call does not end" : "a call touched memory that it was not given");
}

void report_faults(void)
{
    static const int faults[] = {SIGSEGV, SIGBUS, SIGALRM};
    struct sigaction action;
    memset(&action, 0, sizeof action);
    action.sa_handler = on_fault;
    for (size_t i = 0; i < sizeof faults / sizeof faults[0]; i++) {
        sigaction(faults[i], &action, NULL);
    }
}

void report_case(uint64_t seed, uint64_t number, int alone)
{
    snprintf(again, sizeof again, "tools/fuzz --seed %" PRIu64 " --case %" PRIu64, seed, number);
    runs_alone = alone;
    alarm(LONGEST_CASE_SECONDS);
}

void report_call(enum entry entry, const char *format, ...)
{
    va_list arguments;
    if (!runs_alone) {
        return;
    }
    fprintf(stderr, "%s(", names[entry]);
    va_start(arguments, format);
    vfprintf(stderr, format, arguments);
    va_end(arguments);
    fprintf(stderr, ")\n");
}

void report_answer(enum entry entry, uint32_t number, uint32_t due)
{
    if (runs_alone) {
        fprintf(stderr, "  answers %" PRIu32 "\n", number);
    }
    if (number != due) {
        fail("%s answered %" PRIu32 " where %" PRIu32 " is due", names[entry], number, due);
    }
    answers[entry][number]++;
}

void fail(const char *format, ...)
{
    char what[200];
    va_list arguments;
    va_start(arguments, format);
    vsnprintf(what, sizeof what, format, arguments);
    va_end(arguments);
    say_and_end(what);
}

int report_end(uint64_t seed, uint64_t cases)
{
    int missing = 0;
    printf("fuzz: seed %" PRIu64 ", %" PRIu64 " cases", seed, cases);
    for (int entry = 0; entry < ENTRIES; entry++) {
        uint64_t calls = 0;
        for (int number = 0; number < NUMBERS; number++) {
            calls += answers[entry][number];
        }
        printf("; %s %" PRIu64 " calls:", names[entry], calls);
        for (const int *number = can_answer[entry]; *number != NO_MORE; number++) {
            uint64_t times = answers[entry][*number];
            printf(" %d x%" PRIu64, *number, times);
            missing |= times == 0;
        }
    }
    printf("\n");
    if (missing) {
        fprintf(stderr, "fuzz: a number that a call can answer never came: too few cases\n");
    }
    return missing;
}
