/* fuzz [--seed N] [--seconds N] [--case K]: random calls of the entry points, until the seconds are over; or one case alone. */
#define _POSIX_C_SOURCE 200809L
#include "cases.h"
#include "report.h"

#include <errno.h>
#include <stdio.h>
#include <stdlib.h>
#include <string.h>
#include <time.h>

struct options {
    uint64_t seed, seconds, number;
    int alone;
};

static int read_number(const char *text, uint64_t *number)
{
    char *end;
    if (text == NULL || *text < '0' || *text > '9') {
        return 0;
    }
    errno = 0;
    *number = strtoull(text, &end, 10);
    return *end == '\0' && errno == 0;
}

static int read_options(char **arguments, struct options *o)
{
    for (; *arguments != NULL; arguments += 2) {
        uint64_t *number = NULL;
        if (strcmp(*arguments, "--seed") == 0) {
            number = &o->seed;
        } else if (strcmp(*arguments, "--seconds") == 0) {
            number = &o->seconds;
        } else if (strcmp(*arguments, "--case") == 0) {
            number = &o->number;
            o->alone = 1;
        }
        if (number == NULL || !read_number(arguments[1], number)) {
            return 0;
        }
    }
    return 1;
}

static void run_case(const struct options *o, uint64_t number)
{
    struct random d = random_of(o->seed, number);
    report_case(o->seed, number, o->alone);
    switch (below(&d, 9)) {
    case 0:
        rounds_case(&d);
        break;
    case 1:
        prepare_case(&d);
        break;
    case 2:
    case 3:
        block_case(&d);
        break;
    default:
        sealing_case(&d);
    }
}

static double now(void)
{
    struct timespec time;
    clock_gettime(CLOCK_MONOTONIC, &time);
    return (double)time.tv_sec + (double)time.tv_nsec / 1e9;
}

int main(int count, char **arguments)
{
    struct options o = {1, 60, 0, 0};
    if (count < 1 || !read_options(arguments + 1, &o)) {
        fprintf(stderr, "fuzz [--seed N] [--seconds N] [--case K]: each N and K is a whole number\n");
        return 2;
    }
    report_faults();
    if (o.alone) {
        run_case(&o, o.number);
        printf("fuzz: case %llu of seed %llu is as it must be\n", (unsigned long long)o.number, (unsigned long long)o.seed);
        return 0;
    }
    uint64_t cases = 0;
    for (double end = now() + (double)o.seconds; now() < end; cases++) {
        run_case(&o, cases);
    }
    return report_end(o.seed, cases);
}
