/* Cases of rounds. It reads no bytes of header and body, so that every length is an honest one. */
#include "auraski.h"
#include "cases.h"
#include "report.h"
#include "table.h"

#include <string.h>

static struct guarded rounds;

static void call_rounds(uint32_t scheme, size_t header, size_t body, struct random *d)
{
    uint32_t due = due_of_rounds(scheme, header, body);
    uint32_t told = due == 0 ? rounds_of(scheme_of(scheme), header, body) : 0;
    guarded_place(&rounds, sizeof told, sizeof told, d);
    report_call(ROUNDS, "scheme %lu, header %zu, body %zu", (unsigned long)scheme, header, body);
    dirty_stack(d);
    report_answer(ROUNDS, auraski_rounds(scheme, header, body, (uint32_t *)rounds.bytes), due);
    memcpy(rounds.due, &told, sizeof told);
    guarded_judge(&rounds, "number of rounds");
}

/* One of the lowest numbers, or as the other calls are given it. */
static uint32_t some_scheme(struct random *d)
{
    return one_in(d, 8) ? (uint32_t)below(d, SCHEMES + 3) : some_number(d, 1, SCHEMES);
}

/* The scheme that a length is drawn for: mostly the call's own. */
static const struct scheme *drawn_for(uint32_t scheme, struct random *d)
{
    const struct scheme *own = scheme_of(scheme);
    return own != NULL && !one_in(d, 4) ? own : scheme_of(1 + (uint32_t)below(d, SCHEMES));
}

/* Lengths within a limit: none, about the edges of blocks, anywhere up to it. */
static size_t taken_length(size_t limit, size_t block, struct random *d)
{
    switch (below(d, 4)) {
    case 0:
        return 0;
    case 1:
        return limit - (one_in(d, 2) ? 0 : below(d, 2 * block));
    case 2:
        return below(d, limit + 1);
    default:
        return block * (1 + below(d, 4)) - 1 + below(d, 3);
    }
}

/* Mostly taken; else just past the limit, or vast: up to the greatest there is, so that a sum over it would wrap, or harmless if only the
 * low bits are looked at. */
static size_t some_length(size_t limit, size_t block, struct random *d)
{
    switch (below(d, 16)) {
    case 0:
        return limit + 1 + (one_in(d, 2) ? 0 : below(d, 2 * block));
    case 1:
        return SIZE_MAX - below(d, 2 * block);
    case 2:
        return taken_length(limit, block, d) + ((size_t)1 << (21 + below(d, 43)));
    case 3:
        return (size_t)random_next(d);
    default:
        return taken_length(limit, block, d);
    }
}

void rounds_case(struct random *d)
{
    for (size_t calls = 1 + below(d, 8); calls > 0; calls--) {
        uint32_t scheme = some_scheme(d);
        const struct scheme *of_header = drawn_for(scheme, d), *of_body = drawn_for(scheme, d);
        size_t header = some_length(of_header->header_limit, of_header->block, d);
        size_t body = some_length(of_body->body_limit, of_body->block, d);
        call_rounds(scheme, header, body, d);
    }
}
