/* A battery sheet: how many rounds of ForkSkinny a seal or an open runs, by the lengths of header and body; what a batch of opens costs at
 * worst; and what is refused. It takes no key, and nothing is sealed or opened. What a round costs is for the card's maker to measure. */
#include "auraski.h"

#include <stdio.h>
#include <stdlib.h>

struct scheme {
    uint32_t number;
    const char *name;
    size_t block, header_limit, body_limit;
};

static const struct scheme schemes[] = {
    {AURASKI_PAEF_64_192, "PAEF over 64-192", AURASKI_PAEF_64_192_BLOCK, AURASKI_PAEF_64_192_LIMIT, AURASKI_PAEF_64_192_LIMIT},
    {AURASKI_PAEF_128_256, "PAEF over 128-256", AURASKI_PAEF_128_256_BLOCK, AURASKI_PAEF_128_256_LIMIT, AURASKI_PAEF_128_256_LIMIT},
    {AURASKI_SAEF_128_256, "SAEF over 128-256", AURASKI_SAEF_128_256_BLOCK, AURASKI_SAEF_128_256_LIMIT, AURASKI_SAEF_128_256_LIMIT},
    {AURASKI_UMBREON_64_192, "Umbreon over 64-192", AURASKI_UMBREON_64_192_BLOCK, AURASKI_UMBREON_64_192_HEADER_LIMIT,
     AURASKI_UMBREON_64_192_BODY_LIMIT},
    {AURASKI_JOLTEON_64_192, "Jolteon over 64-192", AURASKI_JOLTEON_64_192_BLOCK, AURASKI_JOLTEON_64_192_HEADER_LIMIT,
     AURASKI_JOLTEON_64_192_BODY_LIMIT},
    {AURASKI_UMBREON_128_256, "Umbreon over 128-256", AURASKI_UMBREON_128_256_BLOCK, AURASKI_UMBREON_128_256_HEADER_LIMIT,
     AURASKI_UMBREON_128_256_BODY_LIMIT},
    {AURASKI_JOLTEON_128_256, "Jolteon over 128-256", AURASKI_JOLTEON_128_256_BLOCK, AURASKI_JOLTEON_128_256_HEADER_LIMIT,
     AURASKI_JOLTEON_128_256_BODY_LIMIT},
};

/* Lengths in bytes; after these comes the longest that the scheme takes. */
static const size_t headers[] = {0, 15, 16, 64, 1024};
static const size_t bodies[] = {0, 1, 16, 64, 256, 1024, 16384};

#define COUNT(list) (sizeof(list) / sizeof(list)[0])

/* A number that can be read, such as 1,007,493, at the right end of so many places. */
static void put_number(int places, uint64_t value)
{
    char text[32];
    char *front = text + sizeof text - 1;
    int digits = 0;

    *front = '\0';
    do {
        if (digits > 0 && digits % 3 == 0)
            *--front = ',';
        *--front = (char)('0' + value % 10);
        value /= 10;
        digits++;
    } while (value > 0);
    printf("%*s", places, front);
}

/* ---- the sheet ---- */

/* The rounds of a record within the limits; a dash where header and body are both empty and the scheme does not take that. */
static void put_rounds(const struct scheme *scheme, size_t header_len, size_t body_len)
{
    uint32_t rounds;
    uint32_t number = auraski_rounds(scheme->number, header_len, body_len, &rounds);

    if (number == AURASKI_DONE) {
        put_number(11, rounds);
    } else if (number == AURASKI_NOTHING) {
        printf("%11s", "-");
    } else {
        fprintf(stderr, "rounds: lengths within the limits are refused with %u\n", (unsigned)number);
        exit(1);
    }
}

static void put_row(const struct scheme *scheme, size_t header_len)
{
    put_number(9, header_len);
    printf(" |");
    for (size_t i = 0; i < COUNT(bodies); i++)
        put_rounds(scheme, header_len, bodies[i]);
    put_rounds(scheme, header_len, scheme->body_limit);
    printf("\n");
}

static void put_sheet(const struct scheme *scheme)
{
    printf("\nScheme %u, %s, blocks of %zu bytes\n\n", (unsigned)scheme->number, scheme->name, scheme->block);
    printf("   header | body\n          |");
    for (size_t i = 0; i < COUNT(bodies); i++)
        put_number(11, bodies[i]);
    put_number(11, scheme->body_limit);
    printf("\n----------+----------------------------------------------------------------------------------------\n");
    for (size_t i = 0; i < COUNT(headers); i++)
        put_row(scheme, headers[i]);
    put_row(scheme, scheme->header_limit);
}

/* ---- a batch of opens ---- */

struct runs {
    uint32_t count;
    size_t header_len, sealed_len;
};

/* What a card may hear in a day: short tables, a long one, runs that were cut on their way, and one longer than the scheme takes. */
static const struct runs day[] = {
    {40, 16, 80},
    {6, 16, 1040},
    {1, 1024, 16400},
    {3, 16, 15},
    {1, 16, AURASKI_PAEF_128_256_LIMIT + AURASKI_PAEF_128_256_BLOCK + 1},
};

/* The rounds that an open runs, by its lengths alone: as many whether it will be done or refused with 6. A run shorter than a block is
 * refused with 4, and lengths past the limits as they are here: no round is run then. */
static uint32_t open_at_worst(const struct scheme *scheme, size_t header_len, size_t sealed_len)
{
    uint32_t rounds;

    if (sealed_len < scheme->block)
        return 0;
    uint32_t number = auraski_rounds(scheme->number, header_len, sealed_len - scheme->block, &rounds);
    return number == AURASKI_DONE ? rounds : 0;
}

static void put_batch(const struct scheme *scheme)
{
    uint64_t all = 0;

    printf("\nA day of opening, at worst, under scheme %u\n\n", (unsigned)scheme->number);
    printf("     runs    header   run of    rounds each   rounds in all\n");
    printf("-----------------------------------------------------------\n");
    for (size_t i = 0; i < COUNT(day); i++) {
        uint32_t each = open_at_worst(scheme, day[i].header_len, day[i].sealed_len);
        put_number(9, day[i].count);
        put_number(10, day[i].header_len);
        put_number(9, day[i].sealed_len);
        put_number(15, each);
        put_number(16, (uint64_t)day[i].count * each);
        printf("\n");
        all += (uint64_t)day[i].count * each;
    }
    printf("-----------------------------------------------------------\n  together");
    put_number(49, all);
    printf("\n\nThis holds however many of them are forged: an open that is refused with 6 has run as\n"
           "many rounds as one that is done. One that is refused for its lengths has run none.\n");
}

/* ---- refusals ---- */

/* Both have to be looked at: 0 rounds alone do not say why. */
static void put_refusal(const char *what, uint32_t scheme, size_t header_len, size_t body_len, uint32_t due)
{
    uint32_t rounds;
    uint32_t number = auraski_rounds(scheme, header_len, body_len, &rounds);

    if (number != due || rounds != 0) {
        fprintf(stderr, "rounds: %s: number %u and %u rounds\n", what, (unsigned)number, (unsigned)rounds);
        exit(1);
    }
    printf("  %-48s number %u, %u rounds\n", what, (unsigned)number, (unsigned)rounds);
}

int main(void)
{
    printf("Rounds of ForkSkinny to seal a record, or to open its run. Lengths are in bytes. A dash: refused, see the end.\n");
    for (size_t i = 0; i < COUNT(schemes); i++)
        put_sheet(&schemes[i]);
    put_batch(&schemes[1]);
    printf("\nRefused\n\n");
    put_refusal("scheme 2, header one byte longer than it takes", AURASKI_PAEF_128_256, AURASKI_PAEF_128_256_LIMIT + 1, 64,
                AURASKI_HEADER_TOO_LONG);
    put_refusal("scheme 2, body one byte longer than it takes", AURASKI_PAEF_128_256, 16, AURASKI_PAEF_128_256_LIMIT + 1,
                AURASKI_BODY_TOO_LONG);
    put_refusal("scheme 6, header and body both empty", AURASKI_UMBREON_128_256, 0, 0, AURASKI_NOTHING);
    put_refusal("scheme 0, which there is not", 0, 16, 64, AURASKI_UNKNOWN);
    return 0;
}
