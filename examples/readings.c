/* A meter seals a week of readings under Umbreon, and a single reading. Jolteon refuses the week, but opens the single reading as well: of a body
 * of at most one block both make the same run. So the scheme is kept with a record, and a key is best used under one scheme alone. At the end
 * a record with neither header nor body, for which the two have no run. */
#include "auraski.h"

#include <stdio.h>
#include <string.h>

enum { READING = 3, DAYS = 7 };

static const uint8_t key[AURASKI_KEY_BYTES] = "a key of meters";
static const uint8_t header[] = {'m', 'e', 't', 'e', 'r', ' ', '2', '0', '4', '1', '7'};
static const uint8_t week[DAYS * READING] = {0x00, 0xa1, 0x2c, 0x00, 0xa1, 0x66, 0x00, 0xa1, 0xba, 0x00, 0xa1,
                                             0xef, 0x00, 0xa2, 0x3a, 0x00, 0xa2, 0x74, 0x00, 0xa2, 0xc7};

struct record {
    uint8_t nonce[AURASKI_UMBREON_128_256_NONCE], run[sizeof week + AURASKI_UMBREON_128_256_BLOCK];
    size_t length;
};

static void show(const char *what, const uint8_t *bytes, size_t count)
{
    printf("%-24s", what);
    for (size_t i = 0; i < count; i++)
        printf("%02x", bytes[i]);
    printf("\n");
}

/* The first readings, under a nonce that ends in the record's number. */
static uint32_t seal_readings(uint8_t number, size_t readings, struct record *record)
{
    memset(record->nonce, 0, sizeof record->nonce);
    record->nonce[sizeof record->nonce - 1] = number;
    return auraski_seal(AURASKI_UMBREON_128_256, key, sizeof key, record->nonce, sizeof record->nonce, header, sizeof header, week,
                        readings * READING, record->run, sizeof record->run, &record->length);
}

static void show_record(const char *what, const struct record *record)
{
    size_t body = record->length - AURASKI_UMBREON_128_256_BLOCK;

    printf("%s\n", what);
    show("  ciphertext", record->run, body);
    show("  tag", record->run + body, AURASKI_UMBREON_128_256_BLOCK);
}

/* Whether it opens so under a scheme. */
static int opens(const char *what, uint32_t scheme, const struct record *record, uint32_t due)
{
    uint8_t room[sizeof week];
    size_t length;
    uint32_t number = auraski_open(scheme, key, sizeof key, record->nonce, sizeof record->nonce, header, sizeof header, record->run,
                                   record->length, room, sizeof room, &length);

    printf("  %-22sanswer %u, %zu bytes\n", what, (unsigned)number, length);
    return number == due && memcmp(room, week, length) == 0;
}

int main(void)
{
    struct record all, one;
    uint8_t room[AURASKI_UMBREON_128_256_BLOCK];
    size_t length;

    if (seal_readings(1, DAYS, &all) != AURASKI_DONE || seal_readings(2, 1, &one) != AURASKI_DONE)
        return 1;
    show_record("a week of readings", &all);
    if (!opens("under Umbreon", AURASKI_UMBREON_128_256, &all, AURASKI_DONE) ||
        !opens("under Jolteon", AURASKI_JOLTEON_128_256, &all, AURASKI_FORGED))
        return 1;
    show_record("a single reading", &one);
    if (!opens("under Umbreon", AURASKI_UMBREON_128_256, &one, AURASKI_DONE) ||
        !opens("under Jolteon", AURASKI_JOLTEON_128_256, &one, AURASKI_DONE))
        return 1;
    memset(one.nonce, 3, sizeof one.nonce); /* none is used twice */
    uint32_t number = auraski_seal(AURASKI_UMBREON_128_256, key, sizeof key, one.nonce, sizeof one.nonce, header, 0, week, 0, room,
                                   sizeof room, &length);
    printf("neither header nor body: answer %u\n", (unsigned)number);
    return number != AURASKI_NOTHING;
}
