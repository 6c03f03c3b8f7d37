/* A card opens a thousand records of limits under one key, which it prepares once. They are sealed here first, with the prepared key too, each
 * under a nonce of its own. Then a damaged record is refused, and a damaged prepared key; at the end that is wiped, because it holds the key. */
#include "auraski.h"

#include <stdio.h>
#include <string.h>

enum { RECORDS = 1000, BODY = 4, RUN = BODY + AURASKI_PAEF_128_256_BLOCK };

static const uint8_t key[AURASKI_KEY_BYTES] = "a key of a card";
static const uint8_t header[16] = {'l', 'i', 'm', 'i', 't', 's', ' ', '2', '0', '2', '6', ' ', ' ', ' ', ' ', 0x80};
static uint8_t prepared[AURASKI_PREPARED], runs[RECORDS][RUN];

/* Of each record another one: its number at the end. */
static void nonce_of(unsigned record, uint8_t nonce[AURASKI_PAEF_128_256_NONCE])
{
    memset(nonce, 0, AURASKI_PAEF_128_256_NONCE);
    nonce[12] = (uint8_t)(record >> 8);
    nonce[13] = (uint8_t)record;
}

static void body_of(unsigned record, uint8_t body[BODY])
{
    for (unsigned i = 0; i < BODY; i++)
        body[i] = (uint8_t)(20 + (record + 7 * i) % 41);
}

static uint32_t seal_record(unsigned record)
{
    uint8_t nonce[AURASKI_PAEF_128_256_NONCE], body[BODY];
    size_t length;

    nonce_of(record, nonce);
    body_of(record, body);
    return auraski_seal_prepared(AURASKI_PAEF_128_256, prepared, nonce, sizeof nonce, header, sizeof header, body, sizeof body,
                                 runs[record], RUN, &length);
}

static uint32_t open_record(unsigned record, uint8_t room[BODY])
{
    uint8_t nonce[AURASKI_PAEF_128_256_NONCE];
    size_t length;

    nonce_of(record, nonce);
    return auraski_open_prepared(AURASKI_PAEF_128_256, prepared, nonce, sizeof nonce, header, sizeof header, runs[record], RUN,
                                 room, BODY, &length);
}

/* Whether it opens to the body that was sealed. */
static int comes_back(unsigned record)
{
    uint8_t room[BODY], body[BODY];

    body_of(record, body);
    return open_record(record, room) == AURASKI_DONE && memcmp(room, body, BODY) == 0;
}

/* Whether one record is answered so now. */
static int answered(const char *what, uint32_t due)
{
    uint8_t room[BODY];
    uint32_t number = open_record(RECORDS / 2, room);

    printf("%s: answer %u\n", what, (unsigned)number);
    return number == due;
}

/* A compiler may leave out a memset whose bytes nobody reads; not this. */
static void wipe(volatile uint8_t *bytes, size_t count)
{
    while (count > 0)
        bytes[--count] = 0;
}

int main(void)
{
    unsigned sealed = 0, opened = 0;
    int right = 1;

    if (auraski_prepare(AURASKI_128_256, key, sizeof key, prepared) != AURASKI_DONE)
        return 1;
    for (unsigned record = 0; record < RECORDS; record++)
        sealed += seal_record(record) == AURASKI_DONE;
    for (unsigned record = 0; record < RECORDS; record++)
        opened += comes_back(record) != 0;
    printf("one key prepared, %u records sealed, %u opened to what was sealed\n", sealed, opened);
    runs[RECORDS / 2][3] ^= 1;
    right &= answered("a record with a bit changed", AURASKI_FORGED);
    runs[RECORDS / 2][3] ^= 1;
    prepared[AURASKI_PREPARED / 2] ^= 1;
    right &= answered("a prepared key with a bit changed", AURASKI_WRONG_KEY_LENGTH);
    prepared[AURASKI_PREPARED / 2] ^= 1;
    right &= answered("both as they were", AURASKI_DONE);
    wipe(prepared, sizeof prepared);
    right &= answered("a prepared key that was wiped", AURASKI_WRONG_KEY_LENGTH);
    return sealed != RECORDS || opened != RECORDS || !right;
}
