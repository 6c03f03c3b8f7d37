/* A card opens a record of limits: sealed under a sixteen-byte header whose last byte names the half-decibel step, opened again, and
 * refused under the header without that byte, under which it once was read as whole decibels. */
#include "auraski.h"

#include <stdio.h>
#include <string.h>

static const uint8_t key[AURASKI_KEY_BYTES] = "a key of a card";
static const uint8_t nonce[AURASKI_PAEF_128_256_NONCE] = "record number";
static const uint8_t header[16] = {'l', 'i', 'm', 'i', 't', 's', ' ', '2', '0', '2', '6', ' ', ' ', ' ', ' ', 0x80};
static const uint8_t body[] = {36, 40, 44, 30};

static void show(const char *what, const uint8_t *bytes, size_t count)
{
    printf("%-22s", what);
    for (size_t i = 0; i < count; i++)
        printf("%02x", bytes[i]);
    printf("\n");
}

/* Opens the run under the first header_len bytes of the header, into a room that was filled before. */
static int open_under(const char *what, size_t header_len, const uint8_t *run, size_t run_len)
{
    uint8_t room[8];
    size_t length;

    memset(room, 0xee, sizeof room);
    uint32_t number = auraski_open(AURASKI_PAEF_128_256, key, sizeof key, nonce, sizeof nonce, header, header_len, run,
                                   run_len, room, sizeof room, &length);
    printf("%s: answer %u, length %zu\n", what, (unsigned)number, length);
    show("  the room holds", room, sizeof room);
    return (int)number;
}

int main(void)
{
    uint8_t run[sizeof body + AURASKI_PAEF_128_256_BLOCK];
    size_t length;

    uint32_t number = auraski_seal(AURASKI_PAEF_128_256, key, sizeof key, nonce, sizeof nonce, header, sizeof header, body,
                                   sizeof body, run, sizeof run, &length);
    if (number != AURASKI_DONE)
        return 1;
    show("body", body, sizeof body);
    show("sealed", run, length);
    if (open_under("under its header", sizeof header, run, length) != AURASKI_DONE)
        return 1;
    if (open_under("without the step byte", sizeof header - 1, run, length) != AURASKI_FORGED)
        return 1;
    run[2] ^= 1;
    if (open_under("with a bit changed", sizeof header, run, length) != AURASKI_FORGED)
        return 1;
    return open_under("cut to fifteen bytes", sizeof header, run, 15) != AURASKI_TOO_SHORT;
}
