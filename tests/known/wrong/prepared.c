/* Prepared keys with one thing wrong, as in wrong.c:
 *
 *  33  preparing judges the key's length before the cipher
 *  34  preparing takes the front of a key that is too long
 *  35  a preparing that is refused writes nothing
 *  36  of a cipher's number only the low byte counts in preparing
 *  37  a key that was prepared for the other cipher is admitted
 *  38  what a refused preparing gives is admitted, as a key of zeros
 *  39  a prepared key that is not admitted is told as an unknown scheme or cipher
 *  40  the nonce's length is judged before the prepared key
 *  41  the length is not written where a prepared key is not admitted
 *  42  the room is cleared where a prepared key is not admitted
 *  43  the result blocks are left as they are where a prepared key is not admitted
 *  44  a block call judges the prepared key before the other numbers
 */
#include "call.h"

#include <string.h>

static const uint8_t zeros[PREPARED_BYTES];

/* The key that was prepared last: the reader prepares one for every call. Zeros, if that was refused. */
static uint8_t last_key[AURASKI_KEY_BYTES];

uint32_t wrong_prepare(uint32_t cipher, const uint8_t *key, size_t key_len, uint8_t prepared[PREPARED_BYTES])
{
    uint8_t before[PREPARED_BYTES];
    memcpy(before, prepared, sizeof before);
    if (is_wrong(34) && key_len > sizeof last_key)
        key_len = sizeof last_key;
    uint32_t number = auraski_prepare(is_wrong(36) ? cipher & 255 : cipher, key, key_len, prepared);
    memcpy(last_key, number == AURASKI_DONE ? key : zeros, sizeof last_key);
    if (is_wrong(35) && number != AURASKI_DONE)
        memcpy(prepared, before, sizeof before);
    return is_wrong(33) && number == AURASKI_UNKNOWN && key_len != sizeof last_key ? AURASKI_WRONG_KEY_LENGTH : number;
}

/* The prepared key that a call under a cipher goes by: the one that it is given, or the last key's, prepared anew. */
static const uint8_t *taken(uint32_t cipher, const uint8_t prepared[PREPARED_BYTES])
{
    static uint8_t anew[PREPARED_BYTES];
    int was_refused = memcmp(prepared, zeros, sizeof zeros) == 0;
    if (!is_wrong(was_refused ? 38 : 37) || auraski_prepare(cipher, last_key, sizeof last_key, anew) != AURASKI_DONE)
        return prepared;
    return anew;
}

/* ---- seal and open ---- */

/* What is wrong where a prepared key is not admitted. */
static uint32_t not_admitted(uint32_t scheme, size_t nonce_len, uint8_t *room, size_t room_len)
{
    if (is_wrong(42))
        memset(room, 0, room_len);
    if (is_wrong(39))
        return AURASKI_UNKNOWN;
    return is_wrong(40) && nonce_len != scheme_of(scheme)->nonce ? AURASKI_WRONG_NONCE_LENGTH : AURASKI_WRONG_KEY_LENGTH;
}

typedef uint32_t sealing_call(uint32_t scheme, const uint8_t prepared[PREPARED_BYTES], const uint8_t *nonce, size_t nonce_len,
                              const uint8_t *header, size_t header_len, const uint8_t *text, size_t text_len, uint8_t *room,
                              size_t room_len, size_t *length);

static uint32_t sealing(sealing_call *right, uint32_t scheme, const uint8_t *prepared, const uint8_t *nonce, size_t nonce_len,
                        const uint8_t *header, size_t header_len, const uint8_t *text, size_t text_len, uint8_t *room,
                        size_t room_len, size_t *length)
{
    size_t untold = *length;
    uint32_t cipher = scheme_of(scheme)->block == 8 ? AURASKI_64_192 : AURASKI_128_256;
    uint32_t number = right(scheme, taken(cipher, prepared), nonce, nonce_len, header, header_len, text, text_len, room, room_len, length);
    if (number != AURASKI_WRONG_KEY_LENGTH)
        return number;
    if (is_wrong(41))
        *length = untold;
    return not_admitted(scheme, nonce_len, room, room_len);
}

uint32_t wrong_seal_prepared(uint32_t scheme, const uint8_t prepared[PREPARED_BYTES], const uint8_t *nonce, size_t nonce_len,
                             const uint8_t *header, size_t header_len, const uint8_t *body, size_t body_len, uint8_t *room,
                             size_t room_len, size_t *length)
{
    return sealing(auraski_seal_prepared, scheme, prepared, nonce, nonce_len, header, header_len, body, body_len, room, room_len, length);
}

uint32_t wrong_open_prepared(uint32_t scheme, const uint8_t prepared[PREPARED_BYTES], const uint8_t *nonce, size_t nonce_len,
                             const uint8_t *header, size_t header_len, const uint8_t *sealed, size_t sealed_len, uint8_t *room,
                             size_t room_len, size_t *length)
{
    return sealing(auraski_open_prepared, scheme, prepared, nonce, nonce_len, header, header_len, sealed, sealed_len, room, room_len,
                   length);
}

/* ---- fork and unfork ---- */

/* Whether the prepared key is admitted, asked by a call that is right but for it. */
static int is_admitted(uint32_t cipher, const uint8_t *prepared)
{
    uint8_t half0[16], half1[16];
    return auraski_fork_prepared(cipher, prepared, zeros, zeros, AURASKI_BOTH, half0, half1) == AURASKI_DONE;
}

/* What is wrong with a block call that answered so. */
static uint32_t block_call(uint32_t number, uint32_t cipher, const uint8_t *prepared, uint8_t first[16], uint8_t second[16],
                           const uint8_t before[32])
{
    if (is_wrong(44) && number == AURASKI_UNKNOWN && !is_admitted(cipher, prepared))
        return AURASKI_WRONG_KEY_LENGTH;
    if (number != AURASKI_WRONG_KEY_LENGTH)
        return number;
    if (is_wrong(43)) {
        memcpy(first, before, 16);
        memcpy(second, before + 16, 16);
    }
    return is_wrong(39) ? AURASKI_UNKNOWN : number;
}

uint32_t wrong_fork_prepared(uint32_t cipher, const uint8_t prepared[PREPARED_BYTES], const uint8_t tweak[16], const uint8_t block[16],
                             uint32_t want, uint8_t half0[16], uint8_t half1[16])
{
    uint8_t before[32];
    memcpy(before, half0, 16);
    memcpy(before + 16, half1, 16);
    uint32_t number = auraski_fork_prepared(cipher, taken(cipher, prepared), tweak, block, want, half0, half1);
    return block_call(number, cipher, prepared, half0, half1, before);
}

uint32_t wrong_unfork_prepared(uint32_t cipher, const uint8_t prepared[PREPARED_BYTES], const uint8_t tweak[16],
                               const uint8_t block[16], uint32_t from, uint32_t want, uint8_t input[16], uint8_t other[16])
{
    uint8_t before[32];
    memcpy(before, input, 16);
    memcpy(before + 16, other, 16);
    uint32_t number = auraski_unfork_prepared(cipher, taken(cipher, prepared), tweak, block, from, want, input, other);
    return block_call(number, cipher, prepared, input, other, before);
}
