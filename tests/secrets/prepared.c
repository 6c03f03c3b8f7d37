#include "prepared.h"
#include "secret.h"
#include "tally.h"

#include <string.h>

static const uint8_t zeros[AURASKI_PREPARED];

static void prepare_one(uint32_t cipher, const uint8_t *key, size_t key_len, uint8_t prepared[AURASKI_PREPARED], uint32_t due)
{
    make_secret(key, key_len);
    tally_begin();
    uint32_t number = auraski_prepare(cipher, key, key_len, prepared);
    int silent = tally_end(PREPARE, cipher, due);
    hold(none_secret(&number, sizeof number), "the number depends on a secret");
    hold(none_secret(prepared, 1), "the cipher's number depends on a secret");
    hold(!silent || none_secret(prepared, AURASKI_PREPARED) == (due != AURASKI_DONE),
         "the prepared key depends on no secret, or that of a refusal on one");
    make_public(key, key_len);
    make_public(&number, sizeof number);
    make_public(prepared, AURASKI_PREPARED);
    hold(number == due, "another number");
    hold((memcmp(prepared, zeros, AURASKI_PREPARED) == 0) == (due != AURASKI_DONE), "zeros, or none where they are due");
}

void prepare(const uint8_t key[AURASKI_KEY_BYTES], prepared_keys prepared)
{
    prepare_one(0, key, AURASKI_KEY_BYTES, prepared[0], AURASKI_UNKNOWN);
    for (uint32_t cipher = AURASKI_64_192; cipher <= AURASKI_128_256; cipher++) {
        prepare_one(cipher, key, AURASKI_KEY_BYTES - 1, prepared[cipher], AURASKI_WRONG_KEY_LENGTH);
        prepare_one(cipher, key, AURASKI_KEY_BYTES, prepared[cipher], AURASKI_DONE);
    }
}

void make_keys_secret(prepared_keys prepared)
{
    for (size_t i = 0; i < sizeof(prepared_keys) / sizeof prepared[0]; i++) {
        make_secret(prepared[i] + 1, AURASKI_PREPARED - 1);
    }
}

void make_keys_public(prepared_keys prepared)
{
    make_public(prepared, sizeof(prepared_keys));
}
