/* Keys that are prepared. The first byte of one is the number of its cipher, which every call is told besides, and is public; all others are
 * secret. */
#ifndef SECRETS_PREPARED_H
#define SECRETS_PREPARED_H

#include "auraski.h"

/* A key, prepared for the cipher of that number; at 0 stands one that is not admitted. */
typedef uint8_t prepared_keys[3][AURASKI_PREPARED];

/* Prepares a key for each cipher: that, too, is a call with a secret. What comes is public from now on. */
void prepare(const uint8_t key[AURASKI_KEY_BYTES], prepared_keys prepared);

void make_keys_secret(prepared_keys prepared);
void make_keys_public(prepared_keys prepared);

#endif
