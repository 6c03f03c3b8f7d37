/* What the modes have in common. */
#ifndef RIVAL_CALL_H
#define RIVAL_CALL_H

#include "forkskinny.h"

typedef enum { PAEF, SAEF, UMBREON, JOLTEON } Mode;

/* What a call was given, and what it carries from block to block; each mode says what its sums are, and how it numbers. Behind the header `sum`
 * is the run of an empty body. */
typedef struct {
    Mode mode;
    const Cipher *cipher;
    size_t n;
    const uint8_t *key, *nonce;
    unsigned number; /* of the next block */
    uint8_t sum[16], delta[16];
} Call;

static void pad(uint8_t *block, const uint8_t *from, size_t length, size_t n)
{
    memset(block, 0, n);
    memcpy(block, from, length);
    if (length < n)
        block[length] = 0x80;
}

#endif
