/* Umbreon and Jolteon: document 000, figure 9; its lines are named. `delta` is Delta. `sum` is what goes from one block to the next: T_A, and
 * in Jolteon's body C_{i-1}, of which the first is T_A too (line 45). */
#ifndef RIVAL_EEVEE_H
#define RIVAL_EEVEE_H

#include "call.h"

/* The nonce, and behind it two bytes: a number and 00 in the header, a number and 1 in the body. */
static void eevee_tweak(const Call *call, unsigned behind, uint8_t tweak[16])
{
    size_t n = call->n;
    memcpy(tweak, call->nonce, n - 2);
    tweak[n - 2] = (uint8_t)(behind >> 8);
    tweak[n - 1] = (uint8_t)behind;
}

static void eevee_header_block(Call *call, unsigned number, const uint8_t *block)
{
    uint8_t tweak[16], half0[16];
    eevee_tweak(call, number << 2, tweak);
    fork_block(call->cipher, call->key, tweak, block, half0, NULL);
    xor_into(call->sum, half0, call->n);
}

/* Lines 16 to 26. */
static void eevee_header(Call *call, const uint8_t *header, size_t length, int empty_body)
{
    size_t n = call->n;
    uint8_t last[16];
    unsigned full;
    if (length == 0)
        return;
    for (call->number = 5; length > n; length -= n, header += n)
        eevee_header_block(call, call->number++, header);
    full = length == n;
    pad(last, header, length, n);
    eevee_header_block(call, 2 * full + (empty_body ? 1 : 0), last);
}

/* Lines 50 to 55. */
static void eevee_seal_block(Call *call, const uint8_t *block, uint8_t *out)
{
    uint8_t tweak[16], in[16];
    size_t n = call->n;
    eevee_tweak(call, call->number++ << 1 | 1, tweak);
    xor_into(call->delta, call->sum, n);
    if (call->mode == UMBREON) {
        memcpy(in, block, n);
        xor_into(in, call->sum, n);
        fork_block(call->cipher, call->key, tweak, in, out, call->sum);
    } else {
        xor_into(call->delta, block, n);
        fork_block(call->cipher, call->key, tweak, block, out, NULL);
        memcpy(call->sum, out, n);
    }
}

/* Lines 65 to 75. */
static void eevee_seal_last(Call *call, const uint8_t *block, size_t left, uint8_t *out)
{
    uint8_t tweak[16], last[16], half1[16];
    size_t n = call->n;
    unsigned full = left == n;
    eevee_tweak(call, full << 1 | 1, tweak);
    pad(last, block, left, n);
    xor_into(call->delta, call->sum, n);
    xor_into(call->delta, last, n);
    fork_block(call->cipher, call->key, tweak, call->delta, out + left, half1);
    xor_into(half1, last, n);
    memcpy(out, half1, left);
}

static void eevee_seal(Call *call, const uint8_t *body, size_t left, uint8_t *out)
{
    size_t n = call->n;
    for (call->number = 2; left > n; left -= n, body += n, out += n)
        eevee_seal_block(call, body, out);
    eevee_seal_last(call, body, left, out);
}

/* Lines 104 to 109. */
static void eevee_open_block(Call *call, const uint8_t *in, uint8_t *block)
{
    uint8_t tweak[16], half1[16];
    size_t n = call->n;
    eevee_tweak(call, call->number++ << 1 | 1, tweak);
    xor_into(call->delta, call->sum, n);
    if (call->mode == UMBREON) {
        unfork_block(call->cipher, call->key, tweak, in, 0, block, half1);
        xor_into(block, call->sum, n);
        memcpy(call->sum, half1, n);
    } else {
        unfork_block(call->cipher, call->key, tweak, in, 0, block, NULL);
        xor_into(call->delta, block, n);
        memcpy(call->sum, in, n);
    }
}

/* Lines 119 to 128: whether the run is authentic. */
static int eevee_open_last(Call *call, const uint8_t *in, size_t left, uint8_t *out)
{
    uint8_t tweak[16], last[16], padded[16], half1[16];
    size_t n = call->n;
    unsigned full = left == n;
    eevee_tweak(call, full << 1 | 1, tweak);
    xor_into(call->delta, call->sum, n);
    unfork_block(call->cipher, call->key, tweak, in + left, 0, last, half1);
    xor_into(last, call->delta, n);
    xor_into(half1, last, n);
    memcpy(out, last, left);
    pad(padded, last, left, n);
    return memcmp(half1, in, left) == 0 && memcmp(padded, last, n) == 0;
}

static int eevee_open(Call *call, const uint8_t *run, size_t left, uint8_t *out)
{
    size_t n = call->n;
    for (call->number = 2; left > n; left -= n, run += n, out += n)
        eevee_open_block(call, run, out);
    return eevee_open_last(call, run, left, out);
}

#endif
