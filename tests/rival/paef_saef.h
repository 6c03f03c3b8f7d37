/* PAEF and SAEF: document 001, figures 5 and 8. `sum` is PAEF's S or SAEF's Delta. PAEF numbers from 1 in header and body, SAEF marks the very
 * first block. */
#ifndef RIVAL_PAEF_SAEF_H
#define RIVAL_PAEF_SAEF_H

#include "call.h"

static void next_tweak(Call *call, unsigned flag, uint8_t tweak[16])
{
    size_t n = call->n;
    unsigned number = call->number++;
    if (call->mode == PAEF) {
        memcpy(tweak, call->nonce, n - 2);
        tweak[n - 2] = (uint8_t)(flag << 5 | number >> 8);
        tweak[n - 1] = (uint8_t)number;
    } else if (number == 1) {
        memcpy(tweak, call->nonce, n - 1);
        tweak[n - 1] = (uint8_t)(8 | flag);
    } else {
        memset(tweak, 0, n - 1);
        tweak[n - 1] = (uint8_t)flag;
    }
}

static void header_block(Call *call, unsigned flag, const uint8_t *block)
{
    uint8_t tweak[16], in[16], half0[16];
    next_tweak(call, flag, tweak);
    memcpy(in, block, call->n);
    if (call->mode == SAEF)
        xor_into(in, call->sum, call->n);
    fork_block(call->cipher, call->key, tweak, in, half0, NULL);
    if (call->mode == SAEF)
        memcpy(call->sum, half0, call->n);
    else
        xor_into(call->sum, half0, call->n);
}

static void paef_saef_header(Call *call, const uint8_t *header, size_t length, int empty_body)
{
    size_t n = call->n;
    uint8_t last[16];
    unsigned flag;
    call->number = 1;
    if (length == 0 && !empty_body)
        return;
    for (; length > n; length -= n, header += n)
        header_block(call, 0, header);
    pad(last, header, length, n);
    if (call->mode == SAEF)
        flag = (length == n ? 2u : 3u) + (empty_body ? 4u : 0u);
    else
        flag = length == n ? 1 : 3;
    header_block(call, flag, last);
}

/* The flag of a body block that is followed by others, is the last and full, or is the last and short. */
static unsigned body_flag(const Call *call, size_t left)
{
    if (left > call->n)
        return call->mode == SAEF ? 1 : 4;
    if (left == call->n)
        return call->mode == SAEF ? 4 : 5;
    return call->mode == SAEF ? 5 : 7;
}

/* One body block to `out`; half 1 too, for the end. */
static void seal_block(Call *call, size_t left, const uint8_t *block, uint8_t *out, uint8_t half1[16])
{
    uint8_t tweak[16], in[16];
    size_t n = call->n;
    next_tweak(call, body_flag(call, left), tweak);
    memcpy(in, block, n);
    if (call->mode == SAEF)
        xor_into(in, call->sum, n);
    fork_block(call->cipher, call->key, tweak, in, out, half1);
    if (call->mode == SAEF || left <= n)
        xor_into(out, call->sum, n);
    if (call->mode == SAEF)
        memcpy(call->sum, half1, n);
    else
        xor_into(call->sum, half1, n);
}

static void paef_saef_seal(Call *call, const uint8_t *body, size_t left, uint8_t *out)
{
    size_t n = call->n;
    uint8_t last[16], half1[16];
    if (call->mode == PAEF)
        call->number = 1;
    for (; left > n; left -= n, body += n, out += n)
        seal_block(call, left, body, out, half1);
    pad(last, body, left, n);
    seal_block(call, left, last, out, half1);
    memcpy(out + n, half1, left);
}

/* The block that was sealed to `in`; half 1 too, for the end. */
static void open_block(Call *call, size_t left, const uint8_t *in, uint8_t *block, uint8_t half1[16])
{
    uint8_t tweak[16], half0[16];
    size_t n = call->n;
    next_tweak(call, body_flag(call, left), tweak);
    memcpy(half0, in, n);
    if (call->mode == SAEF || left <= n)
        xor_into(half0, call->sum, n);
    unfork_block(call->cipher, call->key, tweak, half0, 0, block, half1);
    if (call->mode == SAEF) {
        xor_into(block, call->sum, n);
        memcpy(call->sum, half1, n);
    } else {
        xor_into(call->sum, half1, n);
    }
}

/* Whether the run is authentic. */
static int paef_saef_open(Call *call, const uint8_t *run, size_t left, uint8_t *out)
{
    size_t n = call->n;
    uint8_t last[16], padded[16], half1[16];
    if (call->mode == PAEF)
        call->number = 1;
    for (; left > n; left -= n, run += n, out += n)
        open_block(call, left, run, out, half1);
    open_block(call, left, run, last, half1);
    memcpy(out, last, left);
    pad(padded, last, left, n);
    return memcmp(half1, run + n, left) == 0 && memcmp(padded, last, n) == 0;
}

#endif
