/* The rival: PAEF, SAEF, Umbreon and Jolteon over ForkSkinny, and its block calls, from the documents (docs/DECISIONS.md names them), as a
 * card's maker would write them. tools/bench measures it beside the library; docs/SPEED.md says what kind of program it is. */
#include "rival.h"
#include "eevee.h"
#include "paef_saef.h"

#include <string.h>

enum { DONE, UNKNOWN, WRONG_KEY_LENGTH, HEADER_TOO_LONG, TOO_SHORT, ROOM, FORGED, WRONG_NONCE_LENGTH, BODY_TOO_LONG, NOTHING = 10 };
enum { FIRST, SECOND, BOTH };
enum { KEY_BYTES = 16 };

/* ---- the block calls ---- */

uint32_t rival_fork(uint32_t cipher, const uint8_t key[16], const uint8_t tweak[16], const uint8_t block[16], uint32_t want,
                    uint8_t half0[16], uint8_t half1[16])
{
    memset(half0, 0, 16);
    memset(half1, 0, 16);
    if (cipher < 1 || cipher > 2 || want > BOTH)
        return UNKNOWN;
    fork_block(&CIPHERS[cipher - 1], key, tweak, block, want == SECOND ? NULL : half0, want == FIRST ? NULL : half1);
    return DONE;
}

uint32_t rival_unfork(uint32_t cipher, const uint8_t key[16], const uint8_t tweak[16], const uint8_t block[16], uint32_t from,
                      uint32_t want, uint8_t input[16], uint8_t other[16])
{
    memset(input, 0, 16);
    memset(other, 0, 16);
    if (cipher < 1 || cipher > 2 || from > 1 || want > BOTH)
        return UNKNOWN;
    unfork_block(&CIPHERS[cipher - 1], key, tweak, block, (int)from, want == SECOND ? NULL : input, want == FIRST ? NULL : other);
    return DONE;
}

/* ---- the schemes ---- */

typedef struct {
    Mode mode;
    const Cipher *cipher;
    size_t nonce, header_limit, body_limit;
} Scheme;

/* PAEF numbers 8,191 blocks and SAEF none; Umbreon and Jolteon number 16,379 of a header and 32,766 of a body, all but the last. */
static const Scheme SCHEMES[7] = {
    {PAEF, &CIPHERS[0], 6, 65528, 65528},
    {PAEF, &CIPHERS[1], 14, 131056, 131056},
    {SAEF, &CIPHERS[1], 15, 1048576, 1048576},
    {UMBREON, &CIPHERS[0], 6, 131040, 262136},
    {JOLTEON, &CIPHERS[0], 6, 131040, 262136},
    {UMBREON, &CIPHERS[1], 14, 262080, 524272},
    {JOLTEON, &CIPHERS[1], 14, 262080, 524272},
};

static const Scheme *scheme_of(uint32_t number)
{
    return number >= 1 && number <= 7 ? &SCHEMES[number - 1] : NULL;
}

static int is_eevee(Mode mode)
{
    return mode == UMBREON || mode == JOLTEON;
}

static void take_header(Call *call, const uint8_t *header, size_t header_len, size_t body_len)
{
    if (is_eevee(call->mode))
        eevee_header(call, header, header_len, body_len == 0);
    else
        paef_saef_header(call, header, header_len, body_len == 0);
}

static void seal_body(Call *call, const uint8_t *body, size_t body_len, uint8_t *out)
{
    if (body_len == 0)
        memcpy(out, call->sum, call->n);
    else if (is_eevee(call->mode))
        eevee_seal(call, body, body_len, out);
    else
        paef_saef_seal(call, body, body_len, out);
}

/* Whether the run is authentic. */
static int open_body(Call *call, const uint8_t *run, size_t body_len, uint8_t *out)
{
    if (body_len == 0)
        return memcmp(run, call->sum, call->n) == 0;
    if (is_eevee(call->mode))
        return eevee_open(call, run, body_len, out);
    return paef_saef_open(call, run, body_len, out);
}

/* ---- seal, open and their rounds ---- */

/* The checks that seal and open begin with; sets up the call. */
static uint32_t begin(Call *call, const Scheme *scheme, const uint8_t *key, size_t key_len, const uint8_t *nonce, size_t nonce_len,
                      size_t header_len)
{
    if (!scheme)
        return UNKNOWN;
    if (key_len != KEY_BYTES)
        return WRONG_KEY_LENGTH;
    if (nonce_len != scheme->nonce)
        return WRONG_NONCE_LENGTH;
    if (header_len > scheme->header_limit)
        return HEADER_TOO_LONG;
    call->mode = scheme->mode;
    call->cipher = scheme->cipher;
    call->n = scheme->cipher->block;
    call->key = key;
    call->nonce = nonce;
    memset(call->sum, 0, 16);
    memset(call->delta, 0, 16);
    return DONE;
}

/* And those that they end with. */
static uint32_t check(const Scheme *scheme, size_t header_len, size_t body_len, size_t room_len, size_t output)
{
    if (body_len > scheme->body_limit)
        return BODY_TOO_LONG;
    if (room_len < output)
        return ROOM;
    return is_eevee(scheme->mode) && header_len + body_len == 0 ? NOTHING : DONE;
}

uint32_t rival_seal(uint32_t scheme_number, const uint8_t *key, size_t key_len, const uint8_t *nonce, size_t nonce_len,
                    const uint8_t *header, size_t header_len, const uint8_t *body, size_t body_len, uint8_t *room,
                    size_t room_len, size_t *length)
{
    Call call;
    const Scheme *scheme = scheme_of(scheme_number);
    uint32_t refused = begin(&call, scheme, key, key_len, nonce, nonce_len, header_len);
    *length = 0;
    if (!refused)
        refused = check(scheme, header_len, body_len, room_len, body_len + call.n);
    if (refused)
        return refused;
    take_header(&call, header, header_len, body_len);
    seal_body(&call, body, body_len, room);
    *length = body_len + call.n;
    return DONE;
}

uint32_t rival_open(uint32_t scheme_number, const uint8_t *key, size_t key_len, const uint8_t *nonce, size_t nonce_len,
                    const uint8_t *header, size_t header_len, const uint8_t *sealed, size_t sealed_len, uint8_t *room,
                    size_t room_len, size_t *length)
{
    Call call;
    const Scheme *scheme = scheme_of(scheme_number);
    uint32_t refused = begin(&call, scheme, key, key_len, nonce, nonce_len, header_len);
    size_t body_len;
    *length = 0;
    if (refused)
        return refused;
    if (sealed_len < call.n)
        return TOO_SHORT;
    body_len = sealed_len - call.n;
    refused = check(scheme, header_len, body_len, room_len, body_len);
    if (refused)
        return refused;
    take_header(&call, header, header_len, body_len);
    if (!open_body(&call, sealed, body_len, room)) {
        memset(room, 0, body_len);
        return FORGED;
    }
    *length = body_len;
    return DONE;
}

uint32_t rival_rounds(uint32_t scheme_number, size_t header_len, size_t body_len, uint32_t *rounds)
{
    const Scheme *scheme = scheme_of(scheme_number);
    uint32_t refused;
    *rounds = 0;
    if (!scheme)
        return UNKNOWN;
    if (header_len > scheme->header_limit)
        return HEADER_TOO_LONG;
    refused = check(scheme, header_len, body_len, 0, 0);
    if (refused)
        return refused;
    size_t n = scheme->cipher->block;
    uint32_t header = (uint32_t)((header_len + n - 1) / n), body = (uint32_t)((body_len + n - 1) / n);
    uint32_t one = (uint32_t)(scheme->cipher->init + scheme->cipher->branch), both = one + (uint32_t)scheme->cipher->branch;
    if (header + body == 0)
        header = 1; /* the padded empty block */
    *rounds = header * one;
    if (body > 0)
        *rounds += (body - 1) * (scheme->mode == JOLTEON ? one : both) + both;
    return DONE;
}
