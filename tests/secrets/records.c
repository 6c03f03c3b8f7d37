/* Seals and opens. Of an open the run is public, but without the key nobody knows what it opens to. */
#include "auraski.h"
#include "cases.h"
#include "prepared.h"
#include "secret.h"
#include "tally.h"

#include <string.h>

/* Of all schemes. */
enum { LIMIT = AURASKI_SAEF_128_256_LIMIT, BLOCK = AURASKI_SAEF_128_256_BLOCK };

static uint8_t key[AURASKI_KEY_BYTES], nonce[BLOCK], header[LIMIT + 1], body[LIMIT + 1], run[LIMIT + 1 + BLOCK], room[LIMIT + 1 + BLOCK];
static prepared_keys prepared;

struct scheme {
    uint32_t number, cipher;
    size_t block, nonce, header_limit, body_limit;
    int is_eevee;      /* Umbreon or Jolteon: the tag is a run's last block, and header and body are not both empty */
    uint8_t behind[2]; /* what stands behind the nonce in the tweak of a body that is one short block */
};

#define SIZES(MODE, CIPHER) \
    AURASKI_##MODE##_##CIPHER, AURASKI_##CIPHER, AURASKI_##MODE##_##CIPHER##_BLOCK, AURASKI_##MODE##_##CIPHER##_NONCE

static const struct scheme schemes[] = {
    {SIZES(PAEF, 64_192), AURASKI_PAEF_64_192_LIMIT, AURASKI_PAEF_64_192_LIMIT, 0, {0xe0, 0x01}},
    {SIZES(PAEF, 128_256), AURASKI_PAEF_128_256_LIMIT, AURASKI_PAEF_128_256_LIMIT, 0, {0xe0, 0x01}},
    {SIZES(SAEF, 128_256), AURASKI_SAEF_128_256_LIMIT, AURASKI_SAEF_128_256_LIMIT, 0, {0x0d}},
    {SIZES(UMBREON, 64_192), AURASKI_UMBREON_64_192_HEADER_LIMIT, AURASKI_UMBREON_64_192_BODY_LIMIT, 1, {0x00, 0x01}},
    {SIZES(JOLTEON, 64_192), AURASKI_JOLTEON_64_192_HEADER_LIMIT, AURASKI_JOLTEON_64_192_BODY_LIMIT, 1, {0x00, 0x01}},
    {SIZES(UMBREON, 128_256), AURASKI_UMBREON_128_256_HEADER_LIMIT, AURASKI_UMBREON_128_256_BODY_LIMIT, 1, {0x00, 0x01}},
    {SIZES(JOLTEON, 128_256), AURASKI_JOLTEON_128_256_HEADER_LIMIT, AURASKI_JOLTEON_128_256_BODY_LIMIT, 1, {0x00, 0x01}},
};

/* By key and with a prepared key. */
static const struct way {
    enum entry seal, open;
} ways[2] = {{SEAL, OPEN}, {SEAL_PREPARED, OPEN_PREPARED}};

/* The scheme's number, the cipher for which a key was prepared, and the lengths that a call is given. The text is the body or the run. */
struct call {
    uint32_t scheme, cipher;
    size_t key, nonce, header, text, room;
};

static int seals(enum entry entry)
{
    return entry == SEAL || entry == SEAL_PREPARED;
}

static uint32_t answer(enum entry entry, const struct call *c, size_t *length)
{
    const uint8_t *text = seals(entry) ? body : run;
    if (entry == SEAL || entry == OPEN) {
        return (entry == SEAL ? auraski_seal : auraski_open)(c->scheme, key, c->key, nonce, c->nonce, header, c->header, text, c->text, room,
                                                             c->room, length);
    }
    return (entry == SEAL_PREPARED ? auraski_seal_prepared : auraski_open_prepared)(c->scheme, prepared[c->cipher], nonce, c->nonce, header,
                                                                                    c->header, text, c->text, room, c->room, length);
}

/* Seals or opens, and looks at what came. */
static void make(enum entry entry, const struct call *c, uint32_t due)
{
    size_t length = 1, output = due == AURASKI_DONE ? c->room : 0;
    memset(room, 0xee, c->room);
    make_secret(key, c->key);
    make_keys_secret(prepared);
    make_secret(body, seals(entry) ? c->text : 0);
    tally_begin();
    uint32_t number = answer(entry, c, &length);
    int silent = tally_end(entry, c->scheme, due);
    hold(judges_key(entry, due) || judges_run(entry, due) || (none_secret(&number, sizeof number) && none_secret(&length, sizeof length)),
         "number or length depends on a secret");
    hold(!silent || all_secret(room, output), "a byte of the output depends on no secret");
    make_public(key, c->key);
    make_keys_public(prepared);
    make_public(body, seals(entry) ? c->text : 0);
    make_public(&number, sizeof number);
    make_public(&length, sizeof length);
    make_public(room, c->room);
    hold(number == due && length == output, "another number or length");
}

static void open_authentic(enum entry entry, const struct call *c)
{
    make(entry, c, AURASKI_DONE);
    hold(memcmp(room, body, c->room) == 0, "not the body that was sealed");
}

static void open_forged(enum entry entry, const struct call *c)
{
    size_t zeros = 0;
    make(entry, c, AURASKI_FORGED);
    for (size_t i = 0; i < c->room; i++) {
        zeros += room[i] == 0;
    }
    hold(zeros == c->room, "not zeros where the body would have been");
}

/* A record sealed, opened, and refused: for the first byte of its run, and for the first and the last one of its tag. */
static void record_case(const struct way *way, const struct scheme *s, size_t header_len, size_t body_len)
{
    const size_t run_len = body_len + s->block, tag_len = s->is_eevee || body_len == 0 ? s->block : (body_len - 1) % s->block + 1;
    const size_t places[] = {0, run_len - tag_len, run_len - 1};
    const struct call sealing = {s->number, s->cipher, sizeof key, s->nonce, header_len, body_len, run_len};
    const struct call opening = {s->number, s->cipher, sizeof key, s->nonce, header_len, run_len, body_len};
    make(way->seal, &sealing, AURASKI_DONE);
    memcpy(run, room, run_len);
    open_authentic(way->open, &opening);
    for (size_t i = 0; i < sizeof places / sizeof places[0]; i++) {
        if (i == 0 || places[i] != places[i - 1]) {
            run[places[i]] ^= 0x10;
            open_forged(way->open, &opening);
            run[places[i]] ^= 0x10;
        }
    }
}

/* ---- padding ---- */

/* The run of a body that is one short block, under no header, made by a block call of its own, with one byte of the block damaged. So its
 * tag is right where its padding is not. Nothing of it is secret yet. */
static void run_by_hand(const struct scheme *s, size_t body_len, size_t place, uint8_t damage)
{
    uint8_t tweak[16] = {0}, block[16] = {0}, half0[16], half1[16];
    memcpy(tweak, nonce, s->nonce);
    memcpy(tweak + s->nonce, s->behind, s->block - s->nonce);
    memcpy(block, body, body_len);
    block[body_len] = 0x80;
    block[place] ^= damage;
    hold(auraski_fork(s->cipher, key, tweak, block, AURASKI_BOTH, half0, half1) == AURASKI_DONE, "a fork by hand is refused");
    if (s->is_eevee) {
        for (size_t i = 0; i < body_len; i++) {
            run[i] = half1[i] ^ block[i];
        }
        memcpy(run + body_len, half0, s->block);
    } else {
        memcpy(run, half0, s->block);
        memcpy(run + s->block, half1, body_len);
    }
}

/* By hand as by a seal; then refused for the first byte of the padding and for the last one. */
static void padding_case(const struct way *way, const struct scheme *s, size_t body_len)
{
    const struct call sealing = {s->number, s->cipher, sizeof key, s->nonce, 0, body_len, body_len + s->block};
    const struct call opening = {s->number, s->cipher, sizeof key, s->nonce, 0, body_len + s->block, body_len};
    make(way->seal, &sealing, AURASKI_DONE);
    run_by_hand(s, body_len, 0, 0);
    hold(memcmp(run, room, sealing.room) == 0, "not the run that is made by hand");
    run_by_hand(s, body_len, body_len, 0x80);
    open_forged(way->open, &opening);
    run_by_hand(s, body_len, s->block - 1, 0x01);
    open_forged(way->open, &opening);
}

/* ---- refusals by lengths, and for a prepared key ---- */

/* Of a call that would be done but for one argument. */
static void refused_cases(enum entry entry, const struct scheme *s, size_t text_len, size_t room_len)
{
    const struct call done = {s->number, s->cipher, sizeof key, s->nonce, BLOCK, text_len, room_len};
    struct call unknown = done, wrong_key = done, long_nonce = done, long_header = done, long_text = done, little_room = done;
    unknown.scheme = 0;
    wrong_key.key--;
    wrong_key.cipher = 0;
    long_nonce.nonce++;
    long_header.header = s->header_limit + 1;
    long_text.text += s->body_limit;
    little_room.room--;
    make(entry, &unknown, AURASKI_UNKNOWN);
    make(entry, &wrong_key, AURASKI_WRONG_KEY_LENGTH);
    make(entry, &long_nonce, AURASKI_WRONG_NONCE_LENGTH);
    make(entry, &long_header, AURASKI_HEADER_TOO_LONG);
    make(entry, &long_text, AURASKI_BODY_TOO_LONG);
    make(entry, &little_room, AURASKI_ROOM);
}

/* Header and body both empty. */
static void nothing_cases(const struct way *way, const struct scheme *s)
{
    const struct call sealing = {s->number, s->cipher, sizeof key, s->nonce, 0, 0, s->block};
    const struct call opening = {s->number, s->cipher, sizeof key, s->nonce, 0, s->block, 0};
    make(way->seal, &sealing, AURASKI_NOTHING);
    make(way->open, &opening, AURASKI_NOTHING);
}

static void short_case(enum entry entry, const struct scheme *s)
{
    const struct call short_run = {s->number, s->cipher, sizeof key, s->nonce, BLOCK, s->block - 1, BLOCK};
    make(entry, &short_run, AURASKI_TOO_SHORT);
}

/* A prepared key that is not admitted: another cipher's; one of which a byte at either end or between is another. */
static void not_admitted_cases(enum entry entry, const struct scheme *s)
{
    static const size_t places[] = {0, 1, AURASKI_PREPARED / 2, AURASKI_PREPARED - 1};
    const struct call call = {s->number, s->cipher, sizeof key, s->nonce, BLOCK, BLOCK, 2 * BLOCK};
    struct call other = call;
    other.cipher = AURASKI_64_192 + AURASKI_128_256 - s->cipher;
    make(entry, &other, AURASKI_WRONG_KEY_LENGTH);
    for (size_t i = 0; i < sizeof places / sizeof places[0]; i++) {
        prepared[s->cipher][places[i]] ^= 0x01;
        make(entry, &call, AURASKI_WRONG_KEY_LENGTH);
        prepared[s->cipher][places[i]] ^= 0x01;
    }
}

static void scheme_cases(const struct way *way, const struct scheme *s)
{
    const size_t n = s->block, headers[] = {0, n - 1, n, 2 * n + 1}, bodies[] = {0, 1, n - 1, n, n + 1, 2 * n, 3 * n + 5};
    for (size_t i = 0; i < sizeof headers / sizeof headers[0]; i++) {
        for (size_t j = 0; j < sizeof bodies / sizeof bodies[0]; j++) {
            if (s->is_eevee && headers[i] + bodies[j] == 0) {
                nothing_cases(way, s);
            } else {
                record_case(way, s, headers[i], bodies[j]);
            }
        }
    }
    padding_case(way, s, 1);
    padding_case(way, s, n - 1);
    refused_cases(way->seal, s, 1, 1 + n);
    refused_cases(way->open, s, 1 + n, 1);
    short_case(way->open, s);
}

void record_cases(void)
{
    for (size_t i = 0; i < sizeof key; i++) {
        key[i] = (uint8_t)(0x3b * i + 0x71);
        nonce[i] = (uint8_t)(0x1d * i + 0x05);
    }
    for (size_t i = 0; i < 4 * BLOCK; i++) {
        header[i] = (uint8_t)(0x35 * i + 0xc2);
        body[i] = (uint8_t)(0x67 * i + 0x9e);
    }
    prepare(key, prepared);
    for (size_t i = 0; i < sizeof schemes / sizeof schemes[0]; i++) {
        scheme_cases(&ways[0], &schemes[i]);
        scheme_cases(&ways[1], &schemes[i]);
        not_admitted_cases(SEAL_PREPARED, &schemes[i]);
        not_admitted_cases(OPEN_PREPARED, &schemes[i]);
    }
}
