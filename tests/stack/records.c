/* Seal and open, by key and with a prepared key, and rounds: on records of several lengths, and refused. */
#include "tables.h"
#include "take.h"

#include <stdio.h>
#include <string.h>

static size_t length;
static uint32_t rounds;

typedef struct {
    uint32_t scheme, cipher;
    size_t block, key, nonce;
    const uint8_t *prepared;
    size_t least, header, body; /* bytes of header and body in the shortest record; of the longest header, and of the longest body */
} Scheme;

#define SIZES(MODE, CIPHER)                                                                                                \
    AURASKI_##MODE##_##CIPHER, AURASKI_##CIPHER, AURASKI_##MODE##_##CIPHER##_BLOCK, AURASKI_KEY_BYTES,                     \
        AURASKI_##MODE##_##CIPHER##_NONCE, prepared[AURASKI_##CIPHER]

enum { SCHEMES = 7 };
static const Scheme schemes[SCHEMES] = {
    {SIZES(PAEF, 64_192), 0, AURASKI_PAEF_64_192_LIMIT, AURASKI_PAEF_64_192_LIMIT},
    {SIZES(PAEF, 128_256), 0, AURASKI_PAEF_128_256_LIMIT, AURASKI_PAEF_128_256_LIMIT},
    {SIZES(SAEF, 128_256), 0, AURASKI_SAEF_128_256_LIMIT, AURASKI_SAEF_128_256_LIMIT},
    {SIZES(UMBREON, 64_192), 1, AURASKI_UMBREON_64_192_HEADER_LIMIT, AURASKI_UMBREON_64_192_BODY_LIMIT},
    {SIZES(JOLTEON, 64_192), 1, AURASKI_JOLTEON_64_192_HEADER_LIMIT, AURASKI_JOLTEON_64_192_BODY_LIMIT},
    {SIZES(UMBREON, 128_256), 1, AURASKI_UMBREON_128_256_HEADER_LIMIT, AURASKI_UMBREON_128_256_BODY_LIMIT},
    {SIZES(JOLTEON, 128_256), 1, AURASKI_JOLTEON_128_256_HEADER_LIMIT, AURASKI_JOLTEON_128_256_BODY_LIMIT},
};

/* Bytes of the records that are taken: the shortest, three blocks and a byte of each, and the longest. */
enum { RECORDS = 3 };
typedef struct {
    size_t header, body;
} Lengths;

static void lengths_of(const Scheme *scheme, Lengths lengths[RECORDS])
{
    size_t four = 3 * scheme->block + 1;
    lengths[0] = (Lengths){scheme->least, scheme->least};
    lengths[1] = (Lengths){four, four};
    lengths[2] = (Lengths){scheme->header, scheme->body};
}

/* ---- seal and open ---- */

/* The text is the body or the run. */
typedef Call Making(const Scheme *scheme, size_t header_len, size_t text_len, size_t room_len);

static Call seal_call(const Scheme *scheme, size_t header_len, size_t body_len, size_t room_len)
{
    Call call = {(void (*)(void))auraski_seal,
                 {scheme->scheme, at(key), scheme->key, at(nonce), scheme->nonce, at(header), header_len, at(body), body_len, at(room),
                  room_len, at(&length)}};
    return call;
}

static Call open_call(const Scheme *scheme, size_t header_len, size_t run_len, size_t room_len)
{
    Call call = {(void (*)(void))auraski_open,
                 {scheme->scheme, at(key), scheme->key, at(nonce), scheme->nonce, at(header), header_len, at(run), run_len, at(room),
                  room_len, at(&length)}};
    return call;
}

static Call seal_prepared_call(const Scheme *scheme, size_t header_len, size_t body_len, size_t room_len)
{
    Call call = {(void (*)(void))auraski_seal_prepared,
                 {scheme->scheme, at(scheme->prepared), at(nonce), scheme->nonce, at(header), header_len, at(body), body_len,
                  at(room), room_len, at(&length)}};
    return call;
}

static Call open_prepared_call(const Scheme *scheme, size_t header_len, size_t run_len, size_t room_len)
{
    Call call = {(void (*)(void))auraski_open_prepared,
                 {scheme->scheme, at(scheme->prepared), at(nonce), scheme->nonce, at(header), header_len, at(run), run_len,
                  at(room), room_len, at(&length)}};
    return call;
}

typedef struct {
    const char *seal_name, *open_name;
    Making *seal, *open;
} Way;

static const Way WAYS[2] = {
    {"auraski_seal", "auraski_open", seal_call, open_call},
    {"auraski_seal_prepared", "auraski_open_prepared", seal_prepared_call, open_prepared_call},
};

/* A record sealed, its run opened, and refused with 6 for its last byte. */
static void take_record(const Way *way, const Scheme *scheme, const Lengths *of, size_t *sealing, size_t *opening)
{
    size_t run_len = of->body + scheme->block;
    Call seal = way->seal(scheme, of->header, of->body, run_len), open = way->open(scheme, of->header, run_len, of->body);
    *sealing = take(way->seal_name, &seal, AURASKI_DONE);
    memcpy(run, room, run_len);
    *opening = take(way->open_name, &open, AURASKI_DONE);
    if (memcmp(room, body, of->body) != 0) {
        printf("stack: scheme %u, %zu bytes: not the body that was sealed\n", (unsigned)scheme->scheme, of->body);
        failures++;
    }
    run[run_len - 1] ^= 1;
    *opening = greater(*opening, take(way->open_name, &open, AURASKI_FORGED));
}

/* How many of so many refusals, the last of which is that header and body are both empty. */
static int refusals(const Scheme *scheme, int all)
{
    return scheme->least == 0 ? all - 1 : all;
}

/* Refusals before any block: the greatest. The text is `more` bytes longer than the body. */
static size_t take_refused(const char *name, Making *call_of, const Scheme *scheme, size_t more)
{
    Scheme unknown = *scheme, wrong_key = *scheme, long_nonce = *scheme;
    size_t text_len = 16 + more, most = 0;
    unknown.scheme = SCHEMES + 1;
    wrong_key.key--;
    wrong_key.prepared = damaged[scheme->cipher];
    long_nonce.nonce++;
    const Call calls[7] = {call_of(&unknown, 16, text_len, 32),
                           call_of(&wrong_key, 16, text_len, 32),
                           call_of(&long_nonce, 16, text_len, 32),
                           call_of(scheme, scheme->header + 1, text_len, 32),
                           call_of(scheme, 16, scheme->body + 1 + more, 32),
                           call_of(scheme, 16, text_len, 15),
                           call_of(scheme, 0, more, 32)};
    const uint32_t answers[7] = {AURASKI_UNKNOWN,       AURASKI_WRONG_KEY_LENGTH, AURASKI_WRONG_NONCE_LENGTH, AURASKI_HEADER_TOO_LONG,
                                 AURASKI_BODY_TOO_LONG, AURASKI_ROOM,             AURASKI_NOTHING};
    for (int i = 0; i < refusals(scheme, 7); i++)
        most = greater(most, take(name, &calls[i], answers[i]));
    return most;
}

static size_t take_refused_opens(const Way *way, const Scheme *scheme)
{
    Call short_run = way->open(scheme, 16, scheme->block - 1, 32);
    size_t most = take(way->open_name, &short_run, AURASKI_TOO_SHORT);
    return greater(most, take_refused(way->open_name, way->open, scheme, scheme->block));
}

static size_t take_scheme(const Way *way, const Scheme *scheme)
{
    Lengths lengths[RECORDS];
    size_t sealing[RECORDS], opening[RECORDS], most = 0;
    lengths_of(scheme, lengths);
    for (int i = 0; i < RECORDS; i++) {
        take_record(way, scheme, &lengths[i], &sealing[i], &opening[i]);
        most = greater(most, greater(sealing[i], opening[i]));
    }
    for (int i = 1; i < RECORDS; i++) {
        if (sealing[i] != sealing[0] || opening[i] != opening[0]) {
            printf("stack: %s and %s, scheme %u: not the same for a body of %zu bytes as for the shortest\n", way->seal_name,
                   way->open_name, (unsigned)scheme->scheme, lengths[i].body);
            failures++;
        }
    }
    size_t refused_seals = take_refused(way->seal_name, way->seal, scheme, 0), refused_opens = take_refused_opens(way, scheme);
    print_row(way->seal_name, scheme->scheme, sealing, refused_seals);
    print_row(way->open_name, scheme->scheme, opening, refused_opens);
    return greater(most, greater(refused_seals, refused_opens));
}

/* ---- rounds ---- */

static Call rounds_call(uint32_t scheme, size_t header_len, size_t body_len)
{
    Call call = {(void (*)(void))auraski_rounds, {scheme, header_len, body_len, at(&rounds)}};
    return call;
}

static size_t take_refused_rounds(const Scheme *scheme)
{
    const Call calls[4] = {rounds_call(SCHEMES + 1, 16, 16), rounds_call(scheme->scheme, scheme->header + 1, 16),
                           rounds_call(scheme->scheme, 16, scheme->body + 1), rounds_call(scheme->scheme, 0, 0)};
    const uint32_t answers[4] = {AURASKI_UNKNOWN, AURASKI_HEADER_TOO_LONG, AURASKI_BODY_TOO_LONG, AURASKI_NOTHING};
    size_t most = 0;
    for (int i = 0; i < refusals(scheme, 4); i++)
        most = greater(most, take("auraski_rounds", &calls[i], answers[i]));
    return most;
}

/* Of the lengths of the records above. The call gets lengths and no record: only the bound is held. */
static size_t take_rounds(const Scheme *scheme)
{
    Lengths lengths[RECORDS];
    size_t depths[RECORDS], refused = take_refused_rounds(scheme), most = refused;
    lengths_of(scheme, lengths);
    for (int i = 0; i < RECORDS; i++) {
        Call call = rounds_call(scheme->scheme, lengths[i].header, lengths[i].body);
        depths[i] = take("auraski_rounds", &call, AURASKI_DONE);
        most = greater(most, depths[i]);
    }
    print_row("auraski_rounds", scheme->scheme, depths, refused);
    return most;
}

size_t take_records(void)
{
    size_t most = 0;
    puts("| entry point             | scheme |     shortest |   4 blocks | longest record | refused |");
    puts("|:------------------------|-------:|-------------:|-----------:|---------------:|--------:|");
    for (int i = 0; i < SCHEMES; i++) {
        for (int way = 0; way < 2; way++)
            most = greater(most, take_scheme(&WAYS[way], &schemes[i]));
        most = greater(most, take_rounds(&schemes[i]));
    }
    return most;
}
