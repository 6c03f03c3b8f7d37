/* Block calls. A result that is not asked for is zeros, and so depends on nothing. */
#include "auraski.h"
#include "cases.h"
#include "prepared.h"
#include "secret.h"
#include "tally.h"

#include <string.h>

enum { BLOCK = 16 };

static const uint8_t zeros[BLOCK];
static uint8_t key[BLOCK], tweak[BLOCK], first[BLOCK], second[BLOCK];
static prepared_keys prepared;

/* By key and with a prepared key. */
static const struct way {
    enum entry fork, unfork;
} ways[2] = {{FORK, UNFORK}, {FORK_PREPARED, UNFORK_PREPARED}};

/* A block and its halves, of which the first bytes count and the others are zero. `prepared_for` is the cipher of the prepared key. */
struct forked {
    uint32_t cipher, prepared_for;
    size_t counting;
    uint8_t input[BLOCK], half[2][BLOCK];
};

/* Whether the bytes that count depend on a secret, and the others on none. */
static int as_secret(const uint8_t *result, size_t counting)
{
    return all_secret(result, counting) && none_secret(result + counting, BLOCK - counting);
}

static void begin(const uint8_t *block)
{
    make_secret(key, BLOCK);
    make_keys_secret(prepared);
    make_secret(block, BLOCK);
    tally_begin();
}

/* After a call: its results depend on what they should, and are public from now on. */
static void judge(enum entry entry, const struct forked *f, uint32_t number, uint32_t due, uint32_t want, const uint8_t *block)
{
    int silent = tally_end(entry, f->cipher, due);
    size_t counting = f->counting;
    hold(judges_key(entry, due) || none_secret(&number, sizeof number), "the number depends on a secret");
    size_t in_first = due == AURASKI_DONE && want != AURASKI_SECOND ? counting : 0;
    size_t in_second = due == AURASKI_DONE && want != AURASKI_FIRST ? counting : 0;
    hold(!silent || as_secret(first, in_first), "other bytes of the first result depend on a secret");
    hold(!silent || as_secret(second, in_second), "other bytes of the second result depend on a secret");
    make_public(key, BLOCK);
    make_keys_public(prepared);
    make_public(block, BLOCK);
    make_public(&number, sizeof number);
    make_public(first, BLOCK);
    make_public(second, BLOCK);
    hold(number == due, "another number");
}

static void hold_results(uint32_t want, const uint8_t *first_due, const uint8_t *second_due)
{
    hold(memcmp(first, want == AURASKI_SECOND ? zeros : first_due, BLOCK) == 0, "another first result");
    hold(memcmp(second, want == AURASKI_FIRST ? zeros : second_due, BLOCK) == 0, "another second result");
}

static void fork_block(enum entry entry, const struct forked *f, uint32_t want, uint32_t due)
{
    begin(f->input);
    uint32_t number = entry == FORK ? auraski_fork(f->cipher, key, tweak, f->input, want, first, second)
                                    : auraski_fork_prepared(f->cipher, prepared[f->prepared_for], tweak, f->input, want, first, second);
    judge(entry, f, number, due, want, f->input);
}

static void unfork_block(enum entry entry, const struct forked *f, uint32_t from, uint32_t want, uint32_t due)
{
    const uint8_t *block = f->half[from & 1];
    begin(block);
    uint32_t number = entry == UNFORK
                          ? auraski_unfork(f->cipher, key, tweak, block, from, want, first, second)
                          : auraski_unfork_prepared(f->cipher, prepared[f->prepared_for], tweak, block, from, want, first, second);
    judge(entry, f, number, due, want, block);
}

/* Every choice, and those that there are not. */
static void way_cases(const struct way *way, const struct forked *f)
{
    for (uint32_t want = AURASKI_FIRST; want <= AURASKI_BOTH; want++) {
        fork_block(way->fork, f, want, AURASKI_DONE);
        hold_results(want, f->half[0], f->half[1]);
    }
    for (uint32_t from = AURASKI_HALF_0; from <= AURASKI_HALF_1; from++) {
        for (uint32_t want = AURASKI_FIRST; want <= AURASKI_BOTH; want++) {
            unfork_block(way->unfork, f, from, want, AURASKI_DONE);
            hold_results(want, f->input, f->half[1 - from]);
        }
    }
    fork_block(way->fork, f, 3, AURASKI_UNKNOWN);
    unfork_block(way->unfork, f, 2, AURASKI_BOTH, AURASKI_UNKNOWN);
    unfork_block(way->unfork, f, AURASKI_HALF_1, 3, AURASKI_UNKNOWN);
}

/* A prepared key that is not admitted: that of a refusal, another cipher's, and one of which a byte is another. */
static void not_admitted_cases(struct forked f)
{
    const uint32_t right = f.prepared_for, others[] = {0, AURASKI_64_192 + AURASKI_128_256 - right};
    for (size_t i = 0; i < sizeof others / sizeof others[0]; i++) {
        f.prepared_for = others[i];
        fork_block(FORK_PREPARED, &f, AURASKI_BOTH, AURASKI_WRONG_KEY_LENGTH);
        unfork_block(UNFORK_PREPARED, &f, AURASKI_HALF_0, AURASKI_BOTH, AURASKI_WRONG_KEY_LENGTH);
    }
    f.prepared_for = right;
    prepared[right][AURASKI_PREPARED / 2] ^= 0x01;
    fork_block(FORK_PREPARED, &f, AURASKI_BOTH, AURASKI_WRONG_KEY_LENGTH);
    unfork_block(UNFORK_PREPARED, &f, AURASKI_HALF_0, AURASKI_BOTH, AURASKI_WRONG_KEY_LENGTH);
    prepared[right][AURASKI_PREPARED / 2] ^= 0x01;
}

/* Both halves first, to which all calls are held. */
static void cipher_cases(struct forked *f)
{
    fork_block(FORK, f, AURASKI_BOTH, AURASKI_DONE);
    memcpy(f->half[0], first, BLOCK);
    memcpy(f->half[1], second, BLOCK);
    way_cases(&ways[0], f);
    way_cases(&ways[1], f);
    not_admitted_cases(*f);
}

void block_cases(void)
{
    struct forked ciphers[] = {{AURASKI_64_192, AURASKI_64_192, 8, {0}, {{0}}}, {AURASKI_128_256, AURASKI_128_256, BLOCK, {0}, {{0}}}};
    const struct forked unknown = {0, AURASKI_128_256, BLOCK, {0}, {{0}}};
    for (size_t i = 0; i < BLOCK; i++) {
        key[i] = (uint8_t)(0x4f * i + 0x26);
        tweak[i] = (uint8_t)(0x2b * i + 0x8d);
    }
    prepare(key, prepared);
    for (size_t i = 0; i < sizeof ciphers / sizeof ciphers[0]; i++) {
        for (size_t j = 0; j < ciphers[i].counting; j++) {
            ciphers[i].input[j] = (uint8_t)(0x53 * j + 0xa4);
        }
        cipher_cases(&ciphers[i]);
    }
    for (size_t i = 0; i < sizeof ways / sizeof ways[0]; i++) {
        fork_block(ways[i].fork, &unknown, AURASKI_BOTH, AURASKI_UNKNOWN);
        unfork_block(ways[i].unfork, &unknown, AURASKI_HALF_0, AURASKI_BOTH, AURASKI_UNKNOWN);
    }
}
