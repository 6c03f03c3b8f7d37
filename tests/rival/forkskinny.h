/* ForkSkinny-64-192 and -128-256 in plain portable C. A cell is a byte, also where it holds a nibble, and goes through a table. The words
 * of a tweakey are permuted and stepped round by round, and the round keys kept for the rounds there and back. It stands in a header so
 * that the compiler sees it whole. */
#ifndef RIVAL_FORKSKINNY_H
#define RIVAL_FORKSKINNY_H

#include "tables.h"

#include <stddef.h>
#include <stdint.h>
#include <string.h>

enum { MOST_ROUNDS = 75 };

typedef struct {
    size_t block; /* bytes of a block, and of a tweak */
    int init;     /* rounds before the fork */
    int branch;   /* rounds of either branch */
    const uint8_t *sub, *unsub, *constant;
} Cipher;

static const Cipher CIPHERS[2] = {
    {8, 17, 23, SUB4, UNSUB4, BRANCH4},
    {16, 21, 27, SUB8, UNSUB8, BRANCH8},
};

static void load_cells(const Cipher *cipher, const uint8_t *bytes, uint8_t cells[16])
{
    if (cipher->block == 16) {
        memcpy(cells, bytes, 16);
        return;
    }
    for (int i = 0; i < 8; i++) {
        cells[2 * i] = bytes[i] >> 4;
        cells[2 * i + 1] = bytes[i] & 15;
    }
}

static void store_cells(const Cipher *cipher, const uint8_t cells[16], uint8_t *bytes)
{
    if (cipher->block == 16) {
        memcpy(bytes, cells, 16);
        return;
    }
    for (int i = 0; i < 8; i++)
        bytes[i] = (uint8_t)(cells[2 * i] << 4 | cells[2 * i + 1]);
}

/* ---- the tweakey ---- */

typedef uint8_t RoundKeys[MOST_ROUNDS][8];

/* The old top rows are the new bottom rows. */
static void permute(uint8_t word[16])
{
    uint8_t top[8];
    memcpy(top, word, 8);
    for (int i = 0; i < 8; i++)
        word[i] = word[PERMUTED[i]];
    memcpy(word + 8, top, 8);
}

static void permute_and_step(uint8_t word[16], const uint8_t *step)
{
    uint8_t top[8];
    memcpy(top, word, 8);
    for (int i = 0; i < 8; i++)
        word[i] = step[word[PERMUTED[i]]];
    memcpy(word + 8, top, 8);
}

/* The constants of the top rows go in with the key; the 2 of row 2 is left to the round. Gives the round's number. */
static int add_constants(uint8_t key[8], int before)
{
    int number = (before << 1 & 127) | ((before >> 6 ^ before >> 5 ^ 1) & 1);
    key[0] ^= number & 15;
    key[2] ^= 2;
    key[4] ^= (uint8_t)(number >> 4);
    return number;
}

static void schedule_64_192(const uint8_t *key, const uint8_t *tweak, int rounds, RoundKeys keys)
{
    uint8_t one[16], two[16], three[16];
    int number = 0;
    load_cells(&CIPHERS[0], key, one);
    load_cells(&CIPHERS[0], key + 8, two);
    load_cells(&CIPHERS[0], tweak, three);
    for (int r = 0; r < rounds; r++) {
        for (int i = 0; i < 8; i++)
            keys[r][i] = one[i] ^ two[i] ^ three[i];
        number = add_constants(keys[r], number);
        permute(one);
        permute_and_step(two, WORD2_4);
        permute_and_step(three, WORD3_4);
    }
}

static void schedule_128_256(const uint8_t *key, const uint8_t *tweak, int rounds, RoundKeys keys)
{
    uint8_t one[16], two[16];
    int number = 0;
    memcpy(one, key, 16);
    memcpy(two, tweak, 16);
    for (int r = 0; r < rounds; r++) {
        for (int i = 0; i < 8; i++)
            keys[r][i] = one[i] ^ two[i];
        number = add_constants(keys[r], number);
        permute(one);
        permute_and_step(two, WORD2_8);
    }
}

static void schedule(const Cipher *cipher, const uint8_t *key, const uint8_t *tweak, int rounds, RoundKeys keys)
{
    if (cipher->block == 8)
        schedule_64_192(key, tweak, rounds, keys);
    else
        schedule_128_256(key, tweak, rounds, keys);
}

/* ---- the rounds ---- */

static void forward(const Cipher *cipher, RoundKeys keys, int from, int rounds, uint8_t s[16])
{
    const uint8_t *sub = cipher->sub;
    for (int r = from; r < from + rounds; r++) {
        uint8_t t[16];
        for (int i = 0; i < 16; i++)
            t[i] = sub[s[i]];
        for (int i = 0; i < 8; i++)
            t[i] ^= keys[r][i];
        t[8] ^= 2;
        for (int i = 0; i < 4; i++) { /* a column, its rows turned right by 0, 1, 2 and 3 */
            uint8_t a = t[i], b = t[4 + (i + 3) % 4], c = t[8 + (i + 2) % 4], d = t[12 + (i + 1) % 4];
            s[i] = a ^ c ^ d;
            s[4 + i] = a;
            s[8 + i] = b ^ c;
            s[12 + i] = a ^ c;
        }
    }
}

static void back(const Cipher *cipher, RoundKeys keys, int from, int rounds, uint8_t s[16])
{
    const uint8_t *unsub = cipher->unsub;
    for (int r = from + rounds - 1; r >= from; r--) {
        uint8_t t[16];
        for (int i = 0; i < 4; i++) {
            uint8_t a = s[i], b = s[4 + i], c = s[8 + i], d = s[12 + i];
            t[i] = b;
            t[4 + (i + 3) % 4] = b ^ c ^ d;
            t[8 + (i + 2) % 4] = b ^ d;
            t[12 + (i + 1) % 4] = a ^ d;
        }
        for (int i = 0; i < 8; i++)
            t[i] ^= keys[r][i];
        t[8] ^= 2;
        for (int i = 0; i < 16; i++)
            s[i] = unsub[t[i]];
    }
}

static void xor_into(uint8_t *to, const uint8_t *from, size_t length)
{
    for (size_t i = 0; i < length; i++)
        to[i] ^= from[i];
}

/* A branch from the forked state. */
static void branch(const Cipher *cipher, RoundKeys keys, const uint8_t forked[16], int half, uint8_t *out)
{
    uint8_t s[16];
    memcpy(s, forked, 16);
    if (half == 1)
        xor_into(s, cipher->constant, 16);
    forward(cipher, keys, cipher->init + half * cipher->branch, cipher->branch, s);
    store_cells(cipher, s, out);
}

/* A half that is not wanted has no place; so below. */
static void fork_block(const Cipher *cipher, const uint8_t *key, const uint8_t *tweak, const uint8_t *block, uint8_t *half0,
                       uint8_t *half1)
{
    RoundKeys keys;
    uint8_t s[16];
    schedule(cipher, key, tweak, cipher->init + (half1 ? 2 : 1) * cipher->branch, keys);
    load_cells(cipher, block, s);
    forward(cipher, keys, 0, cipher->init, s);
    if (half0)
        branch(cipher, keys, s, 0, half0);
    if (half1)
        branch(cipher, keys, s, 1, half1);
}

static void unfork_block(const Cipher *cipher, const uint8_t *key, const uint8_t *tweak, const uint8_t *block, int from,
                         uint8_t *input, uint8_t *other)
{
    RoundKeys keys;
    uint8_t s[16];
    schedule(cipher, key, tweak, cipher->init + (from == 1 || other ? 2 : 1) * cipher->branch, keys);
    load_cells(cipher, block, s);
    back(cipher, keys, cipher->init + from * cipher->branch, cipher->branch, s);
    if (from == 1)
        xor_into(s, cipher->constant, 16);
    if (other)
        branch(cipher, keys, s, 1 - from, other);
    if (input) {
        back(cipher, keys, 0, cipher->init, s);
        store_cells(cipher, s, input);
    }
}

#endif
