/* The library with one thing wrong, to see that the known answers tell. It is the one that the environment's WRONG names:
 *
 *   1  the length is not written with a refusal
 *   2  the room is judged before key and nonce
 *   3  a room of exactly the output's length is refused
 *   4  the byte behind the output is cleared
 *   5  one byte less is cleared with 6
 *   6  the limit of the header is a byte lower
 *   7  the limit of the body is a byte higher
 *   8  a run shorter than a block is told before a header that is too long
 *   9  of the scheme's number only the low byte counts
 *  10  a header's last byte of 80 is taken for padding, as in the desk's accident
 *  11  no header is the same as a block of 80 and zeros
 *  12  half 1 is given, asked for or not
 *  13  a refused block call leaves its result blocks as they are
 *  14  the halves are changed over
 *  15  the input comes in place of the other half
 *  16  a byte is written behind the room
 *  17  a wrong length of the nonce is told as one of the key
 *  18  a body that is too long is told as such a header
 *  19  the nonce's length is judged before the key's
 *  20  the body's length is judged before the header's
 *  21  the room is cleared with 7 and 8
 *  22  scheme 3 has the limit of scheme 2
 *
 * or, with the rounds of lengths alone wrong,
 *
 *  23  the block of an empty header and an empty body is not counted
 *  24  scheme 1's blocks are counted as those of 128-256
 *  25  a short last block is not counted
 *  26  half 1 is not counted where both halves are needed
 *  27  the rounds are not written with a refusal
 *  28  a refusal tells rounds
 *  29  the body's length is judged before the header's
 *  30  the limit of the body is a byte lower
 *  31  of a length only the low 16 bits count
 *  32  a length is judged before the scheme
 *
 * or one of prepared.c or eevee.c; and nothing with 0. Schemes 4 to 7 are worked by eevee.c every time, so that with 0 it is seen to be right. */
#include "call.h"

#include <stdlib.h>
#include <string.h>

/* As the top of the known answers tells. */
enum { LONGEST_ROOM = 1048596 };

int is_wrong(int number)
{
    static int wrong = -1;
    if (wrong < 0) {
        const char *named = getenv("WRONG");
        wrong = named != NULL ? atoi(named) : 0;
    }
    return wrong == number;
}

static size_t longest_text_of(const struct call *c)
{
    return scheme_of(c->scheme)->body + (c->opens ? block_of(c) : 0);
}

static size_t output_of(const struct call *c)
{
    if (!c->opens)
        return c->text_len + block_of(c);
    return c->text_len < block_of(c) ? 0 : c->text_len - block_of(c);
}

static uint32_t right_call(const struct call *c)
{
    return (c->opens ? auraski_open : auraski_seal)(c->scheme, c->key, c->key_len, c->nonce, c->nonce_len, c->header, c->header_len,
                                                    c->text, c->text_len, c->room, c->room_len, c->length);
}

/* The number that a wrong check gives where another is right. */
static uint32_t wrong_check(const struct call *c, uint32_t number)
{
    int short_run = c->opens && c->text_len < block_of(c);
    if (is_wrong(2) && (number == 2 || number == 7) && c->room_len < output_of(c))
        return 5;
    if (is_wrong(3) && (number == 0 || number == 6) && c->room_len == output_of(c))
        return 5;
    if (is_wrong(6) && (number == 0 || number == 6) && c->header_len == scheme_of(c->scheme)->header)
        return 3;
    if (is_wrong(7) && number == 8 && c->text_len == longest_text_of(c) + 1)
        return c->opens ? 6 : 0;
    if (is_wrong(8) && number == 3 && short_run)
        return 4;
    return number;
}

/* The same where one length is told for another. */
static uint32_t wrong_length(const struct call *c, uint32_t number)
{
    if (is_wrong(17) && number == 7)
        return 2;
    if (is_wrong(18) && number == 8)
        return 3;
    if (is_wrong(19) && number == 2 && c->nonce_len != scheme_of(c->scheme)->nonce)
        return 7;
    if (is_wrong(20) && number == 3 && c->text_len > longest_text_of(c))
        return 8;
    return number;
}

/* The same under a limit that is another scheme's. */
static uint32_t wrong_limit(const struct call *c, uint32_t number)
{
    const struct scheme *other = scheme_of(2);
    if (!is_wrong(22) || c->scheme != 3 || (number != 0 && number != 6))
        return number;
    if (c->header_len > other->header)
        return 3;
    return body_of(c) > other->body ? 8 : number;
}

/* What is wrong about the arguments. */
static void change(struct call *c)
{
    static const uint8_t padded[16] = {0x80};
    if (is_wrong(9))
        c->scheme &= 255;
    if (is_wrong(10) && c->header_len > 0 && c->header[c->header_len - 1] == 0x80)
        c->header_len--;
    if (is_wrong(11) && c->header_len == 0) {
        c->header = padded;
        c->header_len = block_of(c);
    }
}

static uint32_t sealing(struct call c)
{
    static uint8_t kept[1 + LONGEST_ROOM];
    change(&c);
    size_t untold = *c.length, output = output_of(&c);
    memcpy(kept + 1, c.room, c.room_len);
    uint32_t number = right_call(&c);
    uint32_t answer = wrong_eevee_number(&c, wrong_limit(&c, wrong_length(&c, wrong_check(&c, number))));
    if (answer != number) {
        memcpy(c.room, kept + 1, c.room_len);
        *c.length = 0;
    } else if (is_eevee(&c) && (number == 0 || number == 6)) {
        answer = number = eevee_call(&c);
    }
    if (is_wrong(1) && number != 0)
        *c.length = untold;
    if (is_wrong(4) && number == 0 && output < c.room_len)
        c.room[output] = 0;
    if (is_wrong(5) && number == 6 && output > 0)
        c.room[output - 1] = kept[output];
    if (is_wrong(16) && number == 0)
        c.room[c.room_len] = 0;
    if ((is_wrong(21) && (number == 7 || number == 8)) || (is_wrong(66) && number == 10))
        memset(c.room, 0, c.room_len);
    return answer;
}

uint32_t wrong_seal(uint32_t scheme, const uint8_t *key, size_t key_len, const uint8_t *nonce, size_t nonce_len,
                    const uint8_t *header, size_t header_len, const uint8_t *body, size_t body_len, uint8_t *room, size_t room_len,
                    size_t *length)
{
    struct call c = {0,       scheme,    key,        nonce,    header, body, key_len,
                     nonce_len, header_len, body_len, room,   room_len, length};
    return sealing(c);
}

uint32_t wrong_open(uint32_t scheme, const uint8_t *key, size_t key_len, const uint8_t *nonce, size_t nonce_len,
                    const uint8_t *header, size_t header_len, const uint8_t *sealed, size_t sealed_len, uint8_t *room,
                    size_t room_len, size_t *length)
{
    struct call c = {1,       scheme,    key,        nonce,    header, sealed, key_len,
                     nonce_len, header_len, sealed_len, room,   room_len, length};
    return sealing(c);
}

/* What is wrong with the two result blocks of a block call. */
static void change_results(uint32_t number, uint8_t first[16], uint8_t second[16], const uint8_t before[32])
{
    uint8_t kept[16];
    if (is_wrong(13) && number != 0) {
        memcpy(first, before, 16);
        memcpy(second, before + 16, 16);
    }
    if (is_wrong(14)) {
        memcpy(kept, first, 16);
        memcpy(first, second, 16);
        memcpy(second, kept, 16);
    }
}

uint32_t wrong_fork(uint32_t cipher, const uint8_t key[16], const uint8_t tweak[16], const uint8_t block[16], uint32_t want,
                    uint8_t half0[16], uint8_t half1[16])
{
    uint8_t before[32], all[16];
    memcpy(before, half0, 16);
    memcpy(before + 16, half1, 16);
    uint32_t number = auraski_fork(cipher, key, tweak, block, want, half0, half1);
    if (is_wrong(12) && number == 0)
        number = auraski_fork(cipher, key, tweak, block, AURASKI_BOTH, all, half1);
    change_results(number, half0, half1, before);
    return number;
}

uint32_t wrong_unfork(uint32_t cipher, const uint8_t key[16], const uint8_t tweak[16], const uint8_t block[16], uint32_t from,
                      uint32_t want, uint8_t input[16], uint8_t other[16])
{
    uint8_t before[32];
    memcpy(before, input, 16);
    memcpy(before + 16, other, 16);
    uint32_t number = auraski_unfork(cipher, key, tweak, block, from, want, input, other);
    if (is_wrong(15) && number == 0 && want == AURASKI_BOTH)
        memcpy(other, input, 16);
    change_results(number, input, other, before);
    return number;
}

/* ---- the rounds of lengths ---- */

/* What is wrong with the number. */
static uint32_t wrong_answer(const struct call *c, uint32_t number)
{
    if (is_wrong(29) && number == 3 && c->text_len > scheme_of(c->scheme)->body)
        return 8;
    if (is_wrong(30) && number == 0 && c->text_len == scheme_of(c->scheme)->body)
        return 8;
    if (is_wrong(32) && number == 1 && c->header_len > 1048576)
        return 3;
    return number;
}

/* The rounds if a header block takes so many and a body block so many. */
static uint32_t rounds_at(const struct call *c, uint32_t header_block, uint32_t body_block)
{
    size_t block = block_of(c);
    uint32_t headers = (uint32_t)((c->header_len + block - 1) / block), bodies = (uint32_t)((c->text_len + block - 1) / block);
    return headers + bodies == 0 ? header_block : headers * header_block + bodies * body_block;
}

/* What is wrong with the rounds of lengths that are taken. */
static uint32_t wrong_count(const struct call *c, uint32_t rounds)
{
    uint32_t one = block_of(c) == 8 ? 40 : 48, both = block_of(c) == 8 ? 63 : 75;
    if (is_wrong(23) && c->header_len == 0 && c->text_len == 0)
        return 0;
    if (is_wrong(24) && c->scheme == 1)
        return rounds_at(c, 48, 75);
    if (is_wrong(25) && c->header_len % block_of(c) > 0)
        rounds -= one;
    if (is_wrong(25) && c->text_len % block_of(c) > 0)
        rounds -= both;
    return is_wrong(26) ? rounds_at(c, one, one) : rounds;
}

uint32_t wrong_rounds(uint32_t scheme, size_t header_len, size_t body_len, uint32_t *rounds)
{
    struct call c = {.scheme = scheme, .header_len = header_len, .text_len = body_len};
    uint32_t untold = *rounds;
    if (is_wrong(31)) {
        c.header_len &= 65535;
        c.text_len &= 65535;
    }
    uint32_t number = auraski_rounds(scheme, c.header_len, c.text_len, rounds);
    uint32_t answer = wrong_answer(&c, number);
    if (number == 0)
        *rounds = answer == 0 ? wrong_count(&c, *rounds) : 0;
    if (is_eevee(&c))
        answer = wrong_eevee_rounds(&c, answer, rounds);
    if (is_wrong(27) && number != 0)
        *rounds = untold;
    if (is_wrong(28) && (number == 3 || number == 8))
        *rounds = rounds_at(&c, 48, 75);
    return answer;
}
