/* Umbreon and Jolteon once more, over the library's block calls, with one thing wrong, as in wrong.c. What is worked with has its name from
 * figure 9 of the paper on the Eevee modes. Seal and open are wrong alike:
 *
 *  45  the tag stands before the ciphertext
 *  46  Delta is not collected before the last block
 *  47  the last T_A, or Jolteon's last C_i, is not added to Delta
 *  48  a header's blocks are numbered from 1 on
 *  49  a body's blocks are numbered from 1 on
 *  50  the last header block's number does not tell of an empty body
 *  51  a header block's number stands in the last bits of its tweak
 *  52  a body block's tweak does not end in 1
 *  53  a number has its low byte first
 *  54  the halves of the last block are changed over
 *  55  an empty header is worked as a block of 80 and zeros
 *  56  the last block is not added to its half
 *  57  Umbreon and Jolteon are changed over
 *
 * or the open alone is:
 *
 *  58  the padding is not judged
 *  59  the bytes of the last block are not judged
 *  60  of the run of an empty body only the first byte is judged
 *
 * or what is told of an empty header over an empty body:
 *
 *  61  every empty body is refused with 10
 *  62  every empty header is refused with 10
 *  63  a short room is told after 10
 *  64  the open is judged, and refused with 6
 *  65  a run shorter than a block is refused with 10
 *  66  the room is cleared with 10
 *  67  the schemes that seal it refuse it too
 *
 * or a limit:
 *
 *  68  a header may be as long as a body
 *  69  a body may be as long as a header, and no longer
 *
 * or the rounds of lengths:
 *
 *  70  Jolteon's blocks are counted as Umbreon's
 *  71  a block is counted where header and body are both empty
 */
#include "call.h"

#include <stdlib.h>
#include <string.h>

static void add(uint8_t to[16], const uint8_t *from, size_t size)
{
    for (size_t i = 0; i < size; i++)
        to[i] ^= from[i];
}

static void pad(const uint8_t *part, size_t size, size_t block, uint8_t padded[16])
{
    memset(padded, 0, 16);
    memcpy(padded, part, size);
    if (size < block)
        padded[size] = 0x80;
}

static uint32_t cipher_of(const struct call *c)
{
    return block_of(c) == 8 ? AURASKI_64_192 : AURASKI_128_256;
}

static void make_tweak(const struct call *c, unsigned end, uint8_t tweak[16])
{
    size_t n = block_of(c);
    memset(tweak, 0, 16);
    memcpy(tweak, c->nonce, n - 2);
    tweak[n - 2] = (uint8_t)(is_wrong(53) ? end : end >> 8);
    tweak[n - 1] = (uint8_t)(is_wrong(53) ? end >> 8 : end);
}

static int is_umbreon(const struct call *c)
{
    return (c->scheme == 4 || c->scheme == 6) != is_wrong(57);
}

/* Both halves of a block, under a tweak that ends so. */
static void work(const struct call *c, unsigned end, const uint8_t block[16], uint8_t half0[16], uint8_t half1[16])
{
    uint8_t tweak[16];
    make_tweak(c, end, tweak);
    if (auraski_fork(cipher_of(c), c->key, tweak, block, AURASKI_BOTH, half0, half1) != AURASKI_DONE)
        abort();
}

/* The same back from a half: the block and the other half. */
static void work_back(const struct call *c, unsigned end, const uint8_t *half, uint32_t from, uint8_t block[16], uint8_t other[16])
{
    uint8_t tweak[16], whole[16] = {0};
    make_tweak(c, end, tweak);
    memcpy(whole, half, block_of(c));
    if (auraski_unfork(cipher_of(c), c->key, tweak, whole, from, AURASKI_BOTH, block, other) != AURASKI_DONE)
        abort();
}

static unsigned body_end(unsigned number)
{
    return number << 1 | !is_wrong(52);
}

static void header_block(const struct call *c, unsigned number, const uint8_t *block, size_t size, uint8_t sum[16])
{
    uint8_t padded[16], half0[16], half1[16];
    pad(block, size, block_of(c), padded);
    work(c, is_wrong(51) ? number : number << 2, padded, half0, half1);
    add(sum, half0, 16);
}

/* T_A. */
static void take_header(const struct call *c, uint8_t sum[16])
{
    size_t n = block_of(c), left = c->header_len;
    const uint8_t *at = c->header;
    memset(sum, 0, 16);
    if (left == 0 && !is_wrong(55))
        return;
    for (unsigned number = is_wrong(48) ? 1 : 5; left > n; number++, at += n, left -= n)
        header_block(c, number, at, n, sum);
    header_block(c, 2 * (left == n) + (body_of(c) == 0 && !is_wrong(50)), at, left, sum);
}

/* A block before the last one, sealed or opened. `sum` is T_A, or of Jolteon the C_i before. */
static void front_block(const struct call *c, unsigned number, const uint8_t *in, uint8_t *out, uint8_t sum[16], uint8_t delta[16])
{
    size_t n = block_of(c), masked = is_umbreon(c) ? n : 0;
    uint8_t block[16] = {0}, half0[16] = {0}, half1[16];
    if (c->opens) {
        memcpy(half0, in, n);
        work_back(c, body_end(number), half0, 0, block, half1);
        add(block, sum, masked);
        memcpy(out, block, n);
    } else {
        memcpy(block, in, n);
        add(block, sum, masked);
        work(c, body_end(number), block, half0, half1);
        add(block, sum, masked);
        memcpy(out, half0, n);
    }
    add(delta, sum, n);
    add(delta, block, n - masked);
    memcpy(sum, is_umbreon(c) ? half1 : half0, 16);
}

/* The blocks before the last one, and what is added to that, of which `sum` is T_A before. */
static void take_front(const struct call *c, const uint8_t *in, size_t size, uint8_t *out, uint8_t sum[16])
{
    size_t n = block_of(c);
    uint8_t delta[16] = {0};
    unsigned number = is_wrong(49) ? 1 : 2;
    for (size_t at = 0; at < size; at += n, number++)
        front_block(c, number, in + at, out + at, sum, delta);
    if (is_wrong(46))
        memset(delta, 0, 16);
    if (is_wrong(47))
        memset(sum, 0, 16);
    add(sum, delta, n);
}

/* The last block, of so many bytes, and the tag. */
static void seal_last(const struct call *c, const uint8_t *last, size_t size, const uint8_t added[16], uint8_t *sealed, uint8_t *tag)
{
    size_t n = block_of(c);
    uint8_t padded[16], block[16], halves[2][16];
    int tag_half = is_wrong(54);
    pad(last, size, n, padded);
    memcpy(block, padded, 16);
    add(block, added, n);
    work(c, body_end(size == n), block, halves[0], halves[1]);
    memcpy(tag, halves[tag_half], n);
    memcpy(sealed, halves[!tag_half], size);
    add(sealed, padded, is_wrong(56) ? 0 : size);
}

/* Whether the run is authentic. */
static int open_last(const struct call *c, const uint8_t *sealed, size_t size, const uint8_t added[16], const uint8_t *tag, uint8_t *last)
{
    size_t n = block_of(c);
    uint8_t block[16], other[16], padded[16];
    work_back(c, body_end(size == n), tag, is_wrong(54), block, other);
    add(block, added, n);
    memcpy(last, block, size);
    pad(block, size, n, padded);
    add(other, block, is_wrong(56) ? 0 : size);
    return (is_wrong(58) || memcmp(block, padded, n) == 0) && (is_wrong(59) || memcmp(other, sealed, size) == 0);
}

static void eevee_seal(const struct call *c)
{
    size_t n = block_of(c), body = c->text_len, front = body == 0 ? 0 : (body - 1) / n * n;
    uint8_t sum[16], *tag = c->room + (is_wrong(45) ? 0 : body), *out = c->room + (is_wrong(45) ? n : 0);
    take_header(c, sum);
    if (body == 0) {
        memcpy(c->room, sum, n);
        return;
    }
    take_front(c, c->text, front, out, sum);
    seal_last(c, c->text + front, body - front, sum, out + front, tag);
}

/* Whether the run is authentic. */
static int eevee_open(const struct call *c)
{
    size_t n = block_of(c), body = body_of(c), front = body == 0 ? 0 : (body - 1) / n * n;
    const uint8_t *tag = c->text + (is_wrong(45) ? 0 : body), *in = c->text + (is_wrong(45) ? n : 0);
    uint8_t sum[16];
    take_header(c, sum);
    if (body == 0)
        return memcmp(c->text, sum, is_wrong(60) ? 1 : n) == 0;
    take_front(c, in, front, c->room, sum);
    return open_last(c, in + front, body - front, sum, tag, c->room + front);
}

uint32_t eevee_call(const struct call *c)
{
    if (!c->opens) {
        eevee_seal(c);
        *c->length = body_of(c) + block_of(c);
        return 0;
    }
    if (eevee_open(c)) {
        *c->length = body_of(c);
        return 0;
    }
    memset(c->room, 0, body_of(c));
    *c->length = 0;
    return 6;
}

uint32_t wrong_eevee_number(const struct call *c, uint32_t number)
{
    const struct scheme *scheme = scheme_of(c->scheme);
    int is_taken = number == 0 || number == 6;
    if (!is_eevee(c))
        return is_wrong(67) && is_taken && c->header_len + body_of(c) == 0 ? 10 : number;
    if (is_wrong(61) && is_taken && body_of(c) == 0)
        return 10;
    if (is_wrong(62) && is_taken && c->header_len == 0)
        return 10;
    if (is_wrong(63) && number == 5 && c->header_len + body_of(c) == 0)
        return 10;
    if (is_wrong(64) && number == 10 && c->opens)
        return 6;
    if (is_wrong(65) && number == 4 && c->header_len == 0)
        return 10;
    if (is_wrong(68) && number == 3 && c->header_len <= scheme->body)
        return c->opens ? 6 : 0;
    if (is_wrong(69) && is_taken && body_of(c) > scheme->header)
        return 8;
    return number;
}

uint32_t wrong_eevee_rounds(const struct call *c, uint32_t number, uint32_t *rounds)
{
    size_t n = block_of(c);
    if (is_wrong(70) && number == 0 && !is_umbreon(c) && c->text_len > 0)
        *rounds += (uint32_t)((c->text_len - 1) / n) * (n == 8 ? 23 : 27);
    if (!is_wrong(71) || number != 10)
        return number;
    *rounds = n == 8 ? 40 : 48;
    return 0;
}
