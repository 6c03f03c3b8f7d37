/* A call of seal or open, which have one shape, and what its scheme says. */
#ifndef KNOWN_WRONG_CALL_H
#define KNOWN_WRONG_CALL_H

#include "wrong.h"

struct call {
    int opens;
    uint32_t scheme;
    const uint8_t *key, *nonce, *header, *text;
    size_t key_len, nonce_len, header_len, text_len;
    uint8_t *room;
    size_t room_len, *length;
};

/* In bytes: the last two are the longest header and the longest body. */
struct scheme {
    size_t block, nonce, header, body;
};

/* Of an unknown number, scheme 2's. */
static inline const struct scheme *scheme_of(uint32_t number)
{
    static const struct scheme schemes[7] = {
        {8, 6, 65528, 65528},   {16, 14, 131056, 131056}, {16, 15, 1048576, 1048576}, {8, 6, 131040, 262136},
        {8, 6, 131040, 262136}, {16, 14, 262080, 524272}, {16, 14, 262080, 524272},
    };
    return &schemes[number >= 1 && number <= 7 ? number - 1 : 1];
}

static inline size_t block_of(const struct call *c)
{
    return scheme_of(c->scheme)->block;
}

static inline int is_eevee(const struct call *c)
{
    return c->scheme >= 4 && c->scheme <= 7;
}

/* A body's length, of a run that has at least a block. */
static inline size_t body_of(const struct call *c)
{
    return c->text_len - (c->opens ? block_of(c) : 0);
}

/* eevee.c. The number that is told of the lengths in place of the right one; and under schemes 4 to 7 a call of which the lengths are right,
 * and what is told of the rounds of lengths in place of the right number and *rounds. */
uint32_t wrong_eevee_number(const struct call *c, uint32_t number);
uint32_t eevee_call(const struct call *c);
uint32_t wrong_eevee_rounds(const struct call *c, uint32_t number, uint32_t *rounds);

#endif
