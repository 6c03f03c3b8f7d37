/* What document 01 ("What a caller is told", with the refusals of request C-11, the limits of C-12, the schemes of C-14 and the prepared keys of
 * C-16) says of a call of seal or open, and what C-13 says of their rounds, worked out from scheme and sizes alone. */
#ifndef FUZZ_TABLE_H
#define FUZZ_TABLE_H

#include "guarded.h"

/* They are numbered from 1. A key has the same size under each. */
enum { SCHEMES = 7, KEY_SIZE = 16 };

struct scheme {
    uint32_t cipher;
    size_t block, nonce, header_limit, body_limit;
    uint32_t head, body, last; /* the rounds of a header block, of a body block that is not the last, and of that */
    int takes_nothing;         /* whether header and body may both be empty */
};

/* NULL if there is no such scheme. */
const struct scheme *scheme_of(uint32_t number);

/* Whether two schemes make the same run of a body of so many bytes, and open it alike: Umbreon and Jolteon do, up to one block. */
int same_run(uint32_t a, uint32_t b, size_t body);

struct field {
    size_t size;
    uint8_t bytes[LONGEST];
};

/* What seal or open is given, but for the room. The text is the body or the sealed run. */
struct record {
    uint32_t scheme;
    struct field key, nonce, header, text;
};

/* The number that is due, with a room of so many bytes. `key_fits` is whether the key has its size, or a prepared key is admitted. */
uint32_t due_of_seal(const struct record *r, int key_fits, size_t room);
uint32_t due_of_open(const struct record *r, int key_fits, size_t room, int authentic);
uint32_t due_of_rounds(uint32_t scheme, size_t header, size_t body);
uint32_t due_of_prepare(uint32_t cipher, size_t key);

/* The rounds that are due with number 0. */
uint32_t rounds_of(const struct scheme *scheme, size_t header, size_t body);

#endif
