#include "table.h"

const struct scheme *scheme_of(uint32_t number)
{
    static const struct scheme schemes[SCHEMES] = {
        {1, 8, 6, 65528, 65528, 40, 63, 63, 1},       {2, 16, 14, 131056, 131056, 48, 75, 75, 1},
        {2, 16, 15, 1048576, 1048576, 48, 75, 75, 1}, {1, 8, 6, 131040, 262136, 40, 63, 63, 0},
        {1, 8, 6, 131040, 262136, 40, 40, 63, 0},     {2, 16, 14, 262080, 524272, 48, 75, 75, 0},
        {2, 16, 14, 262080, 524272, 48, 48, 75, 0},
    };
    return number >= 1 && number <= SCHEMES ? &schemes[number - 1] : NULL;
}

int same_run(uint32_t a, uint32_t b, size_t body)
{
    const struct scheme *one = scheme_of(a), *other = scheme_of(b);
    if (a == b || one == NULL || other == NULL) {
        return a == b;
    }
    return !one->takes_nothing && !other->takes_nothing && one->cipher == other->cipher && body <= one->block;
}

/* By the checks that seal and open begin with: the number that is due, or 0. */
static uint32_t due_of_both(const struct record *r, int key_fits, const struct scheme *scheme)
{
    if (scheme == NULL) {
        return 1;
    }
    if (!key_fits) {
        return 2;
    }
    if (r->nonce.size != scheme->nonce) {
        return 7;
    }
    return r->header.size > scheme->header_limit ? 3 : 0;
}

static int is_refused_nothing(const struct scheme *scheme, size_t header, size_t body)
{
    return !scheme->takes_nothing && header == 0 && body == 0;
}

uint32_t due_of_seal(const struct record *r, int key_fits, size_t room)
{
    const struct scheme *scheme = scheme_of(r->scheme);
    uint32_t due = due_of_both(r, key_fits, scheme);
    if (due != 0) {
        return due;
    }
    if (r->text.size > scheme->body_limit) {
        return 8;
    }
    if (room < r->text.size + scheme->block) {
        return 5;
    }
    return is_refused_nothing(scheme, r->header.size, r->text.size) ? 10 : 0;
}

uint32_t due_of_open(const struct record *r, int key_fits, size_t room, int authentic)
{
    const struct scheme *scheme = scheme_of(r->scheme);
    uint32_t due = due_of_both(r, key_fits, scheme);
    if (due != 0) {
        return due;
    }
    /* A run shorter than a block has no body that could be too long. */
    if (r->text.size > scheme->body_limit + scheme->block) {
        return 8;
    }
    if (r->text.size < scheme->block) {
        return 4;
    }
    if (room < r->text.size - scheme->block) {
        return 5;
    }
    if (is_refused_nothing(scheme, r->header.size, r->text.size - scheme->block)) {
        return 10;
    }
    return authentic ? 0 : 6;
}

uint32_t due_of_rounds(uint32_t number, size_t header, size_t body)
{
    const struct scheme *scheme = scheme_of(number);
    if (scheme == NULL) {
        return 1;
    }
    if (header > scheme->header_limit) {
        return 3;
    }
    if (body > scheme->body_limit) {
        return 8;
    }
    return is_refused_nothing(scheme, header, body) ? 10 : 0;
}

uint32_t due_of_prepare(uint32_t cipher, size_t key)
{
    if (cipher != 1 && cipher != 2) {
        return 1;
    }
    return key == KEY_SIZE ? 0 : 2;
}

/* Gone over one by one, so that a short last block needs no thought. */
static uint32_t blocks_of(size_t length, size_t block)
{
    uint32_t count = 0;
    for (size_t at = 0; at < length; at += block) {
        count++;
    }
    return count;
}

uint32_t rounds_of(const struct scheme *scheme, size_t header, size_t body)
{
    uint32_t of_header = blocks_of(header, scheme->block) * scheme->head;
    if (body == 0) {
        return header == 0 ? scheme->head : of_header;
    }
    return of_header + (blocks_of(body, scheme->block) - 1) * scheme->body + scheme->last;
}
