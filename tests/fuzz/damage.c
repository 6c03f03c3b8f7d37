#include "damage.h"

#include <string.h>

static void flip_bit(struct field *f, struct random *d)
{
    if (f->size > 0) {
        f->bytes[below(d, f->size)] ^= (uint8_t)(1u << below(d, 8));
    }
}

/* Shorter; or longer by what padding would add, or by random bytes. */
static void resize(struct field *f, size_t size, struct random *d)
{
    if (size > f->size) {
        uint8_t *added = f->bytes + f->size;
        size_t count = size - f->size;
        if (one_in(d, 2)) {
            memset(added, 0, count);
            added[0] = 0x80;
        } else {
            fill(d, added, count);
        }
    }
    f->size = size;
}

static void change_scheme(struct record *r, struct random *d)
{
    r->scheme = some_number(d, 1, SCHEMES);
    if (one_in(d, 2)) {
        resize(&r->nonce, fitting(r, d)->nonce, d);
    }
}

static void make_too_long(struct record *r, const struct scheme *scheme, struct random *d)
{
    if (one_in(d, 2)) {
        resize(&r->header, scheme->header_limit + 1, d);
    } else {
        resize(&r->text, scheme->body_limit + scheme->block + 1, d);
    }
}

/* A run of an empty body under an empty header. */
static void make_nothing(struct record *r, const struct scheme *scheme, struct random *d)
{
    resize(&r->header, 0, d);
    resize(&r->text, scheme->block, d);
}

void damage(struct record *r, struct random *d)
{
    struct field *some = some_field(r, d);
    const struct scheme *scheme = fitting(r, d);
    if (one_in(d, 200)) {
        make_vast(r, d);
        return;
    }
    if (past_limit(scheme->body_limit, d)) {
        make_too_long(r, scheme, d);
        return;
    }
    switch (below(d, 11)) {
    case 0:
        change_scheme(r, d);
        break;
    case 1:
        resize(some, below(d, some->size + 1), d);
        break;
    case 2:
        resize(some, some->size + 1 + below(d, 20), d);
        break;
    case 3:
        resize(&r->text, below(d, scheme->block), d);
        break;
    case 4:
        resize(&r->header, r->header.size + 1, d);
        break;
    case 5:
        resize(&r->text, scheme->block + below(d, 40), d);
        break;
    case 6:
        make_nothing(r, scheme, d);
        break;
    case 7:
    case 8:
        flip_bit(some, d);
        break;
    default:
        flip_bit(&r->text, d);
    }
}
