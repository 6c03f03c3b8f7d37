#include "records.h"

#include <string.h>

size_t held(const struct field *f)
{
    return f->size >= VAST ? f->size - VAST : f->size;
}

void make_vast(struct record *r, struct random *d)
{
    if (!is_vast(r)) {
        some_field(r, d)->size += VAST;
    }
}

int is_vast(const struct record *r)
{
    return r->key.size >= VAST || r->nonce.size >= VAST || r->header.size >= VAST || r->text.size >= VAST;
}

struct field *some_field(struct record *r, struct random *d)
{
    struct field *fields[] = {&r->key, &r->nonce, &r->header, &r->text};
    return fields[below(d, 4)];
}

const struct scheme *fitting(const struct record *r, struct random *d)
{
    const struct scheme *scheme = scheme_of(r->scheme);
    return scheme != NULL ? scheme : scheme_of(1 + (uint32_t)below(d, SCHEMES));
}

static size_t some_size(size_t right, struct random *d)
{
    switch (below(d, 60)) {
    case 0:
        return right - 1;
    case 1:
        return right + 1;
    case 2:
        return below(d, 300);
    default:
        return right;
    }
}

int past_limit(size_t limit, struct random *d)
{
    return one_in(d, limit / 1000);
}

/* Mostly short and about the edges of blocks, sometimes none, thousands or past the limit, rarely at the limit: the longer that is, the longer
 * a call takes, and the rarer it has to be, so that one scheme's limit does not take most of the time. */
static size_t some_length(size_t limit, size_t block, struct random *d)
{
    if (one_in(d, limit / 20)) {
        return limit;
    }
    if (past_limit(limit, d)) {
        return limit + 1 + (one_in(d, 2) ? 0 : below(d, 1000));
    }
    if (one_in(d, 200)) {
        return below(d, 6000);
    }
    if (one_in(d, 10)) {
        return 0;
    }
    return one_in(d, 2) ? below(d, 80) : block * (1 + below(d, 4)) - 1 + below(d, 3);
}

static void draw_field(struct field *f, size_t size, struct random *d)
{
    f->size = size;
    fill(d, f->bytes, size);
}

void draw_record(struct record *r, struct random *d)
{
    r->scheme = some_number(d, 1, SCHEMES);
    const struct scheme *scheme = fitting(r, d);
    draw_field(&r->key, some_size(KEY_SIZE, d), d);
    draw_field(&r->nonce, some_size(scheme->nonce, d), d);
    draw_field(&r->header, some_length(scheme->header_limit, scheme->block, d), d);
    draw_field(&r->text, some_length(scheme->body_limit, scheme->block, d), d);
    if (one_in(d, 500)) {
        make_vast(r, d);
    }
}

void draw_run(struct record *r, struct random *d)
{
    const struct scheme *scheme = fitting(r, d);
    size_t vast = r->text.size - held(&r->text);
    size_t body = some_length(scheme->body_limit, scheme->block, d);
    draw_field(&r->text, one_in(d, 4) ? below(d, scheme->block) : body + scheme->block, d);
    r->text.size += vast;
}

static void copy_field(struct field *to, const struct field *from)
{
    to->size = from->size;
    memcpy(to->bytes, from->bytes, held(from));
}

void copy_record(struct record *to, const struct record *from)
{
    to->scheme = from->scheme;
    copy_field(&to->key, &from->key);
    copy_field(&to->nonce, &from->nonce);
    copy_field(&to->header, &from->header);
    copy_field(&to->text, &from->text);
}

static int same_field(const struct field *a, const struct field *b)
{
    return a->size == b->size && memcmp(a->bytes, b->bytes, held(a)) == 0;
}

int opens_alike(const struct record *changed, const struct record *sealed)
{
    size_t body = sealed->text.size - scheme_of(sealed->scheme)->block;
    return same_run(changed->scheme, sealed->scheme, body) && same_field(&changed->key, &sealed->key) &&
           same_field(&changed->nonce, &sealed->nonce) && same_field(&changed->header, &sealed->header) &&
           same_field(&changed->text, &sealed->text);
}
