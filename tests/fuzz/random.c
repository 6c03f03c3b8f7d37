#include "random.h"

#include <string.h>

/* SplitMix64: a counter, and a mixing of its bits. */
static uint64_t mixed(uint64_t x)
{
    x = (x ^ (x >> 30)) * 0xbf58476d1ce4e5b9u;
    x = (x ^ (x >> 27)) * 0x94d049bb133111ebu;
    return x ^ (x >> 31);
}

uint64_t random_next(struct random *r)
{
    r->state += 0x9e3779b97f4a7c15u;
    return mixed(r->state);
}

struct random random_of(uint64_t seed, uint64_t number)
{
    struct random of_seed = {seed};
    struct random of_case = {random_next(&of_seed) ^ mixed(number + 1)};
    return of_case;
}

size_t below(struct random *r, size_t count)
{
    return (size_t)(random_next(r) % count);
}

int one_in(struct random *r, size_t times)
{
    return below(r, times) == 0;
}

uint32_t some_number(struct random *r, uint32_t first, uint32_t count)
{
    uint32_t known = first + (uint32_t)below(r, count);
    switch (below(r, 40)) {
    case 0:
        return first - 1;
    case 1:
        return first + count;
    case 2:
        return known + ((uint32_t)1 << (8 + below(r, 24)));
    case 3:
        return (uint32_t)random_next(r);
    default:
        return known;
    }
}

void fill(struct random *r, uint8_t *bytes, size_t count)
{
    uint64_t eight;
    for (; count >= sizeof eight; count -= sizeof eight, bytes += sizeof eight) {
        eight = random_next(r);
        memcpy(bytes, &eight, sizeof eight);
    }
    eight = random_next(r);
    memcpy(bytes, &eight, count);
}
