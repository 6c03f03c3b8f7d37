#define _DEFAULT_SOURCE
#include "guarded.h"

#include "report.h"

#include <stdlib.h>
#include <string.h>
#include <sys/mman.h>
#include <unistd.h>

enum { AROUND = 64 };
/* Bytes that are watched behind what is held of a vast buffer. */
#define BEHIND ((size_t)262144)
/* Enough for the longest buffer with these, and a multiple of every size of a page. */
#define ZONE ((size_t)24 * 65536)

static uint8_t *checked(void *memory)
{
    if (memory == NULL || memory == MAP_FAILED) {
        fail("no memory for the buffers");
    }
    return memory;
}

/* A zone between two pages that nobody may touch; behind a vast one comes what may be read. */
static uint8_t *new_zone(size_t readable)
{
    size_t page = (size_t)sysconf(_SC_PAGESIZE);
    uint8_t *start = checked(mmap(NULL, page + ZONE + readable + page, PROT_NONE, MAP_PRIVATE | MAP_ANONYMOUS | MAP_NORESERVE, -1, 0));
    uint8_t *zone = start + page;
    if (mprotect(zone, ZONE, PROT_READ | PROT_WRITE) != 0 || (readable > 0 && mprotect(zone + ZONE, readable, PROT_READ) != 0)) {
        fail("no memory for the buffers");
    }
    return zone;
}

static size_t smaller(size_t a, size_t b)
{
    return a < b ? a : b;
}

/* Watches `count` bytes from a place in the zone. */
static void watch(struct guarded *g, uint8_t *from, size_t count, struct random *r)
{
    g->watched = from;
    g->watched_size = count;
    g->due = g->watched_due + (g->bytes - from);
    fill(r, g->watched, count);
    memcpy(g->watched_due, g->watched, count);
}

static void place_vast(struct guarded *g, struct random *r)
{
    static uint8_t *zone;
    if (zone == NULL) {
        zone = new_zone(VAST);
    }
    g->bytes = zone + AROUND;
    watch(g, zone, AROUND + (g->size - VAST) + BEHIND, r);
}

void guarded_place(struct guarded *g, size_t size, size_t align, struct random *r)
{
    if (g->zone == NULL) {
        g->zone = new_zone(0);
        g->watched_due = checked(malloc(ZONE));
    }
    g->size = size;
    if (size >= VAST) {
        place_vast(g, r);
        return;
    }
    size_t spare = ZONE - size;
    size_t places[] = {0, spare, below(r, spare + 1)};
    size_t before = places[below(r, 3)] / align * align;
    size_t left = smaller(before, AROUND);
    size_t right = smaller(spare - before, AROUND);
    g->bytes = g->zone + before;
    watch(g, g->bytes - left, left + size + right, r);
}

void guarded_put(struct guarded *g, const uint8_t *bytes, size_t count)
{
    memcpy(g->bytes, bytes, count);
    memcpy(g->due, bytes, count);
}

void dirty_stack(struct random *r)
{
    uint8_t left[8192];
    fill(r, left, sizeof left);
}

void guarded_judge(const struct guarded *g, const char *name)
{
    if (memcmp(g->watched, g->watched_due, g->watched_size) == 0) {
        return;
    }
    size_t i = 0;
    while (g->watched[i] == g->watched_due[i]) {
        i++;
    }
    fail("the %s, of %zu bytes: at %td stands %02x where %02x is due", name, g->size, g->watched + i - g->bytes, g->watched[i],
         g->watched_due[i]);
}
