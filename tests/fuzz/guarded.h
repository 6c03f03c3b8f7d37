/* Buffers with the bytes around them watched. Each lies at the beginning of a zone, at its end or between; no byte before or behind the
 * zone may be touched, and bytes in the zone on both sides of the buffer must stay as they are. */
#ifndef FUZZ_GUARDED_H
#define FUZZ_GUARDED_H

#include "random.h"

/* The longest buffer. */
#define LONGEST ((size_t)1100000)
/* A size of VAST and more, of which the low 32 bits alone look harmless, is honest too: so many bytes are there to be read. One buffer
 * at a time can be vast, and only its front can be written. */
#define VAST ((size_t)1 << 32)

struct guarded {
    uint8_t *bytes; /* the buffer, as a call gets it.. */
    size_t size;
    uint8_t *due; /* ..and what it must hold after the call */
    uint8_t *watched; /* the same with the bytes around it */
    size_t watched_size;
    uint8_t *watched_due;
    uint8_t *zone;
};

/* A new place for a buffer of so many bytes, at a multiple of `align`. It and the bytes around it are random; due is that none changes. */
void guarded_place(struct guarded *g, size_t size, size_t align, struct random *r);

/* Puts bytes to the front of the buffer before the call. */
void guarded_put(struct guarded *g, const uint8_t *bytes, size_t count);

/* Leaves random bytes on the stack where the next call will keep its own values: what it gives must not depend on them. */
void dirty_stack(struct random *r);

/* Fails if the buffer or a byte around it is not what it must be. */
void guarded_judge(const struct guarded *g, const char *name);

#endif
