/* Calls made on a stack of their own, and how deep they reach into it. */
#ifndef GROUND_H
#define GROUND_H

#include <stddef.h>
#include <stdint.h>

/* Every argument of every entry point is a number or a pointer. Those behind the sixth go over the stack, for which room is always taken. */
enum { ARGUMENTS = 12, ON_STACK = 6 * 8 };

typedef struct {
    void (*entry)(void);
    uint64_t arguments[ARGUMENTS];
} Call;

/* A stack of so many bytes, above a page that nobody may touch. */
void make_ground(size_t bytes);

/* Makes the call on the last so many bytes of the stack, or stops the program if there are not so many. */
uint32_t make(const Call *call, size_t bytes);

/* Makes the call on the whole stack: how many bytes it takes from the call instruction on, the return address among them, and its answer.
 * A byte that the call wrote counts also if it lies below its stack pointer. */
size_t depth(const Call *call, uint32_t *answer);

#endif
