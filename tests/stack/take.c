#include "take.h"

#include <stdio.h>
#include <string.h>

/* The stack that a caller has to have, arguments included. */
enum { BOUND = AURASKI_STACK_BYTES };

uint8_t key[16], nonce[16], header[MOST + 1], body[MOST + 1], run[MOST + 1 + BLOCK], room[MOST + 1 + BLOCK];
uint8_t prepared[3][AURASKI_PREPARED], damaged[3][AURASKI_PREPARED];
int failures;

void fill(void)
{
    for (size_t i = 0; i <= MOST; i++)
        header[i] = body[i] = (uint8_t)(i * 7 + i / 251);
    for (uint32_t cipher = 1; cipher < 3; cipher++) {
        if (auraski_prepare(cipher, key, sizeof key, prepared[cipher]) != AURASKI_DONE) {
            printf("stack: the key can't be prepared\n");
            failures++;
        }
        memcpy(damaged[cipher], prepared[cipher], AURASKI_PREPARED);
        damaged[cipher][AURASKI_PREPARED - 1] ^= 1;
    }
}

uint64_t at(const void *place)
{
    return (uint64_t)(uintptr_t)place;
}

size_t take(const char *name, const Call *call, uint32_t wanted)
{
    uint32_t answer;
    size_t bytes = depth(call, &answer);
    if (answer != wanted) {
        printf("stack: %s answered %u, not %u\n", name, (unsigned)answer, (unsigned)wanted);
        failures++;
    }
    if (bytes + ON_STACK > BOUND) {
        printf("stack: %s takes %zu bytes from the call on and %d before, more than %d\n", name, bytes, (int)ON_STACK, (int)BOUND);
        failures++;
    } else if (make(call, BOUND) != wanted) {
        printf("stack: %s has another answer on a stack of %d bytes\n", name, (int)BOUND);
        failures++;
    }
    return bytes;
}

size_t greater(size_t one, size_t other)
{
    return one > other ? one : other;
}

void print_row(const char *name, unsigned number, const size_t depths[3], size_t refused)
{
    printf("| %-23s | %6u | %12zu | %10zu | %14zu | %7zu |\n", name, number, depths[0], depths[1], depths[2], refused);
}
