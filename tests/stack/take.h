/* What the calls are given, and how deep one of them goes. */
#ifndef TAKE_H
#define TAKE_H

#include "auraski.h"
#include "ground.h"

/* Of all schemes. */
enum { MOST = AURASKI_SAEF_128_256_LIMIT, BLOCK = AURASKI_SAEF_128_256_BLOCK };

extern uint8_t key[16], nonce[16], header[MOST + 1], body[MOST + 1], run[MOST + 1 + BLOCK], room[MOST + 1 + BLOCK];
/* The key, prepared for the cipher of that number; and the same with another last byte, which is not admitted. */
extern uint8_t prepared[3][AURASKI_PREPARED], damaged[3][AURASKI_PREPARED];

/* What was not as it has to be. */
extern int failures;

/* Fills header and body, and prepares the key. */
void fill(void);

/* As an argument. */
uint64_t at(const void *place);

/* How deep a call goes. It has to have the answer, and to be made once more on a stack of exactly the bytes that auraski.h tells. */
size_t take(const char *name, const Call *call, uint32_t wanted);

size_t greater(size_t one, size_t other);

/* A row of a table with three columns of depths. */
void print_row(const char *name, unsigned number, const size_t depths[3], size_t refused);

#endif
