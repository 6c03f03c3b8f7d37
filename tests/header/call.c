/* One call, which CALL names (the numbers are below), as it should be. With one of the pointers below defined as NULL, or with IGNORED defined,
 * a compiler that takes warnings as errors has to refuse it. */
#include "auraski.h"

/* A second time: nothing is said twice. */
#include "auraski.h"

#ifdef AURASKI_CHECKED
#error "a macro that is the header's own is left behind"
#endif

#ifndef KEY
#define KEY given->key
#endif
#ifndef NONCE
#define NONCE given->nonce
#endif
#ifndef HEADER
#define HEADER given->header
#endif
#ifndef TEXT
#define TEXT given->text
#endif
#ifndef ROOM
#define ROOM given->room
#endif
#ifndef LENGTH
#define LENGTH given->length
#endif
#ifndef TWEAK
#define TWEAK given->tweak
#endif
#ifndef BLOCK
#define BLOCK given->block
#endif
#ifndef FIRST
#define FIRST given->first
#endif
#ifndef SECOND
#define SECOND given->second
#endif
#ifndef ROUNDS
#define ROUNDS given->rounds
#endif
#ifndef PREPARED
#define PREPARED given->prepared
#endif

#ifdef IGNORED
#define LOOKED_AT
#else
#define LOOKED_AT answer =
#endif

/* What seal and open have in common, behind the key. */
#define REST NONCE, AURASKI_SAEF_128_256_NONCE, HEADER, 0, TEXT, 16, ROOM, 32, LENGTH

struct given {
    const uint8_t *key, *nonce, *header, *text, *tweak, *block;
    uint8_t *room, *first, *second, *prepared;
    size_t *length;
    uint32_t *rounds;
};

uint32_t call(const struct given *given);
uint32_t call(const struct given *given)
{
    uint32_t answer = AURASKI_DONE;
    (void)given;
#if CALL == 1
    LOOKED_AT auraski_seal(AURASKI_SAEF_128_256, KEY, AURASKI_KEY_BYTES, REST);
#elif CALL == 2
    LOOKED_AT auraski_open(AURASKI_SAEF_128_256, KEY, AURASKI_KEY_BYTES, REST);
#elif CALL == 3
    LOOKED_AT auraski_fork(AURASKI_64_192, KEY, TWEAK, BLOCK, AURASKI_BOTH, FIRST, SECOND);
#elif CALL == 4
    LOOKED_AT auraski_unfork(AURASKI_64_192, KEY, TWEAK, BLOCK, AURASKI_HALF_1, AURASKI_BOTH, FIRST, SECOND);
#elif CALL == 5
    LOOKED_AT auraski_rounds(AURASKI_SAEF_128_256, 0, 16, ROUNDS);
#elif CALL == 6
    LOOKED_AT auraski_prepare(AURASKI_128_256, KEY, AURASKI_KEY_BYTES, PREPARED);
#elif CALL == 7
    LOOKED_AT auraski_seal_prepared(AURASKI_SAEF_128_256, PREPARED, REST);
#elif CALL == 8
    LOOKED_AT auraski_open_prepared(AURASKI_SAEF_128_256, PREPARED, REST);
#elif CALL == 9
    LOOKED_AT auraski_fork_prepared(AURASKI_64_192, PREPARED, TWEAK, BLOCK, AURASKI_BOTH, FIRST, SECOND);
#elif CALL == 10
    LOOKED_AT auraski_unfork_prepared(AURASKI_64_192, PREPARED, TWEAK, BLOCK, AURASKI_HALF_1, AURASKI_BOTH, FIRST, SECOND);
#else
#error "no such call"
#endif
    return answer;
}
