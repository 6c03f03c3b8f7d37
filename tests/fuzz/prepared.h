/* Prepared keys: made by auraski_prepare in watched buffers, and what may become of them until a call is given them. */
#ifndef FUZZ_PREPARED_H
#define FUZZ_PREPARED_H

#include "auraski.h"
#include "table.h"

/* Prepares a key for a cipher, twice, in new places, and gives what came both times. Whether it was prepared. */
int prepare(uint32_t cipher, const struct field *key, uint8_t prepared[AURASKI_PREPARED], struct random *d);

/* A prepared key for a call under this cipher: mostly the key's own; else that with a byte changed, the other cipher's, or zeros. Whether it is
 * admitted. */
int draw_prepared(uint32_t cipher, const struct field *key, uint8_t prepared[AURASKI_PREPARED], struct random *d);

#endif
