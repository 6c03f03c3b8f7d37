/* Implementations of which each is wrong in one thing; wrong.c, prepared.c and eevee.c say in which. */
#ifndef KNOWN_WRONG_H
#define KNOWN_WRONG_H

#include "auraski.h"

/* For the reader. */
#define PREPARED_BYTES AURASKI_PREPARED

/* Whether this is the number that the environment's WRONG names. */
int is_wrong(int number);

uint32_t wrong_seal(uint32_t scheme, const uint8_t *key, size_t key_len, const uint8_t *nonce, size_t nonce_len,
                    const uint8_t *header, size_t header_len, const uint8_t *body, size_t body_len, uint8_t *room, size_t room_len,
                    size_t *length);
uint32_t wrong_open(uint32_t scheme, const uint8_t *key, size_t key_len, const uint8_t *nonce, size_t nonce_len,
                    const uint8_t *header, size_t header_len, const uint8_t *sealed, size_t sealed_len, uint8_t *room,
                    size_t room_len, size_t *length);
uint32_t wrong_fork(uint32_t cipher, const uint8_t key[16], const uint8_t tweak[16], const uint8_t block[16], uint32_t want,
                    uint8_t half0[16], uint8_t half1[16]);
uint32_t wrong_unfork(uint32_t cipher, const uint8_t key[16], const uint8_t tweak[16], const uint8_t block[16], uint32_t from,
                      uint32_t want, uint8_t input[16], uint8_t other[16]);
uint32_t wrong_rounds(uint32_t scheme, size_t header_len, size_t body_len, uint32_t *rounds);
uint32_t wrong_prepare(uint32_t cipher, const uint8_t *key, size_t key_len, uint8_t prepared[PREPARED_BYTES]);
uint32_t wrong_seal_prepared(uint32_t scheme, const uint8_t prepared[PREPARED_BYTES], const uint8_t *nonce, size_t nonce_len,
                             const uint8_t *header, size_t header_len, const uint8_t *body, size_t body_len, uint8_t *room,
                             size_t room_len, size_t *length);
uint32_t wrong_open_prepared(uint32_t scheme, const uint8_t prepared[PREPARED_BYTES], const uint8_t *nonce, size_t nonce_len,
                             const uint8_t *header, size_t header_len, const uint8_t *sealed, size_t sealed_len, uint8_t *room,
                             size_t room_len, size_t *length);
uint32_t wrong_fork_prepared(uint32_t cipher, const uint8_t prepared[PREPARED_BYTES], const uint8_t tweak[16], const uint8_t block[16],
                             uint32_t want, uint8_t half0[16], uint8_t half1[16]);
uint32_t wrong_unfork_prepared(uint32_t cipher, const uint8_t prepared[PREPARED_BYTES], const uint8_t tweak[16],
                               const uint8_t block[16], uint32_t from, uint32_t want, uint8_t input[16], uint8_t other[16]);

#endif
