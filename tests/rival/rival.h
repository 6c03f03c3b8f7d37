/* The rival of docs/SPEED.md: the calls of include/auraski.h once more, with the same parameters, answers and rooms, as a card's maker
 * would write them in C. auraski.h says what each takes and gives. */
#ifndef RIVAL_H
#define RIVAL_H

#include <stddef.h>
#include <stdint.h>

uint32_t rival_seal(uint32_t scheme, const uint8_t *key, size_t key_len, const uint8_t *nonce, size_t nonce_len,
                    const uint8_t *header, size_t header_len, const uint8_t *body, size_t body_len, uint8_t *room,
                    size_t room_len, size_t *length);

uint32_t rival_open(uint32_t scheme, const uint8_t *key, size_t key_len, const uint8_t *nonce, size_t nonce_len,
                    const uint8_t *header, size_t header_len, const uint8_t *sealed, size_t sealed_len, uint8_t *room,
                    size_t room_len, size_t *length);

uint32_t rival_rounds(uint32_t scheme, size_t header_len, size_t body_len, uint32_t *rounds);

uint32_t rival_fork(uint32_t cipher, const uint8_t key[16], const uint8_t tweak[16], const uint8_t block[16], uint32_t want,
                    uint8_t half0[16], uint8_t half1[16]);

uint32_t rival_unfork(uint32_t cipher, const uint8_t key[16], const uint8_t tweak[16], const uint8_t block[16], uint32_t from,
                      uint32_t want, uint8_t input[16], uint8_t other[16]);

#endif
