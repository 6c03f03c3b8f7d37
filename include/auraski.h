/* Auraski for C: sealing and opening of records with PAEF, SAEF, Umbreon and Jolteon, the rounds that they run, ForkSkinny's block calls, and
 * keys prepared once for many calls.
 *
 * SPDX-License-Identifier: 0BSD
 *
 * libauraski.a is x86-64 code with the calling convention of Linux, for user space. As any function there may, it uses the red zone, the
 * 128 bytes below the stack pointer, and the vector registers, by SSE2, which every x86-64 machine has. So it is not fit for a kernel or an
 * interrupt handler. It calls memcpy and memset and nothing else, allocates nothing, prints nothing and keeps nothing from one call to the
 * next: calls may run at the same time in several threads. A call does not wipe its stack: parts of key and body may stay behind there.
 *
 * Which memory a call reads or writes, and how it branches, does not depend on key, prepared key, body or block: no table is read at a place
 * that does. There are two exceptions, which are answers: a call that judges a run branches once on whether it is authentic, and for 6 clears
 * the room; and a call that is given a prepared key branches once on whether it is admitted. That is tested on the machine code, not
 * proved. Nothing more is said of the time that a call takes. It may depend on lengths, nonce, tweak, header and sealed run, and on the cipher
 * that a key was prepared for, which are no secrets here.
 *
 * A pointer stands for as many bytes as the length behind it says, `length` for one size_t and `rounds` for one uint32_t. No pointer may be
 * null; where the length is 0 any other will do, such as the address of any object, and nothing is read or written through it. What a call
 * writes (room and *length, *rounds, both result blocks, or the prepared key) must not overlap anything else that it is given, so that nothing
 * is sealed or opened in place; what it only reads may overlap. A call changes nothing but what is said below, and returns, for every value of
 * every argument and every length.
 *
 * What is proved is proved of the library's source. That its machine code does the same, and that the prototypes below fit what it exports,
 * is assumed, and tested. Take the header that came with the library: nothing checks that the two belong together.
 */
#ifndef AURASKI_H
#define AURASKI_H

#include <stddef.h>
#include <stdint.h>

/* The same as `pkg-config --modversion auraski` says. */
#define AURASKI_VERSION "0.8.0"
#define AURASKI_VERSION_MAJOR 0
#define AURASKI_VERSION_MINOR 8
#define AURASKI_VERSION_PATCH 0

/* A call takes at most so many bytes of stack, its arguments included, whatever the record's length: the shortest takes as much as the
 * longest. This is measured, not proved, with the names of the C library bound before the call (-static or
 * -Wl,-z,now): where the loader binds them at the first call, its own stack comes on top. */
#define AURASKI_STACK_BYTES 4096u

/* GCC and clang warn of an answer that is not looked at, and of a null pointer where they see that it is one; where they don't, they go by
 * it that it is none. */
#if defined(__GNUC__) && __GNUC__ >= 4
#define AURASKI_CHECKED __attribute__((__warn_unused_result__, __nonnull__))
#else
#define AURASKI_CHECKED
#endif

#ifdef __cplusplus
extern "C" {
#endif

/* ---- sealing and opening ---- */

/* A seal makes of a body a run, ciphertext and tag in one, which is a block longer; under schemes 4 to 7 its last block is the tag. The header
 * (the associated data) has its part in the making, but does not go into the run: who opens the run has to have it.
 *
 * Schemes. A key has 16 bytes under each. The nonce must not be used twice under one key.
 *
 *                            block   nonce   header at most   body at most   so a sealed run has
 *   1  PAEF over 64-192          8       6           65,528         65,528   8 to 65,536 bytes
 *   2  PAEF over 128-256        16      14          131,056        131,056   16 to 131,072
 *   3  SAEF over 128-256        16      15        1,048,576      1,048,576   16 to 1,048,592
 *   4  Umbreon over 64-192       8       6          131,040        262,136   8 to 262,144
 *   5  Jolteon over 64-192       8       6          131,040        262,136   8 to 262,144
 *   6  Umbreon over 128-256     16      14          262,080        524,272   16 to 524,288
 *   7  Jolteon over 128-256     16      14          262,080        524,272   16 to 524,288
 *
 * Header and body may be empty; under schemes 4 to 7 not both of one record.
 *
 * The limits are as many blocks as the mode has numbers for: 8,191 under PAEF; under Umbreon and Jolteon 16,379 of a header and 32,766 of a
 * body, and one more each, for the last block has no number. SAEF numbers none; its limit is set.
 *
 * For a body of at most one block Umbreon and Jolteon make the same run. So such a record of scheme 4 opens under 5 as well, and back, and of 6
 * under 7: nothing in the run tells which it was. Keep the scheme with the record, or use a key under one scheme alone. */
#define AURASKI_PAEF_64_192 1u
#define AURASKI_PAEF_128_256 2u
#define AURASKI_SAEF_128_256 3u
#define AURASKI_UMBREON_64_192 4u
#define AURASKI_JOLTEON_64_192 5u
#define AURASKI_UMBREON_128_256 6u
#define AURASKI_JOLTEON_128_256 7u

#define AURASKI_KEY_BYTES 16u

/* A sealed run has this many bytes more than its body. */
#define AURASKI_PAEF_64_192_BLOCK 8u
#define AURASKI_PAEF_128_256_BLOCK 16u
#define AURASKI_SAEF_128_256_BLOCK 16u
#define AURASKI_UMBREON_64_192_BLOCK 8u
#define AURASKI_JOLTEON_64_192_BLOCK 8u
#define AURASKI_UMBREON_128_256_BLOCK 16u
#define AURASKI_JOLTEON_128_256_BLOCK 16u

#define AURASKI_PAEF_64_192_NONCE 6u
#define AURASKI_PAEF_128_256_NONCE 14u
#define AURASKI_SAEF_128_256_NONCE 15u
#define AURASKI_UMBREON_64_192_NONCE 6u
#define AURASKI_JOLTEON_64_192_NONCE 6u
#define AURASKI_UMBREON_128_256_NONCE 14u
#define AURASKI_JOLTEON_128_256_NONCE 14u

/* The longest header, and the longest body: under PAEF and SAEF one number for both. */
#define AURASKI_PAEF_64_192_LIMIT 65528u
#define AURASKI_PAEF_128_256_LIMIT 131056u
#define AURASKI_SAEF_128_256_LIMIT 1048576u
#define AURASKI_UMBREON_64_192_HEADER_LIMIT 131040u
#define AURASKI_UMBREON_64_192_BODY_LIMIT 262136u
#define AURASKI_JOLTEON_64_192_HEADER_LIMIT 131040u
#define AURASKI_JOLTEON_64_192_BODY_LIMIT 262136u
#define AURASKI_UMBREON_128_256_HEADER_LIMIT 262080u
#define AURASKI_UMBREON_128_256_BODY_LIMIT 524272u
#define AURASKI_JOLTEON_128_256_HEADER_LIMIT 262080u
#define AURASKI_JOLTEON_128_256_BODY_LIMIT 524272u

/* Answers, in the order of the checks: the first that applies answers, and if none does, it is 0. So a number also says that all before
 * it was right. */
#define AURASKI_UNKNOWN 1u            /* no such scheme (block calls: no such cipher, half or choice) */
#define AURASKI_WRONG_KEY_LENGTH 2u   /* the key's length is not the scheme's (a prepared key: not admitted under the cipher) */
#define AURASKI_WRONG_NONCE_LENGTH 7u /* the nonce's length is not the scheme's */
#define AURASKI_HEADER_TOO_LONG 3u    /* the header is longer than the scheme takes */
#define AURASKI_BODY_TOO_LONG 8u      /* the body is longer than the scheme takes (open: the run less a block) */
#define AURASKI_TOO_SHORT 4u          /* open: the sealed run is shorter than a block */
#define AURASKI_ROOM 5u               /* the room is shorter than the output; one of exactly its length is enough */
#define AURASKI_NOTHING 10u           /* header and body are both empty: schemes 4 to 7 have no run for them */
#define AURASKI_FORGED 6u             /* open: not authentic: no body seals to this run under this key, nonce and header */
#define AURASKI_DONE 0u

/* Seals a body under a header. The sealed run has body_len and a block of bytes. With 0 it goes to the front of the room and its length
 * to *length; the rest of the room is unchanged. Refused with 1, 2, 7, 3, 8, 5 or 10: *length is 0, the room unchanged. */
uint32_t auraski_seal(uint32_t scheme, const uint8_t *key, size_t key_len, const uint8_t *nonce, size_t nonce_len,
                      const uint8_t *header, size_t header_len, const uint8_t *body, size_t body_len, uint8_t *room,
                      size_t room_len, size_t *length) AURASKI_CHECKED;

/* Opens a sealed run. The body has sealed_len less a block of bytes. With 0 it goes to the front of the room and its length, which may
 * be 0, to *length; the rest of the room is unchanged. Refused with 1, 2, 7, 3, 8, 4, 5 or 10: *length is 0, the room unchanged. Refused
 * with 6: *length is 0, zeros where the body would have been, the rest unchanged. Only the answer 0 says that a run is authentic, and
 * until the call returns the room may hold what is not. */
uint32_t auraski_open(uint32_t scheme, const uint8_t *key, size_t key_len, const uint8_t *nonce, size_t nonce_len,
                      const uint8_t *header, size_t header_len, const uint8_t *sealed, size_t sealed_len, uint8_t *room,
                      size_t room_len, size_t *length) AURASKI_CHECKED;

/* ---- rounds ---- */

/* Tells how many rounds of ForkSkinny a seal runs for a header and a body of these lengths, or an open of a run of body_len and a block
 * of bytes: the two run as many, whatever key, nonce and bytes they are given. With 0 the number goes to *rounds. Refused as they are with
 * 1, 3, 8 or 10: *rounds is 0. An open that is refused with 6 has run as many as one that is done; a call that is refused with any other
 * number has run none.
 *
 *                            a header block   a body block   the last one   at most, header and body together
 *   1  PAEF over 64-192                  40             63             63     843,673 rounds
 *   2  PAEF over 128-256                 48             75             75   1,007,493
 *   3  SAEF over 128-256                 48             75             75   8,060,928
 *   4  Umbreon over 64-192               40             63             63   2,719,521
 *   5  Jolteon over 64-192               40             40             63   1,965,903
 *   6  Umbreon over 128-256              48             75             75   3,243,765
 *   7  Jolteon over 128-256              48             48             75   2,359,083
 *
 * A short last block counts as a block, and an empty header or body has none; but where both are empty, schemes 1 to 3 work one header
 * block. Making the round keys is not counted. */
uint32_t auraski_rounds(uint32_t scheme, size_t header_len, size_t body_len, uint32_t *rounds) AURASKI_CHECKED;

/* ---- the block calls: AURASKI_DONE or AURASKI_UNKNOWN ---- */

/* Ciphers. Every key, tweak and block has sixteen bytes under both. Under ForkSkinny-64-192 only the first 8 of tweak and block count,
 * and bytes 8 to 15 of every block that a call gives are zero. */
#define AURASKI_64_192 1u
#define AURASKI_128_256 2u

/* What a call shall give: its first result block, its second, or both. Both blocks are always written: the one that was not asked for
 * with zeros, and both with zeros if the call is refused. */
#define AURASKI_FIRST 0u
#define AURASKI_SECOND 1u
#define AURASKI_BOTH 2u

/* Which half a block is, for the way back. */
#define AURASKI_HALF_0 0u
#define AURASKI_HALF_1 1u

/* Rounds. Forward, one half takes 40 under ForkSkinny-64-192 and 48 under ForkSkinny-128-256, and both take 63 and 75. Back, the input alone
 * takes as many as one half, both results as many as both halves, and the other half alone 46 and 54. A refused call takes none. */

/* Forward: half 0 (the first result) and half 1 (the second) of a block. */
uint32_t auraski_fork(uint32_t cipher, const uint8_t key[16], const uint8_t tweak[16], const uint8_t block[16],
                      uint32_t want, uint8_t half0[16], uint8_t half1[16]) AURASKI_CHECKED;

/* Back: `block` is the half that `from` says. The input block (the first result) and the other half (the second). */
uint32_t auraski_unfork(uint32_t cipher, const uint8_t key[16], const uint8_t tweak[16], const uint8_t block[16],
                        uint32_t from, uint32_t want, uint8_t input[16], uint8_t other[16]) AURASKI_CHECKED;

/* ---- a key prepared once, for many calls ---- */

/* What a key gives to the rounds of the cipher is the same for every block of every record. It can be worked out once and then be given to
 * the calls below in place of the key: for the same arguments they answer as the calls by key, and run as many rounds.
 *
 * A prepared key holds the key. It is as secret as the key, and its owner has to wipe it as well. It has this many bytes, at any address;
 * what they are is the library's own affair and may change with its version. */
#define AURASKI_PREPARED 801u

/* Prepares a key for a cipher: AURASKI_64_192 for schemes 1, 4 and 5, AURASKI_128_256 for schemes 2, 3, 6 and 7. Answers 0; or 1 (no such
 * cipher) or 2 (the key does not have 16 bytes), in this order: then `prepared` is all zeros, which no call admits. */
uint32_t auraski_prepare(uint32_t cipher, const uint8_t *key, size_t key_len,
                         uint8_t prepared[AURASKI_PREPARED]) AURASKI_CHECKED;

/* A prepared key is admitted under a cipher exactly if auraski_prepare gives it for that cipher and some key: each of its bytes is judged, by
 * every call anew. One that is not admitted, because it was prepared for the other cipher, refused or damaged, is refused with 2. Nothing
 * tells whether it is the right key's.
 *
 * As auraski_seal and auraski_open. 2 stands where it stands there, behind 1 and before 7. */
uint32_t auraski_seal_prepared(uint32_t scheme, const uint8_t prepared[AURASKI_PREPARED], const uint8_t *nonce,
                               size_t nonce_len, const uint8_t *header, size_t header_len, const uint8_t *body,
                               size_t body_len, uint8_t *room, size_t room_len, size_t *length) AURASKI_CHECKED;
uint32_t auraski_open_prepared(uint32_t scheme, const uint8_t prepared[AURASKI_PREPARED], const uint8_t *nonce,
                               size_t nonce_len, const uint8_t *header, size_t header_len, const uint8_t *sealed,
                               size_t sealed_len, uint8_t *room, size_t room_len, size_t *length) AURASKI_CHECKED;

/* As auraski_fork and auraski_unfork, and refused with 1 as they are; then with 2, and both result blocks are zeros. */
uint32_t auraski_fork_prepared(uint32_t cipher, const uint8_t prepared[AURASKI_PREPARED], const uint8_t tweak[16],
                               const uint8_t block[16], uint32_t want, uint8_t half0[16], uint8_t half1[16]) AURASKI_CHECKED;
uint32_t auraski_unfork_prepared(uint32_t cipher, const uint8_t prepared[AURASKI_PREPARED], const uint8_t tweak[16],
                                 const uint8_t block[16], uint32_t from, uint32_t want, uint8_t input[16],
                                 uint8_t other[16]) AURASKI_CHECKED;

#ifdef __cplusplus
}
#endif

#undef AURASKI_CHECKED

#endif
