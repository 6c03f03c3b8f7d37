/* The calls. Secret are key, prepared key but for its cipher's number, body and block, and all that is worked out from them; what a wire shows or
 * a caller may print is public: scheme, cipher, nonce, header, tweak, a run to be opened, and every length. */
#ifndef SECRETS_CASES_H
#define SECRETS_CASES_H

/* Records of several lengths sealed, opened, and opened when forged, under every scheme, by key and with a prepared key; and every refusal. */
void record_cases(void);

/* Blocks forward and back, whatever is wanted, under both ciphers, by key and with a prepared key; and refusals. */
void block_cases(void);

#endif
