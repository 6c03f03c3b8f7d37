/* The block calls, by key and with a prepared key, and preparing. */
#include "tables.h"
#include "take.h"

#include <stdio.h>

typedef Call BlockMaking(uint32_t cipher, uint32_t from, uint32_t want);

static Call fork_call(uint32_t cipher, uint32_t from, uint32_t want)
{
    Call call = {(void (*)(void))auraski_fork, {cipher, at(key), at(nonce), at(body), want, at(room), at(room + 16)}};
    (void)from;
    return call;
}

static Call unfork_call(uint32_t cipher, uint32_t from, uint32_t want)
{
    Call call = {(void (*)(void))auraski_unfork, {cipher, at(key), at(nonce), at(body), from, want, at(room), at(room + 16)}};
    return call;
}

static Call fork_prepared_call(uint32_t cipher, uint32_t from, uint32_t want)
{
    Call call = fork_call(cipher, from, want);
    call.entry = (void (*)(void))auraski_fork_prepared;
    call.arguments[1] = at(prepared[cipher]);
    return call;
}

static Call unfork_prepared_call(uint32_t cipher, uint32_t from, uint32_t want)
{
    Call call = unfork_call(cipher, from, want);
    call.entry = (void (*)(void))auraski_unfork_prepared;
    call.arguments[1] = at(prepared[cipher]);
    return call;
}

static const struct {
    const char *name;
    BlockMaking *call;
    int is_prepared;
} BLOCK_CALLS[4] = {
    {"auraski_fork", fork_call, 0},
    {"auraski_unfork", unfork_call, 0},
    {"auraski_fork_prepared", fork_prepared_call, 1},
    {"auraski_unfork_prepared", unfork_prepared_call, 1},
};

/* Refused for what is wanted; and for a prepared key that is not admitted. */
static size_t take_refused_block(int which, uint32_t cipher)
{
    Call unknown = BLOCK_CALLS[which].call(cipher, 0, 3), not_admitted = BLOCK_CALLS[which].call(cipher, 0, 2);
    size_t most = take(BLOCK_CALLS[which].name, &unknown, AURASKI_UNKNOWN);
    not_admitted.arguments[1] = at(damaged[cipher]);
    if (!BLOCK_CALLS[which].is_prepared)
        return most;
    return greater(most, take(BLOCK_CALLS[which].name, &not_admitted, AURASKI_WRONG_KEY_LENGTH));
}

/* For each of what is wanted, the greater of both halves to start from. */
static size_t take_cipher(int which, uint32_t cipher)
{
    size_t depths[3] = {0, 0, 0}, refused = take_refused_block(which, cipher), most = refused;
    for (uint32_t want = 0; want < 3; want++) {
        for (uint32_t from = 0; from < 2; from++) {
            Call call = BLOCK_CALLS[which].call(cipher, from, want);
            depths[want] = greater(depths[want], take(BLOCK_CALLS[which].name, &call, AURASKI_DONE));
        }
        most = greater(most, depths[want]);
    }
    print_row(BLOCK_CALLS[which].name, cipher, depths, refused);
    return most;
}

size_t take_blocks(void)
{
    size_t most = 0;
    puts("| entry point             | cipher | first result |     second |           both | refused |");
    puts("|:------------------------|-------:|-------------:|-----------:|---------------:|--------:|");
    for (uint32_t cipher = 1; cipher < 3; cipher++)
        for (int which = 0; which < 4; which++)
            most = greater(most, take_cipher(which, cipher));
    return most;
}

/* ---- preparing ---- */

static Call prepare_call(uint32_t cipher, size_t key_len)
{
    Call call = {(void (*)(void))auraski_prepare, {cipher, at(key), key_len, at(room)}};
    return call;
}

static size_t take_prepare(uint32_t cipher)
{
    Call done = prepare_call(cipher, sizeof key), unknown = prepare_call(3, sizeof key), short_key = prepare_call(cipher, sizeof key - 1);
    size_t bytes = take("auraski_prepare", &done, AURASKI_DONE), refused = take("auraski_prepare", &unknown, AURASKI_UNKNOWN);
    refused = greater(refused, take("auraski_prepare", &short_key, AURASKI_WRONG_KEY_LENGTH));
    printf("| %-23s | %6u | %12zu | %7zu |\n", "auraski_prepare", (unsigned)cipher, bytes, refused);
    return greater(bytes, refused);
}

size_t take_preparing(void)
{
    size_t most = 0;
    puts("| entry point             | cipher | prepared key | refused |");
    puts("|:------------------------|-------:|-------------:|--------:|");
    for (uint32_t cipher = 1; cipher < 3; cipher++)
        most = greater(most, take_prepare(cipher));
    return most;
}
