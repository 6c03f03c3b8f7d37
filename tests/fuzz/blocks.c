/* Cases of fork and unfork: a block forward, both halves at once and alone, and back from each half; each by key and with a prepared key. */
#include "cases.h"
#include "prepared.h"
#include "report.h"

#include <string.h>

enum { BLOCK = 16 };

struct blocks {
    uint32_t cipher;
    const struct field *key;
    uint8_t tweak[BLOCK], input[BLOCK], half[2][BLOCK];
};

/* What a call gets for its key: the key, which always fits, or a prepared one. */
struct keyed {
    int is_prepared, fits;
    uint8_t bytes[AURASKI_PREPARED];
};

static struct guarded key, tweak, block, first, second;

static int known(uint32_t cipher)
{
    return cipher == 1 || cipher == 2;
}

/* The bytes of tweak and block that count. */
static size_t counting(uint32_t cipher)
{
    return cipher == 1 ? 8 : BLOCK;
}

static struct keyed by_key(const struct blocks *b)
{
    struct keyed k = {.fits = 1};
    memcpy(k.bytes, b->key->bytes, b->key->size);
    return k;
}

static struct keyed prepared_for(const struct blocks *b, struct random *d)
{
    struct keyed k = {.is_prepared = 1};
    k.fits = draw_prepared(b->cipher, b->key, k.bytes, d);
    return k;
}

/* The number that is due if the numbers of the call are known or not. */
static uint32_t due_of(const struct keyed *k, int are_known)
{
    if (!are_known) {
        return 1;
    }
    return k->fits ? 0 : 2;
}

static void place(const struct blocks *b, const struct keyed *k, const uint8_t *given, struct random *d)
{
    struct guarded *all[] = {&tweak, &block, &first, &second};
    size_t key_size = k->is_prepared ? AURASKI_PREPARED : BLOCK;
    for (size_t i = 0; i < sizeof all / sizeof all[0]; i++) {
        guarded_place(all[i], BLOCK, 1, d);
    }
    guarded_place(&key, key_size, 1, d);
    guarded_put(&key, k->bytes, key_size);
    /* What does not count stays random: another one in each call. */
    guarded_put(&tweak, b->tweak, counting(b->cipher));
    guarded_put(&block, given, counting(b->cipher));
}

/* Judges both blocks that came: the ones that are due where the call was taken and asked for them, else zeros. */
static void judge(const struct blocks *b, uint32_t number, uint32_t want, const uint8_t *first_due, const uint8_t *second_due)
{
    memset(first.due, 0, BLOCK);
    memset(second.due, 0, BLOCK);
    if (number == 0 && want != 1) {
        memcpy(first.due, first_due, counting(b->cipher));
    }
    if (number == 0 && want != 0) {
        memcpy(second.due, second_due, counting(b->cipher));
    }
    guarded_judge(&first, "first block");
    guarded_judge(&second, "second block");
    guarded_judge(&key, "key");
    guarded_judge(&tweak, "tweak");
    guarded_judge(&block, "given block");
}

static uint32_t call_fork(const struct blocks *b, const struct keyed *k, uint32_t want, struct random *d)
{
    enum entry entry = k->is_prepared ? FORK_PREPARED : FORK;
    uint32_t due = due_of(k, known(b->cipher) && want <= 2);
    place(b, k, b->input, d);
    report_call(entry, "cipher %lu, want %lu", (unsigned long)b->cipher, (unsigned long)want);
    dirty_stack(d);
    uint32_t number = (k->is_prepared ? auraski_fork_prepared : auraski_fork)(b->cipher, key.bytes, tweak.bytes, block.bytes, want,
                                                                              first.bytes, second.bytes);
    report_answer(entry, number, due);
    return due;
}

static void fork_with(const struct blocks *b, const struct keyed *k, uint32_t want, struct random *d)
{
    uint32_t number = call_fork(b, k, want, d);
    judge(b, number, want, b->half[0], b->half[1]);
}

static void fork_some(const struct blocks *b, uint32_t want, struct random *d)
{
    struct keyed plain = by_key(b), prepared = prepared_for(b, d);
    fork_with(b, &plain, want, d);
    fork_with(b, &prepared, want, d);
}

/* Both halves at once, for the first time: what comes is taken for the halves, and later calls are held to it. */
static void fork_first(struct blocks *b, struct random *d)
{
    struct keyed plain = by_key(b), prepared = prepared_for(b, d);
    uint32_t number = call_fork(b, &plain, 2, d);
    memcpy(b->half[0], first.bytes, BLOCK);
    memcpy(b->half[1], second.bytes, BLOCK);
    judge(b, number, 2, b->half[0], b->half[1]);
    fork_with(b, &prepared, 2, d);
}

static void unfork_with(const struct blocks *b, const struct keyed *k, uint32_t from, uint32_t want, struct random *d)
{
    enum entry entry = k->is_prepared ? UNFORK_PREPARED : UNFORK;
    uint32_t due = due_of(k, known(b->cipher) && from <= 1 && want <= 2);
    place(b, k, b->half[from & 1], d);
    report_call(entry, "cipher %lu, from %lu, want %lu", (unsigned long)b->cipher, (unsigned long)from, (unsigned long)want);
    dirty_stack(d);
    uint32_t number = (k->is_prepared ? auraski_unfork_prepared : auraski_unfork)(b->cipher, key.bytes, tweak.bytes, block.bytes, from, want,
                                                                                  first.bytes, second.bytes);
    report_answer(entry, number, due);
    judge(b, due, want, b->input, b->half[1 - (from & 1)]);
}

static void unfork_some(const struct blocks *b, uint32_t from, uint32_t want, struct random *d)
{
    struct keyed plain = by_key(b), prepared = prepared_for(b, d);
    unfork_with(b, &plain, from, want, d);
    unfork_with(b, &prepared, from, want, d);
}

void block_case(struct random *d)
{
    static struct field drawn_key = {.size = BLOCK};
    struct blocks b = {.key = &drawn_key};
    b.cipher = some_number(d, 1, 2);
    fill(d, drawn_key.bytes, BLOCK);
    fill(d, b.tweak, BLOCK);
    fill(d, b.input, BLOCK);
    fork_first(&b, d);
    fork_some(&b, some_number(d, 0, 3), d);
    unfork_some(&b, some_number(d, 0, 2), some_number(d, 0, 3), d);
    unfork_some(&b, some_number(d, 0, 2), some_number(d, 0, 3), d);
}
