/* reader FILE: holds an implementation of the calls to the known answers in FILE: in every record the number, the length or the rounds and
 * every byte of the room or the result blocks. The top of FILE says in which form it is.
 *
 * It tries the calls of auraski.h. With -DIMPLEMENTATION=NAME, and -include of a header that declares them, it tries NAME_seal, NAME_open,
 * NAME_fork, NAME_unfork and NAME_rounds, which have the same parameters. If that header also says how many bytes NAME_prepare writes, as
 * PREPARED_BYTES, it tries this and NAME_seal_prepared, NAME_open_prepared, NAME_fork_prepared and NAME_unfork_prepared too; else it passes
 * over their records.
 *
 * SPDX-License-Identifier: 0BSD
 *
 * Ends with 0 if every record holds, with 1 if one does not, and with 2 if FILE can't be read or is not in its form. */
#include "values.h"

#include <inttypes.h>
#include <stdio.h>
#include <stdlib.h>
#include <string.h>

#ifndef IMPLEMENTATION
#define IMPLEMENTATION auraski
#include "auraski.h"
#define PREPARED_BYTES AURASKI_PREPARED
#endif
#define JOINED(prefix, name) prefix##_##name
#define NAMED(prefix, name) JOINED(prefix, name)
#define CALL(name) NAMED(IMPLEMENTATION, name)

/* Bytes before and behind a room that the call is not given. */
enum { AROUND = 32, UNTOUCHED = 0xc3 };

static uint32_t record;
static unsigned long record_line;
static unsigned long wrong_records;
static unsigned long passed_over;
static int record_is_wrong;
/* Whether the record before is a seal that has to be answered with 0, and what it gave. */
static int last_is_due;
static struct bytes last;

/* Says what is wrong with the answer to this record; the next ones are tried all the same. */
static void wrong(const char *what)
{
    printf("record %" PRIu32 " (line %lu): %s\n", record, record_line, what);
    record_is_wrong = 1;
}

static void judge_number(const char *name, uint64_t given, uint64_t due)
{
    char what[100];
    if (given != due) {
        snprintf(what, sizeof what, "%s is %" PRIu64 " where %" PRIu64 " is due", name, given, due);
        wrong(what);
    }
}

static void judge_bytes(const char *name, const uint8_t *given, const uint8_t *due, size_t size)
{
    char what[100];
    size_t i = 0;
    while (i < size && given[i] == due[i])
        i++;
    if (i < size) {
        snprintf(what, sizeof what, "byte %zu of %s is %02x where %02x is due", i, name, given[i], due[i]);
        wrong(what);
    }
}

static void judge_untouched(const uint8_t *bytes)
{
    for (size_t i = 0; i < AROUND; i++) {
        if (bytes[i] != UNTOUCHED) {
            wrong("the call wrote outside its room");
            return;
        }
    }
}

static void judge_room(const uint8_t *around, size_t size, const struct after *after)
{
    const uint8_t *room = around + AROUND;
    judge_untouched(around);
    judge_untouched(room + size);
    if (!after->is_sum)
        judge_bytes("the room", room, after->bytes.at, size);
    else if (sum_of(room, size) != after->sum)
        wrong("the sum of the room's bytes is another than the one that is due");
}

/* The room as it is before the call, with the bytes around it. */
static uint8_t *new_room(const struct bytes *before)
{
    uint8_t *around = allocate(AROUND + before->size + AROUND);
    memset(around, UNTOUCHED, AROUND + before->size + AROUND);
    memcpy(around + AROUND, before->at, before->size);
    return around;
}

/* Keeps the output of a seal for the next record; if it is none, as it has to be, that one does not hold either. */
static void keep_output(const uint8_t *room, size_t room_size, size_t length)
{
    release(&last);
    last_is_due = 1;
    last = copy_of(room, length <= room_size ? length : 0);
}

static void keep_nothing(void)
{
    release(&last);
    last_is_due = 0;
}

/* ---- prepared keys ---- */

#ifdef PREPARED_BYTES
enum { HAS_PREPARED = 1 };

static uint8_t prepared_around[AROUND + PREPARED_BYTES + AROUND];
static uint8_t *const prepared = prepared_around + AROUND;

/* Prepares a key, also for the call behind it. What comes is zeros exactly if it is refused. */
static uint32_t prepare(uint32_t cipher, const uint8_t *key, size_t key_size)
{
    size_t zeros = 0;
    memset(prepared_around, UNTOUCHED, sizeof prepared_around);
    uint32_t number = CALL(prepare)(cipher, key, key_size, prepared);
    judge_untouched(prepared_around);
    judge_untouched(prepared + PREPARED_BYTES);
    while (zeros < PREPARED_BYTES && prepared[zeros] == 0)
        zeros++;
    if ((number != 0) != (zeros == PREPARED_BYTES))
        wrong("a prepared key has to be zeros where preparing is refused, and nowhere else");
    return number;
}
#else
enum { HAS_PREPARED = 0 };
#endif

static void pass_over(void)
{
    passed_over++;
    keep_nothing();
}

static void prepare_record(void)
{
    uint32_t cipher = read_number("cipher");
    struct bytes key = read_bytes("key");
    uint32_t due = read_number("number");
#ifdef PREPARED_BYTES
    judge_number("the number", prepare(cipher, key.at, key.size), due);
    keep_nothing();
#else
    (void)cipher, (void)due;
    pass_over();
#endif
    release(&key);
}

/* ---- seal and open ---- */

struct sealing {
    int opens, is_prepared;
    uint32_t scheme, prepared_for, due, due_length;
    struct bytes key, nonce, header, text, before;
    struct after after;
};

static void read_sealing(struct sealing *s)
{
    s->scheme = read_number("scheme");
    s->prepared_for = s->is_prepared ? read_number("prepared") : 0;
    s->key = read_bytes("key");
    s->nonce = read_bytes("nonce");
    s->header = read_bytes("header");
    s->text = s->opens ? read_bytes_or_last("sealed", last_is_due ? &last : NULL) : read_bytes("body");
    s->before = read_bytes("room");
    s->due = read_number("number");
    s->due_length = read_number("length");
    s->after = read_after("after", s->before.size);
}

static void release_sealing(struct sealing *s)
{
    release(&s->key);
    release(&s->nonce);
    release(&s->header);
    release(&s->text);
    release(&s->before);
    release(&s->after.bytes);
}

static uint32_t call_sealing(const struct sealing *s, uint8_t *room, size_t *length)
{
#ifdef PREPARED_BYTES
    if (s->is_prepared) {
        prepare(s->prepared_for, s->key.at, s->key.size);
        return (s->opens ? CALL(open_prepared) : CALL(seal_prepared))(s->scheme, prepared, s->nonce.at, s->nonce.size, s->header.at,
                                                                      s->header.size, s->text.at, s->text.size, room,
                                                                      s->before.size, length);
    }
#endif
    return (s->opens ? CALL(open) : CALL(seal))(s->scheme, s->key.at, s->key.size, s->nonce.at, s->nonce.size, s->header.at,
                                                s->header.size, s->text.at, s->text.size, room, s->before.size, length);
}

static void try_sealing(const struct sealing *s)
{
    uint8_t *around = new_room(&s->before);
    uint8_t *room = around + AROUND;
    size_t length = SIZE_MAX;
    judge_number("the number", call_sealing(s, room, &length), s->due);
    judge_number("the length", length, s->due_length);
    judge_room(around, s->before.size, &s->after);
    if (!s->opens && s->due == 0)
        keep_output(room, s->before.size, length);
    else
        keep_nothing();
    free(around);
}

static void sealing_record(int opens, int is_prepared)
{
    struct sealing s = {.opens = opens, .is_prepared = is_prepared};
    read_sealing(&s);
    if (is_prepared && !HAS_PREPARED)
        pass_over();
    else
        try_sealing(&s);
    release_sealing(&s);
}

/* ---- fork and unfork ---- */

struct block {
    int back, is_prepared;
    uint32_t cipher, prepared_for, from, want, due;
    uint8_t key[16], tweak[16], block[16], due_first[16], due_second[16];
};

static void read_sixteen(const char *name, uint8_t block[16])
{
    struct bytes bytes = read_bytes(name);
    if (bytes.size != 16)
        damaged("a block, a tweak and its key have sixteen bytes");
    memcpy(block, bytes.at, 16);
    release(&bytes);
}

static void read_block(struct block *b)
{
    b->cipher = read_number("cipher");
    b->prepared_for = b->is_prepared ? read_number("prepared") : 0;
    read_sixteen("key", b->key);
    read_sixteen("tweak", b->tweak);
    read_sixteen("block", b->block);
    b->from = b->back ? read_number("from") : 0;
    b->want = read_number("want");
    b->due = read_number("number");
    read_sixteen(b->back ? "input" : "half0", b->due_first);
    read_sixteen(b->back ? "other" : "half1", b->due_second);
}

static uint32_t call_block(const struct block *b, uint8_t first[16], uint8_t second[16])
{
#ifdef PREPARED_BYTES
    if (b->is_prepared) {
        prepare(b->prepared_for, b->key, sizeof b->key);
        return b->back ? CALL(unfork_prepared)(b->cipher, prepared, b->tweak, b->block, b->from, b->want, first, second)
                       : CALL(fork_prepared)(b->cipher, prepared, b->tweak, b->block, b->want, first, second);
    }
#endif
    return b->back ? CALL(unfork)(b->cipher, b->key, b->tweak, b->block, b->from, b->want, first, second)
                   : CALL(fork)(b->cipher, b->key, b->tweak, b->block, b->want, first, second);
}

static void try_block(const struct block *b)
{
    uint8_t first[16], second[16];
    memset(first, UNTOUCHED, sizeof first);
    memset(second, UNTOUCHED, sizeof second);
    judge_number("the number", call_block(b, first, second), b->due);
    judge_bytes(b->back ? "the input" : "half 0", first, b->due_first, 16);
    judge_bytes(b->back ? "the other half" : "half 1", second, b->due_second, 16);
    keep_nothing();
}

static void block_record(int back, int is_prepared)
{
    struct block b = {.back = back, .is_prepared = is_prepared};
    read_block(&b);
    if (is_prepared && !HAS_PREPARED)
        pass_over();
    else
        try_block(&b);
}

/* ---- rounds ---- */

static void rounds_record(void)
{
    uint32_t scheme = read_number("scheme");
    uint32_t header_len = read_number("header_len");
    uint32_t body_len = read_number("body_len");
    uint32_t due = read_number("number");
    uint32_t due_rounds = read_number("rounds");

    uint32_t rounds = UINT32_MAX;
    uint32_t number = CALL(rounds)(scheme, header_len, body_len, &rounds);
    judge_number("the number", number, due);
    judge_number("the count of rounds", rounds, due_rounds);
    keep_nothing();
}

/* Whether the value is this call, by key or, if *is_prepared is so afterwards, with a prepared key. */
static int is_call(const char *value, const char *name, int *is_prepared)
{
    size_t size = strlen(name);
    if (strncmp(value, name, size) != 0)
        return 0;
    *is_prepared = strcmp(value + size, "_prepared") == 0;
    return *is_prepared || value[size] == '\0';
}

static void any_record(void)
{
    const char *call = read_value("call");
    int is_prepared;
    if (is_call(call, "seal", &is_prepared))
        sealing_record(0, is_prepared);
    else if (is_call(call, "open", &is_prepared))
        sealing_record(1, is_prepared);
    else if (is_call(call, "fork", &is_prepared))
        block_record(0, is_prepared);
    else if (is_call(call, "unfork", &is_prepared))
        block_record(1, is_prepared);
    else if (strcmp(call, "rounds") == 0)
        rounds_record();
    else if (strcmp(call, "prepare") == 0)
        prepare_record();
    else
        damaged("a call is seal, open, fork or unfork, any of them with _prepared behind it, rounds or prepare");
}

/* FIRST_ONLY ends the reading at the first record that does not hold, which is enough to refuse an implementation. */
#ifdef FIRST_ONLY
#define READS_ON (wrong_records == 0)
#else
#define READS_ON 1
#endif

int main(int count, char **arguments)
{
    if (count != 2) {
        fprintf(stderr, "reader: say which file holds the known answers, and nothing else\n");
        return 2;
    }
    open_file(arguments[1]);
    while (READS_ON && read_number_or_end("record", &record)) {
        record_line = line_number();
        record_is_wrong = 0;
        any_record();
        wrong_records += (unsigned long)record_is_wrong;
    }
    keep_nothing();
    if (wrong_records > 0) {
        printf("reader: %lu of %" PRIu32 " records do not hold\n", wrong_records, record);
        return 1;
    }
    printf("reader: all %" PRIu32 " records hold", record);
    if (passed_over > 0)
        printf(", but for %lu of prepared keys, which were passed over", passed_over);
    printf("\n");
    return 0;
}
