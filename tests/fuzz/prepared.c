#include "prepared.h"

#include "cases.h"
#include "records.h"
#include "report.h"

#include <string.h>

static struct guarded key_given, made;

/* One call. What comes of a key that is taken is not known beforehand the first time: then it is kept. */
static uint32_t prepare_once(uint32_t cipher, const struct field *key, uint8_t prepared[AURASKI_PREPARED], int known, struct random *d)
{
    uint32_t due = due_of_prepare(cipher, key->size);
    guarded_place(&key_given, key->size, 1, d);
    guarded_put(&key_given, key->bytes, held(key));
    guarded_place(&made, AURASKI_PREPARED, 1, d);
    report_call(PREPARE, "cipher %lu, key %zu", (unsigned long)cipher, key->size);
    dirty_stack(d);
    report_answer(PREPARE, auraski_prepare(cipher, key_given.bytes, key->size, made.bytes), due);
    if (due != 0) {
        memset(prepared, 0, AURASKI_PREPARED);
    } else if (!known) {
        memcpy(prepared, made.bytes, AURASKI_PREPARED);
    }
    memcpy(made.due, prepared, AURASKI_PREPARED);
    guarded_judge(&made, "prepared key");
    guarded_judge(&key_given, "key");
    return due;
}

int prepare(uint32_t cipher, const struct field *key, uint8_t prepared[AURASKI_PREPARED], struct random *d)
{
    prepare_once(cipher, key, prepared, 0, d);
    return prepare_once(cipher, key, prepared, 1, d) == 0;
}

int draw_prepared(uint32_t cipher, const struct field *key, uint8_t prepared[AURASKI_PREPARED], struct random *d)
{
    switch (below(d, 16)) {
    case 0:
        memset(prepared, 0, AURASKI_PREPARED);
        return 0;
    case 1:
        prepare(cipher == 1 ? 2 : 1, key, prepared, d);
        return 0;
    case 2:
    case 3:
        prepare(cipher, key, prepared, d);
        prepared[below(d, AURASKI_PREPARED)] ^= (uint8_t)(1 + below(d, 255));
        return 0;
    default:
        return prepare(cipher, key, prepared, d);
    }
}

/* Any cipher and any length of the key, so that both may be wrong. */
void prepare_case(struct random *d)
{
    static struct field key;
    uint8_t prepared[AURASKI_PREPARED];
    key.size = one_in(d, 2) ? KEY_SIZE : below(d, 40);
    fill(d, key.bytes, key.size);
    if (one_in(d, 8)) {
        key.size += VAST;
    }
    prepare(one_in(d, 2) ? some_number(d, 1, 2) : (uint32_t)below(d, 4), &key, prepared, d);
}
