/* Cases of seal and open: a record is sealed, sealed again in another room, and opened, as it is or damaged; each time by key and then with a
 * prepared key. */
#include "cases.h"
#include "damage.h"
#include "prepared.h"
#include "report.h"

#include <string.h>

static struct guarded key, nonce, header, text, room, length;
static const uint8_t zeros[LONGEST];

static void place_field(struct guarded *g, const struct field *f, struct random *d)
{
    guarded_place(g, f->size, 1, d);
    guarded_put(g, f->bytes, held(f));
}

/* All but the key. */
static void place(const struct record *r, size_t room_size, struct random *d)
{
    place_field(&nonce, &r->nonce, d);
    place_field(&header, &r->header, d);
    place_field(&text, &r->text, d);
    guarded_place(&room, room_size, 1, d);
    guarded_place(&length, sizeof(size_t), sizeof(size_t), d);
}

/* The number that the entry answers to what was placed. */
static uint32_t answer(enum entry entry, uint32_t scheme)
{
    if (entry == SEAL || entry == OPEN) {
        return (entry == SEAL ? auraski_seal : auraski_open)(scheme, key.bytes, key.size, nonce.bytes, nonce.size, header.bytes, header.size,
                                                             text.bytes, text.size, room.bytes, room.size, (size_t *)length.bytes);
    }
    return (entry == SEAL_PREPARED ? auraski_seal_prepared : auraski_open_prepared)(
        scheme, key.bytes, nonce.bytes, nonce.size, header.bytes, header.size, text.bytes, text.size, room.bytes, room.size,
        (size_t *)length.bytes);
}

/* Seals or opens, in a new place but for the key: the number that is answered must be the one that is due. */
static void call(enum entry entry, const struct record *r, size_t room_size, uint32_t due, struct random *d)
{
    place(r, room_size, d);
    report_call(entry, "scheme %lu, key %zu, nonce %zu, header %zu, text %zu, room %zu", (unsigned long)r->scheme, key.size, nonce.size,
                header.size, text.size, room.size);
    dirty_stack(d);
    report_answer(entry, answer(entry, r->scheme), due);
}

/* Judges what the call left: so many bytes told, `changed` bytes of the room as they must be now, and nothing else touched. */
static void judge(size_t told, const uint8_t *front, size_t changed)
{
    memcpy(length.due, &told, sizeof told);
    memcpy(room.due, front, changed);
    guarded_judge(&length, "length");
    guarded_judge(&room, "room");
    guarded_judge(&key, "key");
    guarded_judge(&nonce, "nonce");
    guarded_judge(&header, "header");
    guarded_judge(&text, "text");
}

/* Puts what the call gets for its key to a new place: the key. Whether it fits. */
static int place_key(const struct record *r, struct random *d)
{
    place_field(&key, &r->key, d);
    return r->key.size == KEY_SIZE;
}

/* The same with a prepared key. */
static int place_prepared(const struct record *r, struct random *d)
{
    uint8_t prepared[AURASKI_PREPARED];
    int admitted = draw_prepared(fitting(r, d)->cipher, &r->key, prepared, d);
    guarded_place(&key, sizeof prepared, 1, d);
    guarded_put(&key, prepared, sizeof prepared);
    return admitted;
}

/* Seals, with a key that was placed. If the run is not known yet (its size is 0), whatever stands at the front of the room is taken for it. */
static uint32_t seal_with(enum entry entry, const struct record *r, int key_fits, size_t room_size, struct field *run, struct random *d)
{
    uint32_t due = due_of_seal(r, key_fits, room_size);
    call(entry, r, room_size, due, d);
    if (due != 0) {
        judge(0, zeros, 0);
        return due;
    }
    if (run->size == 0) {
        run->size = r->text.size + scheme_of(r->scheme)->block;
        memcpy(run->bytes, room.bytes, run->size);
    }
    judge(run->size, run->bytes, run->size);
    return due;
}

/* Both ways: the number of the seal by key. */
static uint32_t seal_once(const struct record *r, size_t room_size, struct field *run, struct random *d)
{
    uint32_t number = seal_with(SEAL, r, place_key(r, d), room_size, run, d);
    seal_with(SEAL_PREPARED, r, place_prepared(r, d), room_size, run, d);
    return number;
}

/* Opens, with a key that was placed. If the record is as it was sealed, this is the body that must come. */
static void open_with(enum entry entry, const struct record *r, int key_fits, size_t room_size, const struct field *body, struct random *d)
{
    uint32_t due = due_of_open(r, key_fits, room_size, body != NULL);
    call(entry, r, room_size, due, d);
    if (due == 0) {
        judge(body->size, body->bytes, body->size);
    } else {
        judge(0, zeros, due == 6 ? r->text.size - scheme_of(r->scheme)->block : 0);
    }
}

/* A room for an output of so many bytes: mostly exact or larger. */
static size_t some_room(const struct record *r, size_t output, struct random *d)
{
    if (one_in(d, 200) && !is_vast(r)) {
        return output + VAST;
    }
    switch (below(d, 20)) {
    case 0:
        return output > 0 ? output - 1 : 0;
    case 1:
        return 0;
    case 2:
        return below(d, output + 1);
    default:
        return one_in(d, 2) ? output : output + below(d, 100);
    }
}

static void open_some(const struct record *r, const struct field *body, struct random *d)
{
    size_t block = fitting(r, d)->block;
    size_t output = held(&r->text) < block ? 0 : held(&r->text) - block;
    size_t room_size = some_room(r, output, d);
    open_with(OPEN, r, place_key(r, d), room_size, body, d);
    open_with(OPEN_PREPARED, r, place_prepared(r, d), room_size, body, d);
}

void sealing_case(struct random *d)
{
    static struct record record, sealed, changed;
    static struct field run;
    draw_record(&record, d);
    size_t output = held(&record.text) + fitting(&record, d)->block;
    run.size = 0;
    if (seal_once(&record, some_room(&record, output, d), &run, d) != 0) {
        draw_run(&record, d);
        open_some(&record, NULL, d);
        return;
    }
    seal_once(&record, output + (one_in(d, 2) ? 0 : below(d, 100)), &run, d);
    copy_record(&sealed, &record);
    sealed.text.size = run.size;
    memcpy(sealed.text.bytes, run.bytes, run.size);
    open_some(&sealed, &record.text, d);
    for (size_t opens = 1 + below(d, 3); opens > 0; opens--) {
        copy_record(&changed, &sealed);
        damage(&changed, d);
        open_some(&changed, opens_alike(&changed, &sealed) ? &record.text : NULL, d);
    }
}
