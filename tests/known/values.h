/* The lines of a file of known answers, one after the other, and the values in them. Whatever is not in the form that the file's top tells
 * ends the program with a sentence, the line and status 2. */
#ifndef KNOWN_VALUES_H
#define KNOWN_VALUES_H

#include <stddef.h>
#include <stdint.h>

/* So many bytes, and no more, so that a reading behind them can be seen by a tool that looks for it. */
struct bytes {
    uint8_t *at;
    size_t size;
};

/* What a room has to hold after a call: its bytes, or their sum. */
struct after {
    struct bytes bytes;
    int is_sum;
    uint64_t sum;
};

void open_file(const char *name);

/* The line that was read last, counted from 1. */
unsigned long line_number(void);

/* Each reads the next line that says something; it has to have this name. A value that is text is good until the next line is read.
 * `last` is NULL if the record before gave nothing that could stand here. */
const char *read_value(const char *name);
uint32_t read_number(const char *name);
struct bytes read_bytes(const char *name);
struct bytes read_bytes_or_last(const char *name, const struct bytes *last);
struct after read_after(const char *name, size_t size);

/* The number of the next record, which is one more than *number was; or 0 at the file's end, which has to tell of *number records. */
int read_number_or_end(const char *name, uint32_t *number);

uint64_t sum_of(const uint8_t *bytes, size_t size);

void *allocate(size_t size);
struct bytes copy_of(const uint8_t *bytes, size_t size);
void release(struct bytes *bytes);

/* Says in a sentence what is wrong with the line that was read last, and ends the program. */
void damaged(const char *what);

#endif
