#include "values.h"

#include <stdio.h>
#include <stdlib.h>
#include <string.h>

enum { LONGEST_LINE = 255, LONGEST_STRING = 1048596 };

static const char *file_name;
static FILE *file;
static unsigned long lines;
/* The line, its end and a byte to see that it is too long. */
static char line[LONGEST_LINE + 3];

void damaged(const char *what)
{
    fprintf(stderr, "reader: %s, line %lu: %s\n", file_name, lines, what);
    exit(2);
}

void open_file(const char *name)
{
    file_name = name;
    file = fopen(name, "rb");
    if (file == NULL) {
        fprintf(stderr, "reader: %s can't be opened\n", name);
        exit(2);
    }
}

unsigned long line_number(void)
{
    return lines;
}

void *allocate(size_t size)
{
    void *memory = malloc(size > 0 ? size : 1);
    if (memory == NULL) {
        fprintf(stderr, "reader: no memory\n");
        exit(2);
    }
    return memory;
}

struct bytes copy_of(const uint8_t *bytes, size_t size)
{
    struct bytes copy = {allocate(size), size};
    memcpy(copy.at, bytes, size);
    return copy;
}

void release(struct bytes *bytes)
{
    free(bytes->at);
    bytes->at = NULL;
    bytes->size = 0;
}

/* Whether there is a further line; it is without its end then. */
static int any_line(void)
{
    size_t size = 0;
    int c;
    lines++;
    while ((c = getc(file)) != EOF && c != '\n' && c != '\0' && size <= LONGEST_LINE)
        line[size++] = (char)c;
    line[size] = '\0';
    if (c == EOF && size == 0 && !ferror(file))
        return 0;
    if (size > LONGEST_LINE)
        damaged("a line has 255 characters at most");
    if (c != '\n')
        damaged("the file is cut off, or is no text");
    return 1;
}

/* The same, and it says something. */
static int next_line(void)
{
    while (any_line()) {
        if (line[0] != '#' && line[0] != '\0')
            return 1;
    }
    return 0;
}

/* What stands behind the name, if the line has it, and else NULL. */
static const char *value_of(const char *name)
{
    size_t size = strlen(name);
    return strncmp(line, name, size) == 0 && strncmp(line + size, " = ", 3) == 0 ? line + size + 3 : NULL;
}

const char *read_value(const char *name)
{
    char what[80];
    const char *value = next_line() ? value_of(name) : NULL;
    if (value == NULL) {
        snprintf(what, sizeof what, "here has to stand: %s = ..", name);
        damaged(what);
    }
    return value;
}

/* A decimal number of 32 bits at the front of the text, and where it ends. */
static uint32_t number_at(const char *text, const char **end)
{
    uint64_t number = 0;
    const char *c = text;
    for (; *c >= '0' && *c <= '9' && number <= UINT32_MAX; c++)
        number = 10 * number + (uint64_t)(*c - '0');
    if (c == text || (*text == '0' && c != text + 1) || number > UINT32_MAX)
        damaged("here has to stand a number from 0 to 4294967295, without a 0 before it");
    *end = c;
    return (uint32_t)number;
}

static uint32_t whole_number(const char *text)
{
    const char *end;
    uint32_t number = number_at(text, &end);
    if (*end != '\0')
        damaged("something stands behind the number");
    return number;
}

uint32_t read_number(const char *name)
{
    return whole_number(read_value(name));
}

int read_number_or_end(const char *name, uint32_t *number)
{
    const char *end = next_line() ? value_of("end") : NULL;
    if (end != NULL) {
        if (whole_number(end) != *number)
            damaged("there are not as many records as the file's end says");
        if (next_line())
            damaged("something stands behind the file's end");
        return 0;
    }
    const char *value = value_of(name);
    if (value == NULL || whole_number(value) != *number + 1)
        damaged("here has to stand the next record's number, or the end");
    *number += 1;
    return 1;
}

static int digit(char c)
{
    if (c >= '0' && c <= '9')
        return c - '0';
    return c >= 'a' && c <= 'f' ? c - 'a' + 10 : -1;
}

static int byte_at(const char *text)
{
    if (digit(text[0]) < 0 || digit(text[1]) < 0)
        damaged("here has to stand a byte string: hex in pairs of small digits, or 61*10, with one space between, or - alone");
    return 16 * digit(text[0]) + digit(text[1]);
}

/* One part of a byte string behind the bytes that are there, and where it ends. */
static const char *read_part(const char *text, uint8_t *string, size_t *size)
{
    size_t count = 1;
    int counted = digit(text[0]) >= 0 && digit(text[1]) >= 0 && text[2] == '*';
    do {
        int byte = byte_at(text);
        text += 2;
        if (counted)
            count = number_at(text + 1, &text);
        if (count > LONGEST_STRING - *size)
            damaged("a byte string has 1,048,596 bytes at most");
        memset(string + *size, byte, count);
        *size += count;
    } while (!counted && *text != '\0' && *text != ' ');
    return text;
}

static struct bytes string_of(const char *text)
{
    static uint8_t string[LONGEST_STRING];
    size_t size = 0;
    if (strcmp(text, "-") == 0)
        return copy_of(string, 0);
    text = read_part(text, string, &size);
    while (*text == ' ')
        text = read_part(text + 1, string, &size);
    if (*text != '\0')
        damaged("something stands behind a part of a byte string");
    return copy_of(string, size);
}

struct bytes read_bytes(const char *name)
{
    return string_of(read_value(name));
}

struct bytes read_bytes_or_last(const char *name, const struct bytes *last)
{
    const char *value = read_value(name);
    if (strcmp(value, "last") != 0)
        return string_of(value);
    if (last == NULL)
        damaged("the record before is no seal that is answered with 0");
    return copy_of(last->at, last->size);
}

uint64_t sum_of(const uint8_t *bytes, size_t size)
{
    uint64_t sum = UINT64_C(0xcbf29ce484222325);
    for (size_t i = 0; i < size; i++)
        sum = (sum ^ bytes[i]) * UINT64_C(0x100000001b3);
    return sum;
}

/* Sixteen digits and nothing more. */
static uint64_t sum_at(const char *text)
{
    uint64_t sum = 0;
    size_t digits = strspn(text, "0123456789abcdef");
    if (digits != 16 || text[digits] != '\0')
        damaged("a sum has sixteen digits of hex, the last of the line");
    for (; *text != '\0'; text++)
        sum = sum << 4 | (uint64_t)digit(*text);
    return sum;
}

struct after read_after(const char *name, size_t size)
{
    struct after after = {{NULL, 0}, 0, 0};
    const char *value = read_value(name);
    size_t told;
    if (strncmp(value, "sum ", 4) == 0) {
        told = number_at(value + 4, &value);
        if (*value != ' ')
            damaged("behind the count of a sum stand a space and the sum");
        after.is_sum = 1;
        after.sum = sum_at(value + 1);
    } else {
        after.bytes = string_of(value);
        told = after.bytes.size;
    }
    if (told != size)
        damaged("a room is as long after the call as it was before");
    return after;
}
