/* The tables: each makes its calls, prints them and gives the greatest depth. */
#ifndef TABLES_H
#define TABLES_H

#include <stddef.h>

/* Seal, open and rounds. */
size_t take_records(void);

/* Fork and unfork. */
size_t take_blocks(void);

/* Preparing a key. */
size_t take_preparing(void);

#endif
