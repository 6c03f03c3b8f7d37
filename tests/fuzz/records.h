/* Random records for seal and open: mostly such as the table takes. */
#ifndef FUZZ_RECORDS_H
#define FUZZ_RECORDS_H

#include "table.h"

/* The bytes of a field that are held; of a vast one, those at its front. */
size_t held(const struct field *f);

/* Makes one field vast, if none is yet: one buffer of a call can be. */
void make_vast(struct record *r, struct random *d);
int is_vast(const struct record *r);

struct field *some_field(struct record *r, struct random *d);

/* The scheme that sizes are drawn for: the record's, or some known one if there is no such scheme. */
const struct scheme *fitting(const struct record *r, struct random *d);

/* Whether a length shall be past its limit: the more rarely the higher that is, since there are as many bytes to fill and to watch. */
int past_limit(size_t limit, struct random *d);

/* A record to be sealed. */
void draw_record(struct record *r, struct random *d);

/* In place of the body a random run, mostly not shorter than a block. */
void draw_run(struct record *r, struct random *d);

void copy_record(struct record *to, const struct record *from);

/* Whether a changed record opens as the sealed one that it was: nothing did change, or the scheme alone, and that makes the same run. */
int opens_alike(const struct record *changed, const struct record *sealed);

#endif
