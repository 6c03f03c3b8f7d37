/* Changes of a sealed record, which open must notice. */
#ifndef FUZZ_DAMAGE_H
#define FUZZ_DAMAGE_H

#include "records.h"

/* Changes one thing in a record without a vast field. Sometimes there was nothing to change; opens_alike tells. */
void damage(struct record *r, struct random *d);

#endif
