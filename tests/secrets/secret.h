/* Bytes marked as secret: memcheck takes them, and all that is worked out from them, for undefined, and reports each address and each branch
 * that depends on one. */
#ifndef SECRETS_SECRET_H
#define SECRETS_SECRET_H

#include <stddef.h>

/* 1 if memcheck is there and tells a marked byte from others. Without it no call would show anything. */
int marking_works(void);

void make_secret(const void *bytes, size_t size);
void make_public(const void *bytes, size_t size);

/* Whether every one of these bytes depends on a secret; whether no bit of them does. */
int all_secret(const void *bytes, size_t size);
int none_secret(const void *bytes, size_t size);

/* What memcheck has reported so far. */
unsigned reports(void);

/* Makes a read at a secret place and a branch on a secret. 1 if memcheck reports each of them. */
int leaks_are_reported(void);

#endif
