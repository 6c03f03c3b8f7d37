#include "secret.h"

#include <stdint.h>
#include <valgrind/memcheck.h>

void make_secret(const void *bytes, size_t size)
{
    VALGRIND_MAKE_MEM_UNDEFINED(bytes, size);
}

void make_public(const void *bytes, size_t size)
{
    VALGRIND_MAKE_MEM_DEFINED(bytes, size);
}

/* How many of the bytes have a bit that depends on a secret. */
static size_t secret_bytes(const uint8_t *bytes, size_t size)
{
    size_t count = 0;
    for (size_t i = 0; i < size; i++) {
        uint8_t undefined = 0;
        VALGRIND_GET_VBITS(bytes + i, &undefined, 1);
        count += undefined != 0;
    }
    return count;
}

int all_secret(const void *bytes, size_t size)
{
    return secret_bytes(bytes, size) == size;
}

int none_secret(const void *bytes, size_t size)
{
    return secret_bytes(bytes, size) == 0;
}

unsigned reports(void)
{
    return VALGRIND_COUNT_ERRORS;
}

int marking_works(void)
{
    uint8_t bytes[2] = {1, 2}, sum;
    if (!RUNNING_ON_VALGRIND || !none_secret(bytes, 2)) {
        return 0;
    }
    make_secret(bytes, 1);
    sum = bytes[0] ^ bytes[1];
    int known = all_secret(bytes, 1) && none_secret(bytes + 1, 1) && all_secret(&sum, 1);
    make_public(bytes, 1);
    return known && none_secret(bytes, 2);
}

/* ---- leaks on purpose; volatile, so that no compiler does without the read or the branch ---- */

static volatile uint8_t table[256], seen;

static void read_at(uint8_t secret)
{
    seen = table[secret];
}

static void branch_on(uint8_t secret)
{
    if (secret == 0x5a) {
        seen = 1;
    }
}

static int is_reported(void (*leak)(uint8_t))
{
    uint8_t secret = 0x5a;
    unsigned before = reports();
    make_secret(&secret, 1);
    leak(secret);
    return reports() == before + 1;
}

int leaks_are_reported(void)
{
    return is_reported(read_at) & is_reported(branch_on);
}
