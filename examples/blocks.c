/* A block forward, and back from each half, under both ciphers; and a refusal. */
#include <stdio.h>
#include <string.h>

#include "auraski.h"

static void show(const char *name, const uint8_t block[16])
{
    printf("  %-12s", name);
    for (int i = 0; i < 16; i++) {
        printf("%02x", block[i]);
    }
    printf("\n");
}

static int round_trip(uint32_t cipher, const char *name)
{
    uint8_t key[16], tweak[16], block[16], half[2][16], input[16], other[16];
    int size = cipher == AURASKI_64_192 ? 8 : 16;
    for (int i = 0; i < 16; i++) {
        key[i] = (uint8_t)i;
        tweak[i] = (uint8_t)(16 * i);
        block[i] = (uint8_t)(255 - i);
    }
    printf("%s\n", name);
    show("block", block);
    if (auraski_fork(cipher, key, tweak, block, AURASKI_BOTH, half[0], half[1]) != AURASKI_DONE) {
        return 1;
    }
    show("half 0", half[0]);
    show("half 1", half[1]);
    for (uint32_t from = 0; from < 2; from++) {
        if (auraski_unfork(cipher, key, tweak, half[from], from, AURASKI_BOTH, input, other) != AURASKI_DONE) {
            return 1;
        }
        if (memcmp(input, block, (size_t)size) != 0 || memcmp(other, half[1 - from], 16) != 0) {
            return 1;
        }
        printf("  from half %u: the input and the other half come out again\n", (unsigned)from);
    }
    return 0;
}

int main(void)
{
    uint8_t zero[16] = {0}, half0[16], half1[16];
    if (round_trip(AURASKI_64_192, "ForkSkinny-64-192") != 0 || round_trip(AURASKI_128_256, "ForkSkinny-128-256") != 0) {
        printf("a call did not do what auraski.h says\n");
        return 1;
    }
    printf("cipher 7 is refused with %u\n", (unsigned)auraski_fork(7, zero, zero, zero, AURASKI_BOTH, half0, half1));
    return 0;
}
