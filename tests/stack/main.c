/* The stack that each entry point takes, on records of several lengths and on calls that are refused. Fails if one takes more than the bound,
 * or if the longest record takes another stack than the shortest. */
#include "tables.h"
#include "take.h"

#include <stdio.h>

int main(void)
{
    size_t most;
    make_ground(1 << 16);
    fill();
    puts("Bytes of stack from the call instruction on, in the deepest of the calls that a column names.\n");
    most = take_records();
    puts("");
    most = greater(most, take_blocks());
    puts("");
    most = greater(most, take_preparing());
    if (failures)
        return 1;
    printf("\nThe deepest takes %zu bytes. Each was made once more on a stack of %d bytes, the %d of arguments before the call included.\n",
           most, (int)AURASKI_STACK_BYTES, (int)ON_STACK);
    return 0;
}
