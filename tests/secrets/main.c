/* secrets [--answers | --leaks]: every call with its secrets marked, under memcheck (tools/secrets). With --answers a call may be reported for
 * its answer (tally.h). With --leaks no call is made, but a read and a branch on purpose, which memcheck has to report. */
#include "cases.h"
#include "secret.h"
#include "tally.h"

#include <stdio.h>
#include <string.h>

int main(int count, char **words)
{
    const char *word = count == 2 ? words[1] : "";
    if (!marking_works()) {
        fprintf(stderr, "secrets: not under memcheck, or it does not know a byte that is marked as secret\n");
        return 2;
    }
    if (strcmp(word, "--leaks") == 0) {
        return !leaks_are_reported();
    }
    if (strcmp(word, "--answers") == 0) {
        tally_allow_answers();
    }
    record_cases();
    block_cases();
    return tally_told();
}
