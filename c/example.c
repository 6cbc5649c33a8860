/*
 * Counts the tags of a job before it is sent: so a till knows how many blank tags it wants.
 *
 *   example < JOB
 */
#include "tagcount.h"

#include <stdio.h>

int main(void) {
    /* One byte more than the longest job, so that a longer one is refused and not cut. */
    static uint8_t job[TAG_LONGEST_JOB + 1];
    uint8_t answer[TAG_ANSWER_BYTES];
    uint8_t work[TAG_WORK_BYTES];

    size_t bytes = fread(job, 1, sizeof job, stdin);
    if (ferror(stdin)) {
        perror("example");
        return 1;
    }
    printf("%lu\n", (unsigned long)count_tags(job, bytes, answer, sizeof answer, work, sizeof work));
    return 0;
}
