/* What count_tags does with buffers that are too short, and what it leaves in long enough ones. */
#include "tagcount.h"

#include <stdio.h>
#include <string.h>

enum { SPARE = 7 };

/* A status, a form with the text 0041, an issue of two tags. */
static const char job[] = "\033WS\n\0"
                          "\033PC001;0100,0050,1,1,A,00,B,M0,+0000000001,Z03=0041\n\0"
                          "\033XS;I,0002,0002C3000\n";
static const char told[] = "\001\002" "00" "1" "0000" "\003\004\r\n";
static const char line[] = "0002,0002,T01,0100,0050,  420\n";

static uint8_t answer[TAG_ANSWER_BYTES + SPARE];
static uint8_t work[TAG_WORK_BYTES + SPARE];
static int failed;

static void expect(int holds, const char *what) {
    if (!holds) {
        printf("buffers: not so: %s\n", what);
        failed = 1;
    }
}

/* Whether all bytes from a place on are those that were there before the call. */
static int untouched(const uint8_t *bytes, size_t from, size_t to) {
    while (from < to)
        if (bytes[from++] != 0xee)
            return 0;
    return 1;
}

static uint32_t count(size_t job_bytes, size_t answer_bytes, size_t work_bytes) {
    memset(answer, 0xee, sizeof answer);
    memset(work, 0xee, sizeof work);
    return count_tags((const uint8_t *)job, job_bytes, answer, answer_bytes, work, work_bytes);
}

int main(void) {
    size_t whole = sizeof job; /* with its last NUL */
    static uint8_t longer[TAG_LONGEST_JOB + 1];

    expect(count(whole, TAG_ANSWER_BYTES - 1, TAG_WORK_BYTES) == 0, "an answer buffer of 12 bytes prints nothing");
    expect(untouched(answer, 0, sizeof answer) && untouched(work, 0, sizeof work), "and stays as it was");
    expect(count(whole, TAG_ANSWER_BYTES, TAG_WORK_BYTES - 1) == 0, "a work buffer of 1399 bytes prints nothing");
    expect(untouched(answer, 0, sizeof answer) && untouched(work, 0, sizeof work), "and stays as it was");
    expect(count(0, sizeof answer, sizeof work) == 0, "an empty job prints nothing");

    expect(count(whole, sizeof answer, sizeof work) == 2, "the job prints two tags");
    expect(memcmp(answer, told, TAG_ANSWER_BYTES) == 0, "the answer buffer has the status");
    expect(untouched(answer, TAG_ANSWER_BYTES, sizeof answer), "bytes behind the status stay");
    expect(memcmp(work, line, sizeof line - 1) == 0, "the work buffer has the last line");
    expect(untouched(work, sizeof line - 1, sizeof work), "bytes behind the line stay");

    memcpy(longer, job, whole);
    memset(answer, 0xee, sizeof answer);
    memset(work, 0xee, sizeof work);
    expect(count_tags(longer, sizeof longer, answer, sizeof answer, work, sizeof work) == 0, "a job of 60001 bytes prints nothing");
    expect(untouched(answer, 0, sizeof answer) && untouched(work, 0, sizeof work), "and leaves both buffers");
    expect(count_tags(longer, sizeof longer - 1, answer, sizeof answer, work, sizeof work) == 2, "one of 60000 bytes prints its tags");

    if (!failed)
        puts("buffers: as they should be");
    return failed;
}
