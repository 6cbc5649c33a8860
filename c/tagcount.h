/* How many tags a job prints: the one call of libtagjob.a. docs/C.md says how to build and link it. */
#ifndef TAGCOUNT_H
#define TAGCOUNT_H

#include <stddef.h>
#include <stdint.h>

#ifdef __cplusplus
extern "C" {
#endif

/* The bytes that the call asks of its two buffers, and the longest job. */
enum { TAG_ANSWER_BYTES = 13, TAG_WORK_BYTES = 1400, TAG_LONGEST_JOB = 60000 };

/*
 * Does the job on a new station (packed form store, roll, plain and Code 128 counting rule) and
 * returns how many tags the program tagrun prints for it. Nothing is asked of the caller but that
 * each pointer has as many bytes as it says (none: any pointer that is not null will do) and that
 * the three do not overlap.
 *
 * A job of more than TAG_LONGEST_JOB bytes, an answer buffer of fewer than TAG_ANSWER_BYTES and a
 * work buffer of fewer than TAG_WORK_BYTES return 0 and leave both buffers alone. Otherwise the
 * answer buffer begins with the last status answer of the job, if it asked for any, and the work
 * buffer with the last line or form that was written there; the bytes behind stay.
 */
uint32_t count_tags(const uint8_t *job, size_t job_bytes,
                    uint8_t *answer, size_t answer_bytes,
                    uint8_t *work, size_t work_bytes);

#ifdef __cplusplus
}
#endif

#endif
