/* Pages as text with what is asked of them, and how they are scanned to their end. */
#ifndef HOST_JOBS_H
#define HOST_JOBS_H

#include "tarredlath.h"

/* A page, what is looked for at its byte 0, and the verdicts that its questions are given in turn: `o` for OK, `u` for
   UNFINISHED and `e` for ERROR at the body's first byte, both with VERDICT_NUMBER. Without verdicts there is no source. */
struct job {
    const char *page;
    uint8_t construct;
    const char *verdicts;
};
#define VERDICT_NUMBER 77

/* The words that the tests lend for events, and the byte that all lent memory is filled with, so that what is written shows. */
#define JOB_WORDS 4096
#define UNTOUCHED 0xa5

/* More steps than any job here can make. */
#define STEPS_ENOUGH 100000

/* Jobs that reach each answer of a scan, and each kind of body, over several lines and with a split tab. */
extern const struct job sample_jobs[];
extern const size_t sample_jobs_count;

const uint8_t *job_bytes(const struct job *job);
size_t job_length(const struct job *job);
uint8_t job_flags(const struct job *job);

/* The job's first call, and all those that follow until it has ended or its verdicts are used up. Each call makes at most
   `allowance` steps. */
tarredlath_ran begin_job(const struct job *job, size_t allowance, uint32_t *events, size_t words);
tarredlath_ran end_job(const struct job *job, tarredlath_ran ran, size_t allowance, uint32_t *events, size_t words);

/* The whole job over a buffer of JOB_WORDS words, which is marked as untouched before. */
tarredlath_ran run_job(const struct job *job, size_t allowance, uint32_t *events);

/* The letter of a verdict as the number that a call takes. */
uint8_t verdict_of(char letter);

#endif
