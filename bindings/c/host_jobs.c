#include <string.h>

#include "host_jobs.h"

const struct job sample_jobs[] = {
    {"{}", TARREDLATH_EXPRESSION, ""},
    {"{a{b}c}", TARREDLATH_EXPRESSION, ""},
    {"{a", TARREDLATH_EXPRESSION, ""},
    {"{a}b}", TARREDLATH_EXPRESSION, "uo"},
    {"{a}b", TARREDLATH_EXPRESSION, "u"},
    {"{a\n  b}", TARREDLATH_EXPRESSION, "e"},
    {"{a\n\tb}", TARREDLATH_EXPRESSION, "o"},
    {"<a b:c='d' {...e} f={g}\n/>", TARREDLATH_TAG, ""},
    {"<a b:c='d\ne' {...f} g={h}\n/>", TARREDLATH_TAG, "oo"},
    {"</ a . b . c >", TARREDLATH_TAG, ""},
    {"< a>", TARREDLATH_TAG, ""},
    {"<a.b:c>", TARREDLATH_TAG, ""},
    {"<a\xc3\xa9>", TARREDLATH_TAG, ""},
    {"<a b=\"c", TARREDLATH_TAG, ""},
    {"import a\nfrom b\n\nc", TARREDLATH_ESM, "o"},
    {"export a\n\nb\n\nc", TARREDLATH_ESM, "uo"},
    {"import a", TARREDLATH_ESM, "u"},
    {"import a", TARREDLATH_ESM, ""},
};
const size_t sample_jobs_count = sizeof sample_jobs / sizeof sample_jobs[0];

const uint8_t *job_bytes(const struct job *job) {
    return (const uint8_t *)job->page;
}

size_t job_length(const struct job *job) {
    return strlen(job->page);
}

uint8_t job_flags(const struct job *job) {
    return job->verdicts[0] == '\0' ? 0 : TARREDLATH_ASKS;
}

uint8_t verdict_of(char letter) {
    return letter == 'o' ? TARREDLATH_OK : letter == 'u' ? TARREDLATH_UNFINISHED : TARREDLATH_ERROR;
}

tarredlath_ran begin_job(const struct job *job, size_t allowance, uint32_t *events, size_t words) {
    size_t length = job_length(job);
    return tarredlath_scan_once(job_bytes(job), length, 0, length, 0, job->construct, TARREDLATH_FLOW, job_flags(job), allowance,
                                events, words);
}

tarredlath_ran end_job(const struct job *job, tarredlath_ran ran, size_t allowance, uint32_t *events, size_t words) {
    const char *verdicts = job->verdicts;
    for (;;) {
        if (ran.answer.number == TARREDLATH_ASKING && *verdicts != '\0') {
            ran = tarredlath_scan_give(ran.scan, verdict_of(*verdicts), VERDICT_NUMBER, 0);
            verdicts++;
        } else if (ran.answer.number != TARREDLATH_PAUSED) {
            return ran;
        }
        ran = tarredlath_scan_run(ran.scan, job_bytes(job), job_length(job), events, words, allowance);
    }
}

tarredlath_ran run_job(const struct job *job, size_t allowance, uint32_t *events) {
    memset(events, UNTOUCHED, JOB_WORDS * sizeof *events);
    return end_job(job, begin_job(job, allowance, events, JOB_WORDS), allowance, events, JOB_WORDS);
}
