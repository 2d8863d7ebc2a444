/* The bodies that scans ask about. */
#include <string.h>

#include "host_checks.h"
#include "host_jobs.h"
#include "host_parts.h"

static uint32_t events[JOB_WORDS];
static uint8_t scratch[32];
static uint8_t untouched[32];

static tarredlath_body first_body(const struct job *job, size_t scratch_length) {
    tarredlath_ran ran = begin_job(job, STEPS_ENOUGH, events, JOB_WORDS);
    begin_check("body", job->page);
    check_number("answer", TARREDLATH_ASKING, ran.answer.number);
    memset(scratch, UNTOUCHED, sizeof scratch);
    memset(untouched, UNTOUCHED, sizeof untouched);
    return tarredlath_scan_body(ran.scan, job_bytes(job), job_length(job), scratch, scratch_length);
}

static tarredlath_body body_is(uint8_t number, uint8_t kind, size_t at, size_t length) {
    tarredlath_body body = {0};
    body.number = number;
    body.kind = kind;
    body.at = at;
    body.length = length;
    return body;
}

/* Where there is none. */
static tarredlath_body no_body(void) {
    return body_is(TARREDLATH_BAD_CALL, TARREDLATH_NO_BODY, 0, 0);
}

/* A body without a line prefix inside is a part of the page, and needs no scratch. */
static void check_in_page(const char *page, uint8_t construct, uint8_t kind, size_t at, size_t length) {
    struct job job = {NULL, 0, "o"};
    job.page = page;
    job.construct = construct;
    check_body(body_is(TARREDLATH_IN_PAGE, kind, at, length), first_body(&job, 0));
    check_bytes("scratch", untouched, scratch, sizeof scratch);
}

/* One with a line prefix is copied to the front of the scratch, whose other bytes stay; where it does not fit, all of them. */
static void check_in_scratch(const char *page, uint8_t construct, uint8_t kind, const char *text) {
    struct job job = {NULL, 0, "o"};
    size_t length = strlen(text);
    size_t enough;
    job.page = page;
    job.construct = construct;
    enough = job_length(&job) + job_length(&job) / 2;
    check_body(body_is(TARREDLATH_IN_SCRATCH, kind, 0, length), first_body(&job, enough));
    check_bytes("body", text, scratch, length);
    check_bytes("scratch behind the body", untouched, scratch + length, sizeof scratch - length);
    check_body(body_is(TARREDLATH_IN_SCRATCH, kind, 0, length), first_body(&job, length));
    check_bytes("body in a scratch just long enough", text, scratch, length);
    check_body(no_body(), first_body(&job, length - 1));
    check_bytes("scratch that is too short", untouched, scratch, sizeof scratch);
}

/* A scan that does not ask has no body, and one that does has none on a page of another length. */
static void check_no_body(void) {
    const struct job counting = {"{a\n  b}", TARREDLATH_EXPRESSION, ""};
    const struct job asking = {"{a\n  b}", TARREDLATH_EXPRESSION, "o"};
    tarredlath_ran ran = begin_job(&counting, STEPS_ENOUGH, events, JOB_WORDS);
    size_t length = job_length(&counting);
    memset(scratch, UNTOUCHED, sizeof scratch);
    begin_check("body", "of a scan that has ended");
    check_body(no_body(), tarredlath_scan_body(ran.scan, job_bytes(&counting), length, scratch, sizeof scratch));
    ran = begin_job(&asking, 3, events, JOB_WORDS);
    begin_check("body", "of a scan that is paused");
    check_body(no_body(), tarredlath_scan_body(ran.scan, job_bytes(&asking), length, scratch, sizeof scratch));
    ran = begin_job(&asking, STEPS_ENOUGH, events, JOB_WORDS);
    begin_check("body", "on a page of another length");
    check_body(no_body(), tarredlath_scan_body(ran.scan, job_bytes(&asking), length - 1, scratch, sizeof scratch));
    check_bytes("scratch", untouched, scratch, sizeof scratch);
}

void check_bodies(void) {
    check_in_page("{a}", TARREDLATH_EXPRESSION, TARREDLATH_BODY_EXPRESSION, 1, 1);
    check_in_page("{}", TARREDLATH_EXPRESSION, TARREDLATH_BODY_EXPRESSION, 1, 0);
    check_in_page("{a\nb}", TARREDLATH_EXPRESSION, TARREDLATH_BODY_EXPRESSION, 1, 3);
    check_in_page("<a {b}>", TARREDLATH_TAG, TARREDLATH_BODY_ATTRIBUTE_EXPRESSION, 4, 1);
    check_in_page("<a b={c}>", TARREDLATH_TAG, TARREDLATH_BODY_ATTRIBUTE_VALUE, 6, 1);
    check_in_page("import a\n\nb", TARREDLATH_ESM, TARREDLATH_BODY_ESM, 0, 8);
    check_in_scratch("{a\n  b}", TARREDLATH_EXPRESSION, TARREDLATH_BODY_EXPRESSION, "a\nb");
    check_in_scratch("{a\n\tb}", TARREDLATH_EXPRESSION, TARREDLATH_BODY_EXPRESSION, "a\n  b");
    check_in_scratch("<a {b\n  c}>", TARREDLATH_TAG, TARREDLATH_BODY_ATTRIBUTE_EXPRESSION, "b\nc");
    check_in_scratch("<a b={c\n  d}>", TARREDLATH_TAG, TARREDLATH_BODY_ATTRIBUTE_VALUE, "c\nd");
    check_no_body();
}
