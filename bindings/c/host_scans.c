/* Single scans: the bench cases, events, pauses, refusals. */
#include <string.h>

#include "host_checks.h"
#include "host_jobs.h"
#include "host_parts.h"

static uint32_t events[JOB_WORDS];
static uint32_t other_events[JOB_WORDS];

/* ---- numbers about the library -------------------------------------------------------------------------------------- */

static void check_words(size_t length, uint8_t number, size_t words) {
    tarredlath_words found = tarredlath_words_enough(length);
    check_number("number", number, found.number);
    check_number("words", words, found.words);
}

static void check_library(void) {
    begin_check("library", "version");
    check_number("version", TARREDLATH_VERSION, tarredlath_version());
    begin_check("library", "words enough");
    check_words(0, TARREDLATH_WORDS, 24);
    check_words(1000, TARREDLATH_WORDS, 24024);
    check_words(TARREDLATH_PAGE_LIMIT, TARREDLATH_WORDS, 24 * ((size_t)TARREDLATH_PAGE_LIMIT + 1));
    check_words((size_t)TARREDLATH_PAGE_LIMIT + 1, TARREDLATH_TOO_LONG, 0);
    check_words((size_t)-1, TARREDLATH_TOO_LONG, 0);
}

/* ---- the bench cases of docs/SCOPE.md ------------------------------------------------------------------------------- */

struct bench {
    struct job job;
    uint8_t number;
    size_t place; /* all on line 1 */
    uint8_t where;
    uint8_t note;
    size_t steps;
    size_t events;
};

static const struct bench benches[] = {
    {{"{}", TARREDLATH_EXPRESSION, ""}, TARREDLATH_DONE, 2, 0, 0, 2, 6},
    {{"{a}", TARREDLATH_EXPRESSION, ""}, TARREDLATH_DONE, 3, 0, 0, 5, 8},
    {{"{a{b}c}", TARREDLATH_EXPRESSION, ""}, TARREDLATH_DONE, 7, 0, 0, NOT_GIVEN, NOT_GIVEN},
    {{"{a", TARREDLATH_EXPRESSION, ""}, TARREDLATH_EOF, 2, 19, 0, NOT_GIVEN, NOT_GIVEN},
    {{"{a}b}", TARREDLATH_EXPRESSION, ""}, TARREDLATH_DONE, 3, 0, 0, NOT_GIVEN, NOT_GIVEN},
    {{"{a}b}", TARREDLATH_EXPRESSION, "uo"}, TARREDLATH_DONE, 5, 0, 0, NOT_GIVEN, NOT_GIVEN},
    {{"<a>", TARREDLATH_TAG, ""}, TARREDLATH_DONE, 3, 0, 0, 9, 10},
    {{"<>", TARREDLATH_TAG, ""}, TARREDLATH_DONE, 2, 0, 0, 5, 6},
    {{"< a>", TARREDLATH_TAG, ""}, TARREDLATH_NOK, 0, 0, 0, NOT_GIVEN, NOT_GIVEN},
    {{"<a.b:c>", TARREDLATH_TAG, ""}, TARREDLATH_UNEXPECTED, 4, 5, 0, NOT_GIVEN, NOT_GIVEN},
    {{"<a:b.c>", TARREDLATH_TAG, ""}, TARREDLATH_UNEXPECTED, 4, 8, 0, NOT_GIVEN, NOT_GIVEN},
    {{"<a b=\"c\">", TARREDLATH_TAG, ""}, TARREDLATH_DONE, 9, 0, 0, NOT_GIVEN, NOT_GIVEN},
    {{"<a b=<", TARREDLATH_TAG, ""}, TARREDLATH_UNEXPECTED, 5, 16, 4, NOT_GIVEN, NOT_GIVEN},
    {{"<!--", TARREDLATH_TAG, ""}, TARREDLATH_UNEXPECTED, 1, 1, 1, NOT_GIVEN, NOT_GIVEN},
    {{"<a b=\"c", TARREDLATH_TAG, ""}, TARREDLATH_EOF, 7, 17, 0, NOT_GIVEN, NOT_GIVEN},
    {{"import a", TARREDLATH_ESM, "o"}, TARREDLATH_DONE, 8, 0, 0, NOT_GIVEN, NOT_GIVEN},
    {{"imports a", TARREDLATH_ESM, "o"}, TARREDLATH_NOK, 0, 0, 0, NOT_GIVEN, NOT_GIVEN},
};

/* An end and a Nok carry no line. */
static tarredlath_answer bench_answer(const struct bench *bench) {
    int has_line = bench->number != TARREDLATH_DONE && bench->number != TARREDLATH_NOK;
    tarredlath_answer answer = {0};
    answer.number = bench->number;
    answer.place = bench->place;
    answer.line = has_line ? 1 : 0;
    answer.column = has_line ? bench->place + 1 : 0;
    answer.where = bench->where;
    answer.note = bench->note;
    answer.steps = bench->steps;
    answer.events = bench->events;
    return answer;
}

static void check_benches(void) {
    size_t i;
    for (i = 0; i < sizeof benches / sizeof benches[0]; i++) {
        begin_check("bench case", benches[i].job.page);
        check_answer(bench_answer(&benches[i]), run_job(&benches[i].job, STEPS_ENOUGH, events).answer);
    }
}

/* ---- answers that the bench cases do not have ----------------------------------------------------------------------- */

static void check_spot(struct job job, uint8_t number, size_t place, size_t line, size_t column, uint32_t verdict) {
    tarredlath_answer expected = {0};
    begin_check("answer", job.page);
    expected.number = number;
    expected.place = place;
    expected.line = line;
    expected.column = column;
    expected.verdict = verdict;
    expected.events = NOT_GIVEN;
    expected.steps = NOT_GIVEN;
    check_answer(expected, run_job(&job, STEPS_ENOUGH, events).answer);
}

static void check_other_answers(void) {
    struct job not_ascii = {"<a\xc3\xa9>", TARREDLATH_TAG, ""};
    struct job wrong = {"{\na}", TARREDLATH_EXPRESSION, "e"};
    struct job cut_off = {"{a}\nb", TARREDLATH_EXPRESSION, "u"};
    struct job asked = {"{a\nb}", TARREDLATH_EXPRESSION, "u"};
    check_spot(not_ascii, TARREDLATH_NOT_ASCII, 2, 1, 3, 0);
    check_spot(wrong, TARREDLATH_VERDICT_ERROR, 1, 1, 2, VERDICT_NUMBER);
    check_spot(cut_off, TARREDLATH_VERDICT_EOF, 5, 2, 2, VERDICT_NUMBER);
    check_spot(asked, TARREDLATH_VERDICT_EOF, 5, 2, 3, VERDICT_NUMBER);
}

/* A buffer of n events takes what fits, and its last words stay as they were. */
static void check_full(void) {
    const struct job job = {"{a}", TARREDLATH_EXPRESSION, ""};
    tarredlath_ran ran;
    begin_check("full", job.page);
    memset(events, UNTOUCHED, sizeof events);
    memset(other_events, UNTOUCHED, sizeof other_events);
    ran = begin_job(&job, STEPS_ENOUGH, events, 3 * TARREDLATH_EVENT_WORDS + 1);
    check_number("number", TARREDLATH_FULL, ran.answer.number);
    check_number("events", 3, ran.answer.events);
    check_bytes("words behind the events", other_events, events + 3 * TARREDLATH_EVENT_WORDS,
                sizeof events - 3 * TARREDLATH_EVENT_WORDS * sizeof *events);
}

/* ---- events --------------------------------------------------------------------------------------------------------- */

static void check_event(size_t index, uint32_t kind, uint32_t is_exit, uint32_t tab, size_t offset, size_t line, size_t column) {
    const uint32_t *event = events + TARREDLATH_EVENT_WORDS * index;
    check_number("kind", kind, TARREDLATH_EVENT_KIND(event[0]));
    check_number("exit", is_exit, TARREDLATH_EVENT_EXIT(event[0]));
    check_number("tab", tab, TARREDLATH_EVENT_TAB(event[0]));
    check_number("offset", offset, event[1]);
    check_number("line", line, event[2]);
    check_number("column", column, event[3]);
}

/* By the two examples of docs/LISTING.md: the second has a tab that a line prefix splits. */
static void check_events(void) {
    const struct job plain = {"{}", TARREDLATH_EXPRESSION, ""};
    const struct job split = {"{\n\ta}", TARREDLATH_EXPRESSION, ""};
    begin_check("events", "{}");
    run_job(&plain, STEPS_ENOUGH, events);
    check_event(0, TARREDLATH_KIND_FLOW_EXPRESSION, 0, 0, 0, 1, 1);
    check_event(1, TARREDLATH_KIND_EXPRESSION_MARKER, 0, 0, 0, 1, 1);
    check_event(2, TARREDLATH_KIND_EXPRESSION_MARKER, 1, 0, 1, 1, 2);
    check_event(3, TARREDLATH_KIND_EXPRESSION_MARKER, 0, 0, 1, 1, 2);
    check_event(4, TARREDLATH_KIND_EXPRESSION_MARKER, 1, 0, 2, 1, 3);
    check_event(5, TARREDLATH_KIND_FLOW_EXPRESSION, 1, 0, 2, 1, 3);
    begin_check("events", "a split tab");
    run_job(&split, STEPS_ENOUGH, events);
    check_event(5, TARREDLATH_KIND_LINE_PREFIX, 0, 0, 2, 2, 1);
    check_event(6, TARREDLATH_KIND_LINE_PREFIX, 1, 2, 2, 2, 3);
    check_event(7, TARREDLATH_KIND_EXPRESSION_DATA, 0, 2, 2, 2, 3);
    check_event(8, TARREDLATH_KIND_EXPRESSION_DATA, 1, 0, 4, 2, 6);
}

/* Text in place of flow changes the name of the outer event alone. */
static void check_text_kind(void) {
    const uint8_t *page = (const uint8_t *)"a {b}";
    tarredlath_ran ran;
    begin_check("events", "text, from byte 2 on");
    ran = tarredlath_scan_once(page, 5, 0, 5, 2, TARREDLATH_EXPRESSION, TARREDLATH_TEXT, 0, STEPS_ENOUGH, events, JOB_WORDS);
    check_number("number", TARREDLATH_DONE, ran.answer.number);
    check_event(0, TARREDLATH_KIND_TEXT_EXPRESSION, 0, 0, 2, 1, 3);
    check_event(7, TARREDLATH_KIND_TEXT_EXPRESSION, 1, 0, 5, 1, 6);
}

/* ---- pauses --------------------------------------------------------------------------------------------------------- */

/* A scan that makes one step a call comes to the same answer and the same words as one that is not paused. */
static void check_paused(const struct job *job) {
    tarredlath_ran at_once = run_job(job, STEPS_ENOUGH, events);
    tarredlath_ran by_steps = run_job(job, 1, other_events);
    begin_check("one step a call", job->page);
    check_answer(at_once.answer, by_steps.answer);
    check_bytes("scan", &at_once.scan, &by_steps.scan, sizeof at_once.scan);
    check_bytes("event words", events, other_events, sizeof events);
    check_answer(at_once.answer, tarredlath_scan_answer(by_steps.scan));
}

/* So does one that begins by scan_new, which makes no step. */
static void check_new(const struct job *job) {
    tarredlath_ran at_once = run_job(job, STEPS_ENOUGH, events);
    size_t length = job_length(job);
    tarredlath_answer paused = {0};
    tarredlath_ran ran = tarredlath_scan_new(job_bytes(job), length, 0, length, 0, job->construct, TARREDLATH_FLOW,
                                             job_flags(job), JOB_WORDS);
    paused.number = TARREDLATH_PAUSED;
    paused.line = 1;
    paused.column = 1;
    begin_check("new", job->page);
    check_answer(paused, ran.answer);
    memset(other_events, UNTOUCHED, sizeof other_events);
    ran = end_job(job, ran, STEPS_ENOUGH, other_events, JOB_WORDS);
    check_answer(at_once.answer, ran.answer);
    check_bytes("event words", events, other_events, sizeof events);
}

/* ---- refusals ------------------------------------------------------------------------------------------------------- */

static uint8_t long_page[TARREDLATH_PAGE_LIMIT + 1];

/* What a scan is asked; each refusal in turn is given the right number, and the next one shows. */
struct asked {
    size_t at;
    size_t length;
    size_t start;
    uint8_t construct;
    uint8_t kind;
    uint8_t flags;
    size_t allowance;
};

static void check_refused(const char *subject, const uint8_t *bytes, size_t bytes_length, struct asked asked, uint8_t number) {
    tarredlath_ran ran;
    begin_check("refusal", subject);
    memset(events, UNTOUCHED, sizeof events);
    memset(other_events, UNTOUCHED, sizeof other_events);
    ran = tarredlath_scan_once(bytes, bytes_length, asked.at, asked.length, asked.start, asked.construct, asked.kind, asked.flags,
                               asked.allowance, events, JOB_WORDS);
    check_number("number of once", number, ran.answer.number);
    check_number("steps", 0, ran.answer.steps);
    check_bytes("event words", other_events, events, sizeof events);
    if (asked.allowance != 0) {
        ran = tarredlath_scan_new(bytes, bytes_length, asked.at, asked.length, asked.start, asked.construct, asked.kind,
                                  asked.flags, JOB_WORDS);
        check_number("number of new", number, ran.answer.number);
    }
}

static void check_order_of_refusals(void) {
    struct asked asked = {0, sizeof long_page, sizeof long_page + 1, 3, 2, 4, 0};
    memset(long_page, '\r', sizeof long_page);
    check_refused("all is wrong", long_page, sizeof long_page, asked, TARREDLATH_BAD_CALL);
    asked.allowance = STEPS_ENOUGH;
    check_refused("a construct of 3", long_page, sizeof long_page, asked, TARREDLATH_BAD_CALL);
    asked.construct = TARREDLATH_TAG;
    check_refused("a kind of 2", long_page, sizeof long_page, asked, TARREDLATH_BAD_CALL);
    asked.kind = TARREDLATH_TEXT;
    check_refused("flags of 4", long_page, sizeof long_page, asked, TARREDLATH_BAD_CALL);
    asked.flags = TARREDLATH_INTERRUPT;
    check_refused("too long", long_page, sizeof long_page, asked, TARREDLATH_TOO_LONG);
    asked.length = 3;
    check_refused("start past the end", long_page, sizeof long_page, asked, TARREDLATH_BAD_START);
    asked.start = 3;
    asked.at = sizeof long_page - 2;
    check_refused("page past the lent bytes", long_page, sizeof long_page, asked, TARREDLATH_BAD_START);
    asked.at = (size_t)-2;
    check_refused("page that wraps round", long_page, sizeof long_page, asked, TARREDLATH_BAD_START);
    asked.at = 0;
    check_refused("carriage return", long_page, sizeof long_page, asked, TARREDLATH_BAD_TEXT);
    asked.allowance = 0;
    check_refused("no allowance", long_page, sizeof long_page, asked, TARREDLATH_BAD_CALL);
}

/* Only the page's own bytes are looked at, and the fault is placed in the page. */
static void check_bad_text(void) {
    const uint8_t *bytes = (const uint8_t *)"\r{a\n\xff}\r";
    tarredlath_answer expected = {0};
    tarredlath_ran ran;
    expected.number = TARREDLATH_BAD_TEXT;
    expected.place = 3;
    expected.line = 2;
    expected.column = 1;
    begin_check("refusal", "not UTF-8 in the second line");
    ran = tarredlath_scan_once(bytes, 7, 1, 5, 0, TARREDLATH_EXPRESSION, TARREDLATH_FLOW, 0, STEPS_ENOUGH, events, JOB_WORDS);
    check_answer(expected, ran.answer);
    begin_check("refusal", "bad text beside the page");
    ran = tarredlath_scan_once(bytes, 7, 1, 3, 0, TARREDLATH_EXPRESSION, TARREDLATH_FLOW, 0, STEPS_ENOUGH, events, JOB_WORDS);
    check_number("number", TARREDLATH_EOF, ran.answer.number);
}

/* The longest page that is taken. */
static void check_longest_page(void) {
    tarredlath_ran ran;
    begin_check("longest page", "{aa..");
    memset(long_page, 'a', sizeof long_page);
    long_page[0] = '{';
    ran = tarredlath_scan_once(long_page, sizeof long_page, 0, TARREDLATH_PAGE_LIMIT, 0, TARREDLATH_EXPRESSION, TARREDLATH_FLOW, 0,
                               8 * ((size_t)TARREDLATH_PAGE_LIMIT + 1), events, JOB_WORDS);
    check_number("number", TARREDLATH_EOF, ran.answer.number);
    check_number("place", TARREDLATH_PAGE_LIMIT, ran.answer.place);
}

void check_scans(void) {
    size_t i;
    check_library();
    check_benches();
    check_other_answers();
    check_full();
    check_events();
    check_text_kind();
    for (i = 0; i < sample_jobs_count; i++) {
        check_paused(&sample_jobs[i]);
        check_new(&sample_jobs[i]);
    }
    check_order_of_refusals();
    check_bad_text();
    check_longest_page();
}
