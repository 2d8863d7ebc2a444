/* States that no call gave: numbers that stand for nothing are refused and come back bit for bit, and any other bytes are answered,
   the same way each time. */
#include <string.h>

#include "host_checks.h"
#include "host_jobs.h"
#include "host_parts.h"
#include "host_random.h"

/* Its body must be copied, so that a scratch would be written to. */
static const struct job asking_job = {"{a\n  b}", TARREDLATH_EXPRESSION, "o"};

static uint32_t events[JOB_WORDS];
static uint32_t other_events[JOB_WORDS];
static uint8_t scratch[64];
static uint8_t other_scratch[64];

/* ---- the four calls on a scan, each on memory that is marked before ------------------------------------------------- */

static tarredlath_ran run_state(tarredlath_scan state, uint32_t *words) {
    memset(words, UNTOUCHED, sizeof events);
    return tarredlath_scan_run(state, job_bytes(&asking_job), job_length(&asking_job), words, JOB_WORDS, STEPS_ENOUGH);
}

static tarredlath_body body_of_state(tarredlath_scan state, uint8_t *room) {
    memset(room, UNTOUCHED, sizeof scratch);
    return tarredlath_scan_body(state, job_bytes(&asking_job), job_length(&asking_job), room, sizeof scratch);
}

static void check_handed_back(const char *what, tarredlath_scan state, tarredlath_ran ran) {
    check_bare(TARREDLATH_BAD_CALL, ran.answer);
    check_bytes(what, &state, &ran.scan, sizeof state);
}

static void check_all_refused(tarredlath_scan state) {
    tarredlath_body no_body = {0};
    no_body.number = TARREDLATH_BAD_CALL;
    memset(other_events, UNTOUCHED, sizeof other_events);
    memset(other_scratch, UNTOUCHED, sizeof other_scratch);
    check_handed_back("scan from run", state, run_state(state, events));
    check_bytes("event words", other_events, events, sizeof events);
    check_handed_back("scan from give", state, tarredlath_scan_give(state, TARREDLATH_OK, 0, 0));
    check_bare(TARREDLATH_BAD_CALL, tarredlath_scan_answer(state));
    check_body(no_body, body_of_state(state, scratch));
    check_bytes("scratch", other_scratch, scratch, sizeof scratch);
}

/* ---- numbers that stand for nothing --------------------------------------------------------------------------------- */

/* A field of a scan that is one byte wide, and the first number that it can't have; all above it are refused too. */
struct listed_field {
    const char *name;
    size_t offset;
    unsigned first_unlisted;
};

static const struct listed_field listed_fields[] = {
    {"flags", offsetof(tarredlath_scan, flags), 4},         {"tab", offsetof(tarredlath_scan, tab), 4},
    {"heard", offsetof(tarredlath_scan, heard), 3},         {"construct", offsetof(tarredlath_scan, construct), 3},
    {"kind", offsetof(tarredlath_scan, kind), 2},           {"state", offsetof(tarredlath_scan, state), 77},
    {"back", offsetof(tarredlath_scan, back), 56},          {"prefix", offsetof(tarredlath_scan, prefix), 3},
    {"where", offsetof(tarredlath_scan, where), 20},        {"note", offsetof(tarredlath_scan, note), 5},
};

static void check_unlisted(tarredlath_scan good) {
    size_t i;
    for (i = 0; i < sizeof listed_fields / sizeof listed_fields[0]; i++) {
        unsigned number;
        begin_check("an unlisted number in a scan", listed_fields[i].name);
        for (number = listed_fields[i].first_unlisted; number <= 255; number++) {
            tarredlath_scan state = good;
            ((uint8_t *)&state)[listed_fields[i].offset] = (uint8_t)number;
            check_all_refused(state);
        }
    }
}

static void check_unlisted_in_calls(void) {
    unsigned number;
    size_t length = job_length(&asking_job);
    begin_check("an unlisted number in a call", "construct, kind, flags");
    for (number = 2; number <= 255; number++) {
        uint8_t n = (uint8_t)number;
        tarredlath_ran construct = tarredlath_scan_new(job_bytes(&asking_job), length, 0, length, 0, n, 0, 0, JOB_WORDS);
        tarredlath_ran kind = tarredlath_scan_new(job_bytes(&asking_job), length, 0, length, 0, 0, n, 0, JOB_WORDS);
        tarredlath_ran flags = tarredlath_scan_new(job_bytes(&asking_job), length, 0, length, 0, 0, 0, n, JOB_WORDS);
        check_number("construct", n > 2 ? TARREDLATH_BAD_CALL : TARREDLATH_PAUSED, construct.answer.number);
        check_number("kind", n > 1 ? TARREDLATH_BAD_CALL : TARREDLATH_PAUSED, kind.answer.number);
        check_number("flags", n > 3 ? TARREDLATH_BAD_CALL : TARREDLATH_PAUSED, flags.answer.number);
    }
}

/* ---- calls that a scan can't take ----------------------------------------------------------------------------------- */

static void check_verdicts(tarredlath_scan asking, tarredlath_scan paused) {
    unsigned verdict;
    begin_check("verdict", "unlisted");
    for (verdict = 3; verdict <= 255; verdict++) {
        check_handed_back("scan", asking, tarredlath_scan_give(asking, (uint8_t)verdict, 1, 0));
    }
    begin_check("verdict", "a number out of range");
    for (verdict = TARREDLATH_UNFINISHED; verdict <= TARREDLATH_ERROR; verdict++) {
        check_handed_back("scan", asking, tarredlath_scan_give(asking, (uint8_t)verdict, 0, 0));
        check_handed_back("scan", asking,
                          tarredlath_scan_give(asking, (uint8_t)verdict, TARREDLATH_LARGEST_VERDICT_NUMBER + 1, 0));
        check_bare(TARREDLATH_KEPT,
                   tarredlath_scan_give(asking, (uint8_t)verdict, TARREDLATH_LARGEST_VERDICT_NUMBER, (size_t)-1).answer);
    }
    begin_check("verdict", "of OK, number and offset are not looked at");
    check_bare(TARREDLATH_KEPT, tarredlath_scan_give(asking, TARREDLATH_OK, 0, (size_t)-1).answer);
    begin_check("verdict", "that nobody awaits");
    check_handed_back("scan", paused, tarredlath_scan_give(paused, TARREDLATH_OK, 0, 0));
}

static void check_runs(tarredlath_scan asking, tarredlath_scan paused, tarredlath_scan ended) {
    const uint8_t *page = job_bytes(&asking_job);
    size_t length = job_length(&asking_job);
    begin_check("run", "without its verdict");
    check_handed_back("scan", asking, run_state(asking, events));
    begin_check("run", "after its end");
    check_handed_back("scan", ended, run_state(ended, events));
    begin_check("run", "with no allowance");
    check_handed_back("scan", paused, tarredlath_scan_run(paused, page, length, events, JOB_WORDS, 0));
    begin_check("run", "over a page of another length");
    check_handed_back("scan", paused, tarredlath_scan_run(paused, page, length - 1, events, JOB_WORDS, 1));
    begin_check("run", "over an event buffer of another length");
    check_handed_back("scan", paused, tarredlath_scan_run(paused, page, length, events, JOB_WORDS - 1, 1));
    check_bytes("event words", other_events, events, sizeof events);
}

/* ---- any bytes at all ----------------------------------------------------------------------------------------------- */

/* Each call answers the same twice, and writes the same. */
static void check_determined(tarredlath_scan state) {
    tarredlath_ran first = run_state(state, events);
    tarredlath_ran second = run_state(state, other_events);
    check_answer(first.answer, second.answer);
    check_bytes("scan from run", &first.scan, &second.scan, sizeof state);
    check_bytes("event words", events, other_events, sizeof events);
    first = tarredlath_scan_give(state, TARREDLATH_ERROR, 1, 1);
    second = tarredlath_scan_give(state, TARREDLATH_ERROR, 1, 1);
    check_answer(first.answer, second.answer);
    check_bytes("scan from give", &first.scan, &second.scan, sizeof state);
    check_answer(tarredlath_scan_answer(state), tarredlath_scan_answer(state));
    check_body(body_of_state(state, scratch), body_of_state(state, other_scratch));
    check_bytes("scratch", scratch, other_scratch, sizeof scratch);
}

/* A state that is refused is handed back. */
static void check_refused_or_determined(tarredlath_scan state) {
    tarredlath_ran ran = run_state(state, events);
    if (ran.answer.number == TARREDLATH_BAD_CALL) {
        check_handed_back("scan from run", state, ran);
    }
    check_determined(state);
}

static void check_filled_states(void) {
    static const uint8_t fillings[] = {0x00, 0x01, 0x7f, 0xff};
    tarredlath_scan state;
    size_t i;
    for (i = 0; i < sizeof fillings; i++) {
        begin_check("a state of one byte over and over", fillings[i] == 0 ? "0" : fillings[i] == 1 ? "1" : "127 or 255");
        memset(&state, fillings[i], sizeof state);
        check_determined(state);
        check_refused_or_determined(state);
    }
    begin_check("a state of random bytes", "any numbers");
    for (i = 0; i < 200; i++) {
        fill_random(&state, sizeof state);
        check_determined(state);
    }
    begin_check("a state of random bytes", "listed numbers");
    for (i = 0; i < 200; i++) {
        fill_random(&state, sizeof state);
        state.flags &= 3;
        state.tab &= 3;
        state.heard %= 3;
        check_refused_or_determined(state);
    }
}

/* A verdict that has no number, or no offset, is written with 0 there, and in no other way. */
static void check_stray_numbers(tarredlath_scan good) {
    static const struct {
        uint8_t heard;
        uint32_t number;
        size_t offset;
    } strays[] = {{TARREDLATH_OK, 7, 0}, {TARREDLATH_OK, 0, 7}, {TARREDLATH_UNFINISHED, 7, 7}, {TARREDLATH_UNFINISHED, 0, 7}};
    size_t i;
    begin_check("a verdict with a number that it does not have", "refused");
    for (i = 0; i < sizeof strays / sizeof *strays; i++) {
        tarredlath_scan state = good;
        tarredlath_ran ran;
        state.heard = strays[i].heard;
        state.heard_number = strays[i].number;
        state.heard_offset = strays[i].offset;
        ran = run_state(state, events);
        check_number("answer", TARREDLATH_BAD_CALL, ran.answer.number);
        check_handed_back("scan from run", state, ran);
    }
}

/* One byte of a good state is another: these come the farthest into a scan. */
static void check_changed_states(tarredlath_scan good) {
    size_t i;
    begin_check("a state with one byte changed", "any byte");
    for (i = 0; i < 8 * sizeof good; i++) {
        tarredlath_scan state = good;
        ((uint8_t *)&state)[i / 8] ^= (uint8_t)(1u << (i % 8));
        check_refused_or_determined(state);
    }
}

void check_states(void) {
    tarredlath_ran asking = begin_job(&asking_job, STEPS_ENOUGH, events, JOB_WORDS);
    tarredlath_ran paused = begin_job(&asking_job, 2, events, JOB_WORDS);
    tarredlath_ran ended = end_job(&asking_job, asking, STEPS_ENOUGH, events, JOB_WORDS);
    begin_check("states", "asking, paused, ended");
    check_number("asking", TARREDLATH_ASKING, asking.answer.number);
    check_number("paused", TARREDLATH_PAUSED, paused.answer.number);
    check_number("ended", TARREDLATH_DONE, ended.answer.number);
    check_unlisted(asking.scan);
    check_unlisted(paused.scan);
    check_unlisted_in_calls();
    check_verdicts(asking.scan, paused.scan);
    check_runs(asking.scan, paused.scan, ended.scan);
    check_filled_states();
    check_stray_numbers(paused.scan);
    check_changed_states(asking.scan);
    check_changed_states(paused.scan);
}
