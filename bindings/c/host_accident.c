/* One page that asks two thousand times, among fifteen small ones: they are collected while it goes on. */
#include <string.h>

#include "host_checks.h"
#include "host_jobs.h"
#include "host_parts.h"

#define QUESTIONS 2000
#define ACCIDENT_LENGTH (QUESTIONS + 1)
#define ACCIDENT_PLACE 4
#define STEPS_A_TURN 16

/* The words that are enough for the accident, sixteen times. */
#define ACCIDENT_WORDS (TARREDLATH_PLACES * 24 * (ACCIDENT_LENGTH + 1))

static const char small_page[] = "<a b={c} />";
#define SMALL_LENGTH (sizeof small_page - 1)

static uint32_t events[ACCIDENT_WORDS];
static uint8_t bytes[ACCIDENT_LENGTH + sizeof small_page];
static tarredlath_worker worker;

static void prepare_bytes(void) {
    memset(bytes, '}', ACCIDENT_LENGTH);
    bytes[0] = '{';
    memcpy(bytes + ACCIDENT_LENGTH, small_page, SMALL_LENGTH);
}

/* Sixteen pages; all small ones are the same bytes, which the places only read. */
static void admit_all(void) {
    tarredlath_started started = tarredlath_worker_start(STEPS_A_TURN, ACCIDENT_WORDS);
    size_t place;
    worker = started.worker;
    check_number("longest page", ACCIDENT_LENGTH, started.longest);
    for (place = 0; place < TARREDLATH_PLACES; place++) {
        int is_accident = place == ACCIDENT_PLACE;
        tarredlath_called called =
            tarredlath_worker_admit(worker, bytes, sizeof bytes, is_accident ? 0 : ACCIDENT_LENGTH,
                                    is_accident ? ACCIDENT_LENGTH : SMALL_LENGTH, 0,
                                    is_accident ? TARREDLATH_EXPRESSION : TARREDLATH_TAG, TARREDLATH_FLOW, TARREDLATH_ASKS);
        check_number("admitted", TARREDLATH_PLACED, called.answer.number);
        worker = called.worker;
    }
}

/* What the place that was served needs: a verdict, a collection, or nothing. Says whether it was collected. */
static int attend(size_t place, tarredlath_answer *answer) {
    uint8_t waits = tarredlath_worker_view(worker, place).waits;
    uint8_t verdict = place == ACCIDENT_PLACE ? TARREDLATH_UNFINISHED : TARREDLATH_OK;
    tarredlath_called called;
    if (waits == TARREDLATH_WAITS_VERDICT) {
        worker = tarredlath_worker_verdict(worker, place, verdict, VERDICT_NUMBER, 0).worker;
    }
    if (waits != TARREDLATH_WAITS_COLLECT) {
        return 0;
    }
    called = tarredlath_worker_collect(worker, place);
    worker = called.worker;
    *answer = called.answer;
    return 1;
}

/* A page of n bytes with v verdicts has ended or asks within this many turns of the worker, whatever the others do. */
static size_t promised_turns(size_t n, size_t v) {
    size_t steps = 8 * (n + 1);
    return TARREDLATH_PLACES * ((steps + STEPS_A_TURN - 1) / STEPS_A_TURN + v);
}

static void check_small(tarredlath_answer answer, size_t turns, int is_accident_over) {
    begin_check("accident", "a small page among fifteen");
    check_number("number", TARREDLATH_DONE, answer.number);
    check_number("end", SMALL_LENGTH, answer.place);
    check_number("within the promised turns", 1, turns <= promised_turns(SMALL_LENGTH, 1));
    check_number("the accident is over", 0, (size_t)is_accident_over);
}

/* At the page's end the last unfinished verdict stands. */
static void check_large(tarredlath_answer answer, size_t turns) {
    begin_check("accident", "the page itself");
    check_number("number", TARREDLATH_VERDICT_EOF, answer.number);
    check_number("place", ACCIDENT_LENGTH, answer.place);
    check_number("verdict", VERDICT_NUMBER, answer.verdict);
    check_number("within the promised turns", 1, turns <= promised_turns(ACCIDENT_LENGTH, QUESTIONS));
}

void check_accident(void) {
    size_t turns = 0;
    size_t collected = 0;
    int is_over = 0;
    tarredlath_answer answer;
    begin_check("accident", "admission");
    prepare_bytes();
    admit_all();
    for (;;) {
        tarredlath_called called = tarredlath_worker_turn(worker, bytes, sizeof bytes, events, ACCIDENT_WORDS);
        worker = called.worker;
        if (called.answer.number != TARREDLATH_SERVED) {
            break;
        }
        turns++;
        if (!attend(called.answer.place, &answer)) {
            continue;
        }
        collected++;
        if (called.answer.place == ACCIDENT_PLACE) {
            is_over = 1;
            check_large(answer, turns);
        } else {
            check_small(answer, turns, is_over);
        }
    }
    begin_check("accident", "all pages are collected");
    check_number("pages", TARREDLATH_PLACES, collected);
}
