/* Calls that a worker can't take: they answer why, and the worker comes back bit for bit. */
#include <string.h>

#include "host_checks.h"
#include "host_parts.h"
#include "host_random.h"
#include "host_twins.h"

/* Its body must be copied, so that a scratch would be written to. */
static const struct job asking_job = {"{a\n  b}", TARREDLATH_EXPRESSION, "o"};
static const struct job running_job = {"<a b='c'>", TARREDLATH_TAG, ""};

/* Place 0 asks, place 1 runs, and the others are free. */
static struct fleet fleet;
static uint32_t untouched_events[TWIN_WORDS];
static uint8_t scratch[64];
static uint8_t untouched_scratch[64];

static void prepare(void) {
    size_t at;
    start_fleet(&fleet, 32);
    fleet.worker = admit_job(&fleet, &asking_job, &at).worker;
    turn_fleet(&fleet);
    fleet.worker = admit_job(&fleet, &running_job, &at).worker;
    memset(fleet.events, UNTOUCHED, sizeof fleet.events);
    memset(untouched_events, UNTOUCHED, sizeof untouched_events);
    memset(scratch, UNTOUCHED, sizeof scratch);
    memset(untouched_scratch, UNTOUCHED, sizeof untouched_scratch);
    begin_check("refusals of a worker", "one place asks, one runs");
    check_number("place 0", TARREDLATH_WAITS_VERDICT, tarredlath_worker_view(fleet.worker, 0).waits);
    check_number("place 1", TARREDLATH_WAITS_TURN, tarredlath_worker_view(fleet.worker, 1).waits);
}

/* ---- the calls, on any worker --------------------------------------------------------------------------------------- */

static void check_refused(const char *what, uint8_t number, tarredlath_worker worker, tarredlath_called called) {
    check_number(what, number, called.answer.number);
    check_bytes(what, &worker, &called.worker, sizeof worker);
}

static tarredlath_called turn(tarredlath_worker worker, size_t bytes_length, size_t words) {
    return tarredlath_worker_turn(worker, fleet.bytes, bytes_length, fleet.events, words);
}

static tarredlath_called admit(tarredlath_worker worker) {
    return tarredlath_worker_admit(worker, fleet.bytes, fleet.bytes_length, 0, 2, 0, TARREDLATH_EXPRESSION, TARREDLATH_FLOW, 0);
}

static void check_no_body(tarredlath_worker worker, size_t place) {
    tarredlath_body refused = {0};
    refused.number = TARREDLATH_BAD_CALL;
    check_body(refused,
               tarredlath_worker_body(worker, fleet.bytes, fleet.bytes_length, place, scratch, sizeof scratch));
    check_bytes("scratch", untouched_scratch, scratch, sizeof scratch);
}

/* A worker that no call can be about. */
static void check_all_refused(tarredlath_worker worker) {
    check_refused("admit", TARREDLATH_BAD_CALL, worker, admit(worker));
    check_refused("turn", TARREDLATH_BAD_CALL, worker, turn(worker, fleet.bytes_length, TWIN_WORDS));
    check_refused("verdict", TARREDLATH_BAD_CALL, worker, tarredlath_worker_verdict(worker, 0, TARREDLATH_OK, 0, 0));
    check_refused("collect", TARREDLATH_BAD_CALL, worker, tarredlath_worker_collect(worker, 0));
    check_no_body(worker, 0);
    check_number("view", TARREDLATH_BAD_CALL, tarredlath_worker_view(worker, 0).waits);
    check_bytes("event words", untouched_events, fleet.events, sizeof fleet.events);
}

/* ---- calls on a good worker ----------------------------------------------------------------------------------------- */

static void check_lent(void) {
    begin_check("turn", "an event buffer of another length");
    check_refused("one less", TARREDLATH_BAD_CALL, fleet.worker, turn(fleet.worker, fleet.bytes_length, TWIN_WORDS - 1));
    check_refused("none", TARREDLATH_BAD_CALL, fleet.worker, turn(fleet.worker, fleet.bytes_length, 0));
    begin_check("turn", "bytes in which the page does not lie");
    check_refused("one less", TARREDLATH_BAD_CALL, fleet.worker, turn(fleet.worker, fleet.bytes_length - 1, TWIN_WORDS));
    check_bytes("event words", untouched_events, fleet.events, sizeof fleet.events);
}

/* Places that run, are free, or are not there: none of them asks, and none has ended. */
static void check_places(void) {
    static const size_t places[] = {1, 2, 15, 16, (size_t)-1};
    size_t i;
    begin_check("verdict, body, collect", "places that don't ask");
    for (i = 0; i < sizeof places / sizeof places[0]; i++) {
        check_refused("verdict", TARREDLATH_BAD_CALL, fleet.worker,
                      tarredlath_worker_verdict(fleet.worker, places[i], TARREDLATH_OK, 0, 0));
        check_refused("collect", TARREDLATH_BAD_CALL, fleet.worker, tarredlath_worker_collect(fleet.worker, places[i]));
        check_no_body(fleet.worker, places[i]);
    }
    begin_check("collect", "a place that asks");
    check_refused("collect", TARREDLATH_BAD_CALL, fleet.worker, tarredlath_worker_collect(fleet.worker, 0));
}

static void check_verdicts(void) {
    unsigned verdict;
    begin_check("verdict", "unlisted, or with a number out of range");
    for (verdict = TARREDLATH_UNFINISHED; verdict <= 255; verdict++) {
        uint32_t number = verdict > TARREDLATH_ERROR ? 1 : 0;
        check_refused("verdict", TARREDLATH_BAD_CALL, fleet.worker,
                      tarredlath_worker_verdict(fleet.worker, 0, (uint8_t)verdict, number, 0));
        check_refused("verdict", TARREDLATH_BAD_CALL, fleet.worker,
                      tarredlath_worker_verdict(fleet.worker, 0, (uint8_t)verdict, TARREDLATH_LARGEST_VERDICT_NUMBER + 1, 0));
    }
}

static void check_bodies_refused(void) {
    tarredlath_body refused = {0};
    refused.number = TARREDLATH_BAD_CALL;
    begin_check("body", "a scratch that is too short, or bytes in which the page does not lie");
    check_body(refused, tarredlath_worker_body(fleet.worker, fleet.bytes, fleet.bytes_length, 0, scratch, 2));
    check_body(refused, tarredlath_worker_body(fleet.worker, fleet.bytes, 3, 0, scratch, sizeof scratch));
    check_bytes("scratch", untouched_scratch, scratch, sizeof scratch);
}

/* ---- admissions ----------------------------------------------------------------------------------------------------- */

static uint8_t long_page[TARREDLATH_PAGE_LIMIT + 1];

static void check_admission(const char *what, uint8_t number, size_t length, size_t start, uint8_t construct) {
    tarredlath_called called = tarredlath_worker_admit(fleet.worker, long_page, sizeof long_page, 0, length, start, construct,
                                                       TARREDLATH_FLOW, 0);
    check_refused(what, number, fleet.worker, called);
}

/* BAD_CALL, NO_PLACE, TOO_LONG, BAD_START, BAD_TEXT: in this order, on a page with which all of them could be given. */
static void check_order_of_admission(void) {
    tarredlath_worker before = fleet.worker;
    size_t at;
    size_t i;
    memset(long_page, '\r', sizeof long_page);
    begin_check("admission", "refused in order");
    check_admission("too long", TARREDLATH_TOO_LONG, sizeof long_page, sizeof long_page + 1, TARREDLATH_TAG);
    check_admission("bad start", TARREDLATH_BAD_START, 3, 4, TARREDLATH_TAG);
    check_admission("bad text", TARREDLATH_BAD_TEXT, 3, 3, TARREDLATH_TAG);
    for (i = 2; i < TARREDLATH_PLACES; i++) {
        fleet.worker = admit_job(&fleet, &running_job, &at).worker;
    }
    check_admission("bad call", TARREDLATH_BAD_CALL, sizeof long_page, sizeof long_page + 1, 3);
    check_admission("no place", TARREDLATH_NO_PLACE, sizeof long_page, sizeof long_page + 1, TARREDLATH_TAG);
    fleet.worker = before;
}

/* ---- workers that no call gave -------------------------------------------------------------------------------------- */

/* Whichever place it is, a number that stands for nothing is one too many for every call. */
static void check_unlisted(void) {
    size_t place;
    for (place = 0; place < TARREDLATH_PLACES; place++) {
        tarredlath_worker worker = fleet.worker;
        begin_check("an unlisted number in a place", "taken, flags, tab, heard");
        worker.places[place].taken = 2;
        check_all_refused(worker);
        worker.places[place].taken = (size_t)1 << 63;
        check_all_refused(worker);
        worker = fleet.worker;
        worker.places[place].scan.flags = 4;
        check_all_refused(worker);
        worker = fleet.worker;
        worker.places[place].scan.tab = 4;
        check_all_refused(worker);
        worker = fleet.worker;
        worker.places[place].scan.heard = 3;
        check_all_refused(worker);
    }
}

static void check_ranges(void) {
    tarredlath_worker worker = fleet.worker;
    begin_check("a worker out of its ranges", "last, q");
    worker.last = 16;
    check_all_refused(worker);
    worker = fleet.worker;
    worker.q = 0;
    check_all_refused(worker);
    worker.q = 4097;
    check_all_refused(worker);
}

/* Any bytes are answered, the same each time. */
static void check_determined(tarredlath_worker worker) {
    tarredlath_called first = turn(worker, fleet.bytes_length, TWIN_WORDS);
    tarredlath_called second = turn(worker, fleet.bytes_length, TWIN_WORDS);
    check_answer(first.answer, second.answer);
    check_bytes("worker from turn", &first.worker, &second.worker, sizeof worker);
    first = admit(worker);
    second = admit(worker);
    check_answer(first.answer, second.answer);
    check_bytes("worker from admit", &first.worker, &second.worker, sizeof worker);
    first = tarredlath_worker_verdict(worker, 0, TARREDLATH_ERROR, 1, 1);
    second = tarredlath_worker_verdict(worker, 0, TARREDLATH_ERROR, 1, 1);
    check_bytes("worker from verdict", &first.worker, &second.worker, sizeof worker);
    first = tarredlath_worker_collect(worker, 0);
    second = tarredlath_worker_collect(worker, 0);
    check_bytes("worker from collect", &first.worker, &second.worker, sizeof worker);
    check_body(tarredlath_worker_body(worker, fleet.bytes, fleet.bytes_length, 0, scratch, sizeof scratch),
               tarredlath_worker_body(worker, fleet.bytes, fleet.bytes_length, 0, scratch, sizeof scratch));
    check_number("view", tarredlath_worker_view(worker, 0).waits, tarredlath_worker_view(worker, 0).waits);
}

static void check_filled(void) {
    static const uint8_t fillings[] = {0x00, 0x01, 0x7f, 0xff};
    tarredlath_worker worker;
    size_t i;
    begin_check("a worker of any bytes", "one byte over and over");
    for (i = 0; i < sizeof fillings; i++) {
        memset(&worker, fillings[i], sizeof worker);
        check_determined(worker);
    }
    begin_check("a worker of any bytes", "random ones, alone and in the first place");
    for (i = 0; i < 100; i++) {
        fill_random(&worker, sizeof worker);
        check_determined(worker);
        worker = fleet.worker;
        fill_random(&worker.places[0].scan, sizeof worker.places[0].scan);
        worker.places[0].scan.flags &= 3;
        worker.places[0].scan.tab &= 3;
        worker.places[0].scan.heard %= 3;
        check_determined(worker);
    }
}

void check_worker_refusals(void) {
    prepare();
    check_lent();
    check_places();
    check_verdicts();
    check_bodies_refused();
    check_order_of_admission();
    check_unlisted();
    check_ranges();
    check_filled();
}
