/* Workers: starts, and pages from their admission to their collection. */
#include <string.h>

#include "host_checks.h"
#include "host_parts.h"
#include "host_twins.h"

static struct fleet fleet;
static struct twin twins[TARREDLATH_PLACES];

/* ---- starts --------------------------------------------------------------------------------------------------------- */

static void check_start(size_t q, size_t words, uint8_t number, uint8_t fits, size_t longest) {
    tarredlath_started started = tarredlath_worker_start(q, words);
    check_number("number", number, started.number);
    check_number("fits", fits, started.fits);
    check_number("longest", longest, started.longest);
}

static void check_starts(void) {
    begin_check("start", "turns of too few or too many steps");
    check_start(0, TWIN_WORDS, TARREDLATH_BAD_CALL, 0, 0);
    check_start(4097, TWIN_WORDS, TARREDLATH_BAD_CALL, 0, 0);
    check_start((size_t)-1, TWIN_WORDS, TARREDLATH_BAD_CALL, 0, 0);
    begin_check("start", "the least and the most steps");
    check_start(1, TWIN_WORDS, TARREDLATH_STARTED, 1, 169);
    check_start(4096, TWIN_WORDS, TARREDLATH_STARTED, 1, 169);
    begin_check("start", "the longest page");
    check_start(1, 0, TARREDLATH_STARTED, 0, 0);
    check_start(1, 383, TARREDLATH_STARTED, 0, 0);
    check_start(1, 384, TARREDLATH_STARTED, 1, 0);
    check_start(1, TARREDLATH_PLACES * tarredlath_words_enough(1000).words, TARREDLATH_STARTED, 1, 1000);
    check_start(1, TARREDLATH_PLACES * tarredlath_words_enough(1000).words - 1, TARREDLATH_STARTED, 1, 999);
}

/* ---- what is seen of a place ---------------------------------------------------------------------------------------- */

static void check_view(size_t place, tarredlath_view expected) {
    tarredlath_view found = tarredlath_worker_view(fleet.worker, place);
    check_number("waits", expected.waits, found.waits);
    check_number("body", expected.body, found.body);
    check_number("at", expected.at, found.at);
    check_number("length", expected.length, found.length);
    check_number("first", expected.first, found.first);
    check_number("events", expected.events, found.events);
}

/* The view of a twin that waits for this, in its share of the event buffer. */
static tarredlath_view twin_view(const struct twin *twin, uint8_t waits, uint8_t body, size_t events) {
    tarredlath_view view = {0};
    view.waits = waits;
    view.body = body;
    view.at = twin->at;
    view.length = job_length(twin->job);
    view.first = twin->place * JOB_WORDS;
    view.events = events;
    return view;
}

/* Nothing is seen of a free place, and of one that there is not, but for what it waits for. */
static void check_nothing_seen(size_t place, uint8_t waits) {
    tarredlath_view nothing = {0};
    nothing.waits = waits;
    check_view(place, nothing);
}

/* One page through all four waits. */
static void check_waits(void) {
    const struct job job = {"{a}", TARREDLATH_EXPRESSION, "o"};
    begin_check("view", "from free to free");
    start_fleet(&fleet, 4096);
    check_nothing_seen(0, TARREDLATH_WAITS_PAGE);
    check_nothing_seen(TARREDLATH_PLACES, TARREDLATH_BAD_CALL);
    check_nothing_seen((size_t)-1, TARREDLATH_BAD_CALL);
    admit_twin(&fleet, &twins[0], &job);
    check_view(0, twin_view(&twins[0], TARREDLATH_WAITS_TURN, TARREDLATH_NO_BODY, 0));
    turn_fleet(&fleet);
    check_view(0, twin_view(&twins[0], TARREDLATH_WAITS_VERDICT, TARREDLATH_BODY_EXPRESSION, 5));
    check_question(&fleet, &twins[0]);
    /* The body can be looked up until the turn that applies the verdict. */
    check_view(0, twin_view(&twins[0], TARREDLATH_WAITS_TURN, TARREDLATH_BODY_EXPRESSION, 5));
    turn_fleet(&fleet);
    check_view(0, twin_view(&twins[0], TARREDLATH_WAITS_COLLECT, TARREDLATH_NO_BODY, 8));
    check_collected(&fleet, &twins[0]);
    check_nothing_seen(0, TARREDLATH_WAITS_PAGE);
}

/* ---- sixteen pages at a time ---------------------------------------------------------------------------------------- */

static void check_admissions(void) {
    tarredlath_called called;
    size_t at;
    size_t place;
    for (place = 0; place < TARREDLATH_PLACES; place++) {
        begin_check("admission", sample_jobs[place].page);
        admit_twin(&fleet, &twins[place], &sample_jobs[place]);
        check_number("the lowest free place", place, twins[place].place);
        check_view(place, twin_view(&twins[place], TARREDLATH_WAITS_TURN, TARREDLATH_NO_BODY, 0));
    }
    begin_check("admission", "when all places are taken");
    called = admit_job(&fleet, &sample_jobs[0], &at);
    check_bare(TARREDLATH_NO_PLACE, called.answer);
    check_bytes("worker", &fleet.worker, &called.worker, sizeof fleet.worker);
}

/* Turns and verdicts until no place runs or asks. */
static void run_to_the_end(void) {
    tarredlath_called called;
    for (called = turn_fleet(&fleet); called.answer.number == TARREDLATH_SERVED; called = turn_fleet(&fleet)) {
        struct twin *twin = &twins[called.answer.place];
        if (tarredlath_worker_view(fleet.worker, twin->place).waits == TARREDLATH_WAITS_VERDICT) {
            begin_check("question in a worker", twin->job->page);
            check_question(&fleet, twin);
        }
    }
    begin_check("worker", "idle where no place runs");
    check_bare(TARREDLATH_IDLE, called.answer);
}

static void check_sixteen(size_t q) {
    size_t place;
    start_fleet(&fleet, q);
    check_admissions();
    run_to_the_end();
    for (place = 0; place < TARREDLATH_PLACES; place++) {
        begin_check("collection", twins[place].job->page);
        check_number("waits", TARREDLATH_WAITS_COLLECT, tarredlath_worker_view(fleet.worker, place).waits);
        check_collected(&fleet, &twins[place]);
        check_nothing_seen(place, TARREDLATH_WAITS_PAGE);
    }
}

/* ---- the ring ------------------------------------------------------------------------------------------------------- */

/* Turns go round the running places, and a place that is free again is used again. */
static void check_ring(void) {
    const struct job long_job = {"{aaaaaaaa}", TARREDLATH_EXPRESSION, ""};
    const struct job short_job = {"{}", TARREDLATH_EXPRESSION, ""};
    static const size_t served[] = {0, 1, 2, 0, 2, 0};
    size_t i;
    begin_check("ring", "three places, of which the second ends first");
    start_fleet(&fleet, 2);
    admit_twin(&fleet, &twins[0], &long_job);
    admit_twin(&fleet, &twins[1], &short_job);
    admit_twin(&fleet, &twins[2], &long_job);
    for (i = 0; i < sizeof served / sizeof served[0]; i++) {
        tarredlath_called called = turn_fleet(&fleet);
        check_number("number", TARREDLATH_SERVED, called.answer.number);
        check_number("place served", served[i], called.answer.place);
    }
    check_collected(&fleet, &twins[1]);
    admit_twin(&fleet, &twins[3], &short_job);
    check_number("the freed place", 1, twins[3].place);
}

void check_workers(void) {
    check_starts();
    check_waits();
    check_sixteen(1);
    check_sixteen(3);
    check_sixteen(4096);
    check_ring();
}
