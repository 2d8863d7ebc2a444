#include <string.h>

#include "host_checks.h"
#include "host_twins.h"

static uint8_t single_scratch[64];
static uint8_t place_scratch[64];

void start_fleet(struct fleet *fleet, size_t q) {
    fleet->worker = tarredlath_worker_start(q, TWIN_WORDS).worker;
    fleet->bytes_length = 0;
    memset(fleet->events, UNTOUCHED, sizeof fleet->events);
}

tarredlath_called admit_job(struct fleet *fleet, const struct job *job, size_t *at) {
    size_t length = job_length(job);
    *at = fleet->bytes_length;
    memcpy(fleet->bytes + *at, job->page, length);
    fleet->bytes_length += length;
    return tarredlath_worker_admit(fleet->worker, fleet->bytes, fleet->bytes_length, *at, length, 0, job->construct,
                                   TARREDLATH_FLOW, job_flags(job));
}

void admit_twin(struct fleet *fleet, struct twin *twin, const struct job *job) {
    tarredlath_called called = admit_job(fleet, job, &twin->at);
    fleet->worker = called.worker;
    check_number("admitted", TARREDLATH_PLACED, called.answer.number);
    twin->job = job;
    twin->place = called.answer.place;
    twin->verdicts = job->verdicts;
    memset(twin->events, UNTOUCHED, sizeof twin->events);
    twin->single = begin_job(job, STEPS_ENOUGH, twin->events, JOB_WORDS);
}

tarredlath_called turn_fleet(struct fleet *fleet) {
    tarredlath_called called = tarredlath_worker_turn(fleet->worker, fleet->bytes, fleet->bytes_length, fleet->events, TWIN_WORDS);
    fleet->worker = called.worker;
    return called;
}

static void check_bodies_alike(const struct fleet *fleet, const struct twin *twin) {
    const struct job *job = twin->job;
    tarredlath_body single;
    tarredlath_body body;
    memset(single_scratch, UNTOUCHED, sizeof single_scratch);
    memset(place_scratch, UNTOUCHED, sizeof place_scratch);
    single = tarredlath_scan_body(twin->single.scan, job_bytes(job), job_length(job), single_scratch, sizeof single_scratch);
    body = tarredlath_worker_body(fleet->worker, fleet->bytes, fleet->bytes_length, twin->place, place_scratch,
                                  sizeof place_scratch);
    check_body(single, body);
    check_bytes("scratch", single_scratch, place_scratch, sizeof single_scratch);
    check_number("kind of body in view", single.kind, tarredlath_worker_view(fleet->worker, twin->place).body);
}

void check_question(struct fleet *fleet, struct twin *twin) {
    const struct job *job = twin->job;
    uint8_t verdict = verdict_of(*twin->verdicts);
    tarredlath_called called;
    check_number("the single scan's answer", TARREDLATH_ASKING, twin->single.answer.number);
    check_bodies_alike(fleet, twin);
    called = tarredlath_worker_verdict(fleet->worker, twin->place, verdict, VERDICT_NUMBER, 0);
    check_bare(TARREDLATH_KEPT, called.answer);
    fleet->worker = called.worker;
    twin->single = tarredlath_scan_give(twin->single.scan, verdict, VERDICT_NUMBER, 0);
    twin->single = tarredlath_scan_run(twin->single.scan, job_bytes(job), job_length(job), twin->events, JOB_WORDS, STEPS_ENOUGH);
    twin->verdicts++;
}

void check_collected(struct fleet *fleet, struct twin *twin) {
    tarredlath_view view = tarredlath_worker_view(fleet->worker, twin->place);
    tarredlath_called called = tarredlath_worker_collect(fleet->worker, twin->place);
    check_number("events in view", twin->single.answer.events, view.events);
    check_bytes("event words of the place", twin->events, fleet->events + view.first, sizeof twin->events);
    check_answer(twin->single.answer, called.answer);
    fleet->worker = called.worker;
}
