/* Pages in a worker, each beside a single scan of the same job: what the one is answered, the other must be. */
#ifndef HOST_TWINS_H
#define HOST_TWINS_H

#include "host_jobs.h"

/* The event buffer of a worker whose places have as many words as a job's own buffer. */
#define TWIN_WORDS (TARREDLATH_PLACES * JOB_WORDS)

/* A worker with what is lent to it: pages one behind the other, and its event buffer. */
struct fleet {
    tarredlath_worker worker;
    uint8_t bytes[4096];
    size_t bytes_length;
    uint32_t events[TWIN_WORDS];
};

/* A job at a place of the worker, its single scan, and the verdicts that are still to be given to both. */
struct twin {
    const struct job *job;
    size_t at;
    size_t place;
    const char *verdicts;
    tarredlath_ran single;
    uint32_t events[JOB_WORDS];
};

void start_fleet(struct fleet *fleet, size_t q);

/* Puts the job's page behind the others, and asks for a place. */
tarredlath_called admit_job(struct fleet *fleet, const struct job *job, size_t *at);
void admit_twin(struct fleet *fleet, struct twin *twin, const struct job *job);

tarredlath_called turn_fleet(struct fleet *fleet);

/* The place asks: its body must be that of the single scan, and both are given the next verdict. */
void check_question(struct fleet *fleet, struct twin *twin);

/* The place has ended: its events and its answer must be those of the single scan. */
void check_collected(struct fleet *fleet, struct twin *twin);

#endif
