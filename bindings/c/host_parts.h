/* The parts of the test host, each in a file of its own. */
#ifndef HOST_PARTS_H
#define HOST_PARTS_H

void check_scans(void);
void check_states(void);
void check_bodies(void);
void check_workers(void);
void check_worker_refusals(void);
void check_accident(void);
void check_lists(void);

#endif
