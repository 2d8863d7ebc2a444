/*
 * The test host: a C program that calls every function of tarredlath.h and checks what comes back. It writes a line for each
 * check that fails, and `N passed, M failed` at the end; the status is 0 where none failed.
 */
#include "host_checks.h"
#include "host_parts.h"

int main(void) {
    check_scans();
    check_states();
    check_bodies();
    check_workers();
    check_worker_refusals();
    check_accident();
    check_lists();
    return end_checks() ? 0 : 1;
}
