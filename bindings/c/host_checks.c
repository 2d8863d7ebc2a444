#include <stdio.h>
#include <string.h>

#include "host_checks.h"

static const char *check_part;
static const char *check_subject;
static int has_failed;
static unsigned long comparisons;
static unsigned long passed;
static unsigned long failed;

static void end_check(void) {
    if (check_part == NULL) {
        return;
    }
    if (has_failed) {
        failed++;
    } else {
        passed++;
    }
}

void begin_check(const char *part, const char *subject) {
    end_check();
    check_part = part;
    check_subject = subject;
    has_failed = 0;
}

/* Notes a comparison, and says whether it is the first of its check that does not hold: only that one is told. */
static int is_first_failure(int is_equal, const char *what) {
    comparisons++;
    if (is_equal || has_failed) {
        return 0;
    }
    has_failed = 1;
    printf("FAILED: %s: %s: %s: ", check_part, check_subject, what);
    return 1;
}

void check_number(const char *what, size_t expected, size_t found) {
    if (is_first_failure(expected == found, what)) {
        printf("expected %lu, found %lu\n", (unsigned long)expected, (unsigned long)found);
    }
}

void check_bytes(const char *what, const void *expected, const void *found, size_t size) {
    const unsigned char *a = expected;
    const unsigned char *b = found;
    size_t i = 0;
    if (is_first_failure(memcmp(a, b, size) == 0, what)) {
        while (a[i] == b[i]) {
            i++;
        }
        printf("byte %lu of %lu: expected %d, found %d\n", (unsigned long)i, (unsigned long)size, a[i], b[i]);
    }
}

void check_answer(tarredlath_answer expected, tarredlath_answer found) {
    check_number("number", expected.number, found.number);
    check_number("place", expected.place, found.place);
    check_number("line", expected.line, found.line);
    check_number("column", expected.column, found.column);
    check_number("where", expected.where, found.where);
    check_number("note", expected.note, found.note);
    check_number("verdict", expected.verdict, found.verdict);
    if (expected.events != NOT_GIVEN) {
        check_number("events", expected.events, found.events);
    }
    if (expected.steps != NOT_GIVEN) {
        check_number("steps", expected.steps, found.steps);
    }
}

void check_bare(uint8_t expected, tarredlath_answer found) {
    tarredlath_answer bare = {0};
    bare.number = expected;
    check_answer(bare, found);
}

void check_body(tarredlath_body expected, tarredlath_body found) {
    check_number("number of body", expected.number, found.number);
    check_number("kind of body", expected.kind, found.kind);
    check_number("at of body", expected.at, found.at);
    check_number("length of body", expected.length, found.length);
}

int end_checks(void) {
    end_check();
    printf("%lu comparisons\n%lu passed, %lu failed\n", comparisons, passed, failed);
    return failed == 0;
}
