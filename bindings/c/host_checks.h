/* Checks that are counted. A check has a name and any number of comparisons; where one of them does not hold, it has failed, and a
   line says what was expected and found by the first. */
#ifndef HOST_CHECKS_H
#define HOST_CHECKS_H

#include "tarredlath.h"

/* The comparisons that follow belong to this check, until the next begins. */
void begin_check(const char *part, const char *subject);

void check_number(const char *what, size_t expected, size_t found);
void check_bytes(const char *what, const void *expected, const void *found, size_t size);

/* All nine numbers of an answer. Where steps or events of NOT_GIVEN are expected, any will do. */
#define NOT_GIVEN ((size_t)-1)
void check_answer(tarredlath_answer expected, tarredlath_answer found);

/* That an answer has this number, and carries nothing. */
void check_bare(uint8_t expected, tarredlath_answer found);

/* All four numbers of a body. */
void check_body(tarredlath_body expected, tarredlath_body found);

/* Ends the last check, writes `N passed, M failed`, and says whether none failed. */
int end_checks(void);

#endif
