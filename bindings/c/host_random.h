/* Bytes that look random and are the same in every run, so that a failure can be had again. */
#ifndef HOST_RANDOM_H
#define HOST_RANDOM_H

#include <stddef.h>

void fill_random(void *memory, size_t size);

#endif
