/* For a compiler without headers of its own: what the programs here use of the C library's <stdlib.h>. */
#ifndef FREESTANDING_STDLIB_H
#define FREESTANDING_STDLIB_H

#include <stddef.h>

void *malloc(size_t size);
void free(void *memory);
unsigned long strtoul(const char *text, char **end, int base);

#endif
