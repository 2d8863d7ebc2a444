/* For a compiler without headers of its own: what the programs here use of the C library's <stdio.h>. */
#ifndef FREESTANDING_STDIO_H
#define FREESTANDING_STDIO_H

#include <stddef.h>

typedef struct _IO_FILE FILE; /* the library's; only pointers to it are handed on */
extern FILE *stdin;
extern FILE *stderr;

FILE *fopen(const char *path, const char *mode);
int fclose(FILE *file);
size_t fread(void *buffer, size_t size, size_t count, FILE *file);
int ferror(FILE *file);
int printf(const char *format, ...);
int fprintf(FILE *file, const char *format, ...);

#endif
