/* What the example and the benchmark use of the C library's input and output, for a compiler that comes without headers. */
#ifndef TEST_STDIO_H
#define TEST_STDIO_H
#include <stddef.h>
typedef struct file FILE;
extern FILE *stdin;
extern FILE *stderr;
size_t fread(void *items, size_t size, size_t count, FILE *from);
int ferror(FILE *file);
int puts(const char *line);
int fputs(const char *text, FILE *to);
int printf(const char *format, ...) __attribute__((format(printf, 1, 2)));
#endif
