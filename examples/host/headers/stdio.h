#ifndef STDIO_H
#define STDIO_H

#include <stddef.h>

typedef struct _IO_FILE FILE;
extern FILE *stdin;
extern FILE *stdout;

int printf(const char *format, ...);
int snprintf(char *to, size_t length, const char *format, ...);
int fflush(FILE *file);
size_t fread(void *to, size_t size, size_t count, FILE *file);
size_t fwrite(const void *from, size_t size, size_t count, FILE *file);

#endif
