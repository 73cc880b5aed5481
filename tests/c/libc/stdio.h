#ifndef STDIO_H
#define STDIO_H
#include <stddef.h>
typedef struct file FILE;
extern FILE *stdin;
extern FILE *stdout;
int printf(const char *form, ...);
int puts(const char *line);
int fclose(FILE *file);
size_t fread(void *to, size_t size, size_t count, FILE *file);
size_t fwrite(const void *from, size_t size, size_t count, FILE *file);
FILE *fopen(const char *name, const char *mode);
#endif
