/* In place of the C library's own header, which the kit does not have: what the C programs here use of it, on x86-64. */
#ifndef STDIO_H
#define STDIO_H
#include <stddef.h>
typedef struct _IO_FILE FILE;
extern FILE *stdin, *stdout, *stderr;
FILE *fopen(const char *name, const char *mode);
int fclose(FILE *file);
size_t fread(void *memory, size_t size, size_t count, FILE *file);
size_t fwrite(const void *memory, size_t size, size_t count, FILE *file);
int fflush(FILE *file);
int feof(FILE *file);
int ferror(FILE *file);
int fprintf(FILE *file, const char *form, ...);
int printf(const char *form, ...);
int puts(const char *text);
int putchar(int byte);
int getchar(void);
#endif
