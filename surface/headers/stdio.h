/* For builds with a compiler that comes without headers: what the programs of this folder call, and no more. */
#ifndef SURFACE_STDIO_H
#define SURFACE_STDIO_H
#include <stddef.h>
#define EOF (-1)
typedef struct surface_file FILE;
extern FILE *stdin, *stdout, *stderr;
int printf(const char *format, ...);
int fprintf(FILE *file, const char *format, ...);
int snprintf(char *to, size_t size, const char *format, ...);
int putchar(int byte);
FILE *fopen(const char *path, const char *mode);
int fgetc(FILE *file);
size_t fread(void *to, size_t size, size_t count, FILE *file);
size_t fwrite(const void *from, size_t size, size_t count, FILE *file);
int fflush(FILE *file);
int ferror(FILE *file);
int fclose(FILE *file);
#endif
