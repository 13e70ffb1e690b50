/* For builds with a compiler that comes without headers: what the programs of this folder call, and no more. */
#ifndef SURFACE_STRING_H
#define SURFACE_STRING_H
#include <stddef.h>
void *memset(void *to, int byte, size_t size);
void *memcpy(void *restrict to, const void *restrict from, size_t size);
int memcmp(const void *a, const void *b, size_t size);
size_t strlen(const char *text);
int strcmp(const char *a, const char *b);
char *strstr(const char *text, const char *part);
#endif
