/* For builds with a compiler that comes without headers: what the programs of this folder call, and no more. */
#ifndef SURFACE_STDLIB_H
#define SURFACE_STDLIB_H
#include <stddef.h>
_Noreturn void exit(int status);
void *calloc(size_t count, size_t size);
void *realloc(void *room, size_t size);
void free(void *room);
#endif
