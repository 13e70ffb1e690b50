/* For builds with a compiler that comes without headers: what the programs of this folder need, and no more. */
#ifndef SURFACE_STDDEF_H
#define SURFACE_STDDEF_H
typedef __SIZE_TYPE__ size_t;
#define NULL ((void *)0)
#endif
