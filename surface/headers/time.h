/* For builds with a compiler that comes without headers: what the programs of this folder call, and no more. */
#ifndef SURFACE_TIME_H
#define SURFACE_TIME_H
enum { CLOCK_MONOTONIC = 1 };
struct timespec {
    long tv_sec, tv_nsec;
};
int clock_gettime(int clock, struct timespec *now);
#endif
