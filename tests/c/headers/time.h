/* In place of the C library's own header, which the kit does not have: what the C programs here use of it, on x86-64. */
#ifndef TIME_H
#define TIME_H
struct timespec {
    long tv_sec;
    long tv_nsec;
};
enum { CLOCK_MONOTONIC = 1 };
int clock_gettime(int clock, struct timespec *time);
#endif
