/* What each program here needs: the time, and an end that says why where something isn't as it has to be. */
#ifndef MEASURE_H
#define MEASURE_H

#include <stdbool.h>
#include <stdio.h>
#include <stdlib.h>
#include <time.h>

/* Nanoseconds since some moment. */
static inline double now(void)
{
    struct timespec at;
    clock_gettime(CLOCK_MONOTONIC, &at);
    return (double)at.tv_sec * 1e9 + (double)at.tv_nsec;
}

/* Ends the program where it isn't so; told is what was measured, and what is wrong. */
static inline void must_of(const char *measured, bool is_so, const char *what)
{
    if (is_so)
        return;
    fprintf(stderr, "%s: %s\n", measured, what);
    exit(1);
}

#endif
