/* The clock of the benchmarks that do the work of a row in several ways. */

#ifndef BENCH_WAYS_H
#define BENCH_WAYS_H

#include "calls.h"
#include "common.h"

struct row;

/* The time of one turn, of so many. */
static inline double batch(int (*way)(const struct row *), const struct row *r, long times)
{
    int right = 1;
    double start = now_ns();
    for (long i = 0; i < times; i++)
        right &= way(r);
    double ns = (now_ns() - start) / (double)times;
    check(right, "measured work");
    return ns;
}

/* Keeps the least time; as many turns as take 2 ms, by the time of the first ones. */
static inline void time_way(int (*way)(const struct row *), const struct row *r, long first, double *best)
{
    double t = batch(way, r, (long)(2e6 / batch(way, r, first)) + 1);
    if (*best == 0 || t < *best)
        *best = t;
}

#endif
