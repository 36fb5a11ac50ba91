/* What the benchmarks use: bytes to work on, the same in every run, and a clock. */

#ifndef BENCH_COMMON_H
#define BENCH_COMMON_H

#include <stddef.h>
#include <stdint.h>
#include <time.h>

static inline void fill(uint8_t *to, size_t n)
{
    static uint64_t state = 0x5eed;
    for (size_t i = 0; i < n; i++) {
        state ^= state << 13;
        state ^= state >> 7;
        state ^= state << 17;
        to[i] = (uint8_t)(state >> 32);
    }
}

static inline double ns_of(clockid_t clock)
{
    struct timespec t;
    clock_gettime(clock, &t);
    return 1e9 * (double)t.tv_sec + (double)t.tv_nsec;
}

static inline double now_ns(void)
{
    return ns_of(CLOCK_MONOTONIC);
}

/* The time that this program had a processor. */
static inline double worked_ns(void)
{
    return ns_of(CLOCK_PROCESS_CPUTIME_ID);
}

#endif
