/* What the benchmarks call of a collector, through include/paviluko.h.  A call that is turned down ends the run. */

#ifndef BENCH_CALLS_H
#define BENCH_CALLS_H

#include "../include/paviluko.h"

#include <stdio.h>
#include <stdlib.h>

static inline void check(int right, const char *what)
{
    if (right)
        return;
    fprintf(stderr, "bench: %s went wrong\n", what);
    exit(1);
}

static inline void taken(paviluko_said said, const char *what)
{
    if (said.number == PAVILUKO_TAKEN)
        return;
    fprintf(stderr, "bench: %s was turned down with %d\n", what, said.number);
    exit(1);
}

/* Loads and recovers with what the card holds; the last file put out stands in `out`. */
static inline unsigned start(paviluko_state *s, const paviluko_vault *x, const uint8_t key[PAVILUKO_KEY_LEN], const uint8_t *file,
                             size_t file_len, const uint8_t *log, size_t log_len, uint8_t out[PAVILUKO_CHECKPOINT_LEN])
{
    unsigned calls = 0;
    taken(paviluko_do_load(s, x, key, PAVILUKO_KEY_LEN), "load");
    while (s->phase != PAVILUKO_IN_SERVICE) {
        taken(paviluko_do_recover(s, file, file_len, log, log_len, out, PAVILUKO_CHECKPOINT_LEN), "recover");
        calls++;
    }
    return calls;
}

/* A collector in service from a new vault. */
static inline void start_new(paviluko_state *s, const uint8_t key[PAVILUKO_KEY_LEN], uint8_t out[PAVILUKO_CHECKPOINT_LEN])
{
    static const paviluko_vault zeros;
    start(s, &zeros, key, NULL, 0, NULL, 0, out);
}

/* Accepts a transaction, seals it to `to`, and commits it from there. */
static inline void transact(paviluko_state *s, const uint8_t *text, size_t len, uint8_t lane, uint64_t position, uint8_t *to)
{
    size_t record_len = len + PAVILUKO_RECORD_EXTRA;
    taken(paviluko_do_accept(s, text, len, lane, position), "accept");
    taken(paviluko_do_seal(s, to, record_len), "seal");
    taken(paviluko_do_commit(s, to, record_len), "commit");
}

/* A checkpoint, in its three calls. */
static inline void checkpoint(paviluko_state *s, uint8_t out[PAVILUKO_CHECKPOINT_LEN])
{
    for (int i = 0; i < 3; i++)
        taken(paviluko_do_checkpoint(s, out, PAVILUKO_CHECKPOINT_LEN), "checkpoint");
}

#endif
