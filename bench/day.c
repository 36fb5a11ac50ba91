/* Benchmark of the library as firmware calls it, through include/paviluko.h.

   A day of all collectors, in memory: each is loaded and recovered, and makes its
   day's transactions, accepted, sealed and committed from the bytes that were put
   out.  Whenever its list of records is full it sets a point, makes a checkpoint
   and truncates.  Beside it the bare cipher seals and opens the same texts under a
   prepared key.  Then the recovery, in all its calls, of the longest log that a
   card that kept faith can hold, beside the bare opening of its records.  Times
   are the processor's. */

#define _POSIX_C_SOURCE 199309L

#include "calls.h"
#include "cipher.h"
#include "common.h"

#include <stdio.h>
#include <string.h>

enum {
    COLLECTORS = 640,
    A_DAY = 1500,       /* transactions of a collector */
    WRITES = 16,
    TEXT = 8 + 8 * WRITES,
    RECORD = TEXT + PAVILUKO_RECORD_EXTRA,
    AAD = 20,
    BODY = TEXT + 16,
    FULL = PAVILUKO_RECORDS * (PAVILUKO_POINTS + 1), /* records of the longest log */
    ROUNDS = 15
};

static const uint8_t key[PAVILUKO_KEY_LEN] = { 1, 2, 3, 4, 5, 6, 7, 8, 9, 10, 11, 12, 13, 14, 15, 16 };
static struct cipher_key prepared;
static paviluko_state collectors[COLLECTORS];
static uint8_t out[PAVILUKO_CHECKPOINT_LEN], record[RECORD];
static uint8_t card_log[FULL * RECORD], card_file[PAVILUKO_CHECKPOINT_LEN];

/* A transaction of 16 writes: every fourth meter from a first one, at a time of the day. */
static void put_text(uint8_t *text, unsigned i)
{
    memset(text, 0, TEXT);
    uint64_t stamp = 1750000000 + 57 * (uint64_t)i;
    memcpy(text, &stamp, 8);
    for (unsigned k = 0; k < WRITES; k++) {
        uint8_t *write = text + 8 + 8 * k;
        uint32_t reading = 100000 + i * 16 + k;
        write[0] = (uint8_t)(16 * k + i % 16);
        write[2] = (uint8_t)(1 + k % 4);
        memcpy(write + 4, &reading, 4);
    }
}

/* The position of a transaction; a point may stand right before it. */
static uint64_t place(unsigned i)
{
    return 2 * (uint64_t)i + 1;
}

static void tidy(paviluko_state *s, uint64_t position)
{
    taken(paviluko_do_point(s, position), "point");
    checkpoint(s, out);
    for (int i = 0; i < 9; i++)
        taken(paviluko_do_truncate(s, position), "truncate");
}

/* ---- the day ---- */

static void day_of(paviluko_state *s)
{
    uint8_t text[TEXT];
    for (unsigned i = 0; i < A_DAY; i++) {
        if (s->journal.count == PAVILUKO_RECORDS)
            tidy(s, place(i) - 1);
        put_text(text, i);
        transact(s, text, TEXT, (uint8_t)(i % PAVILUKO_LANES), place(i), record);
    }
}

static void bare_day(void)
{
    static const uint8_t nonce[12] = { 1 };
    uint8_t text[TEXT], body[BODY], aad[AAD] = { 1 };
    for (unsigned i = 0; i < A_DAY; i++) {
        put_text(body, i);
        check(cipher_seal(prepared.schedule, prepared.multiples, nonce, 12, aad, AAD, body, BODY, TEXT) == CIPHER_DONE,
              "the cipher's sealing");
        check(cipher_open(prepared.schedule, prepared.multiples, nonce, 12, aad, AAD, body, BODY, text, TEXT) == CIPHER_DONE,
              "the cipher's opening");
    }
}

static void day(void)
{
    double began = worked_ns();
    for (int c = 0; c < COLLECTORS; c++) {
        start_new(&collectors[c], key, out);
        day_of(&collectors[c]);
    }
    double whole = worked_ns() - began;
    began = worked_ns();
    for (int c = 0; c < COLLECTORS; c++)
        bare_day();
    double bare = worked_ns() - began;
    printf("a day of %d collectors, %d transactions each: %.2f s, %.2f us a transaction; the bare cipher %.2f s; ratio %.2f\n",
           COLLECTORS, A_DAY, whole / 1e9, whole / 1e3 / COLLECTORS / A_DAY, bare / 1e9, whole / bare);
}

/* ---- recovery ---- */

static void bare_open(const uint8_t *r)
{
    uint8_t text[TEXT], nonce[12] = { 1, r[1] };
    memcpy(nonce + 4, r + 12, 8);
    check(cipher_open(prepared.schedule, prepared.multiples, nonce, 12, r, AAD, r + AAD, BODY, text, TEXT) == CIPHER_DONE,
          "the cipher's opening");
}

static void recovery(void)
{
    static paviluko_state s;
    start_new(&s, key, out);
    memcpy(card_file, out, sizeof card_file);
    for (unsigned i = 0; i < FULL; i++) {
        uint8_t text[TEXT];
        if (s.journal.count == PAVILUKO_RECORDS)
            taken(paviluko_do_point(&s, place(i) - 1), "point");
        put_text(text, i);
        transact(&s, text, TEXT, (uint8_t)(i % PAVILUKO_LANES), place(i), card_log + (size_t)i * RECORD);
    }
    paviluko_vault x = s.vault;

    double ours = 1e18, bare = 1e18;
    unsigned calls = 0;
    for (int round = 0; round < ROUNDS; round++) {
        double began = worked_ns();
        calls = start(&s, &x, key, card_file, sizeof card_file, card_log, sizeof card_log, out);
        double took = worked_ns() - began;
        if (took < ours)
            ours = took;
        began = worked_ns();
        for (unsigned i = 0; i < FULL; i++)
            bare_open(card_log + (size_t)i * RECORD);
        took = worked_ns() - began;
        if (took < bare)
            bare = took;
    }
    printf("recovery in %u calls, a log of %u records (%zu bytes): %.2f ms; the bare cipher opens the records in %.2f ms\n", calls,
           (unsigned)FULL, sizeof card_log, ours / 1e6, bare / 1e6);
}

int main(void)
{
    check(cipher_prepare(key, sizeof key, prepared.schedule, prepared.multiples) == CIPHER_DONE, "preparing the key");
    day();
    recovery();
    return 0;
}
