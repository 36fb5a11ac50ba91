/* Benchmark of records and checkpoint files beside the bare cipher on the same
   bytes: what layout, checks and copies cost on top of it.

   Each row is a piece of work and the cipher's part of it.  The two take turns
   over several rounds, and a time is the least of its rounds.  A table crosses
   the boundary as its text, so a checkpoint's times hold reading that text
   before sealing, and writing it after opening.  The fifth row enters the
   transactions of a full log into a table; the cipher's time beside it is that
   of opening them.  The last four call the collector as firmware does, through
   include/paviluko.h: transactions, each accepted, sealed and committed, beside
   sealing and opening each, under a key that is prepared once, and then, as Seal
   and Commit have to, each time; checkpoints in their three calls, beside sealing
   a file; the call of Recover that reads a checkpoint and a full log, beside
   opening the file and the records. */

#define _POSIX_C_SOURCE 199309L

#include "calls.h"
#include "cipher.h"
#include "common.h"
#include "sealed.h"

#include <stdio.h>
#include <string.h>

enum {
    KEY = 16, NONCE = 12, AAD = 20, TAG = 16, FRAME = 40,
    WRITES = 16, TEXT = 8 + 8 * WRITES, RECORD = TEXT + FRAME,
    METERS = 256, ENTRY = 24, TABLE = METERS * ENTRY, FILE_LEN = TABLE + FRAME,
    LOG = 1489,                         /* so many such records fill a log of 262,144 bytes */
    PART = LOG / 10,                    /* so many are a tenth of one */
    TORN = 80,                          /* so many bytes of a record more, which a cut left, fill it to the last byte */
    FILES = 8,                          /* so many checkpoints at a time */
    VERSION = 8,                        /* the version of the file that is recovered from */
    ROUNDS = 25
};

static const double batch_ns = 5e6;

static struct cipher_key key;
static uint8_t text[TEXT], record[RECORD], record_text[TEXT];
static uint8_t table[TABLE], file[FILE_LEN], file_table[TABLE];
static uint8_t bare_record[TEXT + TAG], bare_file[TABLE + TAG];
static uint8_t texts[LOG * TEXT], log_bytes[LOG * RECORD + TORN];
static uint8_t key_bytes[KEY];
static uint8_t record_nonce[NONCE] = { 1, 3, 0, 0, 2, 1 }, file_nonce[NONCE] = { 2, 0, 0, 0, 9 };
static paviluko_state cold, cold_part;  /* before the full log is read, and before a tenth of it is */
static paviluko_state serving, showing; /* in service; the same with readings */
static uint8_t out[FILE_LEN];

/* ---- the work ---- */

static int seal_record(void)
{
    return sealed_put_record(key.schedule, key.multiples, 3, 7, 258, text, TEXT, record, RECORD) == SEALED_DONE;
}

static int open_record(void)
{
    return sealed_open_record(key.schedule, key.multiples, record, RECORD, record_text, TEXT).code == SEALED_DONE;
}

static int seal_file(void)
{
    return sealed_put_file(key.schedule, key.multiples, VERSION, 9, table, TABLE, file, FILE_LEN) == SEALED_DONE;
}

static int open_file(void)
{
    return sealed_open_file(key.schedule, key.multiples, file, FILE_LEN, file_table, TABLE).code == SEALED_DONE;
}

static int enter_log(void)
{
    return sealed_enter_each(file_table, TABLE, texts, sizeof texts, 3, 258) == SEALED_DONE;
}

static int transactions(void)
{
    paviluko_state s = serving;
    for (unsigned i = 0; i < PAVILUKO_RECORDS; i++)
        transact(&s, text, TEXT, (uint8_t)(i % PAVILUKO_LANES), i, out);
    return 1;
}

static int checkpoints(void)
{
    paviluko_state s = showing;
    for (int i = 0; i < FILES; i++)
        checkpoint(&s, out);
    return 1;
}

static int recover_from(const paviluko_state *c, size_t len)
{
    paviluko_state s = *c;
    taken(paviluko_do_recover(&s, file, FILE_LEN, log_bytes, len, NULL, 0), "recover");
    return 1;
}

static int recover(void) { return recover_from(&cold, LOG * RECORD); }
static int recover_torn(void) { return recover_from(&cold, LOG * RECORD + TORN); }
static int recover_part(void) { return recover_from(&cold_part, PART * RECORD); }
static int recover_part_torn(void) { return recover_from(&cold_part, PART * RECORD + TORN); }

/* ---- the cipher's part of it ---- */

/* The text in body, and the text behind the head of framed. */
static int bare_seal(const uint8_t *nonce, const uint8_t *framed, uint8_t *body, size_t n)
{
    return cipher_seal(key.schedule, key.multiples, nonce, NONCE, framed, AAD, body, n + TAG, n) == CIPHER_DONE;
}

static int bare_open(const uint8_t *nonce, const uint8_t *framed, uint8_t *out, size_t n)
{
    return cipher_open(key.schedule, key.multiples, nonce, NONCE, framed, AAD,
                       framed + AAD, n + TAG, out, n) == CIPHER_DONE;
}

static int bare_seal_record(void) { return bare_seal(record_nonce, record, bare_record, TEXT); }
static int bare_open_record(void) { return bare_open(record_nonce, record, record_text, TEXT); }
static int bare_seal_file(void) { return bare_seal(file_nonce, file, bare_file, TABLE); }
static int bare_open_file(void) { return bare_open(file_nonce, file, file_table, TABLE); }

/* The same work so many times. */
static int each(int (*work)(void), int times)
{
    int right = 1;
    for (int i = 0; i < times; i++)
        right &= work();
    return right;
}

static int bare_transaction(void) { return bare_seal_record() && bare_open_record(); }

static int prepare(void) { return cipher_prepare(key_bytes, KEY, key.schedule, key.multiples) == CIPHER_DONE; }
static int transaction_from_key(void) { return prepare() && bare_seal_record() && prepare() && bare_open_record(); }

static int bare_open_log(void) { return each(bare_open_record, LOG); }
static int bare_transactions(void) { return each(bare_transaction, PAVILUKO_RECORDS); }
static int transactions_from_key(void) { return each(transaction_from_key, PAVILUKO_RECORDS); }
static int bare_checkpoints(void) { return each(bare_seal_file, FILES); }
static int bare_recover(void) { return bare_open_file() && bare_open_log(); }
static int bare_recover_part(void) { return bare_open_file() && each(bare_open_record, PART); }

static struct row {
    const char *name;
    int (*work[2])(void);               /* the whole, and the cipher's part */
    double best[2];
} rows[] = {
    { "seal a record of 16 writes", { seal_record, bare_seal_record }, { 0, 0 } },
    { "open a record of 16 writes", { open_record, bare_open_record }, { 0, 0 } },
    { "seal a checkpoint", { seal_file, bare_seal_file }, { 0, 0 } },
    { "open a checkpoint", { open_file, bare_open_file }, { 0, 0 } },
    { "enter a full log, beside opening it", { enter_log, bare_open_log }, { 0, 0 } },
    { "128 transactions", { transactions, bare_transactions }, { 0, 0 } },
    { "the same, from a bare key", { transactions, transactions_from_key }, { 0, 0 } },
    { "8 checkpoints", { checkpoints, bare_checkpoints }, { 0, 0 } },
    { "recover, a full log", { recover, bare_recover }, { 0, 0 } },
    { "the same, and a torn record", { recover_torn, bare_recover }, { 0, 0 } },
    { "recover, a tenth of it", { recover_part, bare_recover_part }, { 0, 0 } },
    { "the same, and a torn record", { recover_part_torn, bare_recover_part }, { 0, 0 } },
};

enum { ROWS = sizeof rows / sizeof rows[0] };

/* ---- what is worked on ---- */

/* A transaction of 16 writes, and a table in which every meter has a reading. */
static void make_work(void)
{
    fill(key_bytes, KEY);
    check(prepare(), "preparing a key");
    fill(text, TEXT);
    for (int i = 0; i < WRITES; i++) {
        uint8_t *w = text + 8 + 8 * i;
        w[0] = (uint8_t)(16 * i + 5);
        w[1] = 0;
        w[2] = (uint8_t)(1 + i % 4);
        w[3] = 0;
    }
    for (uint64_t i = 0; i < LOG; i++) {
        memcpy(texts + i * TEXT, text, TEXT);
        memcpy(texts + i * TEXT, &i, sizeof i);
    }
    for (uint64_t i = 0; i < LOG; i++)
        check(sealed_put_record(key.schedule, key.multiples, 0, 0, i + 1, texts + i * TEXT, TEXT,
                                log_bytes + i * RECORD, RECORD) == SEALED_DONE, "sealing a log");
    fill(table, TABLE);
    for (int i = 0; i < METERS; i++) {
        uint8_t *e = table + ENTRY * i;
        e[20] = (uint8_t)(1 + i % 4);
        e[21] = (uint8_t)(i % 8);
        e[22] = 1;
        e[23] = 0;
    }
}

/* The collectors that calls start from: two whose vaults have the numbers of the full log, on lane 0, and of a tenth of it, and
   the file's version; one in service; and one that has made a transaction. Behind the full log stands the beginning of a record. */
static void make_collectors(void)
{
    paviluko_vault x = { .w = { LOG }, .v = { LOG }, .s = VERSION };
    paviluko_vault part = { .w = { PART }, .v = { PART }, .s = VERSION };
    taken(paviluko_do_load(&cold, &x, key_bytes, KEY), "load");
    taken(paviluko_do_load(&cold_part, &part, key_bytes, KEY), "load");
    memcpy(log_bytes + LOG * RECORD, log_bytes, TORN);
    start_new(&serving, key_bytes, out);
    showing = serving;
    transact(&showing, text, TEXT, 0, 0, out);
}

/* Both seal to the same bytes, and both open to what was sealed. */
static void check_work(void)
{
    check(seal_record() && seal_file(), "sealing");
    memcpy(bare_record, text, TEXT);
    memcpy(bare_file, table, TABLE);
    check(bare_seal_record() && !memcmp(bare_record, record + AAD, TEXT + TAG), "sealing a record's text");
    check(bare_seal_file() && !memcmp(bare_file, file + AAD, TABLE + TAG), "sealing a checkpoint's text");
    check(open_record() && !memcmp(record_text, text, TEXT), "opening a record");
    check(open_file() && !memcmp(file_table, table, TABLE), "opening a checkpoint");
    memset(record_text, 0, TEXT);
    memset(file_table, 0, TABLE);
    check(bare_open_record() && !memcmp(record_text, text, TEXT), "opening a record's text");
    check(bare_open_file() && !memcmp(file_table, table, TABLE), "opening a checkpoint's text");
}

/* ---- the clock ---- */

static double batch(int (*work)(void), long times)
{
    int right = 1;
    double start = now_ns();
    for (long i = 0; i < times; i++)
        right &= work();
    double ns = (now_ns() - start) / (double)times;
    check(right, "measured work");
    return ns;
}

static void run_in_turn(struct row *r)
{
    for (int i = 0; i < 2; i++) {
        double t = batch(r->work[i], (long)(batch_ns / batch(r->work[i], 20)) + 1);
        if (r->best[i] == 0 || t < r->best[i])
            r->best[i] = t;
    }
}

int main(void)
{
    make_work();
    make_collectors();
    check_work();
    for (int round = 0; round < ROUNDS; round++)
        for (int i = 0; i < ROWS; i++)
            run_in_turn(&rows[i]);
    printf("%-28s %10s %10s %8s\n", "", "ns", "cipher ns", "ratio");
    for (int i = 0; i < ROWS; i++)
        printf("%-28s %10.0f %10.0f %8.2f\n", rows[i].name, rows[i].best[0], rows[i].best[1],
               rows[i].best[0] / rows[i].best[1]);
    return 0;
}
