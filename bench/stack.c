/* How much stack a call takes: it is made on a thread whose stack was painted before, and what is no longer painted behind
   it was used.  The state that is handed over and the reply stand on that stack too, some 8 KB each, where a call has them;
   the second column is without them. */

#define _GNU_SOURCE

#include "../include/paviluko.h"

#include <pthread.h>
#include <stdio.h>
#include <stdlib.h>
#include <string.h>

enum { STACK = 1 << 20, PAINT = 0xa5, RECORDS = 128 };

static const uint8_t key[PAVILUKO_KEY_LEN] = { 7 };
static paviluko_state state, next;
static paviluko_said said;
static uint8_t out[PAVILUKO_CHECKPOINT_LEN], record[PAVILUKO_RECORD_MAX], transaction[PAVILUKO_TRANSACTION_MAX];
static uint8_t card_log[RECORDS * PAVILUKO_RECORD_MAX], card_file[PAVILUKO_CHECKPOINT_LEN];
/* A frame with a record before the wanted one. */
static const uint8_t frame[] = { 0x68, 0x1b, 0x1b, 0x68, 0x08, 0x05, 0x72, 0x78, 0x56, 0x34, 0x12, 0x24, 0x40, 0x01, 0x07, 0x55, 0x00,
                                 0x00, 0x00, 0x04, 0x6d, 0x12, 0x0b, 0xd3, 0x12, 0x0c, 0x13, 0x78, 0x56, 0x34, 0x12, 0xfa, 0x16 };
static uint8_t tables[2 * PAVILUKO_TABLE_LEN], text[PAVILUKO_HEAT_TEXT_MAX];
static size_t log_len, file_len;
static uint64_t position;

static void keep(const paviluko_reply *r)
{
    next = r->state;
    said = r->said;
}

static void *nothing(void *unused)
{
    return unused;
}

/* Each makes one call on `state`, by value. */
#define CALL(name, call)                \
    static void *name(void *unused)     \
    {                                   \
        paviluko_reply r = call;        \
        keep(&r);                       \
        return unused;                  \
    }

CALL(load, paviluko_load(state.vault, key, sizeof key))
CALL(accept_one, paviluko_accept(state, transaction, sizeof transaction, (uint8_t)(position % 8), position))
CALL(seal, paviluko_seal(state, record, sizeof record))
CALL(commit, paviluko_commit(state, record, sizeof record))
CALL(point, paviluko_point(state, position))
CALL(checkpoint, paviluko_checkpoint(state, out, sizeof out))
CALL(truncate_at, paviluko_truncate(state, position))
CALL(recover, paviluko_recover(state, card_file, file_len, card_log, log_len, out, sizeof out))

/* These have no reply, and may take less than a thread does to start and to end: they are called below all that. */
static void from_bus(void)
{
    said = paviluko_from_bus(frame, sizeof frame, 7, 1, out, sizeof out);
}

static void plain_table(void)
{
    said = paviluko_plain_table(state, out, sizeof out);
}

static void heat_split(void)
{
    said = paviluko_heat_split(tables, sizeof tables, text, sizeof text);
}

static void no_call(void)
{
}

static void (*volatile below)(void);

static void *call_below(void *unused)
{
    volatile uint8_t above[1 << 14];
    above[0] = 0;
    below();
    return above[0] ? NULL : unused;
}

/* The bytes of stack that a thread takes. */
static size_t used(void *(*work)(void *))
{
    static uint8_t *stack;
    pthread_attr_t with;
    pthread_t thread;
    if (!stack && posix_memalign((void **)&stack, 4096, STACK))
        exit(1);
    memset(stack, PAINT, STACK);
    pthread_attr_init(&with);
    pthread_attr_setstack(&with, stack, STACK);
    if (pthread_create(&thread, &with, work, NULL) || pthread_join(thread, NULL))
        exit(1);
    size_t clean = 0;
    while (clean < STACK && stack[clean] == PAINT)
        clean++;
    return STACK - clean;
}

static size_t idle;

/* Makes a call, which is to be taken, and takes its state over. */
static size_t step(void *(*work)(void *))
{
    size_t bytes = used(work) - idle;
    if (said.number != PAVILUKO_TAKEN) {
        fprintf(stderr, "stack: a call was turned down with %d\n", said.number);
        exit(1);
    }
    state = next;
    return bytes;
}

static void line(const char *name, size_t bytes)
{
    printf("%-34s %6.1f KB %6.1f KB\n", name, (double)bytes / 1024,
           ((double)bytes - sizeof(paviluko_state) - sizeof(paviluko_reply)) / 1024);
}

/* A call that is handed so much by value, and has no reply. */
static void line_below(const char *name, void (*call)(void), size_t handed)
{
    below = no_call;
    size_t without = used(call_below);
    below = call;
    size_t bytes = used(call_below) - without;
    if (said.number != PAVILUKO_TAKEN) {
        fprintf(stderr, "stack: %s was turned down with %d\n", name, said.number);
        exit(1);
    }
    printf("%-34s %6.1f KB %6.1f KB\n", name, (double)bytes / 1024, ((double)bytes - (double)handed) / 1024);
}

static size_t most(size_t a, size_t b)
{
    return a < b ? b : a;
}

/* Goes on with a recovery; the most that a call took, and in `file` the most of those that put a file out. */
static size_t go_on(size_t *file)
{
    size_t other = 0;
    *file = 0;
    while (state.phase != PAVILUKO_IN_SERVICE) {
        size_t bytes = step(recover);
        if (said.store == PAVILUKO_STORE_FILE) {
            *file = most(*file, bytes);
            memcpy(card_file, out, sizeof out);
            file_len = sizeof out;
        } else {
            other = most(other, bytes);
        }
    }
    return other;
}

int main(void)
{
    size_t file;
    idle = used(nothing);
    transaction[0] = 1;
    for (int i = 0; i < 16; i++) {
        transaction[8 + 8 * i] = (uint8_t)i;
        transaction[8 + 8 * i + 2] = 1;
    }
    printf("%-34s %9s %9s\n", "", "in all", "beyond");
    line("load", step(load));
    go_on(&file);
    size_t accepting = 0, sealing = 0, committing = 0;
    for (position = 1; position <= RECORDS; position++) {
        accepting = most(accepting, step(accept_one));
        sealing = most(sealing, step(seal));
        memcpy(card_log + log_len, record, sizeof record);
        log_len += sizeof record;
        committing = most(committing, step(commit));
    }
    line("accept", accepting);
    line("seal", sealing);
    line("commit", committing);
    paviluko_state before = state;
    line("point", step(point));
    line("checkpoint, N", step(checkpoint));
    line("checkpoint, the file", step(checkpoint));
    line("checkpoint, S", step(checkpoint));
    size_t truncating = 0;
    for (int i = 0; i < 9; i++)
        truncating = most(truncating, step(truncate_at));
    line("truncate", truncating);
    state = before;
    step(load);
    line("recover, reading a card", step(recover));
    line("recover, the other calls", go_on(&file));
    line("recover, a file", file);
    line_below("from_bus", from_bus, 0);
    line_below("plain_table", plain_table, sizeof state);
    /* Every meter is heat, and used one more than the one before it. */
    for (unsigned i = 0; i < 2 * PAVILUKO_METERS; i++) {
        uint8_t *entry = tables + PAVILUKO_TABLE_LEN / PAVILUKO_METERS * i;
        entry[16] = (uint8_t)(i / PAVILUKO_METERS * (i % PAVILUKO_METERS));
        entry[20] = 3;
        entry[22] = 1;
    }
    line_below("heat_split", heat_split, 0);
    return 0;
}
