/* A torn last record (02, CR 4): behind a visible record of lane 2 stands the beginning of one of lane 5, of 1 to 16 writes.
 *
 * Each log lies on the heap with not a byte behind it, so that valgrind sees a read beyond its end. Every beginning is passed
 * over where the record is not visible, and missed where it is; the whole record never is. Twenty bytes are a beginning
 * exactly if kind, lane and n are those of a record, whatever epoch and number are. */
#include <string.h>

#include "check.h"
#include "paviluko.h"

enum { HEAD = 20, KIND = 1, LANE = 5, FRONT = 2, STAMP = 8, WRITE = 8, WRITES = 16, METER = 7 };

static const uint8_t key[PAVILUKO_KEY_LEN] = {2, 7, 1, 8, 2, 8, 1, 8};
static uint8_t front[PAVILUKO_RECORD_MAX];
static size_t front_len;

/* Accepts and seals a transaction with so many writes, of lane 5 later than of lane 2; the record's length. */
static size_t put_record(paviluko_state *s, uint8_t lane, size_t writes, uint64_t position, uint8_t *out)
{
    uint8_t text[PAVILUKO_TRANSACTION_MAX] = {lane};
    for (size_t i = 0; i < writes; i++) {
        const uint8_t write[WRITE] = {(uint8_t)(METER + i), 0, 3, 0, lane};
        memcpy(text + STAMP + WRITE * i, write, sizeof write);
    }
    CHECK(paviluko_do_accept(s, text, STAMP + WRITE * writes, lane, position).number == PAVILUKO_TAKEN);
    paviluko_said said = paviluko_do_seal(s, out, PAVILUKO_RECORD_MAX);
    CHECK(said.number == PAVILUKO_TAKEN);
    return said.len;
}

/* What the first call of Recover says to the front and so many bytes behind it, where lane 5 is at this V. Where it takes them,
 * the table shows the reading of this lane. */
static paviluko_said told(uint64_t visible, const uint8_t *tail, size_t len, uint8_t shown)
{
    paviluko_vault x;
    memset(&x, 0, sizeof x);
    x.w[FRONT] = x.v[FRONT] = x.w[LANE] = 1;
    x.v[LANE] = visible;
    uint8_t *log = malloc(front_len + len);
    CHECK(log != NULL);
    memcpy(log, front, front_len);
    memcpy(log + front_len, tail, len);
    paviluko_state s;
    CHECK(paviluko_do_load(&s, &x, key, sizeof key).number == PAVILUKO_TAKEN);
    paviluko_said said = paviluko_do_recover(&s, NULL, 0, log, front_len + len, NULL, 0);
    free(log);
    if (said.number == PAVILUKO_TAKEN) {
        CHECK(said.store == PAVILUKO_STORE_N && said.value == 1);
        CHECK(s.table.entries[METER].present && s.table.entries[METER].lane == shown);
    }
    return said;
}

static int is(paviluko_said said, uint32_t number, uint64_t value)
{
    return said.number == number && (number == PAVILUKO_TAKEN || said.value == value);
}

/* Twenty bytes: passed over exactly if they are a record's head. */
static void head_is(const uint8_t *head, int legal)
{
    CHECK(is(told(0, head, HEAD, FRONT), legal ? PAVILUKO_TAKEN : PAVILUKO_REFUSED_CLOSED, front_len));
    CHECK(is(told(0, head, HEAD - 1, FRONT), PAVILUKO_TAKEN, 0));
}

int main(void)
{
    static uint8_t file[PAVILUKO_CHECKPOINT_LEN];
    static paviluko_state serving;
    paviluko_vault x;
    memset(&x, 0, sizeof x);
    CHECK(paviluko_do_load(&serving, &x, key, sizeof key).number == PAVILUKO_TAKEN);
    while (serving.phase != PAVILUKO_IN_SERVICE) {
        CHECK(paviluko_do_recover(&serving, NULL, 0, NULL, 0, file, sizeof file).number == PAVILUKO_TAKEN);
    }
    front_len = put_record(&serving, FRONT, 1, 1, front);

    uint8_t record[PAVILUKO_RECORD_MAX];
    long beginnings = 0;
    for (size_t writes = 1; writes <= WRITES; writes++) {
        paviluko_state s = serving;
        size_t len = put_record(&s, LANE, writes, 2, record);
        for (size_t left = 0; left < len; left++, beginnings++) {
            CHECK(is(told(0, record, left, FRONT), PAVILUKO_TAKEN, 0));
            CHECK(is(told(1, record, left, FRONT), PAVILUKO_REFUSED_MISSING, LANE));
        }
        /* The whole of it: passed over while it is not visible, and read where it is. */
        CHECK(is(told(0, record, len, FRONT), PAVILUKO_TAKEN, 0));
        CHECK(is(told(1, record, len, LANE), PAVILUKO_TAKEN, 0));
        /* Of full length it has to open. */
        record[len - 1] ^= 1;
        CHECK(is(told(0, record, len, FRONT), PAVILUKO_REFUSED_CLOSED, front_len));
        record[len - 1] ^= 1;
    }

    /* Heads. Epoch and number may be any. */
    for (unsigned value = 0; value < 256; value++) {
        uint8_t head[HEAD];
        memset(head, (int)value, sizeof head);
        memcpy(head, record, 4);
        head_is(head, 1);
        head[0] = (uint8_t)value;
        head_is(head, value == KIND);
        head[0] = KIND;
        head[1] = (uint8_t)value;
        head_is(head, value < PAVILUKO_LANES);
        head[1] = LANE;
        for (unsigned high = 0; high < 256; high = high < 2 ? high + 1 : high == 2 ? 255 : 256) {
            unsigned n = value + 256 * high;
            head[2] = (uint8_t)value;
            head[3] = (uint8_t)high;
            head_is(head, n >= PAVILUKO_TRANSACTION_MIN && n <= PAVILUKO_TRANSACTION_MAX && n % WRITE == 0);
        }
    }
    printf("torn: %ld beginnings of records passed over, and missed where they are visible, %ld checks\n", beginnings, checks);
    return 0;
}
