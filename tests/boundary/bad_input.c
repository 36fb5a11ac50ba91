/* What a host can hand over by mistake, through every function of the C boundary: states of random numbers, good states with
 * one field changed, buffers of length 0 and of wrong lengths, bytes that are no record, frames of every length, tables that
 * are none. A call that is turned down leaves state and buffer as they were; a call that is taken writes its len bytes and none
 * behind them. Buffers have their exact length on the heap, so that valgrind sees every byte read or written beside them.
 *
 * Argument: how many rounds. */
#include <stdio.h>
#include <stdlib.h>

#include "frame.h"
#include "random.h"
#include "same.h"
#include "table.h"

static uint64_t calls, refused;

/* ---- random numbers ---- */

/* A number that is small, or near the maximum, or any. */
static uint64_t number(void)
{
    switch (below(4)) {
    case 0: return any();
    case 1: return PAVILUKO_COUNTER_MAX - 2 + below(5);
    default: return below(20);
    }
}

static void fill(void *to, size_t len)
{
    uint8_t *bytes = to;
    for (size_t i = 0; i < len; i++) {
        bytes[i] = (uint8_t)any();
    }
}

/* A buffer of its exact length, of random bytes. */
static uint8_t *lend(size_t len)
{
    uint8_t *bytes = malloc(len);
    if (!bytes && len) {
        abort();
    }
    fill(bytes, len);
    return bytes;
}

/* A length that something may be wrong with. */
static size_t some_len(void)
{
    static const size_t lens[] = {0, 1, 7, 8, 9, 15, 16, 17, 19, 20, 21, 36, 39, 40, 55, 56, 57, 63, 64, 135, 136, 137, 144,
                                  175, 176, 177, 6143, 6144, 6145, 6183, 6184, 6185};
    return below(4) ? lens[below(sizeof lens / sizeof lens[0])] : below(300);
}

/* ---- states ---- */

static int same_vault(const paviluko_vault *a, const paviluko_vault *b)
{
    return !memcmp(a, b, sizeof *a);
}

/* Random bytes, but for the flags. */
static void random_state(paviluko_state *s)
{
    fill(s, sizeof *s);
    for (int i = 0; i < PAVILUKO_METERS; i++) {
        s->table.entries[i].present &= 1;
    }
    for (int i = 0; i < PAVILUKO_POINTS; i++) {
        s->points.items[i].covered &= 1;
    }
    s->journal.used &= 1;
    s->points.any &= 1;
}

/* One field changed. */
static void change(paviluko_state *s)
{
    int lane = (int)below(PAVILUKO_LANES), point = (int)below(PAVILUKO_POINTS);
    switch (below(16)) {
    case 0: s->phase = (uint8_t)(below(2) ? below(5) : any()); break;
    case 1: s->due.kind = (uint8_t)(below(4) ? below(14) : any()); break;
    case 2: s->due.lane = (uint8_t)number(); break;
    case 3: s->due.second = (uint8_t)below(3); break;
    case 4: s->due.position = number(); break;
    case 5: s->journal.count = below(2) ? PAVILUKO_RECORDS - 1 + below(3) : number(); break;
    case 6: s->points.count = below(2) ? PAVILUKO_POINTS - 1 + below(3) : number(); break;
    case 7: s->held.len = below(2) ? below(200) : number(); break;
    case 8: s->held.lane = (uint8_t)number(); break;
    case 9: fill(s->journal.lanes, sizeof s->journal.lanes); break;
    case 10: fill(s->journal.positions, sizeof s->journal.positions); break;
    case 11: s->vault.w[lane] = number(); break;
    case 12: s->vault.v[lane] = number(); break;
    case 13: s->vault.r[lane] = number(); break;
    case 14: s->vault.e = s->vault.s = s->vault.n = PAVILUKO_COUNTER_MAX - below(3); break;
    default: fill(s->points.items[point].counts, sizeof s->points.items[point].counts); break;
    }
}

/* ---- calls ---- */

static void wrong(const char *name, const char *what, const paviluko_said *said)
{
    fprintf(stderr, "%s: %s (number %u, value %llu, store %u, len %llu)\n", name, what, said->number,
            (unsigned long long)said->value, said->store, (unsigned long long)said->len);
    exit(1);
}

/* Looks at an answer; 0 for a number means any. */
static void look(const char *name, const paviluko_state *s, const paviluko_reply *r, const uint8_t *out, const uint8_t *was,
                 size_t room, unsigned wanted)
{
    const paviluko_said *said = &r->said;
    calls++;
    if (wanted && said->number != wanted) {
        wrong(name, "another answer was wanted", said);
    }
    if (said->number > PAVILUKO_REFUSED_UNSEEN || said->store > PAVILUKO_STORE_EMPTY) {
        wrong(name, "no such answer", said);
    }
    if (said->number) {
        refused++;
        if (said->store || said->lane || said->len) {
            wrong(name, "turned down, and yet names something", said);
        }
        if (s && !same_state(s, &r->state)) {
            wrong(name, "turned down, and the state has changed", said);
        }
    }
    if (said->len > room || (room && memcmp(out + said->len, was + said->len, room - said->len))) {
        wrong(name, "bytes written that are not the answer's", said);
    }
}

/* A copy of a buffer. */
static uint8_t *copy(const uint8_t *bytes, size_t len)
{
    uint8_t *to = malloc(len);
    if (len) {
        memcpy(to, bytes, len);
    }
    return to;
}

/* Record bytes, good ones or not: some length of random bytes; the record, damaged; a legal head and too little behind it. */
static uint8_t *some_record(const uint8_t *record, size_t record_len, size_t *len)
{
    uint8_t *bytes;
    switch (below(4)) {
    case 0:
        *len = some_len();
        return lend(*len);
    case 1:
        *len = below(record_len + 1);
        return copy(record, *len);
    case 2:
        *len = record_len;
        bytes = copy(record, *len);
        bytes[below(*len)] ^= (uint8_t)(1 << below(8));
        return bytes;
    default:
        *len = some_len();
        bytes = lend(*len);
        if (*len >= 4) {
            bytes[0] = 1;
            bytes[1] = (uint8_t)below(8);
            bytes[2] = (uint8_t)(16 + 8 * below(16));
            bytes[3] = (uint8_t)(below(2) ? 0 : any());
        }
        return bytes;
    }
}

/* The table of any state in plain: refused only for want of room. */
static void in_plain(const paviluko_state *s, uint8_t *out, const uint8_t *was, size_t room)
{
    static uint8_t text[PAVILUKO_TABLE_LEN];
    paviluko_reply r;
    int fits = room >= PAVILUKO_TABLE_LEN;
    r.state = *s;
    r.said = paviluko_plain_table(*s, out, room);
    look("plain_table", s, &r, out, was, room, fits ? 0 : PAVILUKO_REFUSED_LENGTH);
    table_text(s, text);
    if (r.said.number != (fits ? PAVILUKO_TAKEN : PAVILUKO_REFUSED_LENGTH) || r.said.store ||
        r.said.value != (fits ? 0 : PAVILUKO_TABLE_LEN) || (fits && memcmp(out, text, sizeof text))) {
        wrong("plain_table", "not the state's table", &r.said);
    }
}

/* Every function on a state, with arguments of all sorts. */
static void every(const paviluko_state *s, const uint8_t *record, size_t record_len, unsigned wanted)
{
    static const uint8_t plain[16] = {100, 0, 0, 0, 0, 0, 0, 0, 3, 0, 1, 0, 7, 0, 0, 0};
    paviluko_reply r;
    size_t len = some_len(), room = some_len();
    uint8_t *in = below(2) ? lend(len) : copy(plain, len = sizeof plain);
    uint8_t *out = lend(room), *was = copy(out, room);

    r = paviluko_accept(*s, in, len, (uint8_t)(below(4) ? below(9) : any()), number());
    look("accept", s, &r, out, was, 0, wanted);
    r = paviluko_seal(*s, out, room);
    look("seal", s, &r, out, was, room, wanted);
    memcpy(out, was, room);
    free(in);
    in = some_record(record, record_len, &len);
    r = paviluko_commit(*s, in, len);
    look("commit", s, &r, out, was, 0, wanted);
    r = paviluko_point(*s, number());
    look("point", s, &r, out, was, 0, wanted);
    r = paviluko_checkpoint(*s, out, room);
    look("checkpoint", s, &r, out, was, room, wanted);
    memcpy(out, was, room);
    r = paviluko_truncate(*s, below(2) ? s->due.position : number());
    look("truncate", s, &r, out, was, 0, wanted);
    size_t file_len = some_len();
    uint8_t *file = lend(file_len);
    r = paviluko_recover(*s, file, below(2) ? file_len : 0, in, len, out, room);
    look("recover", s, &r, out, was, room, wanted);

    /* A state's table and its fields, whatever the state. */
    memcpy(out, was, room);
    in_plain(s, out, was, room);
    uint8_t meter = (uint8_t)any();
    paviluko_entry entry = paviluko_reading(*s, meter);
    paviluko_vault numbers = paviluko_numbers(*s);
    paviluko_due due = paviluko_due_store(*s);
    calls += 6;
    if (entry.stamp != s->table.entries[meter].stamp || !same_vault(&numbers, &s->vault) || due.kind != s->due.kind ||
        paviluko_phase(*s) != s->phase || paviluko_records(*s) != s->journal.count ||
        paviluko_points(*s) != s->points.count) {
        fprintf(stderr, "a field is not what stands in the state\n");
        exit(1);
    }
    free(file);
    free(out);
    free(was);
    free(in);
}

/* Loads: numbers of all sorts, keys of all lengths; what a refused one hands back turns every call down. */
static void loads(const uint8_t *record, size_t record_len)
{
    static uint8_t none;
    paviluko_vault x;
    size_t len = below(3) ? 16 : below(33);
    uint8_t *key = lend(len);
    fill(&x, sizeof x);
    if (below(2)) {
        memset(&x, 0, sizeof x);
        x.v[below(8)] = below(2);
    }
    paviluko_reply r = paviluko_load(x, key, len);
    look("load", NULL, &r, &none, &none, 0, 0);
    every(&r.state, record, record_len, r.said.number ? PAVILUKO_REFUSED_CONDITION : 0);
    free(key);
}

static void same_answer(const char *name, const paviluko_said *said, const paviluko_state *t, const paviluko_said *wanted,
                        const paviluko_state *next)
{
    calls += 2;
    if (said->number != wanted->number || said->value != wanted->value || said->store != wanted->store ||
        said->lane != wanted->lane || said->len != wanted->len || !same_state(t, next)) {
        wrong(name, "NULL: not the answer of an empty buffer", said);
    }
}

/* NULL for a buffer, whatever length stands beside it, through the functions that take a pointer to the state: the answer is
 * that of an empty buffer. */
static void nulls(const paviluko_state *s, const paviluko_vault *x, const uint8_t *record, size_t record_len)
{
    static const size_t lens[] = {0, 1, 16, 56, PAVILUKO_RECORD_MAX, PAVILUKO_CHECKPOINT_LEN, PAVILUKO_LOG_MAX + 1, SIZE_MAX};
    uint8_t one = 0;
    const paviluko_reply load = paviluko_load(*x, &one, 0), accept = paviluko_accept(*s, &one, 0, 0, 99),
                         seal = paviluko_seal(*s, &one, 0), commit = paviluko_commit(*s, &one, 0),
                         checkpoint = paviluko_checkpoint(*s, &one, 0);
    const paviluko_said plain = paviluko_plain_table(*s, &one, 0);
    for (size_t i = 0; i < sizeof lens / sizeof lens[0]; i++) {
        size_t len = lens[i];
        paviluko_said said;
        paviluko_state t = *s;
        said = paviluko_do_load(&t, x, NULL, len);
        same_answer("load", &said, &t, &load.said, s); /* a refused load leaves the state */
        said = paviluko_do_accept(&t, NULL, len, 0, 99);
        same_answer("accept", &said, &t, &accept.said, &accept.state);
        t = *s;
        said = paviluko_do_seal(&t, NULL, len);
        same_answer("seal", &said, &t, &seal.said, &seal.state);
        t = *s;
        said = paviluko_do_commit(&t, NULL, len);
        same_answer("commit", &said, &t, &commit.said, &commit.state);
        t = *s;
        said = paviluko_do_checkpoint(&t, NULL, len);
        same_answer("checkpoint", &said, &t, &checkpoint.said, &checkpoint.state);
        t = *s;
        said = paviluko_do_plain_table(&t, NULL, len);
        same_answer("plain_table", &said, &t, &plain, s);

        /* Recover has three buffers: each of them NULL or not. */
        for (int which = 0; which < 8; which++) {
            static uint8_t out[PAVILUKO_CHECKPOINT_LEN], other[PAVILUKO_CHECKPOINT_LEN];
            int file = which & 1, log = which & 2, room = which & 4;
            t = *s;
            said = paviluko_do_recover(&t, file ? NULL : record, file ? len : 0, log ? NULL : record, log ? len : record_len,
                                       room ? NULL : out, room ? len : sizeof out);
            paviluko_reply r = paviluko_recover(*s, record, 0, record, log ? 0 : record_len, other, room ? 0 : sizeof other);
            same_answer("recover", &said, &t, &r.said, &r.state);
            if (memcmp(out, other, sizeof out)) {
                wrong("recover", "NULL: other bytes put out", &said);
            }
        }
    }
}

/* ---- frames of the wired bus ---- */

static uint64_t heard[PAVILUKO_REFUSED_NO_READING + 1]; /* how often each number was said */

/* A frame at its exact length, lent with some room. Turned down it leaves out as it was; taken it writes the transaction and
 * nothing behind it. 0 for a number means any. */
static void hear(const uint8_t *bytes, size_t len, unsigned wanted)
{
    size_t room = below(4) ? PAVILUKO_TRANSACTION_MIN + below(3) : below(PAVILUKO_TRANSACTION_MIN);
    uint16_t meter = (uint16_t)(below(8) ? below(PAVILUKO_METERS) : number());
    uint64_t stamp = number();
    uint8_t *frame = copy(bytes, len), *out = lend(room), *was = copy(out, room);
    paviluko_said said = paviluko_from_bus(frame, len, meter, stamp, out, room);
    if (room < PAVILUKO_TRANSACTION_MIN) {
        wanted = PAVILUKO_REFUSED_LENGTH;
    } else if (meter >= PAVILUKO_METERS) {
        wanted = PAVILUKO_REFUSED_TRANSACTION;
    }
    calls++;
    refused += said.number != PAVILUKO_TAKEN;
    if ((wanted && said.number != wanted) || said.number > PAVILUKO_REFUSED_NO_READING) {
        wrong("from_bus", "another answer was wanted", &said);
    }
    heard[said.number]++;
    if (said.store || said.lane || said.value != (said.number == PAVILUKO_REFUSED_LENGTH ? PAVILUKO_TRANSACTION_MIN : 0) ||
        said.len != (said.number ? 0 : PAVILUKO_TRANSACTION_MIN)) {
        wrong("from_bus", "no such answer", &said);
    }
    if (room && memcmp(out + said.len, was + said.len, room - said.len)) {
        wrong("from_bus", "bytes written that are not the answer's", &said);
    }
    if (!said.number && (memcmp(out, &stamp, 8) || memcmp(out + 8, &meter, 2) || !out[10] || out[10] > 4 || out[11])) {
        wrong("from_bus", "no transaction of this meter and stamp", &said);
    }
    if (len && memcmp(frame, bytes, len)) {
        wrong("from_bus", "the frame has changed", &said);
    }
    free(frame);
    free(out);
    free(was);
}

/* Bytes of which records are made: DIFs and VIFs with and without extension, filler, digits. Before half of them stands filler
 * and a record that may be taken, whole or with its end cut off. */
static void records(uint8_t *to, size_t len)
{
    static const uint8_t wanted[2][6] = {{0x0c, 0x13, 0x78, 0x56, 0x34, 0x12}, {0x0c, 0x06, 0x99, 0x99, 0x99, 0xf9}};
    static const uint8_t parts[] = {0x00, 0x01, 0x04, 0x06, 0x06, 0x07, 0x0c, 0x0c, 0x0c,
                                    0x12, 0x13, 0x13, 0x2f, 0x80, 0x84, 0x93, 0xf9, 0xfd};
    for (size_t i = 0; i < len; i++) {
        to[i] = below(40) ? parts[below(sizeof parts)] : (uint8_t)any();
    }
    if (len && below(2)) {
        size_t at = below(2) || len < 8 ? below(len) : len - 1 - below(8);
        memset(to, 0x2f, at);
        memcpy(to + at, wanted[below(2)], len - at < 6 ? len - at : 6);
    }
}

/* A length of a frame: random bytes; a frame of records that may run past its end; the same with a byte changed, with one
 * changed and the sum put right, cut and extended. */
static void frames(size_t len)
{
    static const uint8_t media[] = {0x04, 0x06, 0x07, 0x0a, 0x0b, 0x0c, 0x15, 0x16, 0x03};
    uint8_t bytes[PAVILUKO_FRAME_MAX + 1];
    fill(bytes, len);
    hear(bytes, len, PAVILUKO_REFUSED_FRAME);
    if (len < FRAME_MIN) {
        return;
    }
    size_t at = below(len);
    fill(bytes, RECORDS_AT);
    bytes[MEDIUM_AT] = media[below(sizeof media)];
    records(bytes + RECORDS_AT, len - FRAME_MIN);
    frame_close(bytes, len);
    hear(bytes, len, 0);
    hear(bytes, below(len), PAVILUKO_REFUSED_FRAME);
    bytes[len] = 0x16;
    hear(bytes, len + 1, PAVILUKO_REFUSED_FRAME);
    bytes[at] = (uint8_t)(bytes[at] + 1 + below(255));
    hear(bytes, len, PAVILUKO_REFUSED_FRAME);
    frame_close(bytes, len);
    hear(bytes, len, 0);
}

/* NULL for the frame and for out, whatever lengths stand beside them: the answers of empty ones. */
static void null_frames(void)
{
    static const size_t lens[] = {0, 1, PAVILUKO_TRANSACTION_MIN, FRAME_MIN, PAVILUKO_FRAME_MAX, SIZE_MAX};
    uint8_t out[PAVILUKO_TRANSACTION_MIN] = {0};
    for (size_t i = 0; i < sizeof lens / sizeof lens[0]; i++) {
        paviluko_said no_frame = paviluko_do_from_bus(NULL, lens[i], 1, 1, out, sizeof out);
        paviluko_said no_room = paviluko_do_from_bus(out, sizeof out, 1, 1, NULL, lens[i]);
        calls += 2;
        refused += 2;
        if (no_frame.number != PAVILUKO_REFUSED_FRAME || no_room.number != PAVILUKO_REFUSED_LENGTH) {
            wrong("from_bus", "NULL: not the answer of an empty buffer", &no_frame);
        }
    }
}

/* ---- tables of a heat split ---- */

static uint64_t split[PAVILUKO_REFUSED_NOTHING_USED + 1]; /* how often each number was said */

/* So many bytes at their exact length, lent with some room. Turned down they leave out as it was; taken they have a text, which
 * ends with a line, and nothing is written behind it. 0 for a number means any. */
static void divide(const uint8_t *bytes, size_t len, unsigned wanted)
{
    size_t room = below(4) ? below(PAVILUKO_HEAT_TEXT_MAX + 3) : below(40);
    uint8_t *tables = copy(bytes, len), *out = lend(room), *was = copy(out, room);
    paviluko_said said = paviluko_heat_split(tables, len, out, room);
    calls++;
    refused += said.number != PAVILUKO_TAKEN;
    if ((wanted && said.number != wanted) || said.number > PAVILUKO_REFUSED_NOTHING_USED) {
        wrong("heat_split", "another answer was wanted", &said);
    }
    split[said.number]++;
    int short_of = said.number == PAVILUKO_REFUSED_LENGTH;
    if (said.store || said.lane || said.len > room || (said.number && said.len) || (!short_of && said.value) ||
        (short_of && (said.value <= room || said.value > PAVILUKO_HEAT_TEXT_MAX))) {
        wrong("heat_split", "no such answer", &said);
    }
    if (room && memcmp(out + said.len, was + said.len, room - said.len)) {
        wrong("heat_split", "bytes written that are not the answer's", &said);
    }
    if (!said.number && (said.len < 17 || memcmp(out, "meter,used,share\n", 17) || out[said.len - 1] != '\n')) {
        wrong("heat_split", "no lines", &said);
    }
    if (len && memcmp(tables, bytes, len)) {
        wrong("heat_split", "the tables have changed", &said);
    }
    free(tables);
    free(out);
    free(was);
}

/* Two tables of some heat meters, and what may be wrong with them: their length, their bytes, an entry, a code. */
static void tables(void)
{
    static uint8_t bytes[TABLES_LEN + ENTRY];
    size_t len;
    fill(bytes, sizeof bytes);
    divide(bytes, TABLES_LEN, PAVILUKO_REFUSED_TRANSACTION);
    memset(bytes, 0, sizeof bytes);
    for (int m = 0; m < PAVILUKO_METERS; m++) {
        uint8_t code = below(3) ? HEAT : (uint8_t)(1 + below(4));
        for (uint8_t *table = bytes; table < bytes + TABLES_LEN; table += PAVILUKO_TABLE_LEN) {
            if (below(8)) {
                put_entry(table, m, code, (int32_t)(below(2) ? any() : below(20)));
                fill(table + ENTRY * m, READING_AT);
                table[ENTRY * m + LANE_AT] = (uint8_t)below(PAVILUKO_LANES);
            }
        }
    }
    divide(bytes, TABLES_LEN, 0);
    do {
        len = below(2) ? TABLES_LEN - ENTRY + below(2 * ENTRY + 1) : some_len();
    } while (len == TABLES_LEN);
    divide(bytes, len, PAVILUKO_REFUSED_TRANSACTION);

    /* A code that is another, and one that is none, of a meter that both tables have. */
    size_t m = below(PAVILUKO_METERS), table = PAVILUKO_TABLE_LEN * below(2);
    put_entry(bytes, (int)m, HEAT, 5);
    put_entry(bytes + PAVILUKO_TABLE_LEN, (int)m, HEAT, 6);
    bytes[table + ENTRY * m + CODE_AT] = below(2) ? 4 : (uint8_t)(1 + below(2));
    divide(bytes, TABLES_LEN, PAVILUKO_REFUSED_CODE_CHANGED);
    bytes[table + ENTRY * m + CODE_AT] = below(2) ? 0 : (uint8_t)(5 + below(251));
    divide(bytes, TABLES_LEN, PAVILUKO_REFUSED_TRANSACTION);
    bytes[table + ENTRY * m + CODE_AT] = HEAT;
    divide(bytes, TABLES_LEN, 0);

    /* Nothing used; then a byte that must be 0. */
    memcpy(bytes + PAVILUKO_TABLE_LEN, bytes, PAVILUKO_TABLE_LEN);
    divide(bytes, TABLES_LEN, PAVILUKO_REFUSED_NOTHING_USED);
    bytes[table + ENTRY * m + ZERO_AT] = (uint8_t)(1 + below(255));
    divide(bytes, TABLES_LEN, PAVILUKO_REFUSED_TRANSACTION);
}

/* NULL for the tables and for out, whatever lengths stand beside them: the answers of empty ones. */
static void null_tables(void)
{
    static const size_t lens[] = {0, 1, PAVILUKO_TABLE_LEN, TABLES_LEN, PAVILUKO_HEAT_TEXT_MAX, SIZE_MAX};
    static uint8_t bytes[TABLES_LEN], out[PAVILUKO_HEAT_TEXT_MAX];
    put_example(bytes);
    for (size_t i = 0; i < sizeof lens / sizeof lens[0]; i++) {
        paviluko_said no_tables = paviluko_do_heat_split(NULL, lens[i], out, sizeof out);
        paviluko_said no_room = paviluko_do_heat_split(bytes, sizeof bytes, NULL, lens[i]);
        calls += 2;
        refused += 2;
        if (no_tables.number != PAVILUKO_REFUSED_TRANSACTION || no_room.number != PAVILUKO_REFUSED_LENGTH) {
            wrong("heat_split", "NULL: not the answer of an empty buffer", &no_tables);
        }
    }
}

int main(int argc, char **argv)
{
    long rounds = argc > 1 ? atol(argv[1]) : 200;
    static uint8_t out[PAVILUKO_CHECKPOINT_LEN];
    static const uint8_t key[16] = "sixteen of bytes";
    static const uint8_t transaction[16] = {100, 0, 0, 0, 0, 0, 0, 0, 3, 0, 1, 0, 7, 0, 0, 0};
    paviluko_vault x;
    memset(&x, 0, sizeof x);

    /* Good states: cold, recovering, in service, a record due, a file due, a truncation under way. */
    paviluko_state good[64];
    size_t states = 0;
    good[states++] = paviluko_load(x, key, 16).state;
    while (good[states - 1].phase != PAVILUKO_IN_SERVICE) {
        good[states] = paviluko_recover(good[states - 1], out, 0, out, 0, out, sizeof out).state;
        states++;
    }
    good[states] = paviluko_accept(good[states - 1], transaction, 16, 5, 10).state;
    states++;
    paviluko_reply sealed = paviluko_seal(good[states - 1], out, sizeof out);
    size_t record_len = sealed.said.len;
    uint8_t *record = copy(out, record_len);
    good[states++] = sealed.state;
    good[states] = paviluko_commit(good[states - 1], record, record_len).state;
    states++;
    good[states] = paviluko_point(good[states - 1], 11).state;
    states++;
    for (int i = 0; i < 3; i++, states++) {
        good[states] = paviluko_checkpoint(good[states - 1], out, sizeof out).state;
    }
    for (int i = 0; i < 9; i++, states++) {
        good[states] = paviluko_truncate(good[states - 1], 11).state;
    }
    if (record_len != 56 || good[states - 1].vault.r[5] != 1 || good[states - 1].due.kind != PAVILUKO_DUE_NOTHING) {
        fprintf(stderr, "the good states did not come to their end\n");
        return 1;
    }

    for (size_t i = 0; i < states; i++) {
        nulls(&good[i], &x, record, record_len);
    }

    /* A state of zeros is none, and so is a cleared one. */
    paviluko_state none;
    memset(&none, 0, sizeof none);
    for (int i = 0; i < 20; i++) {
        every(&none, record, record_len, PAVILUKO_REFUSED_CONDITION);
        none = good[below(states)];
        paviluko_clear(&none);
    }
    for (long round = 0; round < rounds; round++) {
        paviluko_state s;
        random_state(&s);
        every(&s, record, record_len, PAVILUKO_REFUSED_CONDITION);
        loads(record, record_len);
        every(&good[below(states)], record, record_len, 0);
        for (int i = 0; i < 3; i++) {
            s = good[below(states)];
            for (uint64_t changes = below(3); changes < 3; changes++) {
                change(&s);
            }
            every(&s, record, record_len, 0);
        }
    }

    /* A log that is too long is not read: only its length is looked at. */
    uint8_t one = 0;
    paviluko_reply r = paviluko_recover(good[0], &one, 0, &one, PAVILUKO_LOG_MAX + 1, &one, 1);
    look("recover", &good[0], &r, &one, &one, 1, PAVILUKO_REFUSED_LENGTH);
    /* A whole log of zeros. */
    uint8_t *zeros = calloc(PAVILUKO_LOG_MAX, 1);
    r = paviluko_recover(good[0], &one, 0, zeros, PAVILUKO_LOG_MAX, &one, 1);
    look("recover", &good[0], &r, &one, &one, 1, PAVILUKO_REFUSED_CLOSED);
    free(zeros);
    free(record);

    null_frames();
    for (long round = 0; round < 1 + rounds / 50; round++) {
        for (size_t len = 0; len <= PAVILUKO_FRAME_MAX; len++) {
            frames(len);
        }
    }
    if (!heard[0] || !heard[3] || !heard[4] || !heard[16] || !heard[17]) {
        fprintf(stderr, "from_bus: a number was never said\n");
        return 1;
    }
    null_tables();
    for (long round = 0; round < rounds; round++) {
        tables();
    }
    if (!split[0] || !split[3] || !split[4] || !split[18] || !split[19]) {
        fprintf(stderr, "heat_split: a number was never said\n");
        return 1;
    }
    printf("bad frames: %llu taken; turned down %llu with 3, %llu with 4, %llu with 16, %llu with 17\n",
           (unsigned long long)heard[0], (unsigned long long)heard[3], (unsigned long long)heard[4],
           (unsigned long long)heard[16], (unsigned long long)heard[17]);
    printf("bad tables: %llu taken; turned down %llu with 3, %llu with 4, %llu with 18, %llu with 19\n",
           (unsigned long long)split[0], (unsigned long long)split[3], (unsigned long long)split[4],
           (unsigned long long)split[18], (unsigned long long)split[19]);
    printf("bad input: %llu calls, %llu of them turned down, nothing else touched\n", (unsigned long long)calls,
           (unsigned long long)refused);
    return 0;
}
