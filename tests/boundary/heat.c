/* The yearly heat split and the plain table that it is made from (02, CR 5).
 *
 * heat_split: the request's example to the letter, in buffers of every length from none to some bytes more than the text;
 * inputs of every length around none, one and two tables; every byte of an entry with every value, in either table; 16
 * addresses in a row for input and for output; random bytes and random tables. Each answer is judged by rules that stand here:
 * what a table's layout is, which number comes first, and, line by line, what was used and how the shares were rounded.
 *
 * plain_table: of a collector that is cold, in service without a reading and with some, recovering, and of a state that was
 * cleared, in buffers of every length around a table's. What it puts out is what a loop over the state's entries lays out, and
 * what heat_split takes.
 *
 * Buffers have their exact length on the heap, so that valgrind sees every byte read or written beside them. A call that is
 * turned down has left every byte as it was lent, and one that is taken every byte behind what it put out. */
#include "check.h"
#include "random.h"
#include "rooms.h"
#include "same.h"
#include "table.h"

enum { MILLION = 1000000, MORE = 2, AROUND = 30, PLACES = 16 };

static uint8_t tables[TABLES_LEN + AROUND]; /* those to be split; zeros behind them */
static uint8_t *const at_end = tables + PAVILUKO_TABLE_LEN;
static long said_so[PAVILUKO_REFUSED_NOTHING_USED + 1]; /* how often each number was said */

/* ---- the rules ---- */

/* 24 zero bytes; or a code of 1 to 4, a lane of 0 to 7, then 1 and 0. */
static int legal_entry(const uint8_t *e)
{
    static const uint8_t zeros[ENTRY];
    return memcmp(e, zeros, ENTRY) == 0 || (e[CODE_AT] >= 1 && e[CODE_AT] <= 4 && e[LANE_AT] < PAVILUKO_LANES &&
                                            e[PRESENT_AT] == 1 && e[ZERO_AT] == 0);
}

static int64_t reading_of(const uint8_t *e)
{
    int32_t reading;
    memcpy(&reading, e + READING_AT, sizeof reading);
    return reading;
}

typedef struct {
    int number;    /* 4, 18, 19, or 0 where there is a text */
    int64_t total;
    int listed[PAVILUKO_METERS];
    int64_t used[PAVILUKO_METERS];
} expected;

/* What is to be said of so many bytes. */
static expected expect(const uint8_t *bytes, size_t len)
{
    expected x;
    memset(&x, 0, sizeof x);
    if (len != TABLES_LEN) {
        x.number = PAVILUKO_REFUSED_TRANSACTION;
        return x;
    }
    int changed = 0;
    for (int m = 0; m < PAVILUKO_METERS; m++) {
        const uint8_t *a = bytes + ENTRY * m, *b = a + PAVILUKO_TABLE_LEN;
        if (!legal_entry(a) || !legal_entry(b)) {
            x.number = PAVILUKO_REFUSED_TRANSACTION;
        }
        int both = a[PRESENT_AT] && b[PRESENT_AT];
        changed |= both && (a[CODE_AT] == HEAT) != (b[CODE_AT] == HEAT);
        x.listed[m] = both && a[CODE_AT] == HEAT && b[CODE_AT] == HEAT;
        if (x.listed[m]) {
            x.used[m] = reading_of(b) - reading_of(a);
            x.total += x.used[m] > 0 ? x.used[m] : 0;
        }
    }
    if (!x.number) {
        x.number = changed ? PAVILUKO_REFUSED_CODE_CHANGED : x.total == 0 ? PAVILUKO_REFUSED_NOTHING_USED : PAVILUKO_TAKEN;
    }
    return x;
}

/* A decimal number of at most 7 digits that begins at a byte, without zeros before it; *at goes behind it. */
static int64_t number_at(const uint8_t *text, size_t len, size_t *at)
{
    int64_t n = 0;
    size_t from = *at;
    while (*at < len && *at - from < 7 && text[*at] >= '0' && text[*at] <= '9') {
        n = 10 * n + text[(*at)++] - '0';
    }
    CHECK(*at > from && (text[from] != '0' || *at == from + 1));
    return n;
}

/* The lines: those of the meters that are listed, with what they used. A share is its quotient or one more; those with one more
 * have the larger remainders, and are the lower meters among equals; and all add up to a million. So there is one text only. */
static void judge_text(const expected *x, const uint8_t *text, size_t len)
{
    static const char first[] = "meter,used,share\n";
    size_t at = sizeof first - 1;
    int64_t sum = 0, least = INT64_MAX, most = -1;       /* of the remainders with and without one more */
    int last_with = -1, first_without = PAVILUKO_METERS; /* the meters of these */
    CHECK(len > at && memcmp(text, first, at) == 0);
    for (int m = 0; m < PAVILUKO_METERS; m++) {
        if (!x->listed[m]) {
            continue;
        }
        char line[40];
        size_t begins = (size_t)sprintf(line, "%d,%lld,", m, (long long)x->used[m]);
        CHECK(len - at > begins && memcmp(text + at, line, begins) == 0);
        at += begins;
        int64_t share = number_at(text, len, &at), gain = x->used[m] > 0 ? x->used[m] * MILLION : 0;
        int64_t more = share - gain / x->total, rest = gain % x->total;
        CHECK(at < len && text[at] == '\n');
        at++;
        CHECK(more == 0 || (more == 1 && x->used[m] > 0));
        sum += share;
        if (more && rest <= least) {
            least = rest;
            last_with = m;
        }
        if (!more && rest > most) {
            most = rest;
            first_without = m;
        }
    }
    CHECK(at == len && sum == MILLION);
    CHECK(least > most || (least == most && last_with < first_without));
}

/* Lends so much room at a place, splits, and judges the answer. */
static paviluko_said judge(const expected *x, const uint8_t *bytes, size_t len, uint8_t *out, size_t room)
{
    for (size_t i = 0; i < room; i++) {
        out[i] = (uint8_t)(0x5a + 7 * i + i / 256);
    }
    paviluko_said said = paviluko_heat_split(bytes, len, out, room);
    int short_of = x->number == PAVILUKO_TAKEN && said.number == PAVILUKO_REFUSED_LENGTH;
    CHECK(short_of || said.number == x->number);
    CHECK(said.store == PAVILUKO_STORE_NONE && said.lane == 0 && (said.number ? said.len == 0 : said.len <= room));
    CHECK(short_of ? said.value > room && said.value <= PAVILUKO_HEAT_TEXT_MAX : said.value == 0);
    size_t i = said.len;
    while (i < room && out[i] == (uint8_t)(0x5a + 7 * i + i / 256)) {
        i++;
    }
    CHECK(i == room);
    if (said.number == PAVILUKO_TAKEN) {
        judge_text(x, out, said.len);
    }
    said_so[said.number]++;
    return said;
}

/* ---- lending ---- */

static uint8_t *lend(size_t len)
{
    uint8_t *bytes = malloc(len);
    CHECK(bytes != NULL || len == 0);
    return bytes;
}

/* The first so many bytes of `tables`, at their exact length on the heap, with room for so much. */
static paviluko_said split(size_t len, size_t room)
{
    uint8_t *in = lend(len), *out = lend(room);
    memcpy(in, tables, len);
    expected x = expect(in, len);
    paviluko_said said = judge(&x, in, len, out, room);
    CHECK(memcmp(in, tables, len) == 0);
    free(in);
    free(out);
    return said;
}

/* The tables have a text; it is put out into rooms from none to some bytes more. */
static void every_room(size_t step)
{
    size_t need = split(TABLES_LEN, PAVILUKO_HEAT_TEXT_MAX).len;
    CHECK(need > 0);
    for (size_t room = 0; room <= need + MORE; room = next_room(room, need, step)) {
        paviluko_said said = split(TABLES_LEN, room);
        CHECK(room < need ? said.number == PAVILUKO_REFUSED_LENGTH && said.value == need : said.len == need);
    }
}

/* ---- random numbers ---- */

static void fill(uint8_t *bytes, size_t len)
{
    for (size_t i = 0; i < len; i++) {
        bytes[i] = (uint8_t)any();
    }
}

/* ---- heat_split ---- */

static void put_both(int meter, int32_t start, int32_t end)
{
    put_entry(tables, meter, HEAT, start);
    put_entry(at_end, meter, HEAT, end);
}

static void example(void)
{
    const size_t lines = sizeof example_lines - 1;
    put_example(tables);
    every_room(1);
    uint8_t *out = lend(lines);
    CHECK(paviluko_heat_split(tables, TABLES_LEN, out, lines).len == lines && memcmp(out, example_lines, lines) == 0);
    free(out);
}

/* The tables of every length around none, one and two, cut off and with zeros behind them. */
static void lengths(void)
{
    static const size_t around[] = {0, PAVILUKO_TABLE_LEN, TABLES_LEN};
    put_example(tables);
    for (size_t i = 0; i < 3; i++) {
        for (size_t len = around[i] < AROUND ? 0 : around[i] - AROUND; len <= around[i] + AROUND; len++) {
            int whole = len == TABLES_LEN;
            paviluko_said said = split(len, PAVILUKO_HEAT_TEXT_MAX), no_room = split(len, 0);
            CHECK(said.number == (whole ? PAVILUKO_TAKEN : PAVILUKO_REFUSED_TRANSACTION));
            CHECK(no_room.number == (whole ? PAVILUKO_REFUSED_LENGTH : PAVILUKO_REFUSED_TRANSACTION));
        }
    }
}

/* Every byte of an entry with every value, in either table: of the first meter, of one between and of the last one. Each is
 * there as heat, is there as water, and is not there; the bytes before its code are tried in one of these ways for each. */
static void entries(void)
{
    static const int meters[] = {0, 101, PAVILUKO_METERS - 1};
    static const uint8_t codes[] = {HEAT, 0, 1};
    for (int i = 0; i < 9; i++) {
        const int meter = meters[i / 3], from = i / 3 == i % 3 ? 0 : CODE_AT;
        const uint8_t code = codes[i % 3];
        put_example(tables);
        if (code) {
            put_entry(tables, meter, code, -7);
            put_entry(at_end, meter, code, 70000);
        }
        for (int byte = from; byte < 2 * ENTRY; byte = byte == ENTRY - 1 ? ENTRY + from : byte + 1) {
            uint8_t *entry = (byte < ENTRY ? tables : at_end) + ENTRY * meter, *at = entry + byte % ENTRY, was = *at;
            for (int value = 0; value < 256; value++) {
                *at = (uint8_t)value;
                paviluko_said said = split(TABLES_LEN, PAVILUKO_HEAT_TEXT_MAX);
                CHECK((said.number == PAVILUKO_REFUSED_TRANSACTION) == !legal_entry(entry));
            }
            *at = was;
        }
    }
}

/* Input and output at each of 16 addresses in a row. */
static void places(void)
{
    static uint8_t in[TABLES_LEN + PLACES], out[sizeof example_lines + MORE + PLACES];
    put_example(tables);
    expected x = expect(tables, TABLES_LEN);
    for (size_t i = 0; i < PLACES; i++) {
        memset(in, 0xff, sizeof in);
        memcpy(in + i, tables, TABLES_LEN);
        for (size_t o = 0; o < PLACES; o++) {
            CHECK(judge(&x, in + i, TABLES_LEN, out + o, sizeof example_lines - 1 + MORE).number == PAVILUKO_TAKEN);
            CHECK(memcmp(out + o, example_lines, sizeof example_lines - 1) == 0);
        }
    }
}

/* Every meter listed: the widest uses, every other one negative; the same use of all, so that all remainders are the same; one
 * that took nearly everything. */
static void full(void)
{
    for (int which = 0; which < 4; which++) {
        for (int m = 0; m < PAVILUKO_METERS; m++) {
            switch (which) {
            case 0: put_both(m, INT32_MIN, INT32_MAX); break;
            case 1: put_both(m, m % 2 ? INT32_MIN : INT32_MAX, m % 2 ? INT32_MAX : INT32_MIN); break;
            case 2: put_both(m, m, m + 1); break;
            default: put_both(m, m == 77 ? INT32_MIN : m, m == 77 ? INT32_MAX : m + m % 2); break;
            }
        }
        every_room(97);
    }
}

/* Random bytes; and random tables, with uses that are often the same, whose codes may differ and which may lack a meter. */
static void random_tables(void)
{
    for (int round = 0; round < 400; round++) {
        fill(tables, TABLES_LEN);
        CHECK(split(TABLES_LEN, below(PAVILUKO_HEAT_TEXT_MAX + 1)).number == PAVILUKO_REFUSED_TRANSACTION);

        memset(tables, 0, TABLES_LEN);
        uint64_t listed = 1 + below(below(2) ? PAVILUKO_METERS : 12), uses = 1 + below(6), odd = below(3);
        for (uint64_t i = 0; i < listed; i++) {
            int meter = (int)below(PAVILUKO_METERS);
            int32_t start = (int32_t)any();
            int64_t end = start + (int64_t)below(uses) * (1 + (int64_t)below(3)) - (int64_t)below(2);
            put_both(meter, start, (int32_t)(below(5) ? end < INT32_MAX ? end : INT32_MAX : (int64_t)(int32_t)any()));
            fill(tables + ENTRY * meter, READING_AT);
            fill(at_end + ENTRY * meter, READING_AT);
            at_end[ENTRY * meter + LANE_AT] = (uint8_t)below(PAVILUKO_LANES);
            if (!below(10)) {
                memset((below(2) ? tables : at_end) + ENTRY * meter, 0, ENTRY);
            } else if (!below(10)) {
                tables[ENTRY * meter + CODE_AT] = at_end[ENTRY * meter + CODE_AT] = 1 + (uint8_t)below(2);
            } else if (odd == 0 && !below(listed)) {
                at_end[ENTRY * meter + CODE_AT] = 1 + (uint8_t)below(4);
            }
        }
        split(TABLES_LEN, PAVILUKO_HEAT_TEXT_MAX);
        split(TABLES_LEN, below(60));
    }
}

/* ---- plain_table ---- */

static const uint8_t key[PAVILUKO_KEY_LEN] = {1, 6, 1, 8, 0, 3, 3, 9};
static paviluko_state s;

/* The state's table in every room around its length and at 16 addresses in a row; it is left in `to`. */
static void put_plain(uint8_t *to)
{
    static uint8_t wanted[PAVILUKO_TABLE_LEN], at[PAVILUKO_TABLE_LEN + MORE + PLACES];
    paviluko_state was = s;
    table_text(&s, wanted);
    for (size_t room = 0; room <= PAVILUKO_TABLE_LEN + AROUND; room = next_room(room, PAVILUKO_TABLE_LEN, 499)) {
        uint8_t *out = lend(room);
        memset(out, 0x5a, room);
        paviluko_said said = paviluko_do_plain_table(&s, out, room);
        int fits = room >= PAVILUKO_TABLE_LEN;
        size_t put = fits ? PAVILUKO_TABLE_LEN : 0, i = put;
        CHECK(said.number == (fits ? PAVILUKO_TAKEN : PAVILUKO_REFUSED_LENGTH) && said.value == PAVILUKO_TABLE_LEN - put);
        CHECK(said.len == put && said.store == PAVILUKO_STORE_NONE && said.lane == 0);
        CHECK(memcmp(out, wanted, put) == 0);
        while (i < room && out[i] == 0x5a) {
            i++;
        }
        CHECK(i == room);
        free(out);
    }
    for (size_t place = 0; place < PLACES; place++) {
        memset(at, 0x5a, sizeof at);
        CHECK(paviluko_plain_table(s, at + place, PAVILUKO_TABLE_LEN + MORE).number == PAVILUKO_TAKEN);
        CHECK(memcmp(at + place, wanted, sizeof wanted) == 0);
        CHECK((place == 0 || at[place - 1] == 0x5a) && at[place + PAVILUKO_TABLE_LEN] == 0x5a);
    }
    CHECK(same_state(&s, &was));
    memcpy(to, wanted, sizeof wanted);
}

/* Accepts, seals and commits a reading of each of these meters. */
static void take(uint64_t stamp, const int32_t (*readings)[2], int count, uint8_t code, uint8_t lane)
{
    static uint64_t position;
    uint8_t text[PAVILUKO_TRANSACTION_MAX] = {0}, record[PAVILUKO_RECORD_MAX];
    size_t len = 8 + 8 * (size_t)count;
    memcpy(text, &stamp, 8);
    for (int i = 0; i < count; i++) {
        uint8_t *write = text + 8 + 8 * i;
        write[0] = (uint8_t)readings[i][0];
        write[2] = code;
        memcpy(write + 4, &readings[i][1], 4);
    }
    CHECK(paviluko_do_accept(&s, text, len, lane, position++).number == PAVILUKO_TAKEN);
    CHECK(paviluko_do_seal(&s, record, sizeof record).number == PAVILUKO_TAKEN);
    CHECK(paviluko_do_commit(&s, record, len + PAVILUKO_RECORD_EXTRA).number == PAVILUKO_TAKEN);
}

/* A year of a collector: a plain table at its start and one at its end, with the readings of the request's example, water
 * beside them, and a meter that came in the meantime. */
static void year(void)
{
    static const int32_t start[4][2] = {{4, 10}, {9, 10}, {12, 5}, {200, 10}};
    static const int32_t end[4][2] = {{4, 11}, {9, 11}, {12, 3}, {200, 11}};
    static const int32_t water[2][2] = {{5, 1234}, {255, -1}}, late[1][2] = {{17, 40}};
    static uint8_t file[PAVILUKO_CHECKPOINT_LEN], out[PAVILUKO_HEAT_TEXT_MAX];
    paviluko_vault x;
    memset(&x, 0, sizeof x);

    /* No state, a cold one and one in service with no reading: nothing used. */
    put_plain(tables);
    put_plain(at_end);
    CHECK(paviluko_do_load(&s, &x, key, sizeof key).number == PAVILUKO_TAKEN);
    put_plain(at_end);
    CHECK(split(TABLES_LEN, PAVILUKO_HEAT_TEXT_MAX).number == PAVILUKO_REFUSED_NOTHING_USED);
    while (s.phase != PAVILUKO_IN_SERVICE) {
        CHECK(paviluko_do_recover(&s, NULL, 0, NULL, 0, file, sizeof file).number == PAVILUKO_TAKEN);
    }
    put_plain(tables);
    CHECK(split(TABLES_LEN, PAVILUKO_HEAT_TEXT_MAX).number == PAVILUKO_REFUSED_NOTHING_USED);

    take(1000, start, 4, HEAT, 2);
    take(1000, water, 2, 1, 7);
    put_plain(tables);
    memcpy(at_end, tables, PAVILUKO_TABLE_LEN);
    CHECK(split(TABLES_LEN, PAVILUKO_HEAT_TEXT_MAX).number == PAVILUKO_REFUSED_NOTHING_USED);
    take(2000, late, 1, HEAT, 0);
    take(3000, end, 4, HEAT, 5);
    put_plain(at_end);
    every_room(1);
    paviluko_said said = paviluko_do_heat_split(tables, TABLES_LEN, out, sizeof out);
    CHECK(said.len == sizeof example_lines - 1 && memcmp(out, example_lines, said.len) == 0);

    /* The same table while a store is due and after a recovery, and none of a state that was cleared. */
    CHECK(paviluko_do_checkpoint(&s, NULL, 0).number == PAVILUKO_TAKEN);
    put_plain(at_end);
    CHECK(paviluko_do_checkpoint(&s, file, sizeof file).number == PAVILUKO_TAKEN);
    CHECK(paviluko_do_checkpoint(&s, NULL, 0).number == PAVILUKO_TAKEN);
    static uint8_t after[PAVILUKO_TABLE_LEN];
    x = s.vault;
    memcpy(x.r, x.v, sizeof x.r);
    CHECK(paviluko_do_load(&s, &x, key, sizeof key).number == PAVILUKO_TAKEN);
    CHECK(paviluko_do_recover(&s, file, sizeof file, NULL, 0, NULL, 0).number == PAVILUKO_TAKEN);
    put_plain(after);
    CHECK(memcmp(after, at_end, sizeof after) == 0);
    paviluko_clear(&s);
    put_plain(after);
    CHECK(memcmp(after, at_end, sizeof after) != 0);
    memcpy(at_end, after, sizeof after);
    CHECK(split(TABLES_LEN, PAVILUKO_HEAT_TEXT_MAX).number == PAVILUKO_REFUSED_NOTHING_USED);
}

int main(void)
{
    example();
    lengths();
    entries();
    places();
    full();
    random_tables();
    year();
    CHECK(said_so[0] && said_so[3] && said_so[4] && said_so[18] && said_so[19]);
    printf("heat: %ld splits taken; turned down %ld with 3, %ld with 4, %ld with 18, %ld with 19; %ld checks\n", said_so[0],
           said_so[3], said_so[4], said_so[18], said_so[19], checks);
    return 0;
}
