/* Benchmark of paviluko_heat_split and paviluko_plain_table, through
   include/paviluko.h: two full tables of which 8, 64 or all 256 meters are heat,
   and one where all of these used the same, so that all remainders are the same.

   Beside a split stand the same job as a C programmer would write it, with qsort
   and snprintf, and the bare cipher, sealing as many bytes as the two tables
   have.  Beside the plain table stands memcpy of as many bytes.  Whatever is
   compared puts the same bytes out, and is held to that before the clock starts.
   The ways of a row take turns over several rounds, and a time is the least of
   its rounds. */

#define _POSIX_C_SOURCE 199309L

#include "cipher.h"
#include "ways.h"

#include <stdio.h>
#include <string.h>

enum {
    TAG = 16,
    TABLES = 2 * PAVILUKO_TABLE_LEN,
    ENTRY = PAVILUKO_TABLE_LEN / PAVILUKO_METERS,
    HEAT = 3,
    MILLION = 1000000,
    WAYS = 3,
    ROUNDS = 25
};

static struct cipher_key key;
static uint8_t out[PAVILUKO_HEAT_TEXT_MAX + 1]; /* snprintf ends with a 0 */

/* ---- the tables ---- */

static struct row {
    const char *name;
    int listed;
    int same;          /* whether all used the same */
    uint8_t tables[TABLES];
    size_t len;        /* of the text */
    double best[WAYS];
} rows[] = {
    { .name = "8 heat meters", .listed = 8 },
    { .name = "64 heat meters", .listed = 64 },
    { .name = "256 heat meters", .listed = 256 },
    { .name = "256, all used the same", .listed = 256, .same = 1 },
};

enum { ROWS = sizeof rows / sizeof rows[0] };

static void put_entry(uint8_t *entry, uint8_t code, int32_t reading, int meter)
{
    uint64_t stamp = 1750000000, number = 100 + (uint64_t)meter;
    memcpy(entry, &stamp, 8);
    memcpy(entry + 8, &number, 8);
    memcpy(entry + 16, &reading, 4);
    entry[20] = code;
    entry[21] = (uint8_t)(meter % PAVILUKO_LANES);
    entry[22] = 1;
    entry[23] = 0;
}

/* So many heat meters, evenly among the others, which are cold water. Some 1 in 16 shows less than before. */
static void make_tables(struct row *r)
{
    for (int m = 0; m < PAVILUKO_METERS; m++) {
        uint8_t code = m % (PAVILUKO_METERS / r->listed) == 0 ? HEAT : 1;
        uint16_t before, used;
        fill((uint8_t *)&before, 2);
        fill((uint8_t *)&used, 2);
        int32_t start = 20000 + before, end = r->same ? start + 7 : used % 16 == 0 ? used / 16 : start + used / 4;
        put_entry(r->tables + ENTRY * m, code, start, m);
        put_entry(r->tables + PAVILUKO_TABLE_LEN + ENTRY * m, code, end, m);
    }
}

/* ---- the peer: the same in plain C ---- */

struct meter {
    int meter;
    int64_t used;
    uint64_t share, rest;
};

static int is_table(const uint8_t *table)
{
    static const uint8_t none[ENTRY];
    for (int m = 0; m < PAVILUKO_METERS; m++) {
        const uint8_t *e = table + ENTRY * m;
        int there = e[20] >= 1 && e[20] <= 4 && e[21] < PAVILUKO_LANES && e[22] == 1 && e[23] == 0;
        if (!there && memcmp(e, none, ENTRY) != 0)
            return 0;
    }
    return 1;
}

static int64_t reading_of(const uint8_t *entry)
{
    int32_t reading;
    memcpy(&reading, entry + 16, 4);
    return reading;
}

/* The larger remainder first, then the lower meter. */
static int by_rest(const void *a, const void *b)
{
    const struct meter *x = *(const struct meter *const *)a, *y = *(const struct meter *const *)b;
    if (x->rest != y->rest)
        return x->rest > y->rest ? -1 : 1;
    return x->meter - y->meter;
}

/* The text's length at the start of `to`, or minus the number of a refusal. */
__attribute__((noinline)) static int peer_split(const uint8_t *tables, size_t len, char *to, size_t room)
{
    struct meter meters[PAVILUKO_METERS], *order[PAVILUKO_METERS];
    const uint8_t *start = tables, *end = tables + PAVILUKO_TABLE_LEN;
    uint64_t total = 0, given = 0;
    int n = 0;
    if (len != TABLES || !is_table(start) || !is_table(end))
        return -4;
    for (int m = 0; m < PAVILUKO_METERS; m++, start += ENTRY, end += ENTRY) {
        if (!start[22] || !end[22])
            continue;
        if ((start[20] == HEAT) != (end[20] == HEAT))
            return -18;
        if (start[20] != HEAT)
            continue;
        meters[n].meter = m;
        meters[n].used = reading_of(end) - reading_of(start);
        if (meters[n].used > 0)
            total += (uint64_t)meters[n].used;
        n++;
    }
    if (total == 0)
        return -19;
    for (int i = 0; i < n; i++) {
        uint64_t millions = meters[i].used > 0 ? (uint64_t)meters[i].used * MILLION : 0;
        meters[i].share = millions / total;
        meters[i].rest = millions % total;
        given += meters[i].share;
        order[i] = &meters[i];
    }
    qsort(order, (size_t)n, sizeof order[0], by_rest);
    for (uint64_t i = 0; i < MILLION - given; i++)
        order[i]->share++;
    size_t at = (size_t)snprintf(to, room, "meter,used,share\n");
    for (int i = 0; i < n && at < room; i++)
        at += (size_t)snprintf(to + at, room - at, "%d,%lld,%llu\n", meters[i].meter, (long long)meters[i].used,
                               (unsigned long long)meters[i].share);
    return at < room ? (int)at : -3;
}

/* ---- the ways of a split ---- */

static int ours(const struct row *r)
{
    paviluko_said said = paviluko_do_heat_split(r->tables, TABLES, out, PAVILUKO_HEAT_TEXT_MAX);
    return said.number == PAVILUKO_TAKEN && said.len == r->len;
}

static int peers(const struct row *r)
{
    return peer_split(r->tables, TABLES, (char *)out, sizeof out) == (int)r->len;
}

static int seal_tables(const struct row *r)
{
    static const uint8_t nonce[12] = { 1 };
    static uint8_t body[TABLES + TAG];
    return cipher_seal(key.schedule, key.multiples, nonce, sizeof nonce, r->tables, 0, body, sizeof body, TABLES) ==
           CIPHER_DONE;
}

static int (*const ways[WAYS])(const struct row *) = { ours, peers, seal_tables };

/* Makes a row's tables, and holds our text against the peer's. */
static void prepare(struct row *r)
{
    static char text[sizeof out];
    make_tables(r);
    int len = peer_split(r->tables, TABLES, text, sizeof text), lines = 0;
    check(len > 0, "the peer's split");
    r->len = (size_t)len;
    check(ours(r) && memcmp(out, text, r->len) == 0, "our text, which is to be the peer's,");
    for (size_t i = 0; i < r->len; i++)
        lines += text[i] == '\n';
    check(lines == 1 + r->listed, "listing the heat meters");
}

/* ---- the plain table ---- */

static paviluko_state state;

static int plain(const struct row *r)
{
    (void)r;
    return paviluko_do_plain_table(&state, out, sizeof out).len == PAVILUKO_TABLE_LEN;
}

/* Called through a pointer that the compiler does not know, so that every copy is made. */
static void *(*volatile copy)(void *, const void *, size_t) = memcpy;

static int copied(const struct row *r)
{
    return copy(out, r->tables, PAVILUKO_TABLE_LEN) == out;
}

/* The end of a row as a collector's table. */
static void prepare_plain(const struct row *r)
{
    const uint8_t *table = r->tables + PAVILUKO_TABLE_LEN;
    for (int m = 0; m < PAVILUKO_METERS; m++) {
        paviluko_entry *e = &state.table.entries[m];
        const uint8_t *from = table + ENTRY * m;
        memcpy(&e->stamp, from, 8);
        memcpy(&e->number, from + 8, 8);
        memcpy(&e->reading, from + 16, 4);
        e->code = from[20];
        e->lane = from[21];
        e->present = from[22];
    }
    check(plain(r) && memcmp(out, table, PAVILUKO_TABLE_LEN) == 0, "the plain table");
}

int main(void)
{
    static const uint8_t bytes[PAVILUKO_KEY_LEN] = { 7 };
    double of_table = 0, of_copy = 0;
    check(cipher_prepare(bytes, sizeof bytes, key.schedule, key.multiples) == CIPHER_DONE, "preparing a key");
    for (int i = 0; i < ROWS; i++)
        prepare(&rows[i]);
    prepare_plain(&rows[2]);
    for (int round = 0; round < ROUNDS; round++) {
        for (int i = 0; i < ROWS * WAYS; i++)
            time_way(ways[i % WAYS], &rows[i / WAYS], 20, &rows[i / WAYS].best[i % WAYS]);
        time_way(plain, &rows[2], 20, &of_table);
        time_way(copied, &rows[2], 20, &of_copy);
    }
    printf("%-30s %5s %8s %10s %10s %8s %10s %8s\n", "a yearly heat split", "bytes", "ns", "splits/s", "plain C ns", "ratio",
           "cipher ns", "ratio");
    for (int i = 0; i < ROWS; i++) {
        const struct row *r = &rows[i];
        printf("%-30s %5zu %8.0f %10.0f %10.0f %8.2f %10.0f %8.2f\n", r->name, r->len, r->best[0], 1e9 / r->best[0], r->best[1],
               r->best[0] / r->best[1], r->best[2], r->best[0] / r->best[2]);
    }
    printf("the plain table of a state: %.0f ns, beside memcpy of its %d bytes in %.0f ns; ratio %.2f\n", of_table,
           PAVILUKO_TABLE_LEN, of_copy, of_table / of_copy);
    return 0;
}
