/* A complete small host for libpaviluko.a, to copy from. Vault and card are memory here; put your own in their place. The
 * functions carry_out, start, take and tidy are what a firmware needs; what follows them shows a day of readings, and pulls
 * the plug.
 *
 *   firmware                  a new box, a day of readings, and the table of latest readings
 *   firmware --cut-before N   the same day, but the power fails before store N is done; then the box starts again
 *   firmware --cut-after N    the same, right after store N is done
 *   firmware --cut-in N       the same, while store N is being done: of a record or a checkpoint file the card has a beginning
 *   firmware --misread N      the Nth time that a record is read back from the card, a bit is wrong
 *   firmware --spoil N        the card does not keep the Nth record that is written
 *   firmware --every          the day once for each store of it, cut before that store, in it and after it, and with a
 *                             second cut at the stores of the recovery; the table is checked after each start
 *
 * Stores are counted from the first power on. C99, C11 or C++17:
 *
 *   gcc -std=c99 -O2 -Iinclude -o firmware examples/firmware.c target/staticlib/libpaviluko.a */
#include <inttypes.h>
#include <stdio.h>
#include <stdlib.h>
#include <string.h>

#include "paviluko.h"

enum {
    CARD_RECORDS = PAVILUKO_RECORDS, /* tidy comes before more are listed, and deletes them */
    CARD_FILES = 3,                  /* the one in use, and the two of a recovery */
    TIDY_AT = PAVILUKO_RECORDS - 8,  /* records listed when it is time for a checkpoint */
    HOST_STACK = 65536               /* for clear_stack: what the functions of this file use themselves */
};

/* A firmware gets its key from a place that nobody can read. */
static const uint8_t key[PAVILUKO_KEY_LEN] = {0x5a, 0xc3, 0x91, 0x0e, 0x77, 0xd8, 0x24, 0xbf,
                                              0x63, 0x1a, 0xe5, 0x4c, 0x98, 0x3d, 0xf2, 0x06};

/* ---- what a power cut keeps: vault and card ---- */

typedef struct {
    uint64_t position;
    size_t len;
    uint8_t bytes[PAVILUKO_RECORD_MAX];
} card_record;

typedef struct {
    size_t len;
    uint8_t bytes[PAVILUKO_CHECKPOINT_LEN];
} card_file;

typedef struct {
    card_record records[CARD_RECORDS]; /* the first record_count, in order of position */
    size_t record_count;
    card_file files[CARD_FILES]; /* the first file_count */
    size_t file_count;
} card_memory;

static paviluko_vault vault; /* all 0 when new */
static card_memory card;

/* ---- what a power cut loses ---- */

static struct {
    paviluko_state state;
    paviluko_said said;                             /* what the last call said */
    uint64_t next_position;                         /* of the next record or point; counts from 0 after each start */
    uint8_t out[PAVILUKO_CHECKPOINT_LEN];           /* where seal, checkpoint and recover put what is to be written; RAM, for
                                                     * they seal it there, and until then it is plain */
    uint8_t record[PAVILUKO_RECORD_MAX];            /* a record, read back from the card */
    uint8_t file[PAVILUKO_CHECKPOINT_LEN];          /* a checkpoint file, read from the card */
    uint8_t log[CARD_RECORDS * PAVILUKO_RECORD_MAX]; /* the card's records end to end; PAVILUKO_LOG_MAX is always enough */
} ram;

/* On which side of a store the power fails, or in it. */
enum { BEFORE, IN, AFTER, MOMENTS };

/* What the demonstration does to the hardware. A firmware has none of this. 0 means never. */
static struct {
    unsigned long stores; /* stores so far */
    unsigned long cut[MOMENTS];
    unsigned long reads; /* records read back so far */
    unsigned long misread;
    unsigned long written; /* records written so far */
    unsigned long spoil;
} trial;

/* ---- the card ---- */

static uint64_t number_at(const uint8_t *bytes)
{
    uint64_t number = 0;
    int i;
    for (i = 7; i >= 0; i--) {
        number = number << 8 | bytes[i];
    }
    return number;
}

/* Whether this is a checkpoint file of version S: all of it, for what a cut has left of one is none. The version is its bytes
 * 4 to 11. */
static int file_in_use(const card_file *f)
{
    return f->len == PAVILUKO_CHECKPOINT_LEN && number_at(f->bytes + 4) == vault.s;
}

/* Writes a record; whether it was done. Positions only rise until the log is emptied, so it comes behind the others. A cut may
 * leave it whole, not there at all, or any beginning of it at the end of the log: recover passes over a beginning. The other
 * records must stay as they are. (Where the card has names, write it under another one, flush, and rename: then it is whole or
 * not there.) */
static int card_write_record(uint64_t position, const uint8_t *bytes, size_t len)
{
    card_record *r;
    if (card.record_count == CARD_RECORDS || len > sizeof r->bytes) {
        return 0;
    }
    r = &card.records[card.record_count];
    r->position = position;
    r->len = len;
    memcpy(r->bytes, bytes, len);
    card.record_count++;
    return 1;
}

/* Writes a checkpoint file beside the older ones; whether it was done. A cut may leave a beginning of it: it must be told from
 * a whole one, here by its length. The older ones must stay as they are. (The same by a rename.) */
static int card_write_file(const uint8_t *bytes, size_t len)
{
    card_file *f;
    if (card.file_count == CARD_FILES || len > sizeof f->bytes) {
        return 0;
    }
    f = &card.files[card.file_count];
    f->len = len;
    memcpy(f->bytes, bytes, len);
    card.file_count++;
    return 1;
}

static void card_delete_below(uint64_t position)
{
    size_t i, kept = 0;
    for (i = 0; i < card.record_count; i++) {
        if (card.records[i].position >= position) {
            card.records[kept++] = card.records[i];
        }
    }
    card.record_count = kept;
}

/* Copies the record at a position into ram.record; its length, or 0 if there is none. The library is never lent the card's own
 * memory: it reads its input more than once, and nobody may change it meanwhile. */
static size_t card_read_record(uint64_t position)
{
    size_t i;
    for (i = 0; i < card.record_count; i++) {
        if (card.records[i].position == position) {
            memcpy(ram.record, card.records[i].bytes, card.records[i].len);
            if (++trial.reads == trial.misread) {
                ram.record[30] ^= 4;
            }
            return card.records[i].len;
        }
    }
    return 0;
}

/* Copies the checkpoint file of version S into ram.file. 0 while S is 0, and where the card has none. A torn one is never
 * handed over. */
static size_t card_read_file(void)
{
    size_t i;
    for (i = 0; vault.s != 0 && i < card.file_count; i++) {
        if (file_in_use(&card.files[i])) {
            memcpy(ram.file, card.files[i].bytes, PAVILUKO_CHECKPOINT_LEN);
            return PAVILUKO_CHECKPOINT_LEN;
        }
    }
    return 0;
}

/* Copies the records end to end into ram.log; `last` becomes the offset of the last one. A torn one at their end is handed over
 * as it is found: recover judges it. */
static size_t card_read_log(size_t *last)
{
    size_t i, len = 0;
    *last = 0;
    for (i = 0; i < card.record_count; i++) {
        *last = len;
        memcpy(ram.log + len, card.records[i].bytes, card.records[i].len);
        len += card.records[i].len;
    }
    return len;
}

/* Deletes the checkpoint files of other versions than S, and torn ones. Nobody asks again for one below S. One above S was left
 * by a cut that came between the file and S; the next checkpoint of that version writes its own. So it is called only while the
 * store of S is not the one that is due. */
static void card_forget_files(void)
{
    size_t i, kept = 0;
    for (i = 0; i < card.file_count; i++) {
        if (file_in_use(&card.files[i])) {
            card.files[kept++] = card.files[i];
        }
    }
    card.file_count = kept;
}

/* ---- the one rule ---- */

/* Carries out exactly the store that was named; whether it was done. Nothing else sets the vault. */
static int carry_out(const paviluko_said *said)
{
    switch (said->store) {
    case PAVILUKO_STORE_NONE: return 1;
    case PAVILUKO_STORE_W: vault.w[said->lane] = said->value; return 1;
    case PAVILUKO_STORE_V: vault.v[said->lane] = said->value; return 1;
    case PAVILUKO_STORE_R: vault.r[said->lane] = said->value; return 1;
    case PAVILUKO_STORE_E: vault.e = said->value; return 1;
    case PAVILUKO_STORE_S: vault.s = said->value; return 1;
    case PAVILUKO_STORE_N: vault.n = said->value; return 1;
    case PAVILUKO_STORE_RECORD: return card_write_record(said->value, ram.out, (size_t)said->len);
    case PAVILUKO_STORE_FILE: return card_write_file(ram.out, (size_t)said->len);
    case PAVILUKO_STORE_DELETE: card_delete_below(said->value); return 1;
    case PAVILUKO_STORE_EMPTY: card.record_count = 0; return 1;
    default: return 0;
    }
}

/* Cuts short what was written last: a part of it that changes from store to store. */
static void tear(const paviluko_said *said)
{
    size_t left = (size_t)(trial.stores * 31 % said->len);
    if (said->store == PAVILUKO_STORE_RECORD) {
        card.records[card.record_count - 1].len = left;
    } else {
        card.files[card.file_count - 1].len = left;
    }
}

/* The same with the demonstration's plug and its bad card. A firmware has carry_out alone. */
static int carry_out_or_cut(const paviluko_said *said)
{
    int done, writes = said->store == PAVILUKO_STORE_RECORD || said->store == PAVILUKO_STORE_FILE;
    if (said->store == PAVILUKO_STORE_NONE) {
        return 1;
    }
    trial.stores++;
    if (trial.stores == trial.cut[BEFORE] || (trial.stores == trial.cut[IN] && !writes)) {
        return 0;
    }
    done = carry_out(said);
    if (done && said->store == PAVILUKO_STORE_RECORD && ++trial.written == trial.spoil) {
        card.records[card.record_count - 1].bytes[30] ^= 4;
    }
    if (done && trial.stores == trial.cut[IN]) {
        tear(said);
        return 0;
    }
    return done && trial.stores != trial.cut[AFTER];
}

/* What an operation comes to. */
typedef enum {
    DONE,
    REFUSED, /* a call was turned down, and ram.said has its number; the state is as before it */
    OFF      /* a store was not done, or the power is gone: no call with this state, but start */
} outcome;

/* What every call ends with: its store is carried out before the next one. */
static outcome follow(paviluko_said said)
{
    ram.said = said;
    if (said.number != PAVILUKO_TAKEN) {
        return REFUSED;
    }
    return carry_out_or_cut(&ram.said) ? DONE : OFF;
}

/* ---- the collector ----
 * A task that calls these needs PAVILUKO_STACK bytes of stack and some KB more. They are not inlined: their frames hold states
 * and replies, and clear_stack wipes only what lies below the function that calls it. */

#define NOT_INLINED __attribute__((noinline))

/* Power on: from vault and card into service. If it is REFUSED, ram.said.number belongs on the display: this is not the card
 * that the vault knows, or it was changed. */
static NOT_INLINED outcome start(void)
{
    size_t last, log_len = card_read_log(&last), file_len = card_read_file();
    outcome o = follow(paviluko_do_load(&ram.state, &vault, key, sizeof key));
    if (o != DONE) {
        return o;
    }
    o = follow(paviluko_do_recover(&ram.state, ram.file, file_len, ram.log, log_len, ram.out, sizeof ram.out));
    if (o == REFUSED && ram.said.number == PAVILUKO_REFUSED_CLOSED && log_len != 0 && ram.said.value == last) {
        /* The last record is all there and does not open: the card has not kept it. Leave it out; had it been visible, recover
         * would say 13. (With one record, 0 may also mean the checkpoint: then this is turned down again.) */
        log_len = last;
        o = follow(paviluko_do_recover(&ram.state, ram.file, file_len, ram.log, log_len, ram.out, sizeof ram.out));
    }
    if (o == DONE) {
        /* It is our card: now, and not before, something may be deleted from it. */
        card_forget_files();
    }
    while (o == DONE && ram.state.phase != PAVILUKO_IN_SERVICE) {
        o = follow(paviluko_do_recover(&ram.state, ram.file, file_len, ram.log, log_len, ram.out, sizeof ram.out));
    }
    if (o == DONE) {
        card_forget_files();
        ram.next_position = 0;
    }
    return o;
}

/* Sets a point behind all records, makes a checkpoint that covers it, and gives up the records below it. Every record is
 * committed when it is called. */
static NOT_INLINED outcome tidy(void)
{
    uint64_t position = ram.next_position;
    outcome o = follow(paviluko_do_point(&ram.state, position));
    if (o != DONE) {
        return o;
    }
    ram.next_position = position + 1; /* the next record lies above the point */
    do {
        o = follow(paviluko_do_checkpoint(&ram.state, ram.out, sizeof ram.out));
    } while (o == DONE && ram.state.due.kind != PAVILUKO_DUE_NOTHING);
    if (o != DONE) {
        return o;
    }
    card_forget_files();
    do {
        o = follow(paviluko_do_truncate(&ram.state, position));
    } while (o == DONE && ram.state.due.kind != PAVILUKO_DUE_NOTHING);
    return o;
}

/* Takes a transaction. DONE: it is visible, and no cut loses it any more. REFUSED: it is not in its layout (4), its lane is
 * above 7 (5), or a counter is spent (8). OFF: start, and take it again if it is not visible; it then gets another number. */
static NOT_INLINED outcome take(const uint8_t *transaction, size_t len, uint8_t lane)
{
    uint64_t position;
    int reads = 0;
    outcome o;
    if (paviluko_records(ram.state) >= TIDY_AT) {
        o = tidy();
        if (o != DONE) {
            return o;
        }
    }
    position = ram.next_position;
    o = follow(paviluko_do_accept(&ram.state, transaction, len, lane, position));
    if (o != DONE) {
        return o;
    }
    ram.next_position = position + 1;
    o = follow(paviluko_do_seal(&ram.state, ram.out, sizeof ram.out));
    if (o != DONE) {
        return OFF;
    }
    /* Commit is given what the card has kept, and not what was sealed. If that does not open, it is read once more. */
    do {
        size_t read_len = card_read_record(position);
        o = follow(paviluko_do_commit(&ram.state, ram.record, read_len));
        reads++;
    } while (o == REFUSED && ram.said.number == PAVILUKO_REFUSED_CLOSED && reads < 2);
    /* Where it is turned down again, the card has not kept the record: load and recover. */
    return o == DONE ? DONE : OFF;
}

/* The table of latest readings. */
static NOT_INLINED void show(void)
{
    static const char *const media[] = {"", "cold water", "warm water", "heat", "cooling"};
    static const char *const units[] = {"", "l", "l", "kWh", "kWh"};
    int meter;
    printf("meter  medium      reading  unit       stamp  lane  number\n");
    for (meter = 0; meter < PAVILUKO_METERS; meter++) {
        paviluko_entry e = paviluko_reading(ram.state, (uint8_t)meter);
        if (e.present) {
            printf("%5d  %-10s  %7" PRId32 "  %-4s  %10" PRIu64 "  %4d  %6" PRIu64 "\n", meter, media[e.code], e.reading,
                   units[e.code], e.stamp, e.lane, e.number);
        }
    }
}

/* Wipes what the calls have left on the stack, the key among it. Call it from a function that calls start, take, tidy and
 * show, or from one further up. If it were inlined, its array would lie beside the remains and not on them. */
static NOT_INLINED void clear_stack(void)
{
    volatile uint8_t bytes[PAVILUKO_STACK + HOST_STACK];
    size_t i;
    for (i = 0; i < sizeof bytes; i++) {
        bytes[i] = 0;
    }
}

/* ==== the demonstration: a day of readings, and the plug ==== */

enum {
    DAY = 150, /* transactions */
    MORNING = 1772409600,
    SECOND = 4 /* every fourth first cut is followed by second cuts; a transaction has 3 stores, so all kinds come up */
};

typedef struct {
    uint8_t bytes[PAVILUKO_TRANSACTION_MAX];
    size_t len;
    uint8_t lane;
} transaction;

static transaction day[DAY];

/* The day's transactions that have been made visible, in order: how many, and each one's number in its lane. */
typedef struct {
    size_t count;
    uint64_t numbers[DAY];
} visible_list;

static visible_list visible;

static void put(uint8_t *to, uint64_t value, int bytes)
{
    int i;
    for (i = 0; i < bytes; i++) {
        to[i] = (uint8_t)(value >> (8 * i));
    }
}

static void begin(transaction *t, uint8_t lane, uint64_t stamp)
{
    put(t->bytes, stamp, 8);
    t->len = 8;
    t->lane = lane;
}

/* Adds a write. The meters of a transaction ascend. */
static void add(transaction *t, int meter, uint8_t code, int32_t reading)
{
    uint8_t *write = t->bytes + t->len;
    put(write, (uint64_t)meter, 2);
    write[2] = code;
    write[3] = 0;
    put(write + 4, (uint32_t)reading, 4);
    t->len += 8;
}

/* Three receivers, lanes 0 to 2, each with the four meters of its floor, take turns every nine minutes. */
static void make_day(void)
{
    int i, k;
    for (i = 0; i < DAY; i++) {
        int lane = i % 3;
        begin(&day[i], (uint8_t)lane, MORNING + 540 * (uint64_t)i);
        for (k = 0; k <= i % 4; k++) {
            add(&day[i], 10 * lane + k, (uint8_t)(1 + k), 1000 * (k + 1) + 7 * i);
        }
    }
    /* One meter heard by two receivers in the same second: lane 3's reading is the latest, though lane 5's comes later. */
    begin(&day[20], 3, MORNING + 10800);
    add(&day[20], 200, 1, 4711);
    begin(&day[21], 5, MORNING + 10800);
    add(&day[21], 200, 1, 4712);
    /* A meter that was mounted the wrong way round. */
    begin(&day[130], 4, MORNING + 70200);
    add(&day[130], 201, 4, -17);
    /* The clock is put back by an hour: the reading with the greater stamp stays. */
    begin(&day[140], 6, MORNING + 75600);
    add(&day[140], 202, 3, 88);
    begin(&day[141], 6, MORNING + 72540);
    add(&day[141], 202, 3, 80);
}

/* Whether write a is later than write b: the greater stamp, then the lower lane, then the greater number. */
static int later(const paviluko_entry *a, const paviluko_entry *b)
{
    if (a->stamp != b->stamp) {
        return a->stamp > b->stamp;
    }
    return a->lane != b->lane ? a->lane < b->lane : a->number > b->number;
}

/* Whether the table is what it must be: of every meter the latest reading among the visible transactions, and nothing more. */
static int table_right(void)
{
    static paviluko_entry wanted[PAVILUKO_METERS];
    size_t i, at;
    memset(wanted, 0, sizeof wanted);
    for (i = 0; i < visible.count; i++) {
        for (at = 8; at < day[i].len; at += 8) {
            const uint8_t *write = day[i].bytes + at;
            paviluko_entry e;
            e.stamp = number_at(day[i].bytes);
            e.number = visible.numbers[i];
            e.reading = (int32_t)(uint32_t)(number_at(write) >> 32);
            e.code = write[2];
            e.lane = day[i].lane;
            e.present = 1;
            if (!wanted[write[0]].present || later(&e, &wanted[write[0]])) {
                wanted[write[0]] = e;
            }
        }
    }
    for (i = 0; i < PAVILUKO_METERS; i++) {
        const paviluko_entry *e = &ram.state.table.entries[i], *w = &wanted[i];
        if (e->present != w->present || e->stamp != w->stamp || e->lane != w->lane || e->number != w->number ||
            e->code != w->code || e->reading != w->reading) {
            return 0;
        }
    }
    return 1;
}

static void fail(const char *what)
{
    printf("firmware: %s (cut before %lu, in %lu, after %lu; store %lu; last call said %d)\n", what, trial.cut[BEFORE],
           trial.cut[IN], trial.cut[AFTER], trial.stores, ram.said.number);
    exit(1);
}

static void check(int good, const char *what)
{
    if (!good) {
        fail(what);
    }
}

/* A new box with an empty card, and nothing that happens to it. */
static void new_box(void)
{
    memset(&vault, 0, sizeof vault);
    memset(&card, 0, sizeof card);
    memset(&visible, 0, sizeof visible);
    memset(&trial, 0, sizeof trial);
}

/* A cut: vault and card stay. */
static void lose_power(void)
{
    memset(&ram, 0xa5, sizeof ram);
}

/* In service, the table is right, and the vault has every number that was named. */
static void check_service(void)
{
    check(table_right(), "the table is wrong");
    check(memcmp(&vault, &ram.state.vault, sizeof vault) == 0, "a store was named and is not in the vault");
}

static outcome start_right(void)
{
    outcome o = start();
    check(o != REFUSED, "the card was turned down");
    if (o == DONE) {
        check_service();
    }
    return o;
}

/* From a start to the end of the day, or until the box is off. */
static outcome live(void)
{
    outcome o = start_right();
    while (o == DONE && visible.count < DAY) {
        const transaction *t = &day[visible.count];
        uint64_t number = vault.w[t->lane] + 1;
        o = take(t->bytes, t->len, t->lane);
        check(o != REFUSED, "a transaction was turned down");
        /* Visible once V is stored, whether or not the power failed right after. A recovery raises V too, and makes nothing
         * visible by it, so this is looked at before the next start. */
        if (vault.v[t->lane] == number) {
            visible.numbers[visible.count++] = number;
        }
    }
    if (o == DONE) {
        o = tidy();
        check(o != REFUSED, "the evening's checkpoint was turned down");
    }
    if (o == DONE) {
        check_service();
    }
    return o;
}

/* The day, with what trial says; it starts again where the box went off. */
static void live_through(void)
{
    int starts = 1, moment;
    while (live() == OFF) {
        check(starts++ < 3, "off again and again");
        printf("off at store %lu, last call said %d: starting again\n", trial.stores, ram.said.number);
        lose_power();
    }
    for (moment = 0; moment < MOMENTS; moment++) {
        check(trial.cut[moment] <= trial.stores, "the day has no such store");
    }
    printf("%d transactions, %lu stores\n", DAY, trial.stores);
    show();
}

/* ---- a cut at every store ---- */

typedef struct {
    paviluko_vault vault;
    card_memory card;
    visible_list visible;
} kept;

static void keep(kept *k)
{
    k->vault = vault;
    k->card = card;
    k->visible = visible;
}

/* Power on with what was kept, and with a cut at a store from here; 0 for none. */
static void power_on(const kept *k, int moment, unsigned long store)
{
    vault = k->vault;
    card = k->card;
    visible = k->visible;
    memset(&trial, 0, sizeof trial);
    trial.cut[moment] = store;
    lose_power();
}

/* A second cut at every store of the start that follows a first one, before, in and after it; how many there were. */
static unsigned long second_cuts(const kept *first)
{
    unsigned long cuts = 0, store;
    int moment;
    for (moment = 0; moment < MOMENTS; moment++) {
        for (store = 1;; store++) {
            power_on(first, moment, store);
            if (start_right() == DONE) {
                break;
            }
            lose_power();
            check(start_right() == DONE, "no start after a second cut");
            cuts++;
        }
    }
    return cuts;
}

/* The day with each cut that it can have, and at a part of them with each second one. */
static void every_cut(void)
{
    static kept first;
    unsigned long stores, store, second = 0;
    int moment;
    new_box();
    lose_power();
    check(live() == DONE, "the day did not come to its end");
    stores = trial.stores;
    for (store = 1; store <= stores; store++) {
        for (moment = 0; moment < MOMENTS; moment++) {
            new_box();
            lose_power();
            trial.cut[moment] = store;
            check(live() == OFF, "the plug was not pulled");
            keep(&first);
            if (store % SECOND == 0) {
                second += second_cuts(&first);
            }
            power_on(&first, BEFORE, 0);
            check(live() == DONE, "the day did not come to its end after a cut");
        }
    }
    printf("firmware: %lu stores, each cut before, in and after, and %lu second cuts: the table was right every time\n", stores,
           second);
}

/* What the command line can have happen, each with a number. */
static const struct {
    const char *name;
    unsigned long *at;
} options[] = {
    {"--cut-before", &trial.cut[BEFORE]},
    {"--cut-after", &trial.cut[AFTER]},
    {"--cut-in", &trial.cut[IN]},
    {"--misread", &trial.misread},
    {"--spoil", &trial.spoil},
};

/* Whether the command line is one of those above. */
static int command_line(int argc, char **argv)
{
    unsigned long n = argc == 3 ? strtoul(argv[2], NULL, 10) : 0;
    size_t i;
    if (argc == 1 || (argc == 2 && strcmp(argv[1], "--every") == 0)) {
        return 1;
    }
    for (i = 0; i < sizeof options / sizeof options[0]; i++) {
        if (n != 0 && strcmp(argv[1], options[i].name) == 0) {
            *options[i].at = n;
            return 1;
        }
    }
    return 0;
}

int main(int argc, char **argv)
{
    if (paviluko_edition() != PAVILUKO_EDITION) {
        printf("firmware: header and library are of different editions\n");
        return 1;
    }
    make_day();
    new_box();
    if (!command_line(argc, argv)) {
        fprintf(stderr, "usage: firmware [--cut-before N | --cut-after N | --cut-in N | --misread N | --spoil N | --every]\n");
        return 2;
    }
    if (argc == 2) {
        every_cut();
    } else {
        live_through();
    }
    /* The state has the key, and so may the stack. */
    paviluko_clear(&ram.state);
    clear_stack();
    return 0;
}
