/* The boundary as a C program meets it: the library and include/paviluko.h agree on their edition, on every struct and on the
 * lengths of frame, transaction, plain table and heat split, a state of zeros is none, a short session runs, a call that is
 * turned down hands the state back as it came, and a NULL buffer is one of length 0. */
#include "check.h"
#include "frame.h"
#include "same.h"
#include "table.h"

/* ---- the host's side: a vault, a card of a few records, and the newest file ---- */

static paviluko_vault vault;
static uint8_t out[PAVILUKO_CHECKPOINT_LEN];
static uint8_t file[PAVILUKO_CHECKPOINT_LEN];
static uint8_t log_bytes[4 * PAVILUKO_RECORD_MAX];
static size_t log_len;

static void carry_out(paviluko_said said)
{
    switch (said.store) {
    case PAVILUKO_STORE_W: vault.w[said.lane] = said.value; break;
    case PAVILUKO_STORE_V: vault.v[said.lane] = said.value; break;
    case PAVILUKO_STORE_R: vault.r[said.lane] = said.value; break;
    case PAVILUKO_STORE_E: vault.e = said.value; break;
    case PAVILUKO_STORE_S: vault.s = said.value; break;
    case PAVILUKO_STORE_N: vault.n = said.value; break;
    case PAVILUKO_STORE_RECORD:
        memcpy(log_bytes + log_len, out, said.len);
        log_len += said.len;
        break;
    case PAVILUKO_STORE_FILE: memcpy(file, out, said.len); break;
    case PAVILUKO_STORE_DELETE:
    case PAVILUKO_STORE_EMPTY: log_len = 0; break;
    default: break;
    }
}

static void taken(paviluko_said said, int store, int lane, uint64_t value, size_t len)
{
    CHECK(said.number == PAVILUKO_TAKEN);
    CHECK(said.store == store && said.lane == lane && said.value == value && said.len == len);
    carry_out(said);
}

static void refused(paviluko_said said, int number, uint64_t value)
{
    CHECK(said.number == number && said.value == value);
    CHECK(said.store == 0 && said.lane == 0 && said.len == 0);
}

/* Each operation on s is turned down with this number, and hands s back. */
static void all_refused(const paviluko_state *s, int number)
{
    paviluko_reply r[7];
    r[0] = paviluko_accept(*s, file, 16, 0, 1);
    r[1] = paviluko_seal(*s, out, sizeof out);
    r[2] = paviluko_commit(*s, file, 56);
    r[3] = paviluko_point(*s, 1);
    r[4] = paviluko_checkpoint(*s, out, sizeof out);
    r[5] = paviluko_truncate(*s, 1);
    r[6] = paviluko_recover(*s, file, 0, file, 0, out, sizeof out);
    for (int i = 0; i < 7; i++) {
        refused(r[i].said, number, 0);
        CHECK(same_state(&r[i].state, s));
    }
}

/* The table of s in plain is put out, whatever the state. */
static void plain(const paviluko_state *s)
{
    static uint8_t wanted[PAVILUKO_TABLE_LEN], put[PAVILUKO_TABLE_LEN + 1];
    paviluko_state was = *s;
    table_text(s, wanted);
    memset(put, 0xa5, sizeof put);
    refused(paviluko_plain_table(*s, put, PAVILUKO_TABLE_LEN - 1), PAVILUKO_REFUSED_LENGTH, PAVILUKO_TABLE_LEN);
    refused(paviluko_do_plain_table(s, put, 0), PAVILUKO_REFUSED_LENGTH, PAVILUKO_TABLE_LEN);
    refused(paviluko_do_plain_table(s, NULL, sizeof put), PAVILUKO_REFUSED_LENGTH, PAVILUKO_TABLE_LEN);
    for (size_t i = 0; i < sizeof put; i++) {
        CHECK(put[i] == 0xa5);
    }
    taken(paviluko_plain_table(*s, put, PAVILUKO_TABLE_LEN), PAVILUKO_STORE_NONE, 0, 0, PAVILUKO_TABLE_LEN);
    CHECK(memcmp(put, wanted, sizeof wanted) == 0);
    memset(put, 0xa5, sizeof put);
    taken(paviluko_do_plain_table(s, put, sizeof put), PAVILUKO_STORE_NONE, 0, 0, PAVILUKO_TABLE_LEN);
    CHECK(memcmp(put, wanted, sizeof wanted) == 0 && put[PAVILUKO_TABLE_LEN] == 0xa5);
    CHECK(same_state(s, &was));
}

/* ---- structs ---- */

static paviluko_state fill(void)
{
    paviluko_state s;
    uint64_t k = 1;
    memset(&s, 0, sizeof s);
    for (int i = 0; i < PAVILUKO_LANES; i++) {
        s.vault.w[i] = k++;
        s.vault.v[i] = k++;
        s.vault.r[i] = k++;
    }
    s.vault.e = k++;
    s.vault.s = k++;
    s.vault.n = k++;
    s.due.position = k++;
    s.due.kind = PAVILUKO_DUE_TRUNCATE_R;
    s.due.lane = 5;
    for (int i = 0; i < PAVILUKO_METERS; i++) {
        paviluko_entry *e = &s.table.entries[i];
        e->stamp = k++ << 32;
        e->number = k++;
        e->reading = -(int32_t)k++;
        e->code = (uint8_t)(1 + i % 4);
        e->lane = (uint8_t)(i % 8);
        e->present = (uint8_t)(i % 2);
    }
    for (int i = 0; i < PAVILUKO_RECORDS; i++) {
        s.journal.positions[i] = k++;
        s.journal.lanes[i] = (uint8_t)k++;
    }
    s.journal.count = 77;
    s.journal.used = 1;
    s.journal.last = k++;
    for (int i = 0; i < PAVILUKO_POINTS; i++) {
        s.points.items[i].position = k++;
        for (int j = 0; j < PAVILUKO_LANES; j++) {
            s.points.items[i].counts[j] = k++;
        }
        s.points.items[i].covered = (uint8_t)(i % 2);
    }
    s.points.count = 6;
    s.points.any = 1;
    s.points.newest = k++;
    for (int i = 0; i < PAVILUKO_TRANSACTION_MAX; i++) {
        s.held.text[i] = (uint8_t)k++;
    }
    s.held.len = 131;
    s.held.lane = 3;
    s.held.position = k++;
    for (int i = 0; i < PAVILUKO_KEY_LEN; i++) {
        s.key[i] = (uint8_t)k++;
    }
    s.phase = PAVILUKO_IN_SERVICE;
    return s;
}

static void structs(void)
{
    paviluko_state s = fill();
    paviluko_vault x = paviluko_numbers(s);
    paviluko_due d = paviluko_due_store(s);
    CHECK(memcmp(&x, &s.vault, sizeof x) == 0);
    CHECK(same_due(&d, &s.due));
    CHECK(paviluko_phase(s) == PAVILUKO_IN_SERVICE);
    CHECK(paviluko_records(s) == 77);
    CHECK(paviluko_points(s) == 6);
    for (int i = 0; i < PAVILUKO_METERS; i++) {
        paviluko_entry e = paviluko_reading(s, (uint8_t)i);
        CHECK(same_entry(&e, &s.table.entries[i]));
    }
    plain(&s);

    /* The vault breaks load's rule: thawed, refused, frozen, with every kind of due store and every phase. */
    for (int kind = 0; kind <= PAVILUKO_DUE_RECOVER_EMPTY; kind++) {
        int lane = kind == 4 || kind == 9 || kind == 11;
        int position = kind == 4 || kind == 5;
        int second = kind == 6 || kind == 7;
        for (int phase = PAVILUKO_COLD; phase <= PAVILUKO_IN_SERVICE; phase++) {
            s = fill();
            s.vault.v[0] = s.vault.w[0] + 1;
            s.due.kind = (uint8_t)kind;
            s.due.lane = (uint8_t)(lane ? 5 : 0);
            s.due.position = position ? 1 : 0;
            s.due.second = (uint8_t)second;
            s.phase = (uint8_t)phase;
            all_refused(&s, PAVILUKO_REFUSED_CONDITION);
            plain(&s);
        }
        /* Numbers that no due store has. */
        s = fill();
        s.due.kind = (uint8_t)kind;
        s.due.lane = lane ? 5 : 0;
        s.due.position = position ? 1 : 0;
        s.due.second = second ? 2 : 1;
        all_refused(&s, PAVILUKO_REFUSED_CONDITION);
    }
    s = fill();
    s.due.kind = 13;
    all_refused(&s, PAVILUKO_REFUSED_CONDITION);
    s = fill();
    s.phase = PAVILUKO_IN_SERVICE + 1;
    all_refused(&s, PAVILUKO_REFUSED_CONDITION);
    plain(&s);
}

/* ---- a state of zeros ---- */

static void no_state(const paviluko_state *s)
{
    static const paviluko_state none;
    CHECK(memcmp(s, &none, sizeof none) == 0); /* padding and all */
    CHECK(paviluko_phase(*s) == 0 && paviluko_records(*s) == 0 && paviluko_points(*s) == 0);
    all_refused(s, PAVILUKO_REFUSED_CONDITION);
    plain(s);
}

static void zeros(void)
{
    static paviluko_state s; /* zeros, as C leaves it */
    no_state(&s);
    memset(&s, 0xa5, sizeof s);
    paviluko_clear(&s);
    no_state(&s);
}

/* ---- from the wired bus ---- */

/* Stamp 1000, meter 9, code 3, reading -5. */
static const uint8_t transaction[PAVILUKO_TRANSACTION_MIN] = {0xe8, 3, 0, 0, 0, 0, 0, 0, 9, 0, 3, 0, 0xfb, 0xff, 0xff, 0xff};

/* A frame of this medium with these records; its length. */
static size_t frame_of(uint8_t *frame, uint8_t medium, const uint8_t *records, size_t len)
{
    memset(frame, 0, RECORDS_AT);
    frame[MEDIUM_AT] = medium;
    memcpy(frame + RECORDS_AT, records, len);
    frame_close(frame, FRAME_MIN + len);
    return FRAME_MIN + len;
}

static void bus(void)
{
    /* A heat meter: DIF 0C, VIF 06, -5 kWh; and as much filler as a frame has room for. */
    static const uint8_t minus_five[6] = {0x0c, 0x06, 0x05, 0, 0, 0xf0};
    static uint8_t records[PAVILUKO_FRAME_MAX];
    static uint8_t frame[PAVILUKO_FRAME_MAX + 1];
    uint8_t put[PAVILUKO_TRANSACTION_MIN + 4], was[sizeof put];
    size_t len, room;
    memset(records, 0x2f, sizeof records);
    memcpy(records, minus_five, sizeof minus_five);
    memset(was, 0xa5, sizeof was);

    /* One write is the least transaction, and the room for it is what is asked for. */
    len = frame_of(frame, 0x04, records, sizeof minus_five);
    for (room = 0; room <= sizeof put; room++) {
        memcpy(put, was, sizeof put);
        paviluko_said said = paviluko_from_bus(frame, len, 9, 1000, put, room);
        if (room < PAVILUKO_TRANSACTION_MIN) {
            refused(said, PAVILUKO_REFUSED_LENGTH, PAVILUKO_TRANSACTION_MIN);
            CHECK(memcmp(put, was, sizeof put) == 0);
        } else {
            taken(said, PAVILUKO_STORE_NONE, 0, 0, PAVILUKO_TRANSACTION_MIN);
            CHECK(memcmp(put, transaction, sizeof transaction) == 0);
            CHECK(memcmp(put + sizeof transaction, was, sizeof put - sizeof transaction) == 0);
        }
    }

    /* Every length of a frame, the longest too, is taken; no L goes with a byte more. */
    for (len = sizeof minus_five; FRAME_MIN + len <= PAVILUKO_FRAME_MAX; len++) {
        size_t frame_len = frame_of(frame, 0x04, records, len);
        taken(paviluko_from_bus(frame, frame_len, 9, 1000, put, sizeof put), PAVILUKO_STORE_NONE, 0, 0, PAVILUKO_TRANSACTION_MIN);
        CHECK(memcmp(put, transaction, sizeof transaction) == 0);
    }
    CHECK(frame[1] == 255);
    frame_of(frame, 0x04, records, PAVILUKO_FRAME_MAX + 1 - FRAME_MIN);
    memcpy(put, was, sizeof put);
    for (int l = 0; l < 256; l++) {
        frame[1] = frame[2] = (uint8_t)l;
        refused(paviluko_from_bus(frame, sizeof frame, 9, 1000, put, sizeof put), PAVILUKO_REFUSED_FRAME, 0);
    }

    /* The numbers, lowest first. */
    len = frame_of(frame, 0x04, records, sizeof minus_five);
    refused(paviluko_do_from_bus(frame, len, PAVILUKO_METERS, 1000, put, sizeof put), PAVILUKO_REFUSED_TRANSACTION, 0);
    frame[MEDIUM_AT] = 0x05;
    refused(paviluko_do_from_bus(frame, len, PAVILUKO_METERS - 1, 1000, put, sizeof put), PAVILUKO_REFUSED_FRAME, 0);
    frame_close(frame, len);
    refused(paviluko_do_from_bus(frame, len, PAVILUKO_METERS - 1, 1000, put, sizeof put), PAVILUKO_REFUSED_NO_READING, 0);
    refused(paviluko_do_from_bus(frame, len, PAVILUKO_METERS, 1000, put, 15), PAVILUKO_REFUSED_LENGTH, PAVILUKO_TRANSACTION_MIN);
    CHECK(PAVILUKO_REFUSED_FRAME == 16 && PAVILUKO_REFUSED_NO_READING == 17);

    /* NULL is no frame, and no room, whatever length stands beside it. */
    refused(paviluko_do_from_bus(NULL, len, 9, 1000, put, sizeof put), PAVILUKO_REFUSED_FRAME, 0);
    refused(paviluko_do_from_bus(frame, len, 9, 1000, NULL, sizeof put), PAVILUKO_REFUSED_LENGTH, PAVILUKO_TRANSACTION_MIN);
    refused(paviluko_do_from_bus(NULL, len, 9, 1000, NULL, sizeof put), PAVILUKO_REFUSED_LENGTH, PAVILUKO_TRANSACTION_MIN);
    CHECK(memcmp(put, was, sizeof put) == 0);
}

/* ---- the yearly heat split ---- */

static void heat(void)
{
    static const char first_lines[] = "meter,used,share\n0,4294967295,7813\n1,-4294967295,0\n";
    static uint8_t tables[TABLES_LEN + 1], put[PAVILUKO_HEAT_TEXT_MAX + 1], was[sizeof put];
    uint8_t *const end = tables + PAVILUKO_TABLE_LEN;
    const size_t lines = sizeof example_lines - 1;
    CHECK(PAVILUKO_TABLE_LEN == 6144 && PAVILUKO_TABLE_LEN == sizeof(paviluko_table));
    CHECK(PAVILUKO_TABLE_LEN == PAVILUKO_CHECKPOINT_LEN - PAVILUKO_RECORD_EXTRA);
    CHECK(PAVILUKO_HEAT_TEXT_MAX == 17 + 24 * PAVILUKO_METERS);
    CHECK(PAVILUKO_REFUSED_CODE_CHANGED == 18 && PAVILUKO_REFUSED_NOTHING_USED == 19);
    memset(was, 0xa5, sizeof was);

    /* The request's lines, and the room for them is what is asked for. */
    put_example(tables);
    for (size_t room = 0; room <= lines + 4; room++) {
        memcpy(put, was, sizeof put);
        paviluko_said said = paviluko_heat_split(tables, TABLES_LEN, put, room);
        if (room < lines) {
            refused(said, PAVILUKO_REFUSED_LENGTH, lines);
            CHECK(memcmp(put, was, sizeof put) == 0);
        } else {
            taken(said, PAVILUKO_STORE_NONE, 0, 0, lines);
            CHECK(memcmp(put, example_lines, lines) == 0 && memcmp(put + lines, was, sizeof put - lines) == 0);
        }
    }
    memcpy(put, was, sizeof put);

    /* 4, 18 and 19, the lowest first, whatever the room. */
    for (size_t room = 0; room <= sizeof put; room += sizeof put) {
        put_example(tables);
        refused(paviluko_do_heat_split(tables, TABLES_LEN - 1, put, room), PAVILUKO_REFUSED_TRANSACTION, 0);
        refused(paviluko_do_heat_split(tables, TABLES_LEN + 1, put, room), PAVILUKO_REFUSED_TRANSACTION, 0);
        refused(paviluko_do_heat_split(tables, PAVILUKO_TABLE_LEN, put, room), PAVILUKO_REFUSED_TRANSACTION, 0);
        put_entry(tables, 30, 1, 7);
        put_entry(end, 30, HEAT, 7);
        refused(paviluko_do_heat_split(tables, TABLES_LEN, put, room), PAVILUKO_REFUSED_CODE_CHANGED, 0);
        put_entry(tables, 30, HEAT, 7);
        put_entry(end, 30, 4, 7);
        refused(paviluko_do_heat_split(tables, TABLES_LEN, put, room), PAVILUKO_REFUSED_CODE_CHANGED, 0);
        memcpy(end, tables, PAVILUKO_TABLE_LEN);
        refused(paviluko_do_heat_split(tables, TABLES_LEN, put, room), PAVILUKO_REFUSED_NOTHING_USED, 0);
        put_entry(end, 31, 1, 7);
        put_entry(tables, 31, HEAT, 7);
        refused(paviluko_do_heat_split(tables, TABLES_LEN, put, room), PAVILUKO_REFUSED_CODE_CHANGED, 0);
        end[ENTRY * 255 + ZERO_AT] = 1;
        refused(paviluko_do_heat_split(tables, TABLES_LEN, put, room), PAVILUKO_REFUSED_TRANSACTION, 0);
        memset(tables, 0, TABLES_LEN);
        refused(paviluko_do_heat_split(tables, TABLES_LEN, put, room), PAVILUKO_REFUSED_NOTHING_USED, 0);
    }

    /* Every meter, with uses of ten digits and a sign: no text is longer than the header says. */
    for (int m = 0; m < PAVILUKO_METERS; m++) {
        put_entry(tables, m, HEAT, m % 2 ? INT32_MAX : INT32_MIN);
        put_entry(end, m, HEAT, m % 2 ? INT32_MIN : INT32_MAX);
    }
    paviluko_said said = paviluko_do_heat_split(tables, TABLES_LEN, put, PAVILUKO_HEAT_TEXT_MAX);
    CHECK(said.number == PAVILUKO_TAKEN && said.len < PAVILUKO_HEAT_TEXT_MAX && put[said.len] == 0xa5);
    CHECK(memcmp(put, first_lines, sizeof first_lines - 1) == 0);
    memcpy(put, was, sizeof put);

    /* NULL is no table, and no room, whatever length stands beside it. */
    put_example(tables);
    refused(paviluko_do_heat_split(NULL, TABLES_LEN, put, sizeof put), PAVILUKO_REFUSED_TRANSACTION, 0);
    refused(paviluko_do_heat_split(tables, TABLES_LEN, NULL, sizeof put), PAVILUKO_REFUSED_LENGTH, lines);
    refused(paviluko_do_heat_split(NULL, TABLES_LEN, NULL, sizeof put), PAVILUKO_REFUSED_TRANSACTION, 0);
    CHECK(memcmp(put, was, sizeof put) == 0);
}

/* ---- a session ---- */

static const uint8_t key[PAVILUKO_KEY_LEN] = {1, 2, 3, 4, 5, 6, 7, 8, 9, 10, 11, 12, 13, 14, 15, 16};
static void recover(paviluko_state *s, int calls)
{
    size_t file_len = vault.s == 0 ? 0 : PAVILUKO_CHECKPOINT_LEN;
    int k = 0;
    uint8_t old[sizeof file];
    memcpy(old, file, sizeof old);
    CHECK(paviluko_phase(*s) == PAVILUKO_COLD);
    do {
        paviluko_said said = paviluko_do_recover(s, old, file_len, log_bytes, log_len, out, sizeof out);
        CHECK(said.number == PAVILUKO_TAKEN);
        CHECK(said.len == (said.store == PAVILUKO_STORE_FILE ? PAVILUKO_CHECKPOINT_LEN : 0));
        carry_out(said);
        paviluko_vault x = paviluko_numbers(*s);
        CHECK(memcmp(&x, &vault, sizeof x) == 0);
        k++;
    } while (s->phase == PAVILUKO_RECOVERING);
    CHECK(s->phase == PAVILUKO_IN_SERVICE && k == calls && log_len == 0);
    CHECK(s->journal.count == 0 && s->points.count == 0 && s->due.kind == PAVILUKO_DUE_NOTHING);
}

static void nine(const paviluko_state *s)
{
    paviluko_entry e = paviluko_reading(*s, 9);
    CHECK(e.present == 1 && e.stamp == 1000 && e.number == 1 && e.reading == -5 && e.code == 3 && e.lane == 2);
    e = paviluko_reading(*s, 8);
    CHECK(e.present == 0 && e.stamp == 0 && e.reading == 0);
    plain(s);
}

static void session(void)
{
    static paviluko_state s;
    paviluko_state was;
    paviluko_vault wrong;

    /* Load: 2 and 3 leave the state that there was; its own answer then is one that takes no call. */
    s = was = fill();
    wrong = vault;
    wrong.r[3] = 1;
    refused(paviluko_do_load(&s, &wrong, key, 16), PAVILUKO_REFUSED_NUMBERS, 0);
    refused(paviluko_do_load(&s, &vault, NULL, 0), PAVILUKO_REFUSED_LENGTH, 16);
    refused(paviluko_do_load(&s, &vault, NULL, 16), PAVILUKO_REFUSED_LENGTH, 16);
    CHECK(same_state(&s, &was));
    paviluko_reply blank = paviluko_load(vault, key, 15);
    all_refused(&blank.state, PAVILUKO_REFUSED_CONDITION);

    taken(paviluko_do_load(&s, &vault, key, 16), PAVILUKO_STORE_NONE, 0, 0, 0);
    CHECK(s.phase == PAVILUKO_COLD && memcmp(s.key, key, 16) == 0);
    was = s;
    refused(paviluko_do_recover(&s, NULL, 0, file, PAVILUKO_LOG_MAX + 1, NULL, 0), PAVILUKO_REFUSED_LENGTH, PAVILUKO_LOG_MAX);
    refused(paviluko_do_recover(&s, file, 1, NULL, 0, NULL, 0), PAVILUKO_REFUSED_CLOSED, 0);
    refused(paviluko_do_recover(&s, NULL, 0, file, 60, NULL, 0), PAVILUKO_REFUSED_CLOSED, 0);
    CHECK(same_state(&s, &was));

    /* NULL is no checkpoint, an empty log and no room, whatever lengths stand beside it. */
    taken(paviluko_do_recover(&s, NULL, sizeof file, NULL, PAVILUKO_LOG_MAX + 1, NULL, sizeof out), PAVILUKO_STORE_N, 0, 1, 0);
    was = s;
    refused(paviluko_do_recover(&s, NULL, 0, NULL, 0, NULL, sizeof out), PAVILUKO_REFUSED_LENGTH, PAVILUKO_CHECKPOINT_LEN);
    CHECK(same_state(&s, &was));
    memset(&vault, 0, sizeof vault);
    taken(paviluko_do_load(&s, &vault, key, 16), PAVILUKO_STORE_NONE, 0, 0, 0);
    recover(&s, 15);
    CHECK(vault.s == 2 && vault.n == 2 && vault.e == 0);

    /* A transaction of lane 2 at position 10. */
    was = s;
    refused(paviluko_do_accept(&s, transaction, 15, 2, 10), PAVILUKO_REFUSED_TRANSACTION, 0);
    refused(paviluko_do_accept(&s, NULL, 0, 2, 10), PAVILUKO_REFUSED_TRANSACTION, 0);
    refused(paviluko_do_accept(&s, NULL, 16, 2, 10), PAVILUKO_REFUSED_TRANSACTION, 0);
    refused(paviluko_do_accept(&s, transaction, 16, 8, 10), PAVILUKO_REFUSED_LANE, 0);
    refused(paviluko_do_truncate(&s, 10), PAVILUKO_REFUSED_NO_POINT, 0);
    CHECK(same_state(&s, &was));
    taken(paviluko_do_accept(&s, transaction, 16, 2, 10), PAVILUKO_STORE_W, 2, 1, 0);
    CHECK(s.due.kind == PAVILUKO_DUE_RECORD && paviluko_records(s) == 1);
    CHECK(s.journal.positions[0] == 10 && s.journal.lanes[0] == 2 && s.journal.used == 1 && s.journal.last == 10);
    CHECK(s.held.len == 16 && s.held.lane == 2 && s.held.position == 10 && memcmp(s.held.text, transaction, 16) == 0);
    was = s;
    refused(paviluko_do_accept(&s, transaction, 16, 2, 11), PAVILUKO_REFUSED_CONDITION, 0);
    refused(paviluko_do_seal(&s, out, 55), PAVILUKO_REFUSED_LENGTH, 56);
    refused(paviluko_do_seal(&s, NULL, 0), PAVILUKO_REFUSED_LENGTH, 56);
    refused(paviluko_do_seal(&s, NULL, PAVILUKO_RECORD_MAX), PAVILUKO_REFUSED_LENGTH, 56);
    CHECK(same_state(&s, &was));
    memset(out, 0xaa, sizeof out);
    taken(paviluko_do_seal(&s, out, sizeof out), PAVILUKO_STORE_RECORD, 0, 10, 56);
    CHECK(out[0] == 1 && out[1] == 2 && out[2] == 16 && out[12] == 1 && out[52] == 56 && out[56] == 0xaa);
    was = s;
    refused(paviluko_do_point(&s, 11), PAVILUKO_REFUSED_UNSEEN, 0);
    refused(paviluko_do_accept(&s, transaction, 16, 2, 10), PAVILUKO_REFUSED_POSITION, 0);
    refused(paviluko_do_commit(&s, log_bytes, 55), PAVILUKO_REFUSED_CLOSED, 0);
    refused(paviluko_do_commit(&s, NULL, 0), PAVILUKO_REFUSED_CLOSED, 0);
    refused(paviluko_do_commit(&s, NULL, 56), PAVILUKO_REFUSED_CLOSED, 0);
    CHECK(same_state(&s, &was));
    taken(paviluko_do_commit(&s, log_bytes, log_len), PAVILUKO_STORE_V, 2, 1, 0);
    nine(&s);
    was = s;
    refused(paviluko_do_commit(&s, log_bytes, log_len), PAVILUKO_REFUSED_TURN, 0);
    CHECK(same_state(&s, &was));

    /* A cut, and back: the record comes from the log. Then one more that is sealed and not committed: 24 calls. */
    memset(&s, 0, sizeof s);
    taken(paviluko_do_load(&s, &vault, key, 16), PAVILUKO_STORE_NONE, 0, 0, 0);
    was = s;
    refused(paviluko_do_recover(&s, file, sizeof file, NULL, 0, NULL, 0), PAVILUKO_REFUSED_MISSING, 2);
    refused(paviluko_do_recover(&s, file, sizeof file, NULL, log_len, NULL, 0), PAVILUKO_REFUSED_MISSING, 2);
    refused(paviluko_do_recover(&s, NULL, sizeof file, log_bytes, log_len, NULL, 0), PAVILUKO_REFUSED_CLOSED, 0);
    CHECK(same_state(&s, &was));
    recover(&s, 15);
    nine(&s);
    taken(paviluko_do_accept(&s, transaction, 16, 7, 0), PAVILUKO_STORE_W, 7, 1, 0);
    taken(paviluko_do_load(&s, &vault, key, 16), PAVILUKO_STORE_NONE, 0, 0, 0);
    recover(&s, 24);
    CHECK(vault.e == 1 && vault.v[7] == 1 && vault.r[7] == 1);
    nine(&s);

    /* A point, a checkpoint, and the truncation at the point. */
    taken(paviluko_do_point(&s, 5), PAVILUKO_STORE_NONE, 0, 0, 0);
    CHECK(paviluko_points(s) == 1 && s.points.any == 1 && s.points.newest == 5);
    CHECK(s.points.items[0].position == 5 && s.points.items[0].covered == 0);
    CHECK(s.points.items[0].counts[2] == 1 && s.points.items[0].counts[7] == 1 && s.points.items[0].counts[0] == 0);
    was = s;
    refused(paviluko_do_truncate(&s, 5), PAVILUKO_REFUSED_NO_POINT, 0);
    CHECK(same_state(&s, &was));
    taken(paviluko_do_checkpoint(&s, NULL, 0), PAVILUKO_STORE_N, 0, 7, 0);
    was = s;
    refused(paviluko_do_checkpoint(&s, out, sizeof out - 1), PAVILUKO_REFUSED_LENGTH, PAVILUKO_CHECKPOINT_LEN);
    refused(paviluko_do_checkpoint(&s, NULL, sizeof out), PAVILUKO_REFUSED_LENGTH, PAVILUKO_CHECKPOINT_LEN);
    CHECK(same_state(&s, &was));
    taken(paviluko_do_checkpoint(&s, out, sizeof out), PAVILUKO_STORE_FILE, 0, 0, PAVILUKO_CHECKPOINT_LEN);
    CHECK(out[0] == 2 && out[4] == 7 && out[12] == 7);
    taken(paviluko_do_checkpoint(&s, NULL, 0), PAVILUKO_STORE_S, 0, 7, 0);
    CHECK(s.points.items[0].covered == 1);
    for (int lane = 0; lane < PAVILUKO_LANES; lane++) {
        taken(paviluko_do_truncate(&s, 5), PAVILUKO_STORE_R, lane, lane == 2 || lane == 7, 0);
        CHECK(s.due.position == 5 && s.due.lane == (lane + 1) % 8);
    }
    was = s;
    refused(paviluko_do_truncate(&s, 6), PAVILUKO_REFUSED_CONDITION, 0);
    CHECK(same_state(&s, &was));
    taken(paviluko_do_truncate(&s, 5), PAVILUKO_STORE_DELETE, 0, 5, 0);
    CHECK(paviluko_points(s) == 0 && s.due.kind == PAVILUKO_DUE_NOTHING);
    nine(&s);

    /* A state with a key, a table and a vault, wiped. */
    paviluko_clear(&s);
    no_state(&s);
}

int main(void)
{
    CHECK(paviluko_edition() == PAVILUKO_EDITION);
    structs();
    zeros();
    bus();
    heat();
    session();
    printf("boundary: %ld checks passed; state %zu bytes, reply %zu\n", checks, sizeof(paviluko_state),
           sizeof(paviluko_reply));
    return 0;
}
