/* Sealing in the lent buffer (02, CR 3): records of 1 to 16 writes by Seal, and the files of Checkpoint and of Recover.
 *
 * Each is put out into buffers of every length from none to some bytes more than it needs (a file into some of them), on the
 * heap, so that valgrind sees every byte read or written beside them, and into one at each of 16 addresses in a row.
 * A call that is turned down has left every byte as it was lent. One that is taken puts the same bytes out wherever it is
 * lent, leaves every byte behind them, and nothing of its text in plain. */
#include "check.h"
#include "rooms.h"
#include "table.h"

enum { HEAD = 20, PIECE = 8, MORE = 70, PLACES = 16 };

static const uint8_t key[PAVILUKO_KEY_LEN] = {3, 1, 4, 1, 5, 9, 2, 6};
static paviluko_state s;
static uint8_t wanted[PAVILUKO_CHECKPOINT_LEN];

/* A call that seals what the state `s` is about to put out. */
typedef paviluko_reply sealing(uint8_t *out, size_t room);

static paviluko_reply seal(uint8_t *out, size_t room)
{
    return paviluko_seal(s, out, room);
}

static paviluko_reply checkpoint(uint8_t *out, size_t room)
{
    return paviluko_checkpoint(s, out, room);
}

static paviluko_reply recover(uint8_t *out, size_t room)
{
    static const uint8_t none;
    return paviluko_recover(s, &none, 0, &none, 0, out, room);
}

/* What byte i of a buffer holds when it is lent. */
static uint8_t lent(size_t i)
{
    return (uint8_t)(0x5a + 7 * i + i / 256);
}

/* Whether all bytes from one on are as they were lent. */
static int as_lent(const uint8_t *out, size_t from, size_t room)
{
    while (from < room && out[from] == lent(from)) {
        from++;
    }
    return from >= room;
}

/* Whether 8 bytes of a text in a row stand somewhere among so many bytes. Those that are the same byte 8 times over are not
 * looked for: an entry without a reading is zeros. */
static int in_plain(const uint8_t *text, const uint8_t *out, size_t len)
{
    for (size_t at = 0; at + PIECE <= len; at++) {
        if (memcmp(text + at, text + at + 1, PIECE - 1) == 0) {
            continue;
        }
        for (size_t i = 0; i + PIECE <= len; i++) {
            if (text[at] == out[i] && memcmp(text + at, out + i, PIECE) == 0) {
                return 1;
            }
        }
    }
    return 0;
}

/* Lends so much room at a place, and looks at what the call left there. */
static void put_out(sealing *call, uint8_t *out, size_t room, size_t need)
{
    for (size_t i = 0; i < room; i++) {
        out[i] = lent(i);
    }
    paviluko_said said = call(out, room).said;
    if (room < need) {
        CHECK(said.number == PAVILUKO_REFUSED_LENGTH && said.value == need && said.len == 0);
        CHECK(as_lent(out, 0, room));
    } else {
        CHECK(said.number == PAVILUKO_TAKEN && said.len == need);
        CHECK(memcmp(out, wanted, need) == 0);
        CHECK(as_lent(out, need, room));
    }
}

/* What the state is about to put out, of so many bytes with this text, in every such buffer; `step` bytes lie between two
 * lengths that are not near one that matters. */
static void everywhere(sealing *call, const uint8_t *text, size_t len, size_t step)
{
    static uint8_t places[PAVILUKO_CHECKPOINT_LEN + PLACES];
    size_t need = len + PAVILUKO_RECORD_EXTRA;
    CHECK(call(wanted, need).said.number == PAVILUKO_TAKEN);
    CHECK(in_plain(text, text, len) && !in_plain(text, wanted + HEAD, len));
    for (size_t room = 0; room <= need + MORE; room = next_room(room, need, step)) {
        uint8_t *out = malloc(room ? room : 1);
        CHECK(out != NULL);
        put_out(call, out, room, need);
        free(out);
    }
    for (size_t place = 0; place < PLACES; place++) {
        put_out(call, places + place, need + 1, need);
    }
}

int main(void)
{
    static uint8_t file[PAVILUKO_CHECKPOINT_LEN], log[16 * PAVILUKO_RECORD_MAX], table[PAVILUKO_TABLE_LEN];
    size_t log_len = 0;
    paviluko_vault x;
    memset(&x, 0, sizeof x);
    CHECK(paviluko_do_load(&s, &x, key, sizeof key).number == PAVILUKO_TAKEN);
    while (s.phase != PAVILUKO_IN_SERVICE) {
        CHECK(paviluko_do_recover(&s, NULL, 0, NULL, 0, file, sizeof file).number == PAVILUKO_TAKEN);
    }

    /* Records. */
    for (size_t writes = 1; writes <= 16; writes++) {
        uint8_t text[PAVILUKO_TRANSACTION_MAX] = {(uint8_t)writes, 2, 3, 5, 7, 11, 13, 17};
        size_t len = 8 + 8 * writes;
        for (size_t i = 0; i < writes; i++) {
            const uint8_t meter = (uint8_t)(16 * i + writes - 1), code = (uint8_t)(1 + i % 4);
            const uint8_t write[8] = {meter, 0, code, 0, (uint8_t)(3 * i), 29, (uint8_t)writes, 31};
            memcpy(text + 8 + 8 * i, write, sizeof write);
        }
        CHECK(paviluko_do_accept(&s, text, len, (uint8_t)(writes % 8), writes).number == PAVILUKO_TAKEN);
        everywhere(seal, text, len, 1);
        CHECK(paviluko_do_seal(&s, log + log_len, sizeof log - log_len).number == PAVILUKO_TAKEN);
        CHECK(paviluko_do_commit(&s, log + log_len, len + PAVILUKO_RECORD_EXTRA).number == PAVILUKO_TAKEN);
        log_len += len + PAVILUKO_RECORD_EXTRA;
    }

    /* Checkpoint's file. */
    CHECK(paviluko_do_checkpoint(&s, NULL, 0).number == PAVILUKO_TAKEN);
    table_text(&s, table);
    everywhere(checkpoint, table, sizeof table, 499);
    CHECK(paviluko_do_checkpoint(&s, file, sizeof file).number == PAVILUKO_TAKEN);
    CHECK(paviluko_do_checkpoint(&s, NULL, 0).number == PAVILUKO_TAKEN);

    /* Recover's two files. */
    x = s.vault;
    CHECK(paviluko_do_load(&s, &x, key, sizeof key).number == PAVILUKO_TAKEN);
    CHECK(paviluko_do_recover(&s, file, sizeof file, log, log_len, NULL, 0).number == PAVILUKO_TAKEN);
    for (int i = 0; i < 2; i++) {
        everywhere(recover, table, sizeof table, 499);
        CHECK(paviluko_do_recover(&s, NULL, 0, NULL, 0, file, sizeof file).store == PAVILUKO_STORE_FILE);
        CHECK(paviluko_do_recover(&s, NULL, 0, NULL, 0, NULL, 0).store == PAVILUKO_STORE_S);
        CHECK(paviluko_do_recover(&s, NULL, 0, NULL, 0, NULL, 0).number == PAVILUKO_TAKEN);
    }
    printf("in place: 16 records and 3 files, the same bytes in every buffer, those behind as lent, %ld checks\n", checks);
    return 0;
}
