/* What the paviluko_do_ functions of the header pass on. The functions that they call are made here, and the library is not
 * linked: each notes what it is handed. A NULL buffer arrives as an address and length 0, whatever length stood beside it;
 * everything else arrives as it was given; the next state is written back, but for a load that is turned down, where there is a
 * next one; and what was said is returned. */
#include <string.h>

#include "check.h"
#include "paviluko.h"

/* ---- the library's place ---- */

typedef struct {
    const char *name;
    const uint8_t *buffers[3];
    size_t lens[3];
    int count;
    uint8_t lane;
    uint16_t meter;
    uint64_t position;
    uint64_t stamp;
    uint64_t from; /* a number of the state or vault that was handed over */
} handed_over;

static handed_over got;
static uint8_t answer; /* the number that the next call says */

/* Notes a call, and answers with a state of its own. */
static paviluko_reply note(const char *name, uint64_t from)
{
    paviluko_reply r;
    memset(&got, 0, sizeof got);
    got.name = name;
    got.from = from;
    memset(&r, 0, sizeof r);
    r.state.vault.e = 7000 + from;
    r.said.value = 11;
    r.said.len = 12;
    r.said.number = answer;
    r.said.store = 13;
    r.said.lane = 14;
    return r;
}

static void note_buffer(const uint8_t *bytes, size_t len)
{
    got.buffers[got.count] = bytes;
    got.lens[got.count++] = len;
}

paviluko_reply paviluko_load(paviluko_vault x, const uint8_t *key, size_t key_len)
{
    paviluko_reply r = note("load", x.e);
    note_buffer(key, key_len);
    return r;
}

paviluko_reply paviluko_accept(paviluko_state s, const uint8_t *transaction, size_t len, uint8_t lane, uint64_t position)
{
    paviluko_reply r = note("accept", s.vault.e);
    note_buffer(transaction, len);
    got.lane = lane;
    got.position = position;
    return r;
}

paviluko_reply paviluko_seal(paviluko_state s, uint8_t *out, size_t room)
{
    paviluko_reply r = note("seal", s.vault.e);
    note_buffer(out, room);
    return r;
}

paviluko_reply paviluko_commit(paviluko_state s, const uint8_t *record, size_t len)
{
    paviluko_reply r = note("commit", s.vault.e);
    note_buffer(record, len);
    return r;
}

paviluko_reply paviluko_point(paviluko_state s, uint64_t position)
{
    paviluko_reply r = note("point", s.vault.e);
    got.position = position;
    return r;
}

paviluko_reply paviluko_checkpoint(paviluko_state s, uint8_t *out, size_t room)
{
    paviluko_reply r = note("checkpoint", s.vault.e);
    note_buffer(out, room);
    return r;
}

paviluko_reply paviluko_truncate(paviluko_state s, uint64_t position)
{
    paviluko_reply r = note("truncate", s.vault.e);
    got.position = position;
    return r;
}

paviluko_reply paviluko_recover(paviluko_state s, const uint8_t *checkpoint, size_t checkpoint_len, const uint8_t *log,
                                size_t log_len, uint8_t *out, size_t room)
{
    paviluko_reply r = note("recover", s.vault.e);
    note_buffer(checkpoint, checkpoint_len);
    note_buffer(log, log_len);
    note_buffer(out, room);
    return r;
}

paviluko_said paviluko_from_bus(const uint8_t *frame, size_t len, uint16_t meter, uint64_t stamp, uint8_t *out, size_t room)
{
    paviluko_said said = note("from_bus", 5).said;
    note_buffer(frame, len);
    note_buffer(out, room);
    got.meter = meter;
    got.stamp = stamp;
    return said;
}

paviluko_said paviluko_plain_table(paviluko_state s, uint8_t *out, size_t room)
{
    paviluko_said said = note("plain_table", s.vault.e).said;
    note_buffer(out, room);
    return said;
}

paviluko_said paviluko_heat_split(const uint8_t *tables, size_t len, uint8_t *out, size_t room)
{
    paviluko_said said = note("heat_split", 5).said;
    note_buffer(tables, len);
    note_buffer(out, room);
    return said;
}

/* ---- the checks ---- */

static paviluko_state s;

static void look(const char *name, paviluko_said said, int buffers, uint8_t lane, uint64_t position)
{
    int bus = strcmp(name, "from_bus") == 0;
    int kept = bus || strcmp(name, "plain_table") == 0 || strcmp(name, "heat_split") == 0 ||
               (strcmp(name, "load") == 0 && answer != PAVILUKO_TAKEN);
    CHECK(strcmp(got.name, name) == 0 && got.from == 5 && got.count == buffers);
    CHECK(got.lane == lane && got.position == position);
    CHECK(got.meter == (bus ? 65535 : 0) && got.stamp == (bus ? UINT64_MAX : 0));
    CHECK(said.value == 11 && said.len == 12 && said.number == answer && said.store == 13 && said.lane == 14);
    CHECK(s.vault.e == (kept ? 5 : 7005));
    s.vault.e = 5;
}

static void arrived(int i, const uint8_t *bytes, size_t len)
{
    CHECK(got.buffers[i] != NULL);
    CHECK(got.lens[i] == (bytes ? len : 0));
    CHECK(!bytes || got.buffers[i] == bytes);
}

static void calls(uint8_t *a, uint8_t *b, uint8_t *c, size_t len)
{
    paviluko_vault x;
    memset(&x, 0, sizeof x);
    x.e = 5;
    look("load", paviluko_do_load(&s, &x, a, len), 1, 0, 0);
    arrived(0, a, len);
    look("accept", paviluko_do_accept(&s, a, len, 6, 99), 1, 6, 99);
    arrived(0, a, len);
    look("seal", paviluko_do_seal(&s, a, len), 1, 0, 0);
    arrived(0, a, len);
    look("commit", paviluko_do_commit(&s, a, len), 1, 0, 0);
    arrived(0, a, len);
    look("point", paviluko_do_point(&s, 98), 0, 0, 98);
    look("checkpoint", paviluko_do_checkpoint(&s, a, len), 1, 0, 0);
    arrived(0, a, len);
    look("truncate", paviluko_do_truncate(&s, 97), 0, 0, 97);
    look("recover", paviluko_do_recover(&s, a, len, b, len + 1, c, len + 2), 3, 0, 0);
    arrived(0, a, len);
    arrived(1, b, len + 1);
    arrived(2, c, len + 2);
    look("from_bus", paviluko_do_from_bus(a, len, 65535, UINT64_MAX, b, len + 1), 2, 0, 0);
    arrived(0, a, len);
    arrived(1, b, len + 1);
    look("plain_table", paviluko_do_plain_table(&s, a, len), 1, 0, 0);
    arrived(0, a, len);
    look("heat_split", paviluko_do_heat_split(a, len, b, len + 1), 2, 0, 0);
    arrived(0, a, len);
    arrived(1, b, len + 1);
}

int main(void)
{
    static const size_t lens[] = {0, 1, 16, 56, PAVILUKO_CHECKPOINT_LEN, PAVILUKO_LOG_MAX + 1, SIZE_MAX - 2};
    static uint8_t bytes[3];
    s.vault.e = 5;
    for (answer = PAVILUKO_TAKEN; answer <= PAVILUKO_REFUSED_NOTHING_USED; answer++) {
        for (size_t i = 0; i < sizeof lens / sizeof lens[0]; i++) {
            for (int which = 0; which < 8; which++) {
                calls(which & 1 ? NULL : &bytes[0], which & 2 ? NULL : &bytes[1], which & 4 ? NULL : &bytes[2], lens[i]);
            }
        }
    }
    printf("passed on: %ld checks of what the paviluko_do_ functions hand over and write back\n", checks);
    return 0;
}
