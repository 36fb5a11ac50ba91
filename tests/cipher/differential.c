/* The cipher against OpenSSL's libcrypto on random cases.  A case seals a
   text, opens it again, opens it once more with one thing damaged, and asks
   for every other answer; each time the answer must be right, and every byte
   that the cipher has no call to write must be as before: within the lent
   buffer, around it, and in the inputs.

   Usage: differential [COUNT [SEED]] */

#include "cipher.h"
#include "openssl.h"

#include <inttypes.h>
#include <string.h>
#include <sys/mman.h>

enum {
    KEY = 16, NONCE = 12, TAG = 16,
    MOST_TEXT = 6200, MOST_AAD = 64, MOST_ROOM = 48,
    MARGIN = 32,                                    /* not lent, on either side */
    MOST_LENT = MOST_TEXT + 2 * TAG + MOST_ROOM,
    RECORD_AAD = 20, RECORD_TEXT = 136,
    RECORD = NONCE + RECORD_AAD + RECORD_TEXT + TAG,
    MOST_RECORDS = 32
};

/* The longest text that SP 800-38D allows. */
static const uint64_t limit = ((uint64_t)1 << 36) - 32;

/* What is being tried, for the report of a disagreement. */
static struct {
    uint64_t seed, index;
    size_t text, aad;
    const char *kind;
} trying;

static void expect(int holds, const char *what)
{
    if (holds)
        return;
    fprintf(stderr, "differential: %s (seed %" PRIu64 ", case %" PRIu64
            ", text %zu, AAD %zu, kind: %s)\n",
            what, trying.seed, trying.index, trying.text, trying.aad, trying.kind);
    exit(1);
}

static void expect_answer(uint64_t answer, uint64_t right)
{
    char what[80];
    snprintf(what, sizeof what, "answer %" PRIu64 " instead of %" PRIu64, answer, right);
    expect(answer == right, what);
}

/* ---- random numbers: splitmix64 ---- */

static uint64_t state;

static uint64_t next(void)
{
    uint64_t z = state += 0x9e3779b97f4a7c15;
    z = (z ^ z >> 30) * 0xbf58476d1ce4e5b9;
    z = (z ^ z >> 27) * 0x94d049bb133111eb;
    return z ^ z >> 31;
}

static size_t below(size_t n)
{
    return (size_t)(next() % n);
}

static void fill(uint8_t *to, size_t n)
{
    for (size_t i = 0; i < n; i++)
        to[i] = (uint8_t)next();
}

/* A length below most that is not the right one. */
static size_t other_length(size_t right, size_t most)
{
    size_t n = below(most - 1);
    return n < right ? n : n + 1;
}

/* ---- slices that notice a write ---- */

/* Lent bytes at a random alignment among bytes that are not lent. */
struct slice {
    uint8_t memory[MOST_LENT + 3 * MARGIN], before[MOST_LENT + 3 * MARGIN];
    uint8_t *at;
    size_t len;
};

static size_t span(const struct slice *s)
{
    return (size_t)(s->at - s->memory) + s->len + MARGIN;
}

static void lend(struct slice *s, size_t len)
{
    s->at = s->memory + MARGIN + below(MARGIN);
    s->len = len;
    fill(s->memory, span(s));
    memcpy(s->before, s->memory, span(s));
}

static void lend_copy(struct slice *s, const uint8_t *from, size_t n, size_t room)
{
    lend(s, n + room);
    memcpy(s->at, from, n);
    memcpy(s->before, s->memory, span(s));
}

/* Whether all but the first n lent bytes are as before. */
static int kept(const struct slice *s, size_t n)
{
    size_t start = (size_t)(s->at - s->memory);
    return memcmp(s->memory, s->before, start) == 0
        && memcmp(s->at + n, s->before + start + n, span(s) - start - n) == 0;
}

/* ---- a case ---- */

static uint8_t key[KEY], nonce[NONCE], aad[MOST_AAD + 1];
static uint8_t text[MOST_TEXT], sealed[MOST_TEXT + TAG + 1];
static size_t aad_len, text_len;

/* What the cipher is given. */
static struct slice key_in, nonce_in, aad_in, sealed_in, lent;

static void give(void)
{
    lend_copy(&key_in, key, KEY, 0);
    lend_copy(&nonce_in, nonce, NONCE, 0);
    lend_copy(&aad_in, aad, aad_len, 0);
}

static void expect_inputs_kept(void)
{
    expect(kept(&key_in, 0) && kept(&nonce_in, 0) && kept(&aad_in, 0), "an input was written to");
}

/* Seals the first n lent bytes, with what must be the answer; all but the
   first written lent bytes must be as before. */
static void try_seal(const char *kind, size_t n, uint64_t right, size_t written)
{
    trying.kind = kind;
    uint64_t answer = seal_once(key_in.at, key_in.len, nonce_in.at, nonce_in.len,
                                  aad_in.at, aad_in.len, lent.at, lent.len, n);
    expect_answer(answer, right);
    expect(kept(&lent, written), "bytes changed that should not");
    expect_inputs_kept();
}

/* The same for opening sealed_in. */
static void try_open(const char *kind, uint64_t right, size_t written)
{
    trying.kind = kind;
    uint64_t answer = open_once(key_in.at, key_in.len, nonce_in.at, nonce_in.len,
                                  aad_in.at, aad_in.len, sealed_in.at, sealed_in.len,
                                  lent.at, lent.len);
    expect_answer(answer, right);
    expect(kept(&lent, written), "bytes changed that should not");
    expect(kept(&sealed_in, 0), "the sealed bytes were written to");
    expect_inputs_kept();
}

static size_t text_length(void)
{
    switch (below(8)) {
    case 0: return below(17);
    case 1: return below(200);
    case 2: return 16 * below(MOST_TEXT / 16 + 1);
    case 3: return 16 * below(MOST_TEXT / 16) + 1;
    case 4: return 16 * (1 + below(MOST_TEXT / 16)) - 1;
    case 5: return 136;
    case 6: return below(8) ? below(MOST_TEXT + 1) : 6144;
    default: return below(1024);
    }
}

static void make_case(void)
{
    text_len = trying.text = text_length();
    aad_len = trying.aad = below(4) ? below(MOST_AAD + 1) : 20;
    fill(key, KEY);
    fill(nonce, NONCE);
    fill(aad, aad_len);
    fill(text, text_len);
    openssl_seal(key, nonce, aad, aad_len, text, text_len, sealed);
    give();
    lend_copy(&sealed_in, sealed, text_len + TAG, 0);
}

static void test_seal(void)
{
    lend_copy(&lent, text, text_len, TAG + below(MOST_ROOM + 1));
    try_seal("seal", text_len, CIPHER_DONE, text_len + TAG);
    expect(memcmp(lent.at, sealed, text_len) == 0, "another ciphertext than OpenSSL's");
    expect(memcmp(lent.at + text_len, sealed + text_len, TAG) == 0, "another tag than OpenSSL's");
}

static void test_open(void)
{
    lend(&lent, text_len + below(MOST_ROOM + 1));
    try_open("open", CIPHER_DONE, text_len);
    expect(memcmp(lent.at, text, text_len) == 0, "another text than the sealed one");
}

/* ---- damage ---- */

static void flip(uint8_t *bytes, size_t n)
{
    bytes[below(n)] ^= (uint8_t)(1 << below(8));
}

/* Damages one thing of the case, by turns; the kind of damage. */
static const char *damage(size_t *sealed_len)
{
    switch (trying.index % 7) {
    case 0:
        flip(sealed + text_len, TAG);
        return "tag flipped";
    case 1:
        flip(sealed, text_len ? text_len : TAG);
        return "ciphertext flipped";
    case 2:
        if (aad_len)
            flip(aad, aad_len);
        else
            aad[aad_len++] = (uint8_t)next();
        return "AAD flipped, or begun";
    case 3:
        flip(nonce, NONCE);
        return "nonce flipped";
    case 4:
        flip(key, KEY);
        return "key flipped";
    case 5:
        *sealed_len = below(2) ? *sealed_len - 1 : below(*sealed_len);
        return "truncated";
    default:
        sealed[(*sealed_len)++] = (uint8_t)next();
        return "extended";
    }
}

static void test_damaged(void)
{
    static uint8_t opened[MOST_TEXT + TAG + 1];
    size_t sealed_len = text_len + TAG;
    const char *kind = damage(&sealed_len);
    int fits = openssl_open(key, nonce, aad, aad_len, sealed, sealed_len, opened);
    trying.kind = kind;
    expect(!fits, "OpenSSL opens it too: it is not damaged");
    give();
    lend_copy(&sealed_in, sealed, sealed_len, 0);
    lend(&lent, text_len + 1 + below(MOST_ROOM + 1));
    try_open(kind, CIPHER_FAIL, 0);
}

/* ---- the other answers; the case is whole ---- */

static void test_short(void)
{
    lend_copy(&lent, text, text_len, TAG - 1);
    try_seal("seal, a byte short", text_len, CIPHER_SHORT, 0);
    lend(&lent, below(text_len + TAG));
    try_seal("seal, short", text_len, CIPHER_SHORT, 0);
    lend(&lent, below(TAG));
    try_seal("seal, shorter than a tag", text_len, CIPHER_SHORT, 0);
    if (text_len == 0)
        return;
    lend(&lent, text_len - 1);
    try_open("open, a byte short", CIPHER_SHORT, 0);
    lend(&lent, below(text_len));
    try_open("open, short", CIPHER_SHORT, 0);
}

/* Lengths that would wrap around when the tag's is added are among them. */
static void test_beyond(void)
{
    lend(&lent, below(MOST_ROOM + 1));
    try_seal("seal, a byte beyond", limit + 1, CIPHER_BEYOND, 0);
    try_seal("seal, beyond", limit + 1 + next() % (UINT64_MAX - limit), CIPHER_BEYOND, 0);
    try_seal("seal, far beyond", SIZE_MAX - below(TAG + 1), CIPHER_BEYOND, 0);
    try_seal("seal, the limit itself, short", limit, CIPHER_SHORT, 0);
}

/* With key_in or nonce_in of a wrong length. */
static void try_bad(const char *kind)
{
    lend_copy(&lent, text, text_len, TAG);
    try_seal(kind, text_len, CIPHER_BAD_KEY, 0);
    try_seal(kind, limit + 1, CIPHER_BAD_KEY, 0);
    try_open(kind, CIPHER_BAD_KEY, 0);
    lend(&lent, below(text_len + 1));
    try_seal(kind, text_len, CIPHER_BAD_KEY, 0);
    try_open(kind, CIPHER_BAD_KEY, 0);
    sealed_in.len = below(TAG);
    try_open(kind, CIPHER_BAD_KEY, 0);
    sealed_in.len = text_len + TAG;
}

static void test_bad_lengths(void)
{
    give();
    lend(&key_in, other_length(KEY, 40));
    try_bad("wrong key length");
    give();
    lend(&nonce_in, other_length(NONCE, 20));
    try_bad("wrong nonce length");
    lend(&key_in, other_length(KEY, 40));
    try_bad("wrong key and nonce lengths");
    give();
}

/* Fewer than 16 sealed bytes come before a short buffer, which comes before a
   tag that does not fit. */
static void test_precedence(void)
{
    lend(&lent, 0);
    sealed_in.len = below(TAG);
    try_open("fewer than 16 sealed bytes, nothing lent", CIPHER_FAIL, 0);
    if (text_len == 0)
        return;
    lend(&sealed_in, text_len + TAG);
    lend(&lent, below(text_len));
    try_open("no tag fits, short", CIPHER_SHORT, 0);
}

static void test_case(void)
{
    make_case();
    test_seal();
    test_open();
    test_short();
    test_beyond();
    test_bad_lengths();
    test_precedence();
    test_damaged();
}

/* ---- opening records in a row ---- */

static void make_record(uint8_t *r, uint8_t *its_text)
{
    fill(r, NONCE + RECORD_AAD);
    fill(its_text, RECORD_TEXT);
    openssl_seal(key, r, r + NONCE, RECORD_AAD, its_text, RECORD_TEXT, r + NONCE + RECORD_AAD);
}

/* Some records are damaged; out must hold the text of the last whole one. */
static void test_records(void)
{
    static uint8_t records[MOST_RECORDS * RECORD];
    uint8_t its_text[RECORD_TEXT], last[RECORD_TEXT];
    size_t count = below(MOST_RECORDS + 1), whole = 0, damaged_in_4 = below(5);
    for (size_t i = 0; i < count; i++) {
        make_record(records + i * RECORD, its_text);
        if (below(4) < damaged_in_4) {
            flip(records + i * RECORD, RECORD);
        } else {
            memcpy(last, its_text, RECORD_TEXT);
            whole++;
        }
    }
    lend_copy(&sealed_in, records, count * RECORD, 0);
    lend(&lent, RECORD_TEXT + below(MOST_ROOM + 1));
    trying.kind = "records in a row";
    trying.text = count * RECORD_TEXT;
    trying.aad = RECORD_AAD;
    struct cipher_key k;
    expect_answer(cipher_prepare(key_in.at, KEY, k.schedule, k.multiples), CIPHER_DONE);
    uint64_t opened = open_each(&k, sealed_in.at, sealed_in.len, lent.at, lent.len);
    expect_answer(opened, whole);
    expect(kept(&lent, whole ? RECORD_TEXT : 0), "bytes changed that should not");
    expect(!whole || memcmp(lent.at, last, RECORD_TEXT) == 0, "another text than the last whole record's");
    expect(kept(&sealed_in, 0) && kept(&key_in, 0), "an input was written to");
}

/* ---- opening beyond the limit: one case, with 64 GiB of addresses that no
   memory stands behind ---- */

static void test_open_beyond(void)
{
    size_t most = limit + TAG + 1;
    uint8_t *sealed_at = mmap(NULL, most, PROT_READ, MAP_PRIVATE | MAP_ANONYMOUS | MAP_NORESERVE, -1, 0);
    trying.kind = "open, beyond";
    expect(sealed_at != MAP_FAILED, "no 64 GiB of addresses");
    lend(&lent, MOST_ROOM);
    expect_answer(open_once(key, KEY, nonce, NONCE, aad, 0, sealed_at, most, lent.at, lent.len),
                  CIPHER_BEYOND);
    expect_answer(open_once(key, KEY, nonce, NONCE, aad, 0, sealed_at, most - 1, lent.at, lent.len),
                  CIPHER_SHORT);
    expect_answer(open_once(key, KEY - 1, nonce, NONCE, aad, 0, sealed_at, most, lent.at, lent.len),
                  CIPHER_BAD_KEY);
    expect(kept(&lent, 0), "bytes changed that should not");
    munmap(sealed_at, most);
}

int main(int argc, char **argv)
{
    uint64_t count = argc > 1 ? strtoull(argv[1], NULL, 0) : 20000;
    trying.seed = state = argc > 2 ? strtoull(argv[2], NULL, 0) : 0x5ea1ed;
    if (count == 0) {
        fputs("usage: differential [COUNT [SEED]]\n", stderr);
        return 1;
    }
    test_open_beyond();
    for (; trying.index < count; trying.index++) {
        test_case();
        if (trying.index % 16 == 0) {
            give();
            test_records();
        }
    }
    printf("differential: %" PRIu64 " cases agree with OpenSSL %s\n",
           count, OpenSSL_version(OPENSSL_VERSION_STRING));
    return 0;
}
