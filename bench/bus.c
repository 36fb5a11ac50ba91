/* Benchmark of paviluko_from_bus, through include/paviluko.h: frames of several
   lengths, whose wanted record comes last, so that all of a frame is read.

   Debian has no reader of M-Bus frames to put beside it.  So beside each frame
   stand the bare cipher, sealing as many bytes, and a loop that only adds them:
   the sum alone takes that.  The three take turns over several rounds, and a
   time is the least of its rounds. */

#define _POSIX_C_SOURCE 199309L

#include "cipher.h"
#include "ways.h"

#include <stdio.h>
#include <string.h>

enum { TAG = 16, WAYS = 3, ROUNDS = 25 };

static struct cipher_key key;

/* ---- the frames ---- */

static struct row {
    const char *name;
    uint8_t frame[PAVILUKO_FRAME_MAX];
    size_t len;
    double best[WAYS];
} rows[] = {
    { .name = "the wanted record alone" },
    { .name = "9 records before it" },
    { .name = "39 records before it" },
    { .name = "234 bytes of filler before it" },
};

enum { ROWS = sizeof rows / sizeof rows[0] };

/* Heat: C, address, CI and the header; 12,345,678 kWh; what a meter sends before that. */
static const uint8_t head[] = { 0x08, 0x05, 0x72, 0x78, 0x56, 0x34, 0x12, 0x24, 0x40, 0x01, 0x04, 0x55, 0x00, 0x00, 0x00 };
static const uint8_t wanted[] = { 0x0c, 0x06, 0x78, 0x56, 0x34, 0x12 };
static const uint8_t nine[] = {
    0x0c, 0x78, 0x78, 0x56, 0x34, 0x12,             /* fabrication number */
    0x04, 0x6d, 0x12, 0x0b, 0xd3, 0x12,             /* date and time */
    0x0c, 0x14, 0x13, 0x20, 0x00, 0x00,             /* volume */
    0x0b, 0x3b, 0x50, 0x13, 0x00,                   /* flow */
    0x0a, 0x5a, 0x88, 0x12,                         /* flow temperature */
    0x0a, 0x5e, 0x16, 0x05,                         /* return temperature */
    0x02, 0xfd, 0x17, 0x00, 0x00,                   /* error flags */
    0x8c, 0x10, 0x06, 0x01, 0x00, 0x00, 0x00,       /* energy of tariff 1 */
    0x0c, 0x86, 0x3c, 0x02, 0x00, 0x00, 0x00,       /* energy backwards */
};
static const uint8_t plain[] = { 0x04, 0x6d, 0x12, 0x0b, 0xd3, 0x12 };

static void put(struct row *r, const uint8_t *bytes, size_t n)
{
    check(r->len + n <= sizeof r->frame, "making a frame");
    memcpy(r->frame + r->len, bytes, n);
    r->len += n;
}

static void make_frames(void)
{
    for (int i = 0; i < ROWS; i++) {
        struct row *r = &rows[i];
        static const uint8_t start[4], filler = 0x2f;
        put(r, start, sizeof start);
        put(r, head, sizeof head);
        if (i == 1)
            put(r, nine, sizeof nine);
        for (int k = 0; i == 2 && k < 39; k++)
            put(r, plain, sizeof plain);
        for (int k = 0; i == 3 && k < 234; k++)
            put(r, &filler, 1);
        put(r, wanted, sizeof wanted);
        uint8_t l = (uint8_t)(r->len - 4), sum = 0;
        for (size_t k = 4; k < r->len; k++)
            sum = (uint8_t)(sum + r->frame[k]);
        memcpy(r->frame, (const uint8_t[]){ 0x68, l, l, 0x68 }, 4);
        put(r, (const uint8_t[]){ sum, 0x16 }, 2);
    }
}

/* ---- the ways ---- */

static int read_frame(const struct row *r)
{
    uint8_t out[PAVILUKO_TRANSACTION_MIN];
    uint32_t reading;
    paviluko_said said = paviluko_do_from_bus(r->frame, r->len, 7, 1750000000, out, sizeof out);
    memcpy(&reading, out + 12, 4);
    return said.number == PAVILUKO_TAKEN && out[10] == 3 && reading == 12345678;
}

static int seal_bytes(const struct row *r)
{
    static const uint8_t nonce[12] = { 1 };
    static uint8_t body[PAVILUKO_FRAME_MAX + TAG];
    return cipher_seal(key.schedule, key.multiples, nonce, sizeof nonce, r->frame, 0, body, r->len + TAG, r->len) ==
           CIPHER_DONE;
}

__attribute__((noinline)) static uint8_t added(const uint8_t *bytes, size_t n)
{
    uint8_t sum = 0;
    for (size_t i = 0; i < n; i++)
        sum = (uint8_t)(sum + bytes[i]);
    return sum;
}

/* The whole frame: the L bytes' sum twice, 68 twice, L twice, 16. */
static int add_bytes(const struct row *r)
{
    uint8_t sum = r->frame[r->len - 2];
    return added(r->frame, r->len) == (uint8_t)(2 * (sum + 0x68 + r->frame[1]) + 0x16);
}

static int (*const ways[WAYS])(const struct row *) = { read_frame, seal_bytes, add_bytes };

int main(void)
{
    static const uint8_t bytes[PAVILUKO_KEY_LEN] = { 7 };
    check(cipher_prepare(bytes, sizeof bytes, key.schedule, key.multiples) == CIPHER_DONE, "preparing a key");
    make_frames();
    for (int round = 0; round < ROUNDS; round++)
        for (int i = 0; i < ROWS * WAYS; i++)
            time_way(ways[i % WAYS], &rows[i / WAYS], 200, &rows[i / WAYS].best[i % WAYS]);
    printf("%-30s %5s %8s %8s %10s %10s %8s %10s %8s\n", "a frame off the bus", "bytes", "ns", "ns/B", "frames/s", "cipher ns",
           "ratio", "adding ns", "ratio");
    for (int i = 0; i < ROWS; i++) {
        const struct row *r = &rows[i];
        printf("%-30s %5zu %8.0f %8.2f %10.0f %10.0f %8.2f %10.0f %8.2f\n", r->name, r->len, r->best[0],
               r->best[0] / (double)r->len, 1e9 / r->best[0], r->best[1], r->best[0] / r->best[1], r->best[2],
               r->best[0] / r->best[2]);
    }
    return 0;
}
