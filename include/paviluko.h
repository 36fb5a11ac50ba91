/* Paviluko: the sealed log of a submeter collector. The C interface of libpaviluko.a, for x86-64 with the System V calling
 * convention. C99, C11 or C++. examples/firmware.c is a complete small host.
 *
 * THE LIFE OF A COLLECTOR
 *
 * The host keeps three things: the vault (27 counters in memory that nobody else can write), the card (log records and
 * checkpoint files, in memory that anybody may read or change), and the collector's state (paviluko_state, in RAM). The
 * library keeps nothing: every call takes the state by value, and its reply has the next state.
 *
 *   load         the vault's numbers and the key make a cold collector
 *   recover      15 or 24 calls read checkpoint and log, and bring the collector into service
 *   accept       a transaction is given the next number of its lane                           names W
 *   seal         the sealed record of that transaction                                        names the record
 *   commit       the record, read back from the card, enters the table of latest readings     names V
 *   point        sets a position below which every accepted record is committed               names nothing
 *   checkpoint   3 calls seal the whole table into a file                                     names N, the file, S
 *   truncate     9 calls give up the records below a covered point                            names R of 8 lanes, the deletion
 *   from_bus     the reading of an M-Bus reply as a transaction, for accept; takes no state   names nothing
 *   plain_table  the whole table in plain, to be kept for the bills                           names nothing
 *   heat_split   what each heat meter used between two such tables; takes no state            names nothing
 *
 * THE ONE RULE. A call that is taken names at most one store (paviluko_said: store, lane, value, len). The host carries
 * out exactly that store before the next call, and hands the next call the state last returned. Nothing else sets the
 * vault. While a store is due (paviluko_due_store), only the call that names it, or a load, is taken: after accept only
 * seal, and after the first call of checkpoint, truncate or recover only that same function, called again with the same
 * position.
 *
 * A POWER CUT keeps vault and card and loses the state. The store named last is then wholly done or not done; either is
 * fine. (To have it so, write a record or a file under another name, flush it, and rename it.) Start again with load,
 * given the vault's own numbers, and recover, given the checkpoint file of version S (none while S is 0) and the log
 * records end to end in order of position. A STORE THAT FAILS IS A CUT: if the host cannot carry out the store that was
 * named, it makes no other call with that state, and starts again with load and recover.
 *
 * A TORN RECORD. From edition 4 on a card need not write a record whole or not at all: a cut in a record's store may leave
 * any beginning of it, as the last bytes of the log. Hand the log over as it is found. recover passes over its last bytes
 * if they are fewer than 20, or if they begin with the head of a record and are fewer than that record has; anything else
 * that does not open is 9, as before. The beginning may stay until recover names the emptying of the log, which drops it
 * with all records, and nothing is written behind it before that: no other record is stored until then. A checkpoint file
 * that was written in part is none, whatever its head says: hand over, and count as of a version, only files of
 * PAVILUKO_CHECKPOINT_LEN bytes.
 *
 * VISIBLE is a transaction once V of its lane is stored, and no cut loses it then. After a cut, look at the vault before
 * the recovery: V is at least the number that accept named, or the transaction is not visible and is to be accepted anew,
 * under another number. A recovery raises V to W, and makes nothing visible by it.
 *
 * THE LATEST READING of a meter has the greatest stamp; among equal stamps the lowest lane; in one lane the greatest
 * number. The order in which readings come plays no part. So give the wired buses the low lanes and the radio receivers
 * those above: a meter that both hear in the same second shows the wired figure. (In editions 0 and 1 the greatest lane
 * won a tie. Their checkpoints are taken as they are; each entry in them is compared by the order of today from then on.)
 *
 * WHICH FILE. A checkpoint file has version S + 1 at the time when it is named; the store of S that follows makes it the
 * one in use. The version is bytes 4 to 11 of the file, the seal number bytes 12 to 19, little-endian. After a cut, hand
 * over the file whose version is the vault's S; if a cut between the file and S left two of one version, either is right.
 * Files are written beside the older ones. Those of a version below S may be deleted once S is stored, and not before: no
 * later recovery asks for them, since S never falls. One of a version above S was left by such a cut; nobody asks for it
 * either, and it may be deleted whenever the store of S is not the one that is due (PAVILUKO_DUE_VERSION,
 * PAVILUKO_DUE_RECOVER_VERSION). Keep one of version S, and delete nothing before recover has taken the card.
 *
 * POSITIONS are the host's: any rising numbers, 0 among them. They start anew whenever a recovery ends, for it empties
 * the log.
 *
 * A CALL THAT IS TURNED DOWN returns one of the numbers 1 to 19. It hands back the state that came, leaves every buffer
 * as it was, and names no store: the host may simply go on. Where several causes hold, the lowest number is returned. If
 * commit says 9 to a record read back from the card, read it again and call again; if it says 9 again, the card has not
 * kept the record: load, and recover with a log that leaves this record out, for recover would say 9 to it as well. The
 * number is then given up, and the transaction is accepted anew. (Were the record one that is visible, recover would say
 * 11 or 13. In commit, 10 and 11 mean that another record was handed over than the one that is next in its lane.)
 *
 * THE PLAIN TABLE (from edition 5 on) is what the yearly bill is made from: plain_table puts it out at the start and at
 * the end of the year, and heat_split takes the two. IT IS NOT SEALED. It has no tag, and nothing in it says which
 * collector it is from: anybody who can write to it can change a reading, and heat_split takes any two tables that are in
 * their layout. So keep it where the bills are kept and nobody else writes, and not on the card. Ask for it once recover
 * has taken the card (recovering or in service): a cold collector has no reading, and its table is zeros. To split, no
 * key, no state and no collector is needed: it can be done in the office.
 *
 * WHAT IS PROVED. Each function below returns, for every argument, what the definitions in crates/protocol/specs,
 * crates/bus/specs and crates/heat/specs say (the promises stand in crates/paviluko/src/lib.rt); and of any run of these
 * calls with cuts, whatever card is handed over, that the table of an accepted recovery is the latest reading of every
 * meter, and that a card that kept faith is accepted (crates/boundary/specs/Claim.antt; docs/ARCHITECTURE.md has it in
 * words).
 *
 * BUFFERS MUST NOT CHANGE DURING A CALL. What a call is lent, nobody else writes until it returns: no other thread, no
 * interrupt, no DMA, no card that is mapped into memory. A call reads its input more than once, and bytes that change
 * between checking and using were never checked. Copy mapped card memory into RAM, and hand over the copy.
 *
 * OUT HOLDS PLAIN READINGS DURING A CALL. From edition 3 on a record or a file is sealed in `out` itself: its text is
 * written there and encrypted where it stands, so that no second buffer is needed. When the call returns, what it put out is
 * sealed. Until then lend RAM that nobody else reads, and no card that is mapped into memory: a power cut within the call
 * could leave plain readings on it. plain_table and heat_split seal nothing: what they put out is plain for good.
 *
 * POINTERS. The functions want a valid address for each buffer, even for one of length 0; in the paviluko_do_ functions a
 * NULL buffer is one of length 0, whatever length stands beside it. `out` must not overlap another buffer of the same
 * call.
 *
 * MEMORY AND THREADS. There is no heap, no global and no hidden state: the functions are re-entrant, and no pointer
 * outlives its call. State and reply are some 8 KB each and are passed by value, so a call needs stack. Measured
 * (bench/stack.c), state and reply among it: load 50 KB, point 63, truncate 65, accept 67, seal 72, checkpoint 73, commit
 * 89, recover 114, the questions at the end 15; plain_table, which has no reply, 15; from_bus and heat_split, which have
 * neither, less than 1 and 19. PAVILUKO_STACK leaves room beyond the deepest of them. The paviluko_do_ functions at the end
 * of this file take a pointer to the state instead, and write the next state back.
 *
 * THE KEY. A state holds the key; paviluko_clear wipes one that is no longer needed. The stack that a call used may hold
 * copies of the state, the key and plain readings until something else is written there, and so may the frame of the
 * function that made the call: state and reply stand there by value. A host that minds makes its calls on a stack of its
 * own (a task's), of PAVILUKO_STACK bytes and its own need, and clears that memory afterwards. Or it makes them in
 * functions that are not inlined, and the function that called these then calls one that writes zeros to a volatile array
 * of PAVILUKO_STACK bytes and as many more as the frames of those functions take (clear_stack in examples/firmware.c),
 * not inlined either.
 */
#ifndef PAVILUKO_H
#define PAVILUKO_H

#if !defined(__x86_64__) || defined(__ILP32__) || defined(_WIN32)
#error "libpaviluko.a is for x86-64 with the System V calling convention and 64-bit pointers"
#endif

#include <stddef.h>
#include <stdint.h>

#ifdef __cplusplus
#define PAVILUKO_ASSERT(test, text) static_assert(test, text)
extern "C" {
#elif defined(__STDC_VERSION__) && __STDC_VERSION__ >= 201112L
#define PAVILUKO_ASSERT(test, text) _Static_assert(test, text)
#else
#define PAVILUKO_ASSERT(test, text) extern const char paviluko_assert[(test) ? 1 : -1]
#endif

/* ---- the edition ----
 * How many of the requests of document 02 this interface has: each one raises it. The library says its own, so that a program
 * can tell whether header and archive belong together. make lib prints it with a hash of the sources. */

#define PAVILUKO_EDITION 5
uint64_t paviluko_edition(void);

/* ---- numbers and lengths ---- */

#define PAVILUKO_LANES 8
#define PAVILUKO_METERS 256
/* Records that may be listed at or above the newest point, and points that may be kept. */
#define PAVILUKO_RECORDS 128
#define PAVILUKO_POINTS 8
/* No vault number goes beyond this one. */
#define PAVILUKO_COUNTER_MAX ((UINT64_C(1) << 48) - 1)
#define PAVILUKO_KEY_LEN 16
/* A transaction of k writes (1 to 16) has 8 + 8k bytes: stamp (8 bytes, seconds), then per write meter (2, 0 to 255, strictly
 * ascending), code (1 to 4), 0, reading (4, signed). All little-endian. */
#define PAVILUKO_TRANSACTION_MAX 136
/* One write: what paviluko_from_bus puts out. */
#define PAVILUKO_TRANSACTION_MIN 16
/* The longest frame of the wired bus: L is a byte, and a frame has L + 6. */
#define PAVILUKO_FRAME_MAX 261
/* A record is its transaction's length and 40 bytes more. */
#define PAVILUKO_RECORD_EXTRA 40
#define PAVILUKO_RECORD_MAX 176
#define PAVILUKO_CHECKPOINT_LEN 6184
/* A table in plain, which is what a checkpoint file has sealed: per meter, 0 to 255, stamp (8 bytes), number (8), reading (4,
 * signed), code (1 to 4), lane (0 to 7), 1, 0; or 24 bytes of 0, exactly for a meter without a reading. All little-endian. */
#define PAVILUKO_TABLE_LEN 6144
/* Room for the text of any heat split: its first line of 17 bytes, and at most 24 for each meter. */
#define PAVILUKO_HEAT_TEXT_MAX 6161
/* The longest log that recover reads. */
#define PAVILUKO_LOG_MAX 262144
/* Stack to keep free for a call. */
#define PAVILUKO_STACK 131072

/* paviluko_state.phase. None is 0: a state of zeros is no state, and every call on it is turned down with 1. */
enum { PAVILUKO_COLD = 1, PAVILUKO_RECOVERING = 2, PAVILUKO_IN_SERVICE = 3 };

/* paviluko_due.kind: the store that the next call names. In brackets the fields that the kind uses; the others are 0. */
enum {
    PAVILUKO_DUE_NOTHING = 0,
    PAVILUKO_DUE_RECORD = 1,           /* seal */
    PAVILUKO_DUE_FILE = 2,             /* checkpoint, second call */
    PAVILUKO_DUE_VERSION = 3,          /* checkpoint, third call */
    PAVILUKO_DUE_TRUNCATE_R = 4,       /* truncate (lane, position) */
    PAVILUKO_DUE_TRUNCATE_DELETE = 5,  /* truncate, last call (position) */
    PAVILUKO_DUE_RECOVER_FILE = 6,     /* recover (second: 0 for its first checkpoint, 1 for its second) */
    PAVILUKO_DUE_RECOVER_VERSION = 7,  /* recover (second) */
    PAVILUKO_DUE_RECOVER_SEAL = 8,     /* recover: N of its second checkpoint */
    PAVILUKO_DUE_RECOVER_R = 9,        /* recover (lane) */
    PAVILUKO_DUE_RECOVER_EPOCH = 10,   /* recover, if any W differs from V */
    PAVILUKO_DUE_RECOVER_V = 11,       /* recover (lane), likewise */
    PAVILUKO_DUE_RECOVER_EMPTY = 12    /* recover, last call */
};

/* paviluko_said.store: the store to carry out. In brackets the fields of paviluko_said that belong to it. */
enum {
    PAVILUKO_STORE_NONE = 0,
    PAVILUKO_STORE_W = 1,       /* vault: w[lane] = value */
    PAVILUKO_STORE_V = 2,       /* vault: v[lane] = value */
    PAVILUKO_STORE_R = 3,       /* vault: r[lane] = value */
    PAVILUKO_STORE_E = 4,       /* vault: e = value */
    PAVILUKO_STORE_S = 5,       /* vault: s = value */
    PAVILUKO_STORE_N = 6,       /* vault: n = value */
    PAVILUKO_STORE_RECORD = 7,  /* card: write the first len bytes of out as the record at position value */
    PAVILUKO_STORE_FILE = 8,    /* card: write the first len bytes of out as a checkpoint file, beside the older ones */
    PAVILUKO_STORE_DELETE = 9,  /* card: delete the records at positions below value */
    PAVILUKO_STORE_EMPTY = 10   /* card: delete all records */
};

/* paviluko_said.number: why a call was turned down. In brackets what value then is; it is 0 for the others. */
enum {
    PAVILUKO_TAKEN = 0,
    PAVILUKO_REFUSED_CONDITION = 1,     /* another store is due, wrong phase for this call, or a state that no call left */
    PAVILUKO_REFUSED_NUMBERS = 2,       /* load: numbers break V <= W, R <= W, R > V only where R = W, or the maximum */
    PAVILUKO_REFUSED_LENGTH = 3,        /* key not 16 bytes, out too short, log too long (the length needed or allowed) */
    PAVILUKO_REFUSED_TRANSACTION = 4,   /* transaction, or heat_split's tables, not in the layout; from_bus: meter above 255 */
    PAVILUKO_REFUSED_LANE = 5,          /* lane above 7 */
    PAVILUKO_REFUSED_POSITION = 6,      /* position too low */
    PAVILUKO_REFUSED_FULL = 7,          /* 128 records listed, or 8 points kept */
    PAVILUKO_REFUSED_SPENT = 8,         /* a counter is at its maximum */
    PAVILUKO_REFUSED_CLOSED = 9,        /* bytes do not open (offset of the record; 0 for a checkpoint too, and in commit) */
    PAVILUKO_REFUSED_EPOCH = 10,        /* wrong epoch (offset, 0 in commit) */
    PAVILUKO_REFUSED_TURN = 11,         /* number out of turn (offset, 0 in commit) */
    PAVILUKO_REFUSED_VERSION = 12,      /* checkpoint version is not S */
    PAVILUKO_REFUSED_MISSING = 13,      /* visible records missing, or torn (the lowest such lane) */
    PAVILUKO_REFUSED_NO_POINT = 14,     /* no such point, or not covered by a checkpoint */
    PAVILUKO_REFUSED_UNSEEN = 15,       /* a record below the point is not committed yet */
    PAVILUKO_REFUSED_FRAME = 16,        /* from_bus: a broken frame */
    PAVILUKO_REFUSED_NO_READING = 17,   /* from_bus: a frame without a usable record */
    PAVILUKO_REFUSED_CODE_CHANGED = 18, /* heat_split: a meter in both tables is heat in one and another code in the other */
    PAVILUKO_REFUSED_NOTHING_USED = 19  /* heat_split: the total is zero, there is nothing to share */
};

/* ---- structs ----
 * States come from the functions below and go back to them: read a state's fields freely, but do not make or change one, and
 * take none from a card or a line. A flag byte, marked "0 or 1", must hold 0 or 1: the functions leave nothing else there, and
 * nothing is promised of a state with another. Padding bytes are nobody's: they may hold anything, so compare states field by
 * field, and never with memcmp. A state holds the key: keep it out of reach. */

/* The vault's 27 numbers, all 0 when new. Per lane: w numbers handed out, v numbers visible, r numbers truncated; the epoch
 * e, the checkpoint version s, the checkpoint seal number n. */
typedef struct {
    uint64_t w[PAVILUKO_LANES];
    uint64_t v[PAVILUKO_LANES];
    uint64_t r[PAVILUKO_LANES];
    uint64_t e;
    uint64_t s;
    uint64_t n;
} paviluko_vault;

/* The latest reading of a meter, with stamp, lane and number of its transaction. All 0 where present is 0. */
typedef struct {
    uint64_t stamp;
    uint64_t number;
    int32_t reading;
    uint8_t code;    /* 1 cold water, 2 warm water (litres); 3 heat, 4 cooling (kWh) */
    uint8_t lane;
    uint8_t present; /* 0 or 1 */
} paviluko_entry;

/* An entry for each meter. */
typedef struct {
    paviluko_entry entries[PAVILUKO_METERS];
} paviluko_table;

/* The accepted records at or above the newest point: the first count places of positions and lanes. */
typedef struct {
    uint64_t positions[PAVILUKO_RECORDS];
    uint8_t lanes[PAVILUKO_RECORDS];
    size_t count;
    uint8_t used;    /* 0 or 1: whether a position was used since service began */
    uint64_t last;   /* the last position used */
} paviluko_record_list;

/* A point: per lane how many numbers lie below it. */
typedef struct {
    uint64_t position;
    uint64_t counts[PAVILUKO_LANES];
    uint8_t covered; /* 0 or 1: whether a checkpoint covers it */
} paviluko_point_item;

/* The points kept: the first count items. */
typedef struct {
    paviluko_point_item items[PAVILUKO_POINTS];
    size_t count;
    uint8_t any;     /* 0 or 1: whether a point was set since service began */
    uint64_t newest; /* the newest one, even if dropped */
} paviluko_point_list;

/* The transaction that accept holds for seal: the first len bytes of text. */
typedef struct {
    uint8_t text[PAVILUKO_TRANSACTION_MAX];
    size_t len;
    uint8_t lane;
    uint64_t position;
} paviluko_held;

/* The store that is due. */
typedef struct {
    uint64_t position;
    uint8_t kind;    /* PAVILUKO_DUE_ */
    uint8_t lane;
    uint8_t second;
} paviluko_due;

typedef struct {
    paviluko_vault vault; /* as it stands when the store named last is done */
    paviluko_due due;
    paviluko_table table;
    paviluko_record_list journal;
    paviluko_point_list points;
    paviluko_held held;
    uint8_t key[PAVILUKO_KEY_LEN];
    uint8_t phase;        /* PAVILUKO_COLD, PAVILUKO_RECOVERING or PAVILUKO_IN_SERVICE */
} paviluko_state;

/* What a call says. Taken: number is 0, store is the one to carry out with lane and value, and len is how many bytes stand at
 * the start of out. Turned down: number is 1 to 19, value is what is returned with it, and the rest is 0. */
typedef struct {
    uint64_t value;
    uint64_t len;
    uint8_t number;  /* 0, or PAVILUKO_REFUSED_CONDITION .. PAVILUKO_REFUSED_NOTHING_USED */
    uint8_t store;   /* PAVILUKO_STORE_ */
    uint8_t lane;
} paviluko_said;

typedef struct {
    paviluko_state state;
    paviluko_said said;
} paviluko_reply;

PAVILUKO_ASSERT(sizeof(paviluko_vault) == 216, "layout of paviluko_vault");
PAVILUKO_ASSERT(offsetof(paviluko_vault, e) == 192, "layout of paviluko_vault");
PAVILUKO_ASSERT(sizeof(paviluko_entry) == 24, "layout of paviluko_entry");
PAVILUKO_ASSERT(offsetof(paviluko_entry, reading) == 16, "layout of paviluko_entry");
PAVILUKO_ASSERT(offsetof(paviluko_entry, present) == 22, "layout of paviluko_entry");
PAVILUKO_ASSERT(sizeof(paviluko_table) == 6144, "layout of paviluko_table");
PAVILUKO_ASSERT(sizeof(paviluko_record_list) == 1176, "layout of paviluko_record_list");
PAVILUKO_ASSERT(offsetof(paviluko_record_list, count) == 1152, "layout of paviluko_record_list");
PAVILUKO_ASSERT(offsetof(paviluko_record_list, last) == 1168, "layout of paviluko_record_list");
PAVILUKO_ASSERT(sizeof(paviluko_point_item) == 80, "layout of paviluko_point_item");
PAVILUKO_ASSERT(offsetof(paviluko_point_item, covered) == 72, "layout of paviluko_point_item");
PAVILUKO_ASSERT(sizeof(paviluko_point_list) == 664, "layout of paviluko_point_list");
PAVILUKO_ASSERT(offsetof(paviluko_point_list, newest) == 656, "layout of paviluko_point_list");
PAVILUKO_ASSERT(sizeof(paviluko_held) == 160, "layout of paviluko_held");
PAVILUKO_ASSERT(offsetof(paviluko_held, position) == 152, "layout of paviluko_held");
PAVILUKO_ASSERT(sizeof(paviluko_due) == 16, "layout of paviluko_due");
PAVILUKO_ASSERT(offsetof(paviluko_state, due) == 216, "layout of paviluko_state");
PAVILUKO_ASSERT(offsetof(paviluko_state, table) == 232, "layout of paviluko_state");
PAVILUKO_ASSERT(offsetof(paviluko_state, journal) == 6376, "layout of paviluko_state");
PAVILUKO_ASSERT(offsetof(paviluko_state, points) == 7552, "layout of paviluko_state");
PAVILUKO_ASSERT(offsetof(paviluko_state, held) == 8216, "layout of paviluko_state");
PAVILUKO_ASSERT(offsetof(paviluko_state, key) == 8376, "layout of paviluko_state");
PAVILUKO_ASSERT(offsetof(paviluko_state, phase) == 8392, "layout of paviluko_state");
PAVILUKO_ASSERT(sizeof(paviluko_state) == 8400, "layout of paviluko_state");
PAVILUKO_ASSERT(sizeof(paviluko_said) == 24, "layout of paviluko_said");
PAVILUKO_ASSERT(offsetof(paviluko_said, number) == 16, "layout of paviluko_said");
PAVILUKO_ASSERT(offsetof(paviluko_reply, said) == 8400, "layout of paviluko_reply");
PAVILUKO_ASSERT(sizeof(paviluko_reply) == 8424, "layout of paviluko_reply");

/* ---- the operations ----
 * Each may also be turned down with 1: a store is due that another call names, the phase is another one, or the state is none
 * that a call left (its phase or due numbers are not listed above, it breaks load's rule, or lists too much). */

/* A cold collector from the vault's own numbers and a key of 16 bytes. Names nothing.
 * Turned down: 2; 3 (16). What is then handed back is a collector that turns down every call with 1: keep the one you had.
 * A load may come at any time, in place of the call that a due store waits for. */
paviluko_reply paviluko_load(paviluko_vault x, const uint8_t *key, size_t key_len);

/* In service. Holds a transaction under the next number of its lane, for the record at `position`, which lies above every
 * position used since service began and above the newest point. Names W of the lane (lane, value); then seal is due.
 * Turned down: 1, 4, 5, 6, 7 (128 records listed: set a point), 8 (W of the lane is at its maximum). */
paviluko_reply paviluko_accept(paviluko_state s, const uint8_t *transaction, size_t len, uint8_t lane, uint64_t position);

/* In service, after accept. Puts the record of the transaction held at the start of out: len of the transaction and 40 bytes,
 * at most PAVILUKO_RECORD_MAX; the bytes behind it stay. Names the record (value is its position, len its length).
 * Turned down: 1; 3 (the length needed). */
paviluko_reply paviluko_seal(paviluko_state s, uint8_t *out, size_t room);

/* In service, no store due. The bytes of a record, as the card has them: they open, bear epoch E, and the number V + 1 of
 * their lane, at most W. The transaction enters the table, and is visible once the store is done. Names V of the lane.
 * Turned down: 1; 9, 10, 11 (0). */
paviluko_reply paviluko_commit(paviluko_state s, const uint8_t *record, size_t len);

/* In service, no store due. Sets a point: above the newest one, with every accepted record below it committed. Names nothing.
 * Turned down: 1, 6, 7 (8 points kept: truncate), 15. */
paviluko_reply paviluko_point(paviluko_state s, uint64_t position);

/* In service. Call it three times: it names N; then the file, PAVILUKO_CHECKPOINT_LEN bytes at the start of out, the bytes
 * behind it stay; then S. The first and the third call leave out as it was, and take any room. Points set before the first
 * call are covered after the third.
 * Turned down: 1; 3 (PAVILUKO_CHECKPOINT_LEN) in the second call; 8 (S or N is at its maximum) in the first. */
paviluko_reply paviluko_checkpoint(paviluko_state s, uint8_t *out, size_t room);

/* In service. Call it nine times with the position of a covered point: it names R of lanes 0 to 7, then the deletion of the
 * records below the position. That point and older ones are dropped.
 * Turned down: 1 (another position than that of the first call, too), 14. */
paviluko_reply paviluko_truncate(paviluko_state s, uint64_t position);

/* Cold. The first call reads a checkpoint file (of length 0 exactly if S is 0) and a log of at most PAVILUKO_LOG_MAX bytes,
 * records end to end, and behind them perhaps the beginning of a record that a cut left, which is passed over; if they hold
 * all that was made visible it names N, and the table in the state is the table of all visible transactions. The other calls look at neither, and name in turn: the file (in out), S, N, a second file (in out),
 * S, R of lanes 0 to 7, if any W differs from V also E and V of lanes 0 to 7, and emptying the log: 15 or 24 calls in all.
 * The last one brings the collector into service. Only the calls that name a file write to out.
 * Turned down: 1; 3 (PAVILUKO_LOG_MAX in the first call, PAVILUKO_CHECKPOINT_LEN where a file is due); in the first call
 * also 8 (S or N above the maximum less 2, or E at the maximum), 9 and 12 for the checkpoint, 9, 10, 11 (offset) for the
 * log's records one by one, 13 (lane; a visible record of which the log has only a beginning is missing too). */
paviluko_reply paviluko_recover(paviluko_state s, const uint8_t *checkpoint, size_t checkpoint_len, const uint8_t *log,
                                size_t log_len, uint8_t *out, size_t room);

/* ---- from the wired bus ---- */

/* A reply of a meter on the wired M-Bus (EN 13757) as a transaction of one write, PAVILUKO_TRANSACTION_MIN bytes at the start
 * of out, ready for accept: the caller gives meter and stamp, the frame code and reading. The bytes behind it stay. Said:
 * number 0, store PAVILUKO_STORE_NONE, len PAVILUKO_TRANSACTION_MIN.
 * The frame is hexadecimal 68 L L 68, then L bytes, their sum modulo 256, and 16; the L bytes are C (08, 18, 28 or 38), any
 * address, CI 72, a header of 12 bytes, whose eighth is the medium, and records. Media 07 and 16 give code 1, 06 and 15 code
 * 2, 04 and 0C code 3, 0A and 0B code 4. The first record with DIF 0C and VIF 13 (codes 1 and 2) or 06 (3 and 4) is taken:
 * eight BCD digits, lowest byte first; F as the top digit is a minus before the other seven.
 * Turned down, the lowest number first: 3 (PAVILUKO_TRANSACTION_MIN); 4 (meter above 255); 16, a frame that is not exactly so,
 * or L below 15; 17, no such record before the end of the L bytes, before a DIF that ends in D or F (2F is filler), a VIF 7C
 * or FC or a record that runs past the L bytes, or another digit above 9 in it, or another medium. out is then as it came. */
paviluko_said paviluko_from_bus(const uint8_t *frame, size_t len, uint16_t meter, uint64_t stamp, uint8_t *out, size_t room);

/* ---- the yearly heat split ---- */

/* The table of latest readings in plain, PAVILUKO_TABLE_LEN bytes at the start of out, as a checkpoint's text has them; the
 * bytes behind it stay. Whatever the state, and whatever store is due; the state stays. Said: number 0, store
 * PAVILUKO_STORE_NONE, len PAVILUKO_TABLE_LEN. It is not sealed (THE PLAIN TABLE, above).
 * Turned down: 3 (PAVILUKO_TABLE_LEN). out is then as it came. */
paviluko_said paviluko_plain_table(paviluko_state s, uint8_t *out, size_t room);

/* What each heat meter used between two plain tables, and its share of the house in millionths. `tables` is the table at the
 * start of the year and then the one at its end, PAVILUKO_TABLE_LEN bytes each, so len is twice that. The text is put at the
 * start of out, and the bytes behind it stay: the line "meter,used,share", then for each meter that is in both tables with code
 * 3 (heat) a line of these three, by rising meter, in decimal, '-' before a negative use; a newline (10) ends each line. It has
 * no 0 at its end. Said: number 0, store PAVILUKO_STORE_NONE, len the text's length, at most PAVILUKO_HEAT_TEXT_MAX.
 * Used is the end's reading less the start's. The total is the sum of the uses that are not negative, and a share is used times
 * 1,000,000 divided by it, rounded down; 0 for a negative use. The units that are then missing go one each to the largest
 * remainders, the lower meter first among equals: the shares add up to 1,000,000. A meter that one of the tables has not is
 * left out. Stamps play no part: that two tables are the wrong way round is not noticed, every use then has the other sign.
 * Turned down: 3 (the length needed), where there is a text and out is shorter; 4, where tables is not exactly two tables in
 * their layout, the entries of other codes too; 18, a meter that both have with code 3 in one and another in the other; then
 * 19, the total is 0, or there is no such meter. out is then as it came, and only 3 has a value. */
paviluko_said paviluko_heat_split(const uint8_t *tables, size_t len, uint8_t *out, size_t room);

/* ---- for a host and a screen: a state's fields, whatever the state ---- */

/* The latest reading of a meter. Readings are true of the visible transactions while recovering and in service. */
paviluko_entry paviluko_reading(paviluko_state s, uint8_t meter);
/* The vault's numbers, as they stand when the store named last is done. */
paviluko_vault paviluko_numbers(paviluko_state s);
uint8_t paviluko_phase(paviluko_state s);
paviluko_due paviluko_due_store(paviluko_state s);
/* How many accepted records are listed, of PAVILUKO_RECORDS, and how many points are kept, of PAVILUKO_POINTS. */
uint64_t paviluko_records(paviluko_state s);
uint64_t paviluko_points(paviluko_state s);

#ifdef __cplusplus
}
#endif

/* ---- the same with the state behind a pointer ----
 * Each calls the function of its name with *s, writes the next state to *s, and returns what was said. A NULL buffer is one of
 * length 0, whatever length stands beside it. s and x are never NULL. paviluko_do_plain_table leaves *s, and
 * paviluko_do_from_bus and paviluko_do_heat_split have no state. */

static inline const uint8_t *paviluko_some(const uint8_t *p)
{
    static const uint8_t none = 0;
    return p ? p : &none;
}

static inline size_t paviluko_len(const uint8_t *p, size_t len)
{
    return p ? len : 0;
}

/* A load that is turned down leaves *s as it was; let it be zeros at first, which is no state. */
static inline paviluko_said paviluko_do_load(paviluko_state *s, const paviluko_vault *x, const uint8_t *key, size_t key_len)
{
    paviluko_reply r = paviluko_load(*x, paviluko_some(key), paviluko_len(key, key_len));
    if (r.said.number == PAVILUKO_TAKEN) {
        *s = r.state;
    }
    return r.said;
}

static inline paviluko_said paviluko_do_accept(paviluko_state *s, const uint8_t *transaction, size_t len, uint8_t lane,
                                               uint64_t position)
{
    paviluko_reply r = paviluko_accept(*s, paviluko_some(transaction), paviluko_len(transaction, len), lane, position);
    *s = r.state;
    return r.said;
}

static inline paviluko_said paviluko_do_seal(paviluko_state *s, uint8_t *out, size_t room)
{
    uint8_t none = 0;
    paviluko_reply r = paviluko_seal(*s, out ? out : &none, paviluko_len(out, room));
    *s = r.state;
    return r.said;
}

static inline paviluko_said paviluko_do_commit(paviluko_state *s, const uint8_t *record, size_t len)
{
    paviluko_reply r = paviluko_commit(*s, paviluko_some(record), paviluko_len(record, len));
    *s = r.state;
    return r.said;
}

static inline paviluko_said paviluko_do_point(paviluko_state *s, uint64_t position)
{
    paviluko_reply r = paviluko_point(*s, position);
    *s = r.state;
    return r.said;
}

static inline paviluko_said paviluko_do_checkpoint(paviluko_state *s, uint8_t *out, size_t room)
{
    uint8_t none = 0;
    paviluko_reply r = paviluko_checkpoint(*s, out ? out : &none, paviluko_len(out, room));
    *s = r.state;
    return r.said;
}

static inline paviluko_said paviluko_do_truncate(paviluko_state *s, uint64_t position)
{
    paviluko_reply r = paviluko_truncate(*s, position);
    *s = r.state;
    return r.said;
}

static inline paviluko_said paviluko_do_recover(paviluko_state *s, const uint8_t *checkpoint, size_t checkpoint_len,
                                                const uint8_t *log, size_t log_len, uint8_t *out, size_t room)
{
    uint8_t none = 0;
    paviluko_reply r = paviluko_recover(*s, paviluko_some(checkpoint), paviluko_len(checkpoint, checkpoint_len),
                                        paviluko_some(log), paviluko_len(log, log_len), out ? out : &none,
                                        paviluko_len(out, room));
    *s = r.state;
    return r.said;
}

static inline paviluko_said paviluko_do_from_bus(const uint8_t *frame, size_t len, uint16_t meter, uint64_t stamp, uint8_t *out,
                                                 size_t room)
{
    uint8_t none = 0;
    return paviluko_from_bus(paviluko_some(frame), paviluko_len(frame, len), meter, stamp, out ? out : &none,
                             paviluko_len(out, room));
}

static inline paviluko_said paviluko_do_plain_table(const paviluko_state *s, uint8_t *out, size_t room)
{
    uint8_t none = 0;
    return paviluko_plain_table(*s, out ? out : &none, paviluko_len(out, room));
}

static inline paviluko_said paviluko_do_heat_split(const uint8_t *tables, size_t len, uint8_t *out, size_t room)
{
    uint8_t none = 0;
    return paviluko_heat_split(paviluko_some(tables), paviluko_len(tables, len), out ? out : &none, paviluko_len(out, room));
}

/* Wipes a state, padding and all; the compiler keeps every write. What is left is no state: every call on it is turned down
 * with 1. */
static inline void paviluko_clear(paviluko_state *s)
{
    volatile uint8_t *bytes = (volatile uint8_t *)s;
    size_t i;
    for (i = 0; i < sizeof *s; i++) {
        bytes[i] = 0;
    }
}

#undef PAVILUKO_ASSERT
#endif
