"""Compares the product's records, checkpoint files and table with the model on
random cases.  Arguments: the shared object, then the number of cases and the
seed, if any.

A buffer that is lent lies inside a longer one, and all of that is compared:
what the model puts out, and every other byte as it came.
"""

import ctypes
import random
import struct
import sys
from collections import Counter

import model

LIBRARY = sys.argv[1]
COUNT = int(sys.argv[2]) if len(sys.argv) > 2 else 10000
SEED = int(sys.argv[3]) if len(sys.argv) > 3 else 1

U8, U64, SIZE, PTR = ctypes.c_uint8, ctypes.c_uint64, ctypes.c_size_t, ctypes.c_void_p
BACK = 24                               # bytes behind what is lent
TEXT = 136                              # bytes of the longest transaction
MOST = 2 ** 64 - 1


class RecordReply(ctypes.Structure):
    _fields_ = [(name, U64) for name in ("code", "lane", "epoch", "number", "len")]


class FileReply(ctypes.Structure):
    _fields_ = [(name, U64) for name in ("code", "version", "seal")]


def export(library, name, result, *arguments):
    f = getattr(library, name)
    f.restype, f.argtypes = result, arguments
    return f


so = ctypes.CDLL(LIBRARY)
SLICE = (PTR, SIZE)
KEY = (PTR, PTR)
prepare = export(so, "sealed_prepare", U64, *SLICE, *KEY)
put_record = export(so, "sealed_put_record", U64, *KEY, U8, U64, U64, *SLICE, *SLICE)
open_record = export(so, "sealed_open_record", RecordReply, *KEY, *SLICE, *SLICE)
open_at = export(so, "sealed_open_at", RecordReply, *KEY, *SLICE, SIZE, *SLICE)
put_file = export(so, "sealed_put_file", U64, *KEY, U64, U64, *SLICE, *SLICE)
open_file = export(so, "sealed_open_file", FileReply, *KEY, *SLICE, *SLICE)
enter = export(so, "sealed_enter", U64, *SLICE, *SLICE, U8, U64)

rnd = random.Random(SEED)
seen = Counter()


class Difference(Exception):
    pass


def same(what, ours, models):
    if ours != models:
        raise Difference(f"{what}: the product has {short(ours)}, the model {short(models)}")


def short(x):
    if not isinstance(x, bytes):
        return repr(x)
    return f"{len(x)} bytes {x[:200].hex()}{'..' if len(x) > 200 else ''}"


# ---- what is lent

class Lent:
    """n bytes, given or random, with others behind them."""

    def __init__(self, start=b"", n=None):
        n = len(start) if n is None else n
        self.n = n
        self.first = (start + rnd.randbytes(max(0, n - len(start))))[:n] + rnd.randbytes(BACK)
        self.space = ctypes.create_string_buffer(self.first, n + BACK)

    @property
    def pair(self):
        return ctypes.addressof(self.space), self.n

    def holds(self, what, put=b""):
        """What it holds now is put over its start, as far as there was room."""
        put = put[:self.n]
        same(what, self.space.raw, put + self.first[len(put):])


class Key:
    def __init__(self):
        self.bytes = rnd.randbytes(16)
        self.w, self.m = (ctypes.c_uint32 * 44)(), (ctypes.c_uint64 * 1024)()
        self.pair = ctypes.addressof(self.w), ctypes.addressof(self.m)
        lent = Lent(self.bytes)
        same("preparing a key", prepare(*lent.pair, *self.pair), 0)
        self.first = bytes(self.w), bytes(self.m)

    def holds(self):
        same("the prepared key", (bytes(self.w), bytes(self.m)), self.first)


# ---- random parts

def u64():
    return rnd.choice((
        lambda: rnd.randrange(4), lambda: rnd.randrange(1000), lambda: 2 ** 48 - rnd.randrange(3),
        lambda: 2 ** 63 - rnd.randrange(2), lambda: MOST - rnd.randrange(2), lambda: rnd.getrandbits(64)))()


def i32():
    return rnd.choice((-2 ** 31, -1, 0, 1, 2 ** 31 - 1, rnd.randrange(-2 ** 31, 2 ** 31), rnd.randrange(-2 ** 31, 2 ** 31)))


def code():
    return rnd.randint(1, 4)


def lane():
    return rnd.randint(0, 7)


def no_lane():
    return rnd.choice((8, 8, 8, 9, 128, 255, rnd.randint(8, 255)))


def stamp():
    return rnd.choice((rnd.randrange(3), u64()))


def transaction(k=None):
    meters = rnd.sample(range(256), k or rnd.choice((1, 2, 15, 16, rnd.randint(1, 16))))
    if rnd.random() < 0.1:
        meters[0] = rnd.choice((0, 255))
    return model.transaction(stamp(), [(m, code(), i32()) for m in sorted(set(meters))])


def changed(s, at, part):
    return s[:at] + part + s[at + len(part):]


def flipped(s):
    bit = rnd.randrange(8 * len(s))
    return changed(s, bit // 8, bytes([s[bit // 8] ^ 1 << bit % 8]))


def cut(s):
    return s[:rnd.choice((0, 1, 19, 20, 39, 40, len(s) - 1, rnd.randrange(len(s))))]


def longer(s):
    return s + rnd.randbytes(rnd.choice((1, 4, 8, rnd.randint(1, 60))))


DAMAGE = {"cut": cut, "longer": longer, "flipped": flipped}


def bad_text():
    """A text that is not a transaction in its layout."""
    text = transaction()
    k = (len(text) - 8) // 8
    at = 8 + 8 * rnd.randrange(k)
    how = rnd.choice(("repeated", "descending", "code", "spare", "meter", "none", "many", "shorter", "longer", "random"))
    if how in ("repeated", "descending"):
        text = transaction(rnd.randint(2, 15))
        k = (len(text) - 8) // 8
        writes = [text[8 + 8 * i:16 + 8 * i] for i in range(k)]
        i = rnd.randrange(k - 1) if k > 1 else 0
        if how == "repeated" or k == 1:
            writes.insert(i, writes[i])
        else:
            writes[i], writes[i + 1] = writes[i + 1], writes[i]
        text = text[:8] + b"".join(writes)
    elif how == "code":
        text = changed(text, at + 2, bytes([rnd.choice((0, 5, 255, rnd.randint(5, 255)))]))
    elif how == "spare":
        text = changed(text, at + 3, bytes([rnd.choice((1, 128, rnd.randint(1, 255)))]))
    elif how == "meter":
        last = len(text) - 8                    # above 255, and still ascending
        text = changed(text, last, struct.pack("<H", rnd.choice((256, 65535, rnd.randint(256, 65535)))))
    elif how == "none":
        text = text[:rnd.choice((0, 7, 8))]
    elif how == "many":
        text = model.transaction(stamp(), [(m, code(), i32()) for m in sorted(rnd.sample(range(256), rnd.choice((17, 17, 18, 40))))])
    elif how == "shorter":
        text = text[:-rnd.randint(1, 7)]
    elif how == "longer":
        text = text + bytes(rnd.randint(1, 7))
    else:
        text = rnd.randbytes(rnd.choice((16, 136, rnd.randrange(300))))
        if model.legal(text):
            return bad_text()
    if model.legal(text):
        raise Difference(f"the model takes a bad text, {how}: {text.hex()}")
    seen["bad text, " + how] += 1
    return text


def entry():
    return model.Entry(stamp(), u64(), i32(), code(), lane())


def table():
    share = rnd.choice((0, 0.02, 0.5, 1))
    return {m: entry() for m in range(256) if rnd.random() < share}


def bad_table():
    """6,144 bytes, or nearly, that are no table's text."""
    t = table()
    m = rnd.randrange(256)
    t[m] = entry()
    text, at = model.table_text(t), 24 * m
    how = rnd.choice(("present", "absent", "code", "lane", "zero", "stray", "shorter", "longer"))
    if how == "present":
        text = changed(text, at + 22, bytes([rnd.choice((2, 3, 128, 255))]))
    elif how == "absent":
        text = changed(text, at + 22, b"\0")
    elif how == "code":
        text = changed(text, at + 20, bytes([rnd.choice((0, 5, 255))]))
    elif how == "lane":
        text = changed(text, at + 21, bytes([no_lane()]))
    elif how == "zero":
        text = changed(text, at + 23, bytes([rnd.randint(1, 255)]))
    elif how == "stray":
        text = changed(text, at, bytes(24))
        text = changed(text, at + rnd.randrange(24), bytes([rnd.choice((1, 2, 255))]))
    elif how == "shorter":
        text = text[:-rnd.choice((1, 24, 6144))]
    else:
        text = text + bytes(rnd.choice((1, 24)))
    if model.table_of(text) is not None:
        raise Difference(f"the model takes a bad table, {how}")
    seen["bad table, " + how] += 1
    return text


# ---- bytes that may open

def record_bytes(key):
    """Bytes that are a record or nearly one, and how they were made."""
    k, l, e, i, text = key.bytes, lane(), u64(), u64(), transaction()
    n = len(text)
    s = model.record(k, l, e, i, text)
    how = rnd.choice(("whole", "whole", "whole", "cut", "longer", "flipped", "flipped", "other key", "random", "bad text", "bad text",
                      "bad text", "lane", "n", "trailer", "kind", "nonce", "head changed", "trailer and more"))
    if how in DAMAGE:
        s = DAMAGE[how](s)
    elif how == "other key":
        s = model.record(rnd.randbytes(16), l, e, i, text)
    elif how == "random":
        s = rnd.choice((rnd.randbytes(len(s)), rnd.randbytes(rnd.randrange(200)), bytes(len(s)), s[:20] + rnd.randbytes(n + 16) + s[-4:]))
    elif how == "bad text":
        s = model.record(k, l, e, i, bad_text())
    elif how == "lane":
        s = model.record(k, no_lane(), e, i, text)
    elif how == "n":
        other = rnd.choice((0, 8, 16, 65535, n + 8, n - 8, n + 1, n - 1, n + 256, 136 + 8, rnd.randrange(65536)))
        s = model.framed(k, model.record_nonce(l, i), model.record_head(l, other, e, i), text)
    elif how == "trailer":
        s = model.framed(k, model.record_nonce(l, i), model.record_head(l, n, e, i), text,
                         rnd.choice((0, n, n + 39, n + 41, n + 40 + 2 ** 16, n + 40 + 2 ** 31, 6184, rnd.getrandbits(32))))
    elif how == "kind":
        kind = rnd.choice((0, 2, 3, 129, 255))
        nonce = model.record_nonce(l, i) if rnd.random() < 0.5 else struct.pack("<BBBBQ", kind, l, 0, 0, i)
        s = model.framed(k, nonce, model.record_head(l, n, e, i, kind), text)
    elif how == "nonce":
        nonce = rnd.choice((struct.pack("<BBBBQ", 1, l ^ 1, 0, 0, i), struct.pack("<BBBBQ", 1, l, 0, 0, i ^ 1), struct.pack("<BBBBQ", 2, l, 0, 0, i),
                            struct.pack("<BBBBQ", 1, l, 1, 0, i), struct.pack("<BBBBQ", 1, l, 0, 1, i), struct.pack("<BBBBQ", 1, 0, 0, l, i),
                            struct.pack("<BBBBQ", 1, l, 0, 0, e), struct.pack(">BBBBQ", 1, l, 0, 0, i)))
        s = model.framed(k, nonce, model.record_head(l, n, e, i), text)
    elif how == "head changed":
        s = changed(s, 0, model.record_head(lane(), n, u64(), rnd.choice((i, u64()))))
    elif how == "trailer and more":
        more = rnd.randbytes(rnd.choice((1, 8)))
        s = s[:-4] + more + struct.pack("<I", len(s) + len(more))
    return how, s


def file_bytes(key):
    k, v, i, t = key.bytes, u64(), u64(), table()
    s = model.file(k, v, i, t)
    how = rnd.choice(("whole", "whole", "cut", "longer", "flipped", "other key", "random", "bad table", "bad table", "bad table", "zeros",
                      "trailer", "kind", "nonce", "head changed"))
    text = model.table_text(t)
    if how in DAMAGE:
        s = DAMAGE[how](s)
    elif how == "other key":
        s = model.file(rnd.randbytes(16), v, i, t)
    elif how == "random":
        s = rnd.choice((rnd.randbytes(len(s)), s[:20] + rnd.randbytes(6160) + s[-4:]))
    elif how == "bad table":
        s = model.framed(k, model.file_nonce(i), model.file_head(v, i), bad_table())
    elif how == "zeros":
        zeros = changed(bytes(3), rnd.randrange(3), bytes([rnd.choice((1, 255))]))
        s = model.framed(k, model.file_nonce(i), model.file_head(v, i, 2, zeros), text)
    elif how == "trailer":
        s = model.framed(k, model.file_nonce(i), model.file_head(v, i), text, rnd.choice((0, 6144, 6183, 6185, 6184 + 2 ** 16, rnd.getrandbits(32))))
    elif how == "kind":
        s = model.framed(k, model.file_nonce(i), model.file_head(v, i, rnd.choice((0, 1, 3, 130))), text)
    elif how == "nonce":
        s = model.framed(k, rnd.choice((model.file_nonce(v), model.file_nonce(i ^ 1), model.record_nonce(0, i))), model.file_head(v, i), text)
    elif how == "head changed":
        s = changed(s, 0, model.file_head(v ^ 1, i))
    return how, s


def reply_of(r):
    return (9, 0, 0, 0, 0) if r is None else (0, r.lane, r.epoch, r.number, len(r.text))


def fields(r):
    return tuple(getattr(r, name) for name, _ in r._fields_)


def verdict(what, opened):
    seen[what + (" opens" if opened else " does not open")] += 1


# ---- the cases

def case_prepare(key):
    n = rnd.choice((0, 1, 15, 16, 16, 17, 24, 32, rnd.randrange(64)))
    lent, w, m = Lent(n=n), Lent(n=4 * 44), Lent(n=8 * 1024)
    same(f"preparing {n} bytes", prepare(*lent.pair, w.pair[0], m.pair[0]), 0 if n == 16 else 1)
    lent.holds("the key")
    if n != 16:
        w.holds("the schedule")
        m.holds("the multiples")
    seen["a key is " + ("taken" if n == 16 else "refused")] += 1


def case_put_record(key):
    l, e, i, text = lane(), u64(), u64(), transaction()
    room = len(text) + 40 + rnd.choice((0, 1, 40, rnd.randrange(200)))
    for _ in range(rnd.choice((0, 0, 0, 1, 1, 2, 3))):
        wrong = rnd.randrange(3)
        if wrong == 0:
            text = bad_text()
            room = len(text) + 40 + rnd.choice((0, 1, 100))
        elif wrong == 1:
            l = no_lane()
        else:
            room = rnd.choice((0, len(text), len(text) + 39, rnd.randrange(len(text) + 40)))
    lent, out = Lent(text), Lent(n=room)
    answer, put = model.put_record(key.bytes, l, e, i, text, room)
    same("the answer to sealing", put_record(*key.pair, l, e, i, *lent.pair, *out.pair), answer)
    out.holds("the output", put)
    lent.holds("the text")
    seen[f"sealing a record answers {answer}"] += 1


def text_room():
    return Lent(n=rnd.choice((TEXT, TEXT, 0, 1, 200, rnd.randrange(200))))


def case_open_record(key):
    how, s = record_bytes(key)
    lent, text = Lent(s), text_room()
    r = model.open_record(key.bytes, s)
    same(f"opening, {how}", fields(open_record(*key.pair, *lent.pair, *text.pair)), reply_of(r))
    text.holds(f"the text, {how}", (b"" if r is None else r.text).ljust(TEXT, b"\0"))
    lent.holds("the record")
    verdict("a record, " + how, r)


def case_open_at(key):
    parts = [rnd.choice((record_bytes(key)[1], model.record(key.bytes, lane(), u64(), u64(), transaction()), rnd.randbytes(rnd.randrange(50))))
             for _ in range(rnd.randint(1, 4))]
    log, starts = b"", []
    for part in parts:
        starts.append(len(log))
        log += part
    if rnd.random() < 0.2:
        log = log[:rnd.randrange(len(log) + 1)]
    at = rnd.choice(starts * 4 + [len(log), len(log) + 1, max(0, len(log) - 20), rnd.randrange(len(log) + 2), 2 ** 63, MOST])
    lent, text = Lent(log), text_room()
    r = model.open_at(key.bytes, log, at)
    same(f"opening at {at} of {len(log)}", fields(open_at(*key.pair, *lent.pair, at, *text.pair)), reply_of(r))
    text.holds("the text", (b"" if r is None else r.text).ljust(TEXT, b"\0"))
    lent.holds("the log")
    verdict("a record in a log", r)


def case_put_file(key):
    t, v, i = table(), u64(), u64()
    text, put, answer = model.table_text(t), model.file(key.bytes, v, i, t), 0
    room = 6184 + rnd.choice((0, 1, 300))
    wrong = rnd.randrange(6)
    if wrong == 0:
        text, put, answer = bad_table(), b"", 4
    elif wrong == 1:
        room, put, answer = rnd.choice((0, 6144, 6183, rnd.randrange(6184))), b"", 3
    lent, out = Lent(text), Lent(n=room)
    same("the answer to sealing", put_file(*key.pair, v, i, *lent.pair, *out.pair), answer)
    out.holds("the output", put)
    lent.holds("the table's text")
    seen[f"sealing a file answers {answer}"] += 1


def case_open_file(key):
    how, s = file_bytes(key)
    lent, text = Lent(s), Lent(n=rnd.choice((6144, 6144, 6200, 0, rnd.randrange(6144))))
    r = model.open_file(key.bytes, s)
    reply = fields(open_file(*key.pair, *lent.pair, *text.pair))
    same(f"opening, {how}", reply, (9, 0, 0) if r is None else (0, r.version, r.seal))
    text.holds(f"the table, {how}", model.table_text({} if r is None else r.table))
    lent.holds("the file")
    verdict("a file, " + how, r)


def ties(before, text, l, after):
    """Of two lanes in one second the lowest is shown, whatever the numbers."""
    for m, *_ in struct.iter_unpack("<HBBi", text[8:]):
        held = before.get(m)
        if held and held.stamp == struct.unpack("<Q", text[:8])[0] and held.lane != l:
            shown = after.get(m)
            same(f"meter {m} in a tie of lanes {l} and {held.lane}, the lane", shown and shown.lane, min(l, held.lane))
            seen["a tie of lanes, " + ("the write wins" if l < held.lane else "the entry stays")] += 1


def case_enter(key):
    """Few stamps, lanes and numbers, so that each of them decides."""
    t, l, i, text = table(), lane(), u64(), transaction()
    for m in rnd.sample(range(256), 128):
        held = model.Entry(struct.unpack("<Q", text[:8])[0] + rnd.choice((0, 0, 0, 1, -1)) & MOST,
                           i + rnd.choice((0, 1, -1)) & MOST, i32(), code(), max(0, min(7, l + rnd.choice((0, 0, 1, -1)))))
        t[m] = held
    given, answer = model.table_text(t), 0
    wrong = rnd.randrange(10)
    if wrong == 0:
        text, answer = bad_text(), 4
    elif wrong == 1:
        given, answer = bad_table(), 4
    after = given if answer else model.table_text(model.enter(t, text, l, i))
    lent, s = Lent(given), Lent(text)
    same("the answer to entering", enter(*lent.pair, *s.pair, l, i), answer)
    if not answer:
        ties(t, text, l, model.table_of(lent.space.raw[:lent.n]) or {})
    lent.holds("the table", after)
    s.holds("the transaction")
    seen["entering is refused" if answer else "entering changes the table" if after != given else "entering changes nothing"] += 1


CASES = ((case_prepare, 2), (case_put_record, 28), (case_open_record, 31), (case_open_at, 15), (case_put_file, 4), (case_open_file, 11),
         (case_enter, 9))

# what 10,000 cases must have shown
DUE = ("a key is taken", "a key is refused", "sealing a record answers 0", "sealing a record answers 3", "sealing a record answers 4",
       "sealing a record answers 5", "a record, whole opens", "a record in a log opens", "a record in a log does not open",
       "sealing a file answers 0", "sealing a file answers 3", "sealing a file answers 4", "a file, whole opens", "entering is refused",
       "entering changes the table", "entering changes nothing", "a tie of lanes, the write wins", "a tie of lanes, the entry stays",
       *(f"bad text, {how}" for how in ("repeated", "descending", "code", "spare", "meter", "none", "many", "shorter", "longer", "random")),
       *(f"bad table, {how}" for how in ("present", "absent", "code", "lane", "zero", "stray", "shorter", "longer")),
       *(f"a record, {how} does not open" for how in ("cut", "longer", "flipped", "other key", "random", "bad text", "lane", "n", "trailer",
                                                      "kind", "nonce", "head changed", "trailer and more")),
       *(f"a file, {how} does not open" for how in ("cut", "longer", "flipped", "other key", "random", "bad table", "zeros", "trailer", "kind",
                                                    "nonce", "head changed")))


def main():
    kinds, weights = zip(*CASES)
    for number in range(COUNT):
        case = rnd.choices(kinds, weights)[0]
        try:
            key = Key()
            case(key)
            key.holds()
        except Difference as difference:
            sys.exit(f"sealed: case {number} of seed {SEED}, {case.__name__[5:]}: {difference}")
    missing = [what for what in DUE if not seen[what]]
    if COUNT >= 10000 and missing:
        sys.exit(f"sealed: no case in which {'; '.join(missing)}")
    print(f"sealed: {COUNT} cases agree with the model")


main()
