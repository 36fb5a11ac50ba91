#!/usr/bin/env python3
"""Cards that fill up: a full card says so, a start on it works, and what is not needed any more is deleted.

On a small file system of its own, a card is filled with a foreign file, with records, and with what the program itself can leave
over: temporary files, checkpoints of versions below S, and torn ones. Everything that was reported visible stays in the table. On a
card with room, starts, checkpoints and readings leave no such files, and the card does not grow.

    full.py PROGRAM [--seconds N] [--only TEXT]
"""

import contextlib
import errno
import itertools
import os
import re
import subprocess

import bench_box
from bench_box import Session, Wrong, checkpoints, position, readings, remove, table, text_of, write

# A card of 50 blocks.
SMALL = "200k"
BLOCK = 4096
SETUP = bench_box.READINGS
KNOWN = bench_box.KNOWN
# What a person can do about a full card.
ADVICE = re.compile("delet|remov|clear|free|larger|bigger|(other|another|new|change the) card|swap|copy|tidy|truncate")

# Bytes of a checkpoint.
WHOLE = 6184
# What a card may hold at most after any number of readings: 128 records of at most 176 bytes since the newest point and as many
# below it, four checkpoints, the log, and two files and three folders more.
MOST_FILES = 2 * 128 + 4 + 1 + 2 + 3
MOST_BYTES = 2 * 128 * 176 + 4 * WHOLE + 64 + 16384


# ---- a box with a small card ----


class Small:
    """A box whose card has a small file system of its own."""

    def __init__(self, program, folder, card):
        self.program = program
        self.box = os.path.join(folder, "box")
        self.card = os.path.join(card, "card")
        self.disk = card
        bench_box.make_box(program, self.box, [f"swap-card --new {self.card}", *SETUP])
        self.known = dict(KNOWN)
        self.stamps = itertools.count(5000)

    def session(self):
        """A session with the box."""
        return Session(self.program, self.box)

    def serve(self, session, what):
        """The box starts, with every reading that was reported visible."""
        started = session.ask("start")
        if not bench_box.in_service(started):
            raise Wrong(f"{what}: the box does not start: {started!r}")
        shown = readings(table(session.ask("table --csv")))
        if shown != self.known:
            raise Wrong(f"{what}: the table is {shown} and not {self.known}")

    def take(self, session):
        """Takes a reading. Nothing where it became visible; else what was said, which must be that there is no room."""
        stamp = next(self.stamps)
        meter, reading = 100 + stamp % 100, stamp
        answer = session.ask(f"take {stamp % 8} {stamp} {meter}=1:{reading}")
        if bench_box.visible(answer):
            self.known[meter] = reading
            return None
        no_room(answer)
        return answer

    def works_again(self, session, what):
        """Readings are taken, after a start if there has to be one."""
        if self.take(session) is not None:
            self.serve(session, what)
            if (said := self.take(session)) is not None:
                raise Wrong(f"{what}: a reading is not taken: {said!r}")


def no_room(answer):
    """A full card is reported with what to do."""
    answer = " ".join(answer.split())
    if "no room" not in answer.lower():
        raise Wrong(f"a full card is not reported: {answer!r}")
    if not ADVICE.search(re.sub("(?i).*no room", "", answer, flags=re.S)):
        raise Wrong(f"a full card, and not what to do: {answer!r}")


def fill(path):
    """Writes a file until there is no room left for a byte."""
    with open(path, "ab", buffering=0) as file, contextlib.suppress(OSError):
        while True:
            file.write(b"\xa5" * BLOCK)


def newest(card):
    """A card's newest whole checkpoint."""
    return [found for found in checkpoints(card) if os.path.getsize(found[0]) == WHOLE][-1]


def old_checkpoints(card, count):
    """Checkpoints of versions below the newest, as a card of before may have them: names and contents."""
    path, version, _ = newest(card)
    whole = text_of(path)
    for number in range(count):
        its = number % version
        name = f"{position(its)}-{position(number)}" if number % 3 else f"of any name {number}"
        yield os.path.join("checkpoints", name), whole[:4] + its.to_bytes(8, "little") + whole[12:]


def temporary_files(card, count):
    """Temporary files that a cut can leave over, and torn checkpoints of the version in use: names and contents."""
    here = os.path.basename(bench_box.records(card))
    path, version, seal = newest(card)
    whole = text_of(path)
    yield ".log.new", b"generation 9\n"
    for number in range(count):
        yield f"{here}/.{position(number)}.new", b"\xa5" * 100
        yield f"checkpoints/.{position(version + number)}-{position(seal + number)}.new", b"\xa5" * 6000
        # Torn, on a card that does not write whole or not at all.
        torn = whole[:12] + (seal + number + 1).to_bytes(8, "little") + whole[20:-1]
        yield f"checkpoints/{position(version)}-{position(seal + number + 1)}", torn[: number * 997 % WHOLE]


def leave_over(card, count=2000, full=True):
    """Puts left-over files on a card, until no room is left."""
    both = itertools.zip_longest(old_checkpoints(card, count), temporary_files(card, count))
    for name, content in filter(None, itertools.chain.from_iterable(both)):
        try:
            write(os.path.join(card, name), content)
        except OSError as error:
            if error.errno != errno.ENOSPC or not full:
                raise
            remove(os.path.join(card, name))
            fill(os.path.join(card, ".log.new"))
            return
    if full:
        raise Wrong("the card did not fill up")


def left_over(box):
    """What stands on a box's card and is not needed: temporary files, checkpoints of versions below S, and torn ones."""
    card = bench_box.card_of(box)
    below = bench_box.numbers(box)["s"][0]
    there = [(path, version, os.path.getsize(path)) for path, version, _ in checkpoints(card)]
    found = [os.path.relpath(path, card) for path, version, length in there if version < below or length < WHOLE]
    for folder, folders, names in os.walk(card):
        temporary = [name for name in folders + names if name.startswith(".") and name.endswith(".new")]
        found += [os.path.relpath(os.path.join(folder, name), card) for name in temporary]
    return found


def clean(box, what):
    """Nothing is left over on a box's card."""
    if found := left_over(box):
        raise Wrong(f"{what}: left over on the card: {len(found)} files, as {found[0]}")


# ---- full cards ----


def junk_in_service(small):
    """A foreign file takes all the room while the box is in service."""
    junk = os.path.join(small.disk, "junk")
    with small.session() as session:
        small.serve(session, "before it")
        fill(junk)
        if not any(small.take(session) for _ in range(60)):
            raise Wrong("60 readings were taken on a full card")
        small.serve(session, "on the full card")
        small.take(session)
        small.serve(session, "on the full card again")
        os.unlink(junk)
        small.works_again(session, "with room again")
        small.serve(session, "with room again")
        session.end()


def junk_without_power(small):
    """A foreign file takes all the room while the box has no power. The exit status says that something was refused."""
    junk = os.path.join(small.disk, "junk")
    fill(junk)
    with small.session() as session:
        small.serve(session, "on the full card")
        session.end()
    script = "start\n" + "".join(f"take 7 {4000 + n} 250=1:{n}\n" for n in range(60))
    command = [small.program, "run", small.box]
    pipe = subprocess.PIPE
    run = subprocess.run(command, input=script.encode(), stdout=pipe, stderr=subprocess.STDOUT, timeout=60, check=False)
    said = run.stdout.decode("utf-8", "replace")
    if bench_box.PANIC.search(said) or run.returncode != 1:
        raise Wrong(f"readings on a full card: status {run.returncode}: {said[-200:]!r}")
    no_room(said)
    if count := len(re.findall("(?m)^visible", said)):
        small.known[250] = count - 1
    os.unlink(junk)
    with small.session() as session:
        small.serve(session, "with room again")
        small.works_again(session, "with room again")
        session.end()


def records_alone(small):
    """The card fills up with readings."""
    with small.session() as session:
        small.serve(session, "before it")
        for _ in range(100):
            if small.take(session):
                small.serve(session, "on a card full of records")
        session.end()
    with small.session() as session:
        small.serve(session, "on a card full of records, the next day")
        small.works_again(session, "on a card full of records, the next day")
        session.end()


def junk_at_a_checkpoint(small):
    """A foreign file takes all the room before a checkpoint."""
    junk = os.path.join(small.disk, "junk")
    with small.session() as session:
        small.serve(session, "before it")
        fill(junk)
        for line in ("point", "checkpoint", "truncate"):
            answer = session.ask(line)
            if re.search("(?m)^failed", answer):
                no_room(answer)
                break
        small.serve(session, "on the full card")
        os.unlink(junk)
        small.works_again(session, "with room again")
        session.end()


def leftovers_without_power(small):
    """The card is full of what was left over: the box starts, and makes room by itself."""
    leave_over(small.card)
    with small.session() as session:
        small.serve(session, "on a card full of left-over files")
        clean(small.box, "after the start")
        if said := small.take(session):
            raise Wrong(f"after the start, a reading is not taken: {said!r}")
        session.end()


def leftovers_in_service(small):
    """The card becomes full of what was left over while the box is in service."""
    with small.session() as session:
        small.serve(session, "before it")
        leave_over(small.card)
        small.works_again(session, "on a card full of left-over files")
        session.ask("checkpoint")
        clean(small.box, "after a checkpoint")
        session.end()


def names_alone(small):
    """No more names can be made on the card; what was visible is in the table once they can."""
    names = []
    with small.session() as session:
        small.serve(session, "before it")
        with contextlib.suppress(OSError):
            for number in range(1000):
                write(os.path.join(small.disk, f"junk {number}"), b"")
                names.append(os.path.join(small.disk, f"junk {number}"))
        while small.take(session) is None and len(small.known) < 60:
            pass
        session.ask("start")
        session.end()
    for name in names:
        remove(name)
    with small.session() as session:
        small.serve(session, "with names again")
        small.works_again(session, "with names again")
        session.end()


def copy_without_room(small):
    """A copy finds no room: there is no half copy of that name, and the box goes on."""
    folder = os.path.dirname(small.box)
    with bench_box.mounted(os.path.join(folder, "other"), "size=8k") as other:
        with small.session() as session:
            small.serve(session, "before it")
            answer = session.ask(f"copy-card {other}/copy")
            if "no room" not in " ".join(answer.split()):
                raise Wrong(f"a copy without room is not reported: {answer!r}")
            if left := os.listdir(other):
                raise Wrong(f"a copy without room left {left}")
            small.works_again(session, "after a copy without room")
            session.end()


FULL = [
    (junk_in_service, f"size={SMALL}"),
    (junk_without_power, f"size={SMALL}"),
    (junk_at_a_checkpoint, f"size={SMALL}"),
    (records_alone, f"size={SMALL}"),
    (leftovers_without_power, f"size={SMALL}"),
    (leftovers_in_service, f"size={SMALL}"),
    (names_alone, f"size={SMALL},nr_inodes=40"),
    (copy_without_room, f"size={SMALL}"),
]


# ---- cards with room ----


def nothing_left(program, folder):
    """After a start, after a checkpoint and after a truncation nothing is left over, whatever stood there before."""
    box = os.path.join(folder, "box")
    bench_box.make_box(program, box, SETUP)
    card = bench_box.card_of(box)
    clean(box, "after a session")
    for _ in range(3):
        leave_over(card, 20, full=False)
        with Session(program, box) as session:
            if not bench_box.in_service(session.ask("start")):
                raise Wrong("the box does not start over left-over files")
            clean(box, "after a start")
            session.ask("take 0 2000 1=1:12")
            leave_over(card, 20, full=False)
            session.ask("checkpoint")
            clean(box, "after a checkpoint")
            session.ask("point")
            session.ask("checkpoint")
            session.ask("truncate")
            clean(box, "after a truncation")
            session.end()
    # A start that is cut at any store, and then one that is not.
    for store in range(1, 25):
        with Session(program, box) as session:
            session.ask("start")
            session.ask("accept 1 3000 7=1:1")
            session.ask("cut")
            session.ask(f"cut after {store}")
            session.ask("start")
            started = session.ask("start")
            if not bench_box.in_service(started):
                raise Wrong(f"cut after store {store}: the box does not start: {started!r}")
            clean(box, f"after a start that followed one cut after store {store}")
            session.end()


def sizes(card):
    """Files and folders on a card, and bytes in files."""
    files, length = 0, 0
    for folder, folders, names in os.walk(card):
        files += len(folders) + len(names)
        length += sum(os.lstat(os.path.join(folder, name)).st_size for name in names)
    return files, length


def bounded(card, what):
    """A card is not larger than it may be."""
    files, length = sizes(card)
    if files > MOST_FILES or length > MOST_BYTES:
        raise Wrong(f"{what}: {files} files and folders of at most {MOST_FILES}, {length} bytes of at most {MOST_BYTES}")


def does_not_grow(program, folder, starts=300, rounds=8, lines=500):
    """Many starts, and readings of long files: the card stays small, and the table right."""
    box = os.path.join(folder, "box")
    bench_box.make_box(program, box, SETUP)
    card = bench_box.card_of(box)
    known = dict(KNOWN)
    with Session(program, box) as session:
        for number in range(starts):
            if not bench_box.in_service(session.ask("start")):
                raise Wrong(f"start {number} failed")
        bounded(card, f"after {starts} starts")
        session.end()
    for number in range(rounds):
        stamp = 10_000 + number * lines
        rows = [(line % 8, stamp + line, line % 256, line % 4 + 1, line * rounds + number) for line in range(lines)]
        known |= {meter: reading for _, _, meter, _, reading in rows}
        path = os.path.join(folder, "readings.csv")
        write(path, "".join(",".join(map(str, row)) + "\n" for row in rows).encode())
        with Session(program, box) as session:
            session.ask("start")
            taken = session.ask(f"take --csv {path}")
            if not bench_box.visible(taken):
                raise Wrong(f"a file of {lines} readings: {taken!r}")
            bounded(card, f"after {(number + 1) * lines} readings")
            if readings(table(session.ask("table --csv"))) != known:
                raise Wrong(f"another table after {(number + 1) * lines} readings")
            session.end()
    # One by one, without an end to the session.
    with Session(program, box) as session:
        session.ask("start")
        for number in range(300):
            answer = session.ask(f"take 5 {50_000 + number} 9=1:{number}")
            if not bench_box.visible(answer):
                raise Wrong(f"reading {number} of a session: {answer!r}")
        bounded(card, "after 300 readings one by one")
        session.end()
    known[9] = 299
    started, shown = bench_box.answers(program, box, ["start", "table --csv"])
    if not bench_box.in_service(started) or readings(table(shown)) != known:
        raise Wrong(f"another table in the end: {started!r}")
    return starts, rounds * lines + 300


# ---- the test ----


def full(program, folder, only):
    """Every way to fill a card."""
    failures, done, counts = [], 0, (0, 0)

    def attempt(name, run):
        nonlocal done, counts
        if only not in name:
            return
        place = os.path.join(folder, name.replace(" ", "-"))
        os.mkdir(place)
        try:
            counts = run(place) or counts
            done += 1
        except Wrong as wrong:
            failures.append(f"{name}: {wrong}")
        remove(place)

    def small(run, options):
        def within(place):
            with bench_box.mounted(os.path.join(place, "disk"), options) as disk:
                run(Small(program, place, disk))

        return within

    ways = FULL if bench_box.own_mounts() else []
    for run, options in ways:
        attempt(run.__name__.replace("_", " "), small(run, options))
    attempt("nothing left", lambda place: nothing_left(program, place))
    attempt("does not grow", lambda place: does_not_grow(program, place))
    if failures:
        raise Wrong("\n".join([*failures, f"full: {len(failures)} of {len(failures) + done} failed"]))
    out = "" if ways else "; no full cards: mounting is not permitted here"
    return f"{len(ways)} full cards, {counts[0]} starts and {counts[1]} readings on a card of at most {MOST_BYTES >> 10} KB{out}"


if __name__ == "__main__":
    bench_box.main(full, __doc__)
