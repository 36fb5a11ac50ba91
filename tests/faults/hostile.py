#!/usr/bin/env python3
"""Cards of somebody's choosing: links, pipes, devices, folders in place of files, huge files, 100,000 names, torn files, cards that change.

Each card is put to a good box three times: before a start; in place of the box's card while the box is in service; and as
another card that is swapped in. The program answers and ends in bounded time and memory, and nothing outside the card changes.
A start either has the right table, or the box is well again with its own card.

    hostile.py PROGRAM [--seconds N] [--only TEXT]
"""

import contextlib
import ctypes
import os
import re
import stat
import threading

import bench_box
from bench_box import Session, Wrong, around, copy, position, remove, same, text_of, write

# Readings behind a checkpoint that a truncation followed, readings above it, and a record that is not visible.
GOOD = bench_box.READINGS + ["accept 4 1102 6=1:60"]
KNOWN = bench_box.KNOWN
# A reading that is taken in service.
TAKE = "take 1 2000 200=1:77"
TOP = (1 << 64) - 1
MANY = 100_000
# Names with a newline, control characters, no UTF-8, a dash at the front, a space, the longest, and such in place of digits.
ODD = ["a\nin service", "\x1b[2J", "\udcff\udcfe", "--help", " ", "x" * 255, "\udcff" * 20, "0" * 19 + "\n", ".\udcff.new", "\\"]


# ---- the box and what stands around it ----


class Bench:
    """A box that is copied for every card, and its table; with files outside it."""

    def __init__(self, program, folder, lines, known):
        self.program = program
        self.folder = folder
        self.template = os.path.join(folder, "template")
        self.aside = os.path.join(folder, "aside")
        self.sessions = 0
        outside = os.path.join(self.template, "outside")
        os.makedirs(self.aside)
        os.makedirs(os.path.join(self.template, "copies"))
        os.makedirs(os.path.join(outside, "folder", "deeper"))
        box = os.path.join(self.template, "box")
        bench_box.make_box(program, box, lines)
        self.card = bench_box.card_of(box)
        # The folder outside would do as a folder of records and of checkpoints, and the card outside as a card.
        for path in [*self.record_files(), *(path for path, _, _ in bench_box.checkpoints(self.card))]:
            write(os.path.join(outside, "folder", os.path.basename(path)), text_of(path))
        copy(self.card, os.path.join(outside, "card"))
        for name in ("file", "folder/file", "folder/deeper/file", "tool"):
            write(os.path.join(outside, name), f"what stands outside: {name}\n".encode())
        os.chmod(os.path.join(outside, "tool"), 0o750)
        os.symlink("file", os.path.join(outside, "link"))
        self.table = self.after([], known)
        self.taken = self.after([TAKE], {**known, 200: 77})

    def after(self, lines, known):
        """The table after a start and some readings, which must have the known ones."""
        started, *_, shown = bench_box.answers(self.program, Site(self).box, ["start", *lines, "table --csv"])
        table = bench_box.table(shown)
        if not bench_box.in_service(started) or bench_box.readings(table) != known:
            raise Wrong(f"the good box: {started!r}, {shown!r}")
        return table

    def record_files(self):
        """The files of the good card's records, in order."""
        folder = bench_box.records(self.card)
        return [os.path.join(folder, name) for name in names_in(folder)]


def names_in(folder):
    """The names in a folder, in order; none where it is not there."""
    return sorted(os.listdir(folder)) if os.path.isdir(folder) else []


class Site:
    """A copy of the good box, with files outside, for one card. It takes the place of the one before it."""

    def __init__(self, bench):
        self.bench = bench
        self.folder = os.path.join(bench.folder, "site")
        remove(self.folder, bench.aside)
        copy(bench.template, self.folder)
        self.box = self.path("box")
        self.card = bench_box.card_of(self.box)
        self.key = text_of(self.path("box/key")).decode().strip()
        self.seen = self.look()
        self.numbers = bench_box.numbers(self.box)
        self.vault = text_of(self.path("box/vault"))
        # Files that are held open as long as the site stands.
        self.open = []

    def path(self, name):
        return os.path.join(self.folder, name)

    def look(self):
        """What the program has to leave alone: everything but the cards, the copies, and what is in vault, card and lock."""
        seen = {f"outside/{name}": kept for name, kept in around(self.path("outside"), times=True).items()}
        seen |= {f"box/{name}": kept for name, kept in around(self.box, ("vault", "card", os.path.basename(self.card))).items()}
        return {name: kept for name, kept in seen.items() if name not in ("box/lock", f"box/{os.path.basename(self.card)}")}

    def session(self, **more):
        """A session with the box; the vault is looked at after every command."""
        self.bench.sessions += 1
        return Session(self.bench.program, self.box, watch=lambda: bench_box.numbers(self.box), **more)

    def held(self, shown):
        """Nothing outside has changed, the vault has only risen, and nothing was shown that should not be."""
        same(self.seen, self.look(), "outside the card")
        for name in ("vault", "key"):
            mode = os.lstat(os.path.join(self.box, name)).st_mode
            if mode != stat.S_IFREG | 0o600:
                raise Wrong(f"{name} has mode {mode:o}")
        if beside := set(os.listdir(self.folder)) - {"box", "outside", "copies", "second", "saved", "hidden"}:
            raise Wrong(f"new beside the box: {sorted(beside)}")
        bench_box.risen(self.numbers, bench_box.numbers(self.box))
        if self.key in shown or re.search("[\x00-\x09\x0b-\x1f\x7f]", shown):
            raise Wrong(f"the key or control characters were shown: {shown[-300:]!r}")

    def keeps_its_key(self):
        """No copy of the card has the box's key."""
        for folder, _, names in os.walk(self.path("copies")):
            for path in (os.path.join(folder, name) for name in names):
                seen = os.lstat(path)
                if stat.S_ISREG(seen.st_mode) and seen.st_size < 1 << 16 and self.key.encode() in text_of(path):
                    raise Wrong(f"the copy has the key in {os.path.basename(path)}")

    def put_back(self, card):
        """The card of another folder becomes the box's own again."""
        remove(self.card, self.bench.aside)
        copy(card, self.card)


# ---- the three ways to meet a card ----


def before_start(bench, make, first=(), must=False):
    """The card is in the box when it starts; `first` comes before that. Whether it was taken, which it may have to be."""
    site = Site(bench)
    make(site.card, site)
    with site.session() as session:
        for line in first:
            session.ask(line)
        started = session.ask("start")
        shown = session.ask("table --csv")
        taken = session.ask(TAKE)
        session.ask("cut")
        again = session.ask("start")
        after = session.ask("table --csv")
        session.end()
        site.held(session.shown)
    if bench_box.in_service(started):
        if bench_box.table(shown) != bench.table:
            raise Wrong(f"taken with another table: {shown!r}")
        if not bench_box.in_service(again):
            raise Wrong(f"taken, and refused when it was started again: {taken!r}, {again!r}")
        if bench_box.table(after) != (bench.taken if bench_box.visible(taken) else bench.table):
            raise Wrong(f"another table when it was started again: {taken!r}, {after!r}")
        return True
    if must or not started.strip():
        raise Wrong(f"not taken: {started!r}")
    if text_of(site.path("box/vault")) != site.vault:
        now = bench_box.numbers(site.box)
        risen = ", ".join(letter.upper() for letter, before in site.numbers.items() if now[letter] != before)
        raise Wrong(f"not taken, and the vault has another {risen}: {started!r}")
    site.put_back(bench.card)
    bench_box.well(bench.program, site.box, bench.table, f"with its own card again, after {started!r}")
    return False


def served(site):
    """A session in service that has taken a reading."""
    session = site.session()
    started, taken = session.ask("start"), session.ask(TAKE)
    if not bench_box.in_service(started) or not bench_box.visible(taken):
        raise Wrong(f"the good card: {started!r}, {taken!r}")
    site.numbers = bench_box.numbers(site.box)
    copy(site.card, site.path("saved"))
    return session


def unharmed(site):
    """Where nothing has become visible since, and no checkpoint is in force that the box's own card has not, the box is well with
    its own card as it was."""
    now = bench_box.numbers(site.box)
    if all(now[letter] == site.numbers[letter] for letter in "vs"):
        write(site.path("box/card"), os.path.basename(site.card).encode() + b"\n")
        site.put_back(site.path("saved"))
        bench_box.well(site.bench.program, site.box, site.bench.taken, "with its card as it was in service")


def in_place(bench, make):
    """The card becomes hostile while the box is in service: status, a copy, a reading, and one that is cut."""
    site = Site(bench)
    with served(site) as session:
        make(site.card, site)
        session.ask("status")
        session.ask("copy-card copies/copy")
        session.ask("take 2 2001 201=1:78")
        # The vault is as it should be also between the stores.
        session.ask("cut after 2")
        session.ask("take 2 2002 201=1:79")
        session.end()
        site.held(session.shown)
        site.keeps_its_key()
    unharmed(site)


def swapped_in(bench, make):
    """Another card is put in while the box is in service: point, checkpoint, truncation, and a start from it."""
    site = Site(bench)
    with served(site) as session:
        second = site.path("second")
        copy(site.card, second)
        make(second, site)
        own = around(site.card)
        session.ask("swap-card second")
        given = [session.ask(line) for line in ("point", "checkpoint", "truncate")]
        started = session.ask("start")
        shown = session.ask("table --csv")
        session.end()
        site.held(session.shown)
    if bench_box.card_of(site.box) != site.card:
        same(own, around(site.card), "the card that was lifted out")
    if bench_box.in_service(started) and bench_box.table(shown) != bench.taken:
        raise Wrong(f"swapped in, and taken with another table: {given}, {shown!r}")
    unharmed(site)


# ---- what stands where ----


def link(target):
    """A symbolic link to something of the site."""
    return lambda at, site: os.symlink(os.path.relpath(site.path(target), os.path.dirname(at)), at)


def full_folder(at, _):
    os.mkdir(at)
    write(os.path.join(at, "file"), b"junk\n")
    write(os.path.join(at, position(0)), b"junk\n")
    os.mkdir(os.path.join(at, "folder"))
    write(os.path.join(at, "folder", "file"), b"junk\n")


def long_file(length):
    """A file that is as long as the file system lets it be, up to a length."""

    def make(at, _):
        write(at, b"")
        for size in (length, length >> 4, length >> 8):
            with contextlib.suppress(OSError):
                os.truncate(at, size)
                return
        raise Wrong(f"no long file can be made: {at}")

    return make


def open_pipe(at, site):
    os.mkfifo(at)
    site.open.append(os.fdopen(os.open(at, os.O_RDWR), "rb", buffering=0))


def device(minor):
    return lambda at, _: os.mknod(at, stat.S_IFCHR | 0o666, os.makedev(1, minor))


KINDS = {
    "a link to the vault": link("box/vault"),
    "a link to the key": link("box/key"),
    "a link to the box": link("box"),
    "a link to a file": link("outside/file"),
    "a link to a folder": link("outside/folder"),
    "a link to nothing": link("outside/absent"),
    "a link to itself": lambda at, _: os.symlink(os.path.basename(at), at),
    "a second name of a file": lambda at, site: os.link(site.path("outside/file"), at),
    "a second name of the vault": lambda at, site: os.link(site.path("box/vault"), at),
    "a pipe": lambda at, _: os.mkfifo(at),
    "a pipe with both ends open": open_pipe,
    "a socket": lambda at, _: os.mknod(at, stat.S_IFSOCK | 0o666),
    "an empty folder": lambda at, _: os.mkdir(at),
    "a folder with files": full_folder,
    "a file of 1 TB": long_file(1 << 40),
    "a file of 20 MB": long_file(20 << 20),
    "an empty file": lambda at, _: write(at, b""),
    "a text": lambda at, _: write(at, b"junk\n"),
}
DEVICES = {"the device zero": device(5), "the device null": device(3)}


def places(card, numbers):
    """Where something can stand on a card: for each place, the names below the card's folder."""
    force = bench_box.generation(card)
    here = f"records.{force}"
    held = names_in(os.path.join(card, here)) or [position(0)]
    following = [position(int(held[-1]) + more) for more in (1, 2)]
    version, seal = numbers["s"][0], numbers["n"][0]
    files = [f"{position(version + more)}-{position(seal + more)}" for more in (1, 2)]
    current = [os.path.relpath(path, card) for path, its, _ in bench_box.checkpoints(card) if its == version]
    others = [name for name in names_in(card) if name not in ("log", "checkpoints") and not name.startswith("records.")]
    return {
        "log": ["log"],
        ".log.new": [".log.new"],
        "the records": [here],
        "the next records": [f"records.{force + 1}", f"records.{force + 2}"],
        "old records": [f"records.{force - 1}"],
        "checkpoints": ["checkpoints"],
        "the first record": [f"{here}/{held[0]}"],
        "the last record": [f"{here}/{held[-1]}"],
        "the next record": [f"{here}/{name}" for name in following],
        "the next record's temporary file": [f"{here}/.{name}.new" for name in following],
        "a next generation's record": [f"records.{force + 1}/{position(0)}", f"records.{force + 1}/.{position(0)}.new"],
        "an old generation's record": [f"records.{force - 1}/{position(0)}", f"records.{force - 1}/.{position(0)}.new"],
        "the checkpoint": current,
        "the next checkpoint": [f"checkpoints/{name}" for name in files],
        "the next checkpoint's temporary file": [f"checkpoints/.{name}.new" for name in files],
        "other files": others,
        "other temporary files": [f".{name}.new" for name in others],
        "odd names": ODD,
        "odd names of records": [f"{here}/{name}" for name in ODD],
        "odd names of checkpoints": [f"checkpoints/{name}" for name in ODD],
    }


# Where something can stand in the way of a box's first start.
FIRST = ["log", ".log.new", "the records", "the next records", "checkpoints", "the next record"]
FIRST += ["the next checkpoint", "the next checkpoint's temporary file"]


def stands(kind, place):
    """Makes a card on which something stands in a place."""

    def make(card, site):
        for name in places(card, bench_box.numbers(site.box))[place]:
            at = os.path.join(card, name)
            remove(at)
            os.makedirs(os.path.dirname(at), exist_ok=True)
            kind(at, site)

    return make


# ---- cards as a whole ----


def log_says(text):
    return lambda card, _: write(os.path.join(card, "log"), text)


def with_folder(name, *files):
    """A folder more on the card, with files."""

    def make(card, _):
        os.makedirs(os.path.join(card, name), exist_ok=True)
        for file in files:
            write(os.path.join(card, name, file), b"junk\n")

    return make


def both(*makes):
    """A card made by several."""
    return lambda card, site: [make(card, site) for make in makes]


def at_generation(number):
    """The good log under another generation."""

    def make(card, _):
        os.rename(bench_box.records(card), os.path.join(card, f"records.{number}"))
        write(os.path.join(card, "log"), f"generation {number}\n".encode())

    return make


def with_record(*names):
    """Files more among the records, of an old record's bytes."""

    def make(card, site):
        for name in names:
            write(os.path.join(bench_box.records(card), name), text_of(site.bench.record_files()[0]))

    return make


def torn_record(length):
    """The last record, which is not visible, torn."""

    def make(card, _):
        folder = bench_box.records(card)
        os.truncate(os.path.join(folder, names_in(folder)[-1]), length)

    return make


def torn_checkpoint(length):
    """A torn checkpoint more, of the version in use and sealed later."""

    def make(card, _):
        path, version, seal = bench_box.checkpoints(card)[-1]
        whole = text_of(path)
        head = whole[:12] + (seal + 1).to_bytes(8, "little")
        write(os.path.join(card, "checkpoints", f"{position(version)}-{position(seal + 1)}"), (head + whole[20:])[:length])

    return make


def with_checkpoint(version, seal):
    """A checkpoint more, whose head claims a version and a seal number."""

    def make(card, _):
        path, _, _ = bench_box.checkpoints(card)[-1]
        whole = text_of(path)
        head = version.to_bytes(8, "little") + seal.to_bytes(8, "little")
        write(os.path.join(card, "checkpoints", f"{position(version)}-{position(seal)}"), whole[:4] + head + whole[20:])

    return make


def nested(card, _):
    """An old generation's folder with folders 5,000 deep."""
    here = os.open(".", os.O_RDONLY)
    try:
        os.makedirs(os.path.join(card, "records.0"), exist_ok=True)
        os.chdir(os.path.join(card, "records.0"))
        for _ in range(5000):
            os.mkdir("deeper")
            os.chdir("deeper")
    finally:
        os.fchdir(here)
        os.close(here)


def replaced_by(kind):
    """Something else than a folder in the card's place."""

    def make(card, site):
        remove(card)
        kind(card, site)

    return make


WHOLE = {
    "log of the top generation": log_says(b"generation %d\n" % TOP),
    "log of a generation beyond the top": log_says(b"generation %d\n" % (TOP + 1)),
    "log of generation -1": log_says(b"generation -1\n"),
    "log of generation 00": log_says(b"generation 00\n"),
    "log of generation +2": log_says(b"generation +2\n"),
    "log without its newline": log_says(b"generation 2"),
    "log of 1 MB": log_says(b"generation 2" + b"\n" * (1 << 20)),
    "log of no UTF-8": log_says(b"generation \xff\n"),
    "an empty folder of the top generation": with_folder(f"records.{TOP}"),
    "a folder of the top generation with a file": with_folder(f"records.{TOP}", position(0)),
    "an empty folder of the generation below the top": with_folder(f"records.{TOP - 1}"),
    "a folder of a generation beyond the top": with_folder(f"records.{TOP + 1}", position(0)),
    "folders of generations that are no numbers": both(with_folder("records.-1"), with_folder("records.+3", position(4))),
    "the log at the top generation": at_generation(TOP),
    "the log at the generation below the top": at_generation(TOP - 1),
    "the log two generations below the top": at_generation(TOP - 2),
    "a record at the top position": with_record(position(TOP)),
    "a record beyond the top position": with_record("9" * 20),
    "records with names of other lengths": with_record("4", "0" * 19, "0" * 21, "-" + "0" * 19, "+" + "0" * 19),
    "a checkpoint of the top version": with_checkpoint(TOP, TOP),
    "a checkpoint of version 0": with_checkpoint(0, 0),
    "a checkpoint of a version beyond every vault": with_checkpoint(1 << 48, 1),
    "folders 5,000 deep in an old generation": nested,
    "a link to a folder in the card's place": replaced_by(link("outside/folder")),
    "a link to a good card in the card's place": replaced_by(link("outside/card")),
    "a link to the box in the card's place": replaced_by(link("box")),
    "a link to nothing in the card's place": replaced_by(link("outside/absent")),
    "a text in the card's place": replaced_by(KINDS["a text"]),
    "a pipe in the card's place": replaced_by(KINDS["a pipe"]),
    "nothing in the card's place": replaced_by(lambda at, site: None),
    "an empty card": replaced_by(KINDS["an empty folder"]),
}
# What a cut leaves of a record and of a checkpoint on cards that do not write whole or not at all.
TORN = {f"{length} bytes of the last record": torn_record(length) for length in (0, 1, 19, 20, 21, 55)}
TORN |= {f"{length} bytes of a later checkpoint": torn_checkpoint(length) for length in (0, 1, 19, 20, 21, 6183)}
# Folders that nobody reads cannot keep a box from starting, nor can what is torn.
TAKEN = [
    "an empty folder of the top generation",
    "a folder of the top generation with a file",
    "an empty folder of the generation below the top",
    "a folder of a generation beyond the top",
    *TORN,
]


# ---- crowds ----


def crowded(place, name, folders=False):
    """Puts many names more into a folder of the card: empty files, or empty folders."""

    def make(card, site):
        folder = {"card": card, "records": bench_box.records(card), "checkpoints": os.path.join(card, "checkpoints")}[place]
        full = site.path("hidden")
        os.mkdir(full)
        here = os.open(".", os.O_RDONLY)
        try:
            os.chdir(full)
            for number in range(MANY):
                if folders:
                    os.mkdir(name(number))
                elif number % (MANY // 4):
                    os.link(first, name(number))
                else:
                    # A file has not as many names as one likes.
                    first = name(number)
                    write(first, b"")
        finally:
            os.fchdir(here)
            os.close(here)
        for other in os.listdir(folder):
            os.replace(os.path.join(folder, other), os.path.join(full, other))
        os.rmdir(folder)
        os.rename(full, folder)

    return make


CROWDS = {
    f"{MANY} records": crowded("records", lambda number: position(1000 + number)),
    f"{MANY} odd names of records": crowded("records", "junk {}".format),
    f"{MANY} checkpoints": crowded("checkpoints", "junk {}".format),
    f"{MANY} generations": crowded("card", lambda number: f"records.{1000 + number}", folders=True),
    f"{MANY} names on the card": crowded("card", "junk {}".format),
}


# ---- cards that change while they are read ----

exchange = getattr(ctypes.CDLL(None, use_errno=True), "renameat2", None)
HERE, EXCHANGE = -100, 2


def swap(one, other):
    """Two names change places."""
    if exchange is not None:
        exchange(HERE, os.fsencode(one), HERE, os.fsencode(other), EXCHANGE)
    else:
        with contextlib.suppress(OSError):
            os.rename(one, other + ".aside")
            os.rename(other, one)
            os.rename(other + ".aside", other)


class Changing:
    """Changes a card without an end, until it is told to stop."""

    def __init__(self, card, site, what):
        self.stop = threading.Event()
        self.card, self.site = card, site
        self.steps = {
            "folders": lambda: [self.exchange("records."), self.exchange("checkpoints")],
            "records": lambda: [self.exchange("records.")],
            "checkpoints": lambda: [self.exchange("checkpoints")],
            "temporary files": lambda: [self.traps],
            "contents": lambda: [self.contents],
        }[what]()
        self.thread = threading.Thread(target=self.run)

    def __enter__(self):
        self.thread.start()
        return self

    def __exit__(self, *_):
        self.stop.set()
        self.thread.join()

    def run(self):
        while not self.stop.is_set():
            for step in self.steps:
                with contextlib.suppress(OSError, Wrong):
                    step()

    def exchange(self, start):
        """Swaps folders for links to a folder outside, and back."""
        link = os.path.join(self.site.path("hidden"), start)
        os.symlink(self.site.path("outside/folder"), link)

        def step():
            for name in os.listdir(self.card):
                if name.startswith(start):
                    swap(os.path.join(self.card, name), link)
                    swap(os.path.join(self.card, name), link)

        return step

    def traps(self):
        """Puts links to a file outside where a temporary file may come."""
        numbers = bench_box.numbers(self.site.box)
        names = [".log.new"]
        for more in (1, 2):
            names.append(f"checkpoints/.{position(numbers['s'][0] + more)}-{position(numbers['n'][0] + more)}.new")
        for folder in os.listdir(self.card):
            if folder.startswith("records."):
                names += [f"{folder}/.{position(number)}.new" for number in range(4)]
        for name in names:
            with contextlib.suppress(OSError):
                os.symlink(self.site.path("outside/file"), os.path.join(self.card, name))

    def contents(self):
        """Writes, cuts off and lengthens the log, records and checkpoints, each good again between."""
        for folder, _, names in os.walk(self.card):
            for name in names:
                path = os.path.join(folder, name)
                with contextlib.suppress(OSError):
                    good = text_of(path)
                    for change in (b"", good[: len(good) // 2], good + b"junk", b"junk" * 100_000):
                        file = os.open(path, os.O_WRONLY | os.O_TRUNC | os.O_NOFOLLOW)
                        os.write(file, change)
                        os.truncate(file, len(change) // 3)
                        os.close(file)
                        file = os.open(path, os.O_WRONLY | os.O_TRUNC | os.O_NOFOLLOW)
                        os.write(file, good)
                        os.close(file)


def changing(bench, what):
    """A box with a card that changes all the time. Whether it was taken at first."""
    site = Site(bench)
    os.mkdir(site.path("hidden"))
    with site.session() as session, Changing(site.card, site, what):
        started = session.ask("start")
        shown = session.ask("table --csv")
        for line in ("copy-card copies/copy", TAKE, "take 2 2001 201=1:78", "point", "checkpoint", "truncate", "cut", "start"):
            session.ask(line)
        session.end()
        site.held(session.shown)
    if bench_box.in_service(started):
        if bench_box.table(shown) != bench.table:
            raise Wrong(f"taken with another table: {shown!r}")
        return True
    if text_of(site.path("box/vault")) == site.vault:
        site.put_back(bench.card)
        bench_box.well(bench.program, site.box, bench.table, f"with its own card again, after {started!r}")
    return False


# ---- cards without permission ----


def forbidden(bench, name, mode):
    """A box of a user that has no right to a part of the card. Whether it was taken."""
    site = Site(bench)
    for folder, _, names in os.walk(site.folder):
        for part in ["", *names]:
            os.chown(os.path.join(folder, part), bench_box.NOBODY, bench_box.NOBODY, follow_symlinks=False)
    site.seen = site.look()
    path = os.path.normpath(os.path.join(site.card, name))
    before = os.stat(path).st_mode
    os.chmod(path, mode)
    with site.session(user=bench_box.NOBODY) as session:
        started = session.ask("start")
        shown = session.ask("table --csv")
        for line in (TAKE, "copy-card copies/copy", "point", "checkpoint", "truncate"):
            session.ask(line)
        session.end()
        site.held(session.shown)
    if bench_box.in_service(started) and bench_box.table(shown) != bench.table:
        raise Wrong(f"taken with another table: {shown!r}")
    if not bench_box.in_service(started):
        os.chmod(path, before)
        bench_box.well(bench.program, site.box, bench.table, f"with the right to it, after {started!r}", user=bench_box.NOBODY)
    return bench_box.in_service(started)


# ---- the test ----


class Test:
    """Counts what was tried, and keeps what failed."""

    def __init__(self, only):
        self.only = only
        self.cards, self.taken, self.failures, self.left_out = 0, 0, [], []

    def attempt(self, name, run, *given, **more):
        """Tries a card."""
        if self.only in name:
            self.cards += 1
            try:
                self.taken += bool(run(*given, **more))
            except Wrong as wrong:
                self.failures.append(f"{name}: {wrong}")

    def three(self, bench, name, make):
        """Tries a card in three ways."""
        self.attempt(f"{name}, before a start", before_start, bench, make, must=name in TAKEN)
        self.attempt(f"{name}, in service", in_place, bench, make)
        # A link that somebody names to swap-card is what they want.
        if not re.fullmatch("a link .* in the card's place", name):
            self.attempt(f"{name}, swapped in", swapped_in, bench, make)


def hostile(program, folder, only):
    """Every card in every way."""
    test = Test(only)
    bench = Bench(program, os.path.join(folder, "good"), GOOD, KNOWN)
    new = Bench(program, os.path.join(folder, "new"), [], {})
    kinds = dict(KINDS)
    try:
        os.mknod(os.path.join(folder, "device"), stat.S_IFCHR | 0o666, os.makedev(1, 3))
        os.close(os.open(os.path.join(folder, "device"), os.O_RDWR))
        kinds |= DEVICES
    except OSError:
        test.left_out.append("no devices: not permitted here")
    site = Site(bench)
    used = [place for place, names in places(site.card, site.numbers).items() if names]
    for place in used:
        for kind, make in kinds.items():
            test.three(bench, f"{kind} as {place}", stands(make, place))
    for place in (place for place in used if place in FIRST):
        for kind, make in kinds.items():
            test.attempt(f"{kind} as {place}, before a first start", before_start, new, stands(make, place))
    for name, make in {**WHOLE, **TORN}.items():
        test.three(bench, name, make)
    for name, make in CROWDS.items():
        # The checkpoints are still there after a copy; one copy will do.
        first = ("status", "copy-card copies/copy") if "checkpoints" in name else ("status",)
        test.attempt(name, before_start, bench, make, first)
    for number in range(40):
        what = ("folders", "records", "checkpoints", "temporary files", "contents")[number % 5]
        test.attempt(f"changing {what}, {number // 5}", changing, bench, what)
    if os.geteuid() == 0 and usable(program, folder):
        here = os.path.relpath(bench_box.records(bench.card), bench.card)
        record = os.path.relpath(bench.record_files()[0], bench.card)
        for name in (".", "checkpoints", here, "log", record):
            for mode in (0, 0o555):
                test.attempt(f"no right to {name}, mode {mode:o}", forbidden, bench, name, mode)
    else:
        test.left_out.append("no permissions: not as another user here")
    if test.failures:
        raise Wrong("\n".join([*test.failures, f"hostile: {len(test.failures)} of {test.cards} failed"]))
    words = f"{test.cards} cards of somebody's choosing in {bench.sessions + new.sessions} sessions, {test.taken} of them taken"
    return "; ".join([words, "nothing outside them changed", *test.left_out])


def usable(program, folder):
    """Whether another user can run the program in the folder."""
    with contextlib.suppress(Wrong, OSError):
        os.mkdir(os.path.join(folder, "free"))
        os.chmod(os.path.join(folder, "free"), 0o777)
        box = os.path.join(folder, "free", "box")
        os.mkdir(box)
        os.chmod(box, 0o755)
        with Session(program, box, user=bench_box.NOBODY) as session:
            return session.end() == 1
    return False


if __name__ == "__main__":
    bench_box.main(hostile, __doc__)
