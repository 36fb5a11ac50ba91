#!/usr/bin/env python3
"""What others may not have: the box's lock, an image of the program's memory, and the key in its memory after a cut.

The lock is tried by a user without rights, who holds whatever can be opened in the box's folder. The memory of a session is read
from outside: before a cut the key is found in it, and after it neither the key nor a round key made of it.

    secrets.py PROGRAM [--seconds N] [--only TEXT]
"""

import fcntl
import os
import re
import resource
import signal
import subprocess
import sys

import bench_box
from bench_box import NOBODY, Session, Wrong, text_of, write

READINGS = ["take 0 1000 1=1:10 2=2:20", "take 1 1001 3=3:30", "point", "checkpoint", "truncate", "take 2 1002 4=4:40"]


# ---- files and the lock ----


class Holder:
    """A process of another user that opens whatever it can of some files, and holds locks of every kind on them."""

    def __init__(self, paths):
        said, say = os.pipe()
        told, self.tell = os.pipe()
        self.process = os.fork()
        if self.process == 0:
            try:
                os.close(self.tell)
                os.setgroups([])
                os.setgid(NOBODY)
                os.setuid(NOBODY)
                os.write(say, f"{self.hold(paths)}\n".encode())
                # Until the other end is closed.
                os.read(told, 1)
            finally:
                os._exit(0)
        os.close(say)
        os.close(told)
        with os.fdopen(said) as file:
            line = file.readline()
        if not line:
            raise Wrong("there is no process of another user")
        self.held = line.strip() or "nothing"

    @staticmethod
    def hold(paths):
        """Opens and locks; the names of what is held."""
        held, files = [], []
        for path in paths:
            for flags in (os.O_RDWR, os.O_WRONLY, os.O_RDONLY):
                try:
                    files.append(os.open(path, flags | os.O_NONBLOCK))
                except OSError:
                    continue
                for lock in (
                    lambda file: fcntl.flock(file, fcntl.LOCK_EX | fcntl.LOCK_NB),
                    lambda file: fcntl.lockf(file, fcntl.LOCK_EX | fcntl.LOCK_NB),
                    lambda file: fcntl.lockf(file, fcntl.LOCK_SH | fcntl.LOCK_NB),
                ):
                    try:
                        lock(files[-1])
                        held.append(os.path.basename(path))
                    except OSError:
                        pass
        return " ".join(sorted(set(held)))

    def __enter__(self):
        return self

    def __exit__(self, *_):
        os.close(self.tell)
        os.waitpid(self.process, 0)


def everything(box):
    """The box's folder and all that stands in it, with its lock whether it is there or not."""
    paths = [box, os.path.join(box, "lock")]
    for folder, folders, names in os.walk(box):
        paths += [os.path.join(folder, name) for name in folders + names]
    return paths


def runs(program, box, what):
    """The owner's session is not refused, and a second one beside it is."""
    with Session(program, box) as session:
        try:
            started = session.ask("start")
        except Wrong as wrong:
            raise Wrong(f"{what}: {wrong}") from wrong
        if not bench_box.in_service(started):
            raise Wrong(f"{what}: the owner's box does not start: {started!r}")
        with Session(program, box) as second:
            status = second.end()
            if status != 1 or "another session" not in second.shown:
                raise Wrong(f"{what}: a second session is not refused: {second.shown!r}")
        session.end()


def lock_of_the_owner(program, folder):
    """Nobody else can hold the lock, before the first session or after it, or where it is an older one that all may read."""
    if os.geteuid() != 0:
        return "no locks: not as another user here"
    count = 0
    for mask in (0o022, 0):
        before = os.umask(mask)
        try:
            for age in ("before the first session", "after a session", "an older lock", "an older lock that all may write"):
                box = os.path.join(folder, f"box-{mask}-{age.replace(' ', '-')}")
                bench_box.make_box(program, box, ["start"] if age == "after a session" else [])
                os.chmod(box, 0o755)
                lock = os.path.join(box, "lock")
                if age.startswith("an older lock"):
                    write(lock, b"")
                    os.chmod(lock, 0o666 if "write" in age else 0o644)
                private(box)
                # What can be held, and then what can be held after a session.
                for _ in range(2):
                    with Holder(everything(box)) as holder:
                        runs(program, box, f"{age}, umask {mask:03o}, another user holds {holder.held}")
                private(box)
                count += 1
        finally:
            os.umask(before)
    return f"{count} locks that another user could not hold"


def private(box):
    """Nobody but the owner may read the key or the vault."""
    for name in ("key", "vault"):
        mode = os.lstat(os.path.join(box, name)).st_mode & 0o7777
        if mode != 0o600:
            raise Wrong(f"{name} has mode {mode:o}")


# ---- images of the memory ----


def core_limits(process):
    """The limits of a process on the length of its core file, soft and hard."""
    text = text_of(f"/proc/{process}/limits").decode()
    return re.search(r"Max core file size\s+(\S+)\s+(\S+)", text).groups()


def cores(folder):
    """The core files in a folder."""
    return [name for name in os.listdir(folder) if name.startswith("core")]


def no_images(program, folder):
    """A session that is killed leaves no core file, where another program leaves one."""
    unlimited = {resource.RLIMIT_CORE: resource.RLIM_INFINITY}
    if resource.getrlimit(resource.RLIMIT_CORE)[1] != resource.RLIM_INFINITY:
        return "no core files: their length is limited here"
    box = os.path.join(folder, "box")
    bench_box.make_box(program, box)
    for lines in (["start"], ["start", *READINGS]):
        with Session(program, box, limits=unlimited) as session:
            for line in lines:
                session.ask(line)
            if core_limits(session.process.pid) != ("0", "0"):
                raise Wrong(f"with the key in memory, core files may be {core_limits(session.process.pid)} long")
            session.process.send_signal(signal.SIGABRT)
            session.process.wait()
        if found := cores(folder):
            raise Wrong(f"a session that was killed after {lines} left {found}")
    if text_of("/proc/sys/kernel/core_pattern").strip() not in (b"core", b"core.%p"):
        return "no core files: they go elsewhere here"
    # Another program's, so that the search is seen to work.
    with bench_box.limited(unlimited):
        subprocess.run([sys.executable, "-c", "import os; os.abort()"], cwd=folder, stderr=subprocess.DEVNULL, check=False)
    return "no core file of a session that was killed" if cores(folder) else "no core files: no program leaves one here"


# ---- the key in memory ----


def sbox():
    """The substitution of AES."""
    table, p, q = [0x63] * 256, 1, 1
    while True:
        p = p ^ (p << 1) & 0xFF ^ (0x1B if p & 0x80 else 0)
        for shift in (1, 2, 4):
            q = (q ^ q << shift) & 0xFF
        q ^= 0x09 if q & 0x80 else 0
        x = q
        for turn in (1, 2, 3, 4):
            x ^= (q << turn | q >> (8 - turn)) & 0xFF
        table[p] = x ^ 0x63
        if p == 1:
            return table


def round_keys(key):
    """The round keys of AES-128."""
    substitute, words, constant = sbox(), [key[at : at + 4] for at in range(0, 16, 4)], 1
    for number in range(4, 44):
        word = words[-1]
        if number % 4 == 0:
            word = bytes(substitute[byte] for byte in word[1:] + word[:1])
            word = bytes([word[0] ^ constant]) + word[1:]
            constant = constant << 1 ^ (0x11B if constant & 0x80 else 0)
        words.append(bytes(a ^ b for a, b in zip(words[-4], word)))
    return [b"".join(words[at : at + 4]) for at in range(0, 44, 4)]


def needles(key):
    """What must not be found, by name: the key, its digits, halves of them, and the round keys, also with their words turned."""
    digits = key.hex().encode()
    found = {"the key": key, "half of the key": key[:8], "the other half of the key": key[8:]}
    found |= {"its digits": digits, "half of its digits": digits[:16], "the other half of its digits": digits[16:]}
    found |= {"its digits in capitals": digits.upper()}
    for number, words in enumerate(round_keys(key)):
        turned = b"".join(words[at : at + 4][::-1] for at in range(0, 16, 4))
        found |= {f"round key {number}": words, f"round key {number} with its words turned": turned}
        found |= {f"round key {number} backwards": words[::-1], f"round key {number} with its words backwards": turned[::-1]}
    return found


def memory(process):
    """All that can be read of a process's memory."""
    parts = []
    with open(f"/proc/{process}/mem", "rb", buffering=0) as file:
        for line in text_of(f"/proc/{process}/maps").decode().splitlines():
            span, rights, *_, name = (line + " -").split(None, 5)
            if "r" not in rights or name.startswith(("[vvar", "[vsyscall")):
                continue
            start, end = (int(number, 16) for number in span.split("-"))
            try:
                file.seek(start)
                part = b""
                while len(part) < end - start and (more := file.read(end - start - len(part))):
                    part += more
                parts.append((name.strip(" -"), part))
            except OSError:
                continue
    return parts


def seen(session, wanted):
    """What of the wanted bytes a session's memory has, and where."""
    found = []
    for place, part in memory(session.process.pid):
        found += [f"{name} in {place or 'a nameless part'}" for name, needle in wanted.items() if needle in part]
    return found


def held(session, wanted, what):
    """A session's memory has the key."""
    if not seen(session, {"the key": wanted["the key"]}):
        raise Wrong(f"{what}: the key is not found in memory, so the search does not work")


def memory_without_key(program, folder):
    """After a cut, however it comes, the key is not in memory any more."""
    if round_keys(bytes.fromhex("2b7e151628aed2a6abf7158809cf4f3c"))[10].hex() != "d014f9a8c9ee2589e13f0cc8b6630ca6":
        raise Wrong("these are not the round keys of AES-128")
    box = os.path.join(folder, "box")
    bench_box.make_box(program, box, ["start", *READINGS])
    wanted = needles(bytes.fromhex(text_of(os.path.join(box, "key")).decode().strip()))
    empty = os.path.join(folder, "empty")
    os.mkdir(empty)
    failures, count = [], 0

    def searched(what, *lines, power=True):
        """A session up to a cut, which is its last line; the key is looked for before it and after it."""
        nonlocal count
        count += 2
        with Session(program, box) as session:
            for line in lines[:-1]:
                session.ask(line)
            if power:
                held(session, wanted, what)
            session.ask(lines[-1])
            found = seen(session, wanted)
            # And once more.
            if not bench_box.in_service(session.ask("start")):
                raise Wrong(f"{what}: the box does not start again")
            held(session, wanted, what)
            session.ask("cut")
            found += seen(session, wanted)
            session.end()
        if found:
            failures.append(f"{what}: the memory has {', '.join(found)}")

    searched("without power", "status", "cut", power=False)
    searched("start", "start", "cut")
    searched("readings", "start", *READINGS, "table", "table --csv", "status", "cut")
    searched("a refused command", "start", "take 0 1 1=9:1", "truncate 99", "commit 77", "cut")
    searched("a start on a start", "start", "start", "cut")
    for store in (1, 2, 3, 4, 8, 12, 15):
        searched(f"a start cut after store {store}", "cut", f"cut after {store}", "start", power=False)
        searched(f"a start cut before store {store}", "cut", f"cut before {store}", "start", power=False)
    for store in (1, 2, 3):
        searched(f"a checkpoint cut after store {store}", "start", "point", f"cut after {store}", "checkpoint")
        searched(f"a reading cut after store {store}", "start", f"cut after {store}", "take 0 2000 1=1:11")
        searched(f"a reading cut in store {store}", "start", f"cut during {store} 30", "take 0 2000 1=1:11")
    # A card that is refused.
    card = bench_box.card_of(box)
    with Session(program, box) as session:
        session.ask(f"swap-card {empty}")
        if bench_box.in_service(session.ask("start")):
            raise Wrong("an empty card is taken")
        session.ask("cut")
        found = seen(session, wanted)
        session.ask(f"swap-card {card}")
        if not bench_box.in_service(session.ask("start")):
            raise Wrong("the box does not start with its own card")
        # A card that is lifted out: the store fails, and the box has stopped.
        os.rename(card, card + "-aside")
        session.ask("take 0 3000 1=1:12")
        session.ask("cut")
        os.rename(card + "-aside", card)
        found += seen(session, wanted)
        session.end()
    if found:
        failures.append(f"a refused card and a card that was lifted out: the memory has {', '.join(found)}")
    if failures:
        raise Wrong("\n".join(failures))
    return f"no trace of the key after {count + 2} cuts"


# ---- the test ----


def secrets(program, folder, only):
    """The lock, images of the memory, and the memory."""
    failures, words = [], []

    def attempt(name, run):
        if only in name:
            place = os.path.join(folder, name.replace(" ", "-"))
            os.mkdir(place)
            os.chmod(place, 0o755)
            try:
                words.append(run(program, place))
            except Wrong as wrong:
                failures.append(f"{name}: {wrong}")
            except PermissionError as error:
                words.append(f"no {name}: {error.filename} is not permitted here")

    attempt("lock", lock_of_the_owner)
    attempt("images", no_images)
    attempt("memory", memory_without_key)
    if failures:
        raise Wrong("\n".join([*failures, f"secrets: {len(failures)} of {len(failures) + len(words)} failed"]))
    return "; ".join(words)


if __name__ == "__main__":
    bench_box.main(secrets, __doc__)
