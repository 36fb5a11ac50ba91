"""What the tests of a box under faults share: sessions through pipes, the files of a box, and a look at what stands around it."""

import argparse
import contextlib
import csv
import io
import os
import re
import resource
import select
import shutil
import stat
import subprocess
import sys
import tempfile
import time

# How long an answer, or the end of a session, is waited for.
SECONDS = 20
# The most memory that a session may use.
MEMORY = 300 << 20
# What a session may have at most: address space, the longest file that it writes, open files, and no core files.
LIMITS = {
    resource.RLIMIT_AS: 1 << 30,
    resource.RLIMIT_FSIZE: 64 << 20,
    resource.RLIMIT_NOFILE: 1024,
    resource.RLIMIT_CORE: 0,
}
# What a program says that did not expect something.
PANIC = re.compile(r"panicked|RUST_BACKTRACE|overflowed its stack|memory allocation of|core dumped")
# Readings behind a checkpoint that a truncation followed, and readings above it; and what the table then has.
READINGS = [
    "start",
    "take 0 1000 1=1:10 2=2:20",
    "take 1 1001 3=3:30",
    "take 2 1002 4=4:40",
    "point",
    "checkpoint",
    "truncate",
    "take 0 1100 1=1:11",
    "take 3 1101 5=1:50",
]
KNOWN = {1: 11, 2: 20, 3: 30, 4: 40, 5: 50}
# The user that has no right to anything.
NOBODY = 65534
# Set where the mounts are this test's own.
OWN = "PAVILUKO_OWN_MOUNTS"


class Wrong(Exception):
    """Something is not as it should be."""


@contextlib.contextmanager
def limited(limits):
    """Sets limits for a program that is started meanwhile."""
    before = {what: resource.getrlimit(what) for what in limits}
    for what, most in limits.items():
        resource.setrlimit(what, (most, before[what][1]))
    try:
        yield
    finally:
        for what, both in before.items():
            resource.setrlimit(what, both)


class Session:
    """A session of the program with a box, through pipes. What it says on standard error is among its answers."""

    def __init__(self, program, box, limits=LIMITS, user=None, watch=None):
        self.shown = ""
        # Called after every answer.
        self.watch = watch or (lambda: None)
        self.marks = 0
        self.ended = False
        self.seconds = SECONDS
        identity = {} if user is None else {"user": user, "group": user, "extra_groups": []}
        with limited(limits):
            self.process = subprocess.Popen(
                [program, "run", os.path.basename(box)],
                cwd=os.path.dirname(box),
                stdin=subprocess.PIPE,
                stdout=subprocess.PIPE,
                stderr=subprocess.STDOUT,
                bufsize=0,
                **identity,
            )

    def __enter__(self):
        return self

    def __exit__(self, *_):
        if self.process.returncode is None:
            self.kill()
        self.process.stdin.close()
        self.process.stdout.close()

    def read(self, until, what):
        """Reads until a condition holds or the program has ended its output."""
        last = time.monotonic() + self.seconds
        while not self.ended and not until():
            left = last - time.monotonic()
            if left <= 0 or not select.select([self.process.stdout], [], [], left)[0]:
                self.kill()
                raise Wrong(f"{what}: nothing within {self.seconds} s")
            part = self.process.stdout.read(65536)
            self.ended = not part
            self.shown += part.decode("utf-8", "replace")

    def ask(self, line):
        """The answer to a command. A command that is none, and is named in its refusal, stands behind it as a mark."""
        self.marks += 1
        mark = f"mark-{self.marks}-"
        start = len(self.shown)
        try:
            self.process.stdin.write(f"{line}\n{mark}\n".encode())
        except BrokenPipeError:
            raise Wrong(f"{line}: the session had ended before: {self.shown[-300:]!r}") from None
        self.read(lambda: re.search(f"{mark}.*\n", self.shown[start:]), line)
        found = re.search(f"(?m)^.*{mark}.*\n", self.shown[start:])
        if not found:
            status = self.end()
            raise Wrong(f"{line}: the session ended in it, with status {status}: {self.shown[start:][-300:]!r}")
        try:
            self.watch()
        except Wrong as wrong:
            raise Wrong(f"after {line}: {wrong}") from wrong
        return self.shown[start : start + found.start()]

    def end(self):
        """Quits and waits for the end. The exit status, which is 0 or 1."""
        with contextlib.suppress(BrokenPipeError):
            self.process.stdin.write(b"quit\n")
        self.process.stdin.close()
        self.read(lambda: False, "the end of the session")
        last = time.monotonic() + self.seconds
        while (found := os.wait4(self.process.pid, os.WNOHANG))[0] == 0:
            if time.monotonic() > last:
                self.kill()
                raise Wrong("no end after the end of the output")
            time.sleep(0.0005)
        self.process.returncode = os.waitstatus_to_exitcode(found[1])
        if PANIC.search(self.shown):
            raise Wrong(f"a panic: {self.shown[-500:]!r}")
        if self.process.returncode not in (0, 1):
            raise Wrong(f"exit status {self.process.returncode}: {self.shown[-120:]!r}")
        if found[2].ru_maxrss << 10 > MEMORY:
            raise Wrong(f"{found[2].ru_maxrss >> 10} MB of memory")
        return self.process.returncode

    def kill(self):
        """Ends the session at once."""
        self.process.kill()
        self.process.wait()


def answers(program, box, lines, **more):
    """The answers of a whole session, one for each command."""
    with Session(program, box, **more) as session:
        given = [session.ask(line) for line in lines]
        session.end()
    return given


def in_service(answer):
    """Whether a start says that the box is in service."""
    return re.search("(?m)^in service", answer) is not None


def visible(answer):
    """Whether a reading was reported visible."""
    return re.search("(?m)^visible", answer) is not None


def table(answer):
    """The table of an answer to `table --csv`: the rows by meter, all columns by name."""
    start = re.search("(?m)^meter,", answer)
    if not start:
        raise Wrong(f"no table: {answer!r}")
    return {int(row["meter"]): row for row in csv.DictReader(io.StringIO(answer[start.start() :]))}


def readings(rows):
    """Meter and reading of a table."""
    return {meter: int(row["reading"]) for meter, row in rows.items()}


def numbers(box):
    """The vault's 27 numbers by letter; the file must be as the program writes it."""
    with open(os.path.join(box, "vault"), "rb") as file:
        text = file.read(4096)
    lines, _, last = text.rpartition(b"sum ")
    total = 0xCBF29CE484222325
    for byte in lines:
        total = (total ^ byte) * 0x100000001B3 % (1 << 64)
    rows = [line.split() for line in lines.decode("ascii", "replace").splitlines()]
    shape = [(row[0], len(row)) for row in rows if row]
    if last != b"%016x\n" % total or shape != [("w", 9), ("v", 9), ("r", 9), ("e", 2), ("s", 2), ("n", 2)]:
        raise Wrong(f"the vault is damaged: {text!r}")
    return {row[0]: [int(number) for number in row[1:]] for row in rows}


def risen(before, after):
    """Holds a vault's numbers against earlier ones: none may have fallen."""
    for letter, earlier in before.items():
        if any(low > high for low, high in zip(earlier, after[letter])):
            raise Wrong(f"the vault fell: {letter} {earlier} became {after[letter]}")


def text_of(path):
    """A file's bytes."""
    with open(path, "rb") as file:
        return file.read()


def write(path, content):
    """Makes a file."""
    with open(path, "wb") as file:
        file.write(content)


def card_of(box):
    """The folder of the card that is in a box."""
    return os.path.join(box, text_of(os.path.join(box, "card")).decode().rstrip("\n"))


def generation(card):
    """The generation in force on a card."""
    log = os.path.join(card, "log")
    return int(text_of(log).split()[1]) if os.path.exists(log) else 0


def records(card):
    """The folder of a card's records."""
    return os.path.join(card, f"records.{generation(card)}")


def checkpoints(card):
    """Path, version and seal number of a card's checkpoints, by version and seal number."""
    folder = os.path.join(card, "checkpoints")
    found = []
    for name in os.listdir(folder) if os.path.isdir(folder) else []:
        if not name.startswith("."):
            head = text_of(os.path.join(folder, name))[4:20]
            version, seal = (int.from_bytes(half, "little") for half in (head[:8], head[8:]))
            found.append((version, seal, os.path.join(folder, name)))
    return [(path, version, seal) for version, seal, path in sorted(found)]


def position(number):
    """The name of a record."""
    return f"{number:020d}"


def around(folder, leave=(), times=False):
    """Everything below a folder: kind, mode and owner of each name, and what it holds or points to. Of the names `leave`, only
    that they are there. With `times` also when it was written."""
    found = {}

    def look(path, name):
        seen = os.lstat(path)
        kept = [seen.st_mode, seen.st_uid, seen.st_gid]
        if name in leave:
            kept = []
        elif times:
            kept.append(seen.st_mtime_ns)
        if kept and stat.S_ISLNK(seen.st_mode):
            kept.append(os.readlink(path))
        elif kept and stat.S_ISREG(seen.st_mode):
            kept += [seen.st_size, text_of(path) if seen.st_size < 1 << 20 else b""]
        found[name] = kept
        if kept and stat.S_ISDIR(seen.st_mode):
            for part in os.listdir(path):
                look(os.path.join(path, part), os.path.join(name, part) if name else part)

    look(folder, "")
    return found


def same(before, after, what):
    """Holds what was seen around against what was seen earlier."""
    names = [name for name in sorted({*before, *after}) if before.get(name) != after.get(name)]
    if names:
        first = names[0]
        how = "is new" if first not in before else "is gone" if first not in after else "has changed"
        raise Wrong(f"{what}: {first or 'the folder'} {how}" + (f", and {len(names) - 1} more" if names[1:] else ""))


def copy(source, target):
    """Copies a folder with all that is in it."""
    shutil.copytree(source, target, symlinks=True)


def remove(path, aside=None):
    """Removes whatever stands at a path. What is much or deep is left to a program, or moved to the folder `aside`."""
    left = 500

    def clear(folder):
        nonlocal left
        names = list(os.scandir(folder))
        left -= len(names)
        if left < 0:
            raise RecursionError
        for entry in names:
            if entry.is_dir(follow_symlinks=False):
                clear(entry.path)
            else:
                os.unlink(entry.path)
        os.rmdir(folder)

    if os.path.islink(path) or not os.path.isdir(path):
        with contextlib.suppress(FileNotFoundError):
            os.unlink(path)
        return
    try:
        clear(path)
    except (OSError, RecursionError):
        if aside is None:
            subprocess.run(["rm", "-rf", "--", path], check=True)
        else:
            os.rename(path, tempfile.mktemp(dir=aside))


def make_box(program, box, lines=()):
    """A new box, and a session with it in which all goes well. The answers."""
    subprocess.run([program, "new", os.path.basename(box)], cwd=os.path.dirname(box), check=True, stdout=subprocess.DEVNULL)
    given = answers(program, box, lines) if lines else []
    for line, answer in zip(lines, given):
        if re.search("(?m)^(refused|failed|wrong|unknown)", answer):
            raise Wrong(f"{line}: {answer!r}")
    return given


def well(program, box, expected, what, **more):
    """The box starts, and has its table."""
    started, shown = answers(program, box, ["start", "table --csv"], **more)
    if not in_service(started):
        raise Wrong(f"{what}: the box does not start: {started!r}")
    if table(shown) != expected:
        raise Wrong(f"{what}: another table: {shown!r}")


@contextlib.contextmanager
def mounted(folder, options):
    """A file system of its own in a new folder, in memory; the options have its size."""
    os.mkdir(folder)
    subprocess.run(["mount", "-t", "tmpfs", "-o", options, "none", folder], check=True)
    try:
        yield folder
    finally:
        subprocess.run(["umount", "-l", folder], check=True)


def own_mounts():
    """Whether file systems can be mounted that nobody else sees and that go with this process. Begins anew for it."""
    if os.environ.get(OWN):
        return os.environ[OWN] == "yes"
    if os.geteuid() == 0 and shutil.which("unshare"):
        unshare = ["unshare", "--mount", "--propagation", "private"]
        trial = [*unshare, "sh", "-c", 'mount -t tmpfs none "$0"', tempfile.gettempdir()]
        if subprocess.run(trial, stdout=subprocess.DEVNULL, stderr=subprocess.DEVNULL, check=False).returncode == 0:
            os.environ[OWN] = "yes"
            os.execvp(unshare[0], [*unshare, sys.executable, "-B", *sys.argv])
    return False


@contextlib.contextmanager
def place():
    """A folder to work in, which others may pass through; in memory where that can be had."""
    own = own_mounts()
    folder = tempfile.mkdtemp(prefix="paviluko.")
    try:
        os.chmod(folder, 0o711)
        if own:
            with mounted(os.path.join(folder, "memory"), "size=4g") as memory:
                os.chmod(memory, 0o711)
                yield memory
        else:
            yield folder
    finally:
        remove(folder)


def main(test, words):
    """Runs a test of the program that the command line names: prints its line, or what failed."""
    global SECONDS
    parser = argparse.ArgumentParser(description=words)
    parser.add_argument("program")
    parser.add_argument("--seconds", type=float, default=SECONDS, help="how long an answer is waited for")
    parser.add_argument("--only", default="", help="the cases whose name has this text")
    given = parser.parse_args()
    SECONDS = given.seconds
    try:
        with place() as folder:
            print(test(os.path.abspath(given.program), folder, given.only))
    except Wrong as wrong:
        print(wrong, file=sys.stderr)
        sys.exit(1)
