#!/usr/bin/env python3
"""Runs the sessions that the documents show, word for word.

A session is an indented block that begins with a command of the program, behind "$ ". Its commands run one after the other in an empty folder in which the program
stands at target-rust/release/paviluko, and heatsplit at target/bin/heatsplit, each at a terminal of its own; what the document shows behind the program's prompt is typed
when the prompt has come. The whole transcript must be the block, line by line; carriage returns are left out. Where the block ends
at a prompt, the input ends there. A command that says it refuses ends with status 1, any other with 0. Where heatsplit is not built,
the sessions that run it are left out.

    sessions.py PROGRAM HEATSPLIT DOCUMENT..      every document must have a session
"""

import difflib
import os
import pty
import select
import signal
import sys
import tempfile
import termios
import time

INDENT = "    "
COMMAND = "$ "
PROGRAM = "target-rust/release/paviluko"
HEATSPLIT = "target/bin/heatsplit"
PROMPT = "paviluko> "
# How a command begins that refuses something.
REFUSED = "paviluko: refused: "
# A terminal that can move its cursor and shows UTF-8, and whoever sits there wants no colours.
PLAIN = {"TERM": "xterm", "NO_COLOR": "1", "LC_ALL": "C.UTF-8"}
# As wide as the longest line that a document types, so that none of it goes out of sight.
COLUMNS = 200
# How long a prompt, or the end of a command, is waited for.
SECONDS = 60


class Wrong(Exception):
    """What a session showed does not fit the document."""


def sessions(text):
    """The blocks that begin with a command of the program: the number of the first line, and the lines without their indent."""
    block, start = [], 0
    for number, line in enumerate(text.split("\n") + [""], 1):
        if line.startswith(INDENT):
            if not block:
                start = number
            block.append(line[len(INDENT):])
        else:
            if block and block[0].startswith(COMMAND + PROGRAM):
                yield start, block
            block = []


def commands(block):
    """Each command of a block with the lines to be typed at its prompts."""
    found = []
    for line in block:
        if line.startswith(COMMAND):
            found.append((line[len(COMMAND):], []))
        elif line.startswith(PROMPT):
            found[-1][1].append(line[len(PROMPT):])
    return found


class Terminal:
    """A command at a terminal: what it showed so far, without carriage returns."""

    def __init__(self, command, folder, around=PLAIN, columns=0):
        self.shown = ""
        # How much was shown when something was typed last.
        self.answered = 0
        self.ended = False
        self.process, self.side = pty.fork()
        if self.process == 0:
            # As a shell starts it, whatever signals are ignored around this test.
            for name in (signal.SIGINT, signal.SIGQUIT, signal.SIGHUP, signal.SIGPIPE):
                signal.signal(name, signal.SIG_DFL)
            termios.tcsetwinsize(0, (0, columns))
            os.chdir(folder)
            kept = {name: value for name, value in os.environ.items() if name not in PLAIN}
            os.execve("/bin/sh", ["sh", "-c", command], kept | around)

    def prompts(self):
        """Whether the program waits at its prompt, and not at the one that was answered."""
        return ("\n" + self.shown).endswith("\n" + PROMPT) and len(self.shown) > self.answered

    def wait(self):
        """Until the program prompts or has ended."""
        until = time.monotonic() + SECONDS
        while not self.ended and not self.prompts():
            left = until - time.monotonic()
            if left <= 0 or not select.select([self.side], [], [], left)[0]:
                raise Wrong(f"no prompt and no end within {SECONDS} s, after: {self.shown[-300:]!r}")
            try:
                part = os.read(self.side, 65536)
            except OSError:
                part = b""
            self.ended = not part
            self.shown += part.decode("utf-8", "replace").replace("\r", "")

    def type(self, text):
        """Types; it is shown behind the prompt."""
        self.answered = len(self.shown)
        os.write(self.side, text.encode())
        self.wait()

    def close(self):
        """Kills what is left, and gives the exit status."""
        if not self.ended:
            os.kill(self.process, signal.SIGKILL)
        os.close(self.side)
        return os.waitstatus_to_exitcode(os.waitpid(self.process, 0)[1])


def transcript(block, folder):
    """What a terminal shows of the block's commands."""
    shown = ""
    for command, typed in commands(block):
        terminal = Terminal(command, folder, columns=COLUMNS)
        try:
            terminal.wait()
            for line in typed:
                if terminal.ended:
                    break
                terminal.type(line + "\n")
            text = terminal.shown
            if not terminal.ended:
                text = text[: -len(PROMPT)]
                # Ctrl-D: the input ends.
                terminal.type("\x04")
        finally:
            status = terminal.close()
        shown += COMMAND + command + "\n" + text
        if status != (1 if ("\n" + text).find("\n" + REFUSED) >= 0 else 0):
            raise Wrong(f"exit status {status}: {command}\n{shown}")
    return shown


def runs(block, name):
    """Whether a command of a block runs a program."""
    return any(name in command for command, _ in commands(block))


def held(programs, document):
    """Runs the sessions of a document. How many there are, how many lines they have, and how many are left out."""
    with open(document, encoding="utf-8") as file:
        found = list(sessions(file.read()))
    if not found:
        raise Wrong(f"{document} has no session")
    built = os.path.exists(programs[HEATSPLIT])
    kept = [(start, block) for start, block in found if built or not runs(block, HEATSPLIT)]
    for start, block in kept:
        with tempfile.TemporaryDirectory() as folder:
            for name, path in programs.items():
                os.makedirs(os.path.join(folder, os.path.dirname(name)))
                os.symlink(os.path.abspath(path), os.path.join(folder, name))
            try:
                shown = transcript(block, folder)
            except Wrong as wrong:
                raise Wrong(f"{document}:{start}: {wrong}") from wrong
        lines = shown.split("\n")[:-1] if shown.endswith("\n") else shown.split("\n")
        if lines != block:
            names = f"{document}, from line {start} on", "the program"
            raise Wrong("\n".join(difflib.unified_diff(block, lines, *names, lineterm="")))
    return len(kept), sum(len(block) for _, block in kept), len(found) - len(kept)


def main():
    program, heatsplit, *documents = sys.argv[1:]
    try:
        for document in documents:
            count, lines, left = held({PROGRAM: program, HEATSPLIT: heatsplit}, document)
            words = "1 session" if count == 1 else f"{count} sessions"
            left = f"; {left} left out, for heatsplit is not built" if left else ""
            print(f"program: {document}: {words}, {lines} lines, word for word{left}")
    except Wrong as wrong:
        print(wrong, file=sys.stderr)
        sys.exit(1)


if __name__ == "__main__":
    main()
