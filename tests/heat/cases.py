#!/usr/bin/env python3
"""Runs the program heatsplit on the inputs of a list, and compares what it prints to the letter.

cases.py PROGRAM LIST

The list says how it is written. Each input comes from a file and through a pipe; those with pieces come through a pipe
once more, a piece at a time. The program reads all of it: whoever writes into the pipe must not see it broken. It
prints nothing but what the list says, ends by itself, with 0 where a split is printed, and with one status wherever it
refuses.
"""

import os
import re
import struct
import subprocess
import sys
import tempfile
import time

CODES = {"cold": 1, "warm": 2, "heat": 3, "cooling": 4}
TABLES = ["start", "end"]
# Stamps of the entries, unless the list says otherwise: a year between them.
STAMPS = {"start": 1767225600, "end": 1798761600}
ENTRY = struct.Struct("<QQiBBBB")


class Case:
    def __init__(self, name):
        self.name = name
        self.tables = {table: bytearray(256 * ENTRY.size) for table in TABLES}
        self.order = list(TABLES)
        # What is done with the two tables' bytes, in the order of the list.
        self.changes = []
        self.pieces = []
        self.prints = None

    def put(self, table, meters, medium, reading, *more):
        """An entry for each of the meters."""
        first, last = (re.fullmatch(r"(\d+)(?:-(\d+))?", meters)).groups()
        start, step = (re.fullmatch(r"(-?\d+)(?:\+(\d+))?", reading)).groups()
        given = {name: int(value) for name, value in zip(more[::2], more[1::2], strict=True)}
        assert given.keys() <= {"stamp", "number", "lane"}, f"{self.name}: {more}"
        for place, meter in enumerate(range(int(first), int(last or first) + 1)):
            entry = ENTRY.pack(
                given.get("stamp", STAMPS[table] + meter),
                given.get("number", meter + 1),
                int(start) + place * int(step or 0),
                CODES[medium],
                given.get("lane", meter % 8),
                1,
                0,
            )
            self.tables[table][meter * ENTRY.size : (meter + 1) * ENTRY.size] = entry

    def read(self, line, folder):
        """A line of the list."""
        word, *words = line.split()
        if word in TABLES:
            self.put(word, *words)
        elif word == "byte":
            table, meter, offset, value = words
            self.tables[table][int(meter) * ENTRY.size + int(offset)] = int(value)
        elif word == "swap":
            self.order.reverse()
        elif word == "pieces":
            self.pieces = [int(size) for size in words]
        elif word == "prints":
            # The lines behind, or those of a file.
            self.prints = ""
            if words:
                with open(os.path.join(folder, words[0]), encoding="ascii") as file:
                    self.prints = file.read()
        else:
            assert word in ("cut", "more", "zeros", "table"), f"{self.name}: {line}"
            self.changes.append((word, words))

    def input(self):
        """The bytes that the program reads."""
        data = b"".join(self.tables[table] for table in self.order)
        for word, words in self.changes:
            if word == "cut":
                data = data[: int(words[0])]
            elif word == "more":
                data += bytes.fromhex(" ".join(words))
            elif word == "zeros":
                data += bytes(int(words[0]))
            else:
                data += self.tables[words[0]]
        return data


def cases(path):
    """The cases of a list."""
    out = []
    with open(path, encoding="ascii") as file:
        for line in file.read().splitlines():
            if line.startswith("case "):
                out.append(Case(line.removeprefix("case ")))
            elif line.startswith("    "):
                out[-1].prints += line.removeprefix("    ") + "\n"
            elif line and not line.startswith("#"):
                out[-1].read(line, os.path.dirname(path))
    assert out and all(case.prints for case in out), "a case that prints nothing"
    return out


class Run:
    """The program, once; what it prints goes to files, so that it never waits for us."""

    def __init__(self, program, stdin):
        self.out, self.err = tempfile.TemporaryFile(), tempfile.TemporaryFile()
        self.process = subprocess.Popen([program], stdin=stdin, stdout=self.out, stderr=self.err)

    def end(self):
        """What was printed, beside it, and the exit status."""
        status = self.process.wait()
        texts = []
        for file in (self.out, self.err):
            file.seek(0)
            texts.append(file.read())
            file.close()
        return texts[0], texts[1], status


def from_file(program, data):
    with tempfile.TemporaryFile() as file:
        file.write(data)
        file.seek(0)
        return Run(program, file).end()


def through_pipe(program, data, sizes):
    """Through a pipe, at once or a piece at a time, with a pause behind each so that the program meets them singly."""
    read, write = os.pipe()
    run = Run(program, read)
    os.close(read)
    turn, at = 0, 0
    try:
        while at < len(data):
            size = sizes[turn % len(sizes)] if sizes else len(data)
            at += os.write(write, data[at : at + size])
            turn += 1
            if sizes:
                time.sleep(0.0003)
    except BrokenPipeError:
        sys.exit(f"the program does not read all of its input: {at} of {len(data)} bytes were written")
    finally:
        os.close(write)
    return run.end()


def main():
    program, path = sys.argv[1:]
    program = os.path.abspath(program)
    refusals, statuses, splits, pieces, longest = {}, set(), 0, 0, 0
    listed = cases(path)
    for case in listed:
        data = case.input()
        ways = [("from a file", from_file(program, data)), ("through a pipe", through_pipe(program, data, []))]
        if case.pieces:
            ways.append(("in pieces", through_pipe(program, data, case.pieces)))
            pieces += 1
        for way, (out, err, status) in ways:
            said = f"{case.name}, {way}:"
            if out != case.prints.encode("ascii"):
                sys.exit(f"{said} it prints\n{out.decode(errors='replace')}and should print\n{case.prints}")
            if err:
                sys.exit(f"{said} beside that it prints {err!r}")
            if status < 0:
                sys.exit(f"{said} it is ended by signal {-status}")
            if case.prints.startswith("refused "):
                statuses.add(status)
            elif status != 0:
                sys.exit(f"{said} it prints a split and ends with {status}")
        longest = max(longest, len(data))
        if case.prints.startswith("refused "):
            number = case.prints.split()[1]
            refusals[number] = refusals.get(number, 0) + 1
        else:
            splits += 1
    if len(statuses) != 1 or sorted(refusals) != ["18", "19", "4"]:
        sys.exit(f"refusals {refusals} with the exit statuses {statuses}")
    counted = ", ".join(f"{refusals[number]} with {number}" for number in ("4", "18", "19"))
    print(
        f"heatsplit: {len(listed)} inputs, each from a file and through a pipe, {pieces} in small pieces too: {splits} split, "
        f"refused {counted} (exit status {statuses.pop()}); every byte printed as the list says"
    )
    print(f"heatsplit: all of the input is read, up to {longest} bytes: no writer saw a broken pipe")


main()
