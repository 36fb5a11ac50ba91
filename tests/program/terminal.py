#!/usr/bin/env python3
"""The program at a terminal: its line editor, its colours, its bars, and the terminal left as it was found.

    terminal.py PROGRAM
"""

import os
import signal
import subprocess
import sys
import tempfile
import termios
import time

from sessions import PLAIN, PROMPT, SECONDS, Terminal, Wrong

# What is typed, and how the answer begins. Up goes back to the line before.
TYPED = [
    ("sattus\x1b[D\x1b[D\x1b[D\x1b[D\x1b[D\x1b[3~\x05\x1b[D\x1b[D\x1b[D\x08ta\n", "box        "),
    ("tart\x01s\n", "in service after 15 stores"),
    ("take 0 100 5=1:7x\x7f\n", "visible: lane 0, number 1, 1 reading"),
    ("\x1b[A\x17\x17200 5=1:8\n", "visible: lane 0, number 2, 1 reading"),
    ("\x1b[A\x1b[A\x1b[B\x1b[A\x1b[H\x1b[C\x1b[C\x1b[C\x1b[C\x1b[C\x1b[3~1\n", "visible: lane 1, number 1, 1 reading"),
    ("nonsense é\x15tab\t--c\t\n", "meter,code,reading,stamp,lane,number,medium,unit,utc\n5,1,8,200,0,2,"),
    ("not this\x03status\x0b\n", "box        "),
    ("copy-card \u6c34" + "x" * 90 + "\x17a-copy\n", "card copied to a-copy"),
    ("swap-card a-c\t\n", "card in the box: a-copy: 3 records"),
    ("\xe9\n", "unknown command: \xe9"),
]


def check(fine, what):
    if not fine:
        raise Wrong(what)


def state(terminal):
    """How the terminal is set."""
    return termios.tcgetattr(terminal.side)


def session(program, folder, around):
    terminal = Terminal(f"exec {program} run box", folder, around)
    terminal.wait()
    return terminal


def answer(terminal, text):
    """What is said to a line that is typed."""
    before = len(terminal.shown)
    terminal.type(text)
    return terminal.shown[before:].split("\n", 1)[1]


def edited(program, folder):
    """Lines typed with mistakes, and mended."""
    terminal = session(program, folder, PLAIN)
    try:
        for text, begin in TYPED:
            said = answer(terminal, text)
            if "\x03" in text:
                said = said.split("\n", 1)[1]
            check(said.startswith(begin), f"typed {text!r}, and the answer is {said!r}")
        # More than a line of a command may have.
        said = answer(terminal, "x" * 70_000 + "\n")
        check("a line of more than 65536 bytes is no command" in said, said[-200:])
        # Ctrl-D deletes in a line, and ends the session on an empty one.
        os.write(terminal.side, b"xy\x01\x04\x04")
        terminal.type("\x04")
        check(terminal.ended, "Ctrl-D did not end the session")
    finally:
        status = terminal.close()
    check(status == 0, f"exit status {status}")
    return len(TYPED)


def put_back(program, folder):
    """The terminal is as it was while a command runs, at the end, and after a signal at the prompt."""
    for end in ("quit", signal.SIGTERM, signal.SIGINT):
        terminal = Terminal(f"sleep 0.1; {program} run box; read line", folder, PLAIN)
        try:
            found = state(terminal)
            terminal.wait()
            check(state(terminal) != found, "the terminal does not hand over every key at the prompt")
            if end == "quit":
                os.write(terminal.side, b"quit\n")
            else:
                with open(f"/proc/{terminal.process}/task/{terminal.process}/children", encoding="ascii") as children:
                    os.kill(int(children.read()), end)
            until = time.monotonic() + SECONDS
            while state(terminal) != found and time.monotonic() < until:
                time.sleep(0.01)
            check(state(terminal) == found, f"the terminal is not as it was found after {end}")
        finally:
            terminal.close()


def colours(program, folder):
    """Colours on a terminal alone, and not where they are not wanted."""
    for around, wanted in [
        ({"TERM": "xterm"}, True),
        ({"TERM": "xterm", "NO_COLOR": "1"}, False),
        ({"TERM": "dumb"}, False),
        ({}, False),
    ]:
        terminal = session(program, folder, around)
        try:
            shown = answer(terminal, "take 0 1 5=1:1\n") + answer(terminal, "start\n") + answer(terminal, "table\n")
            shown += answer(terminal, "take 0 1 5=1:1\n")
        finally:
            terminal.close()
        shown = shown.replace(PROMPT, "")
        for part in ("\x1b[31mthe box has no power", "\x1b[1mmeter  medium", "\x1b[33mwarning: stamp 1 "):
            check((part in shown) == wanted, f"{around}: {part!r} in {shown!r}")
        check(wanted or "\x1b" not in shown, f"{around}: {shown!r}")
    around = {name: value for name, value in os.environ.items() if name != "NO_COLOR"} | {"TERM": "xterm"}
    lines = "take 0 1 5=1:1\nstart\ntable\n"
    piped = subprocess.run([program, "run", "box"], input=lines, cwd=folder, env=around, capture_output=True, text=True)
    check("the box has no power" in piped.stdout and "\x1b" not in piped.stdout, f"in a pipe: {piped.stdout!r}")


def bars(program, folder):
    """Bars of blocks where the terminal shows them, as wide as it is; of # elsewhere; none where there is no room."""
    lines = "start\ntake 0 1 4=3:0 9=3:0\ntable --plain a\ntake 0 2 4=3:3 9=3:1\ntable --plain b\n"
    subprocess.run([program, "new", "house"], cwd=folder, check=True, stdout=subprocess.DEVNULL)
    subprocess.run([program, "run", "house"], input=lines, cwd=folder, check=True, capture_output=True, text=True)
    blocks, signs = ("█" * 50, "█" * 16 + "▋"), ("#" * 50, "#" * 17)
    for around, columns, wanted in [
        (PLAIN, 0, blocks),
        (PLAIN, 200, blocks),
        (PLAIN | {"LC_ALL": "de_DE.utf8"}, 100, blocks),
        (PLAIN, 60, ("█" * 29, "█" * 9 + "▋")),
        (PLAIN, 36, ("█" * 5, "█" * 1 + "▋")),
        (PLAIN, 35, ("", "")),
        (PLAIN, 10, ("", "")),
        (PLAIN | {"LC_ALL": "C"}, 100, signs),
        (PLAIN | {"LC_ALL": "C"}, 60, ("#" * 29, "#" * 10)),
        (PLAIN | {"TERM": "dumb"}, 100, signs),
    ]:
        terminal = Terminal(f"exec {program} heat a b", folder, around, columns)
        try:
            terminal.wait()
        finally:
            status = terminal.close()
        first, second = wanted
        shown = [
            "meter  used  unit       share",
            f"    4     3  kWh    75.0000 %  {first}".rstrip(),
            f"    9     1  kWh    25.0000 %  {second}".rstrip(),
            "total     4  kWh   100.0000 %",
            "2 heat meters in both tables",
            "",
        ]
        check(status == 0 and terminal.shown.split("\n") == shown, f"{around}, {columns} columns: {terminal.shown!r}")


def main():
    program = os.path.abspath(sys.argv[1])
    with tempfile.TemporaryDirectory() as folder:
        subprocess.run([program, "new", "box"], cwd=folder, check=True, stdout=subprocess.DEVNULL)
        try:
            lines = edited(program, folder)
            put_back(program, folder)
            colours(program, folder)
            bars(program, folder)
        except Wrong as wrong:
            print(wrong, file=sys.stderr)
            sys.exit(1)
    print(f"program: {lines} lines typed and mended at a terminal, which is left as it was found; colours and blocks there alone")


if __name__ == "__main__":
    main()
