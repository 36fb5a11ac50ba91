#!/usr/bin/env python3
"""A year's heat split as a person asks for it, over pairs of tables drawn from a fixed seed: the lines are those of a plain
computation and of the program heatsplit, where that is built, and what is shown beside the bars are the very same numbers.

    heat.py PROGRAM HEATSPLIT
"""

import os
import random
import re
import subprocess
import sys
import tempfile

METERS = 256
ENTRY = 24
HEAT = 3
PAIRS = 400
WIDTH = 100
ROW = re.compile(r" *(\w+) +(-?\d+)  kWh +(\d+)\.(\d{4}) %(?:  (#+|negative use))?$")


class Wrong(Exception):
    """The program says something else than it should."""


def table(entries):
    """A plain table of meters, each with a code and a reading."""
    out = bytearray(METERS * ENTRY)
    for meter, (code, reading) in entries.items():
        text = (1735689600).to_bytes(8, "little") + meter.to_bytes(8, "little") + reading.to_bytes(4, "little", signed=True)
        out[meter * ENTRY:(meter + 1) * ENTRY] = text + bytes([code, meter % 8, 1, 0])
    return bytes(out)


def split(start, end):
    """What heatsplit prints of two tables' meters: whole lines."""
    both = [meter for meter in range(METERS) if meter in start and meter in end]
    if any((start[meter][0] == HEAT) != (end[meter][0] == HEAT) for meter in both):
        return "refused 18\n"
    used = {meter: end[meter][1] - start[meter][1] for meter in both if start[meter][0] == HEAT}
    total = sum(max(kwh, 0) for kwh in used.values())
    if total == 0:
        return "refused 19\n"
    shares = {meter: max(kwh, 0) * 1_000_000 // total for meter, kwh in used.items()}
    largest = sorted(used, key=lambda meter: (-(max(used[meter], 0) * 1_000_000 % total), meter))
    for meter in largest[: 1_000_000 - sum(shares.values())]:
        shares[meter] += 1
    return "meter,used,share\n" + "".join(f"{meter},{used[meter]},{shares[meter]}\n" for meter in used)


def drawn(draw):
    """The meters of two tables: few or many, with changed ones now and then, and some that are in one alone."""
    start, end = {}, {}
    changes, wild, still = draw.random() < 0.3, draw.random() < 0.2, draw.random() < 0.1
    for meter in draw.sample(range(METERS), draw.choice([1, 4, 30, METERS])):
        code = draw.choice([HEAT, HEAT, 1, 2, 4])
        reading = draw.randint(-(2**31), 2**31 - 1) if wild else draw.randint(0, 9000)
        later = draw.randint(-(2**31), 2**31 - 1) if wild else reading + draw.choice([0, 1, 7, 900, -3])
        if draw.random() < 0.9:
            start[meter] = code, reading
        if draw.random() < 0.9:
            end[meter] = draw.randint(1, 4) if changes and draw.random() < 0.1 else code, reading if still else later
    return start, end


def run(words, stdin=None):
    return subprocess.run(words, input=stdin, stdin=None if stdin is not None else subprocess.DEVNULL, capture_output=True)


def check(fine, what):
    if not fine:
        raise Wrong(what)


def seen(text, start, end, shown, where):
    """What is shown of a split has the numbers of its lines, a bar beside each share and the meters left out, and fits the screen."""
    lines = [tuple(map(int, line.split(","))) for line in text.splitlines()[1:]]
    rows = shown.splitlines()
    check(rows[0].split() == ["meter", "used", "unit", "share"], f"{where}: {rows[0]!r}")
    greatest = max(share for _, _, share in lines)
    bars = []
    for (meter, used, share), row in zip(lines, rows[1:]):
        found = ROW.fullmatch(row)
        check(found, f"{where}: {row!r}")
        name, kwh, whole, parts, beside = found.groups()
        check((int(name), int(kwh), int(whole + parts)) == (meter, used, share), f"{where}: {row!r} of {meter},{used},{share}")
        check((beside == "negative use") == (used < 0), f"{where}: {row!r}")
        check(used < 0 or bool(beside) == (share > 0), f"{where}: {row!r}")
        if used >= 0:
            bars.append((share, len(beside or "")))
    check(all(a[1] <= b[1] for a, b in zip(sorted(bars), sorted(bars)[1:])), f"{where}: bars out of order: {bars}")
    check(max(bars)[0] == greatest and max(bars)[1] >= 40, f"{where}: the longest bar: {max(bars)}")
    total = sum(max(used, 0) for _, used, _ in lines)
    found = ROW.fullmatch(rows[len(lines) + 1])
    check(found and found.groups() == ("total", str(total), "100", "0000", None), f"{where}: {rows[len(lines) + 1]!r}")
    count = "1 heat meter" if len(lines) == 1 else f"{len(lines)} heat meters"
    check(rows[len(lines) + 2] == f"{count} in both tables", f"{where}: {rows[len(lines) + 2]!r}")
    notes = "\n".join(rows[len(lines) + 3:]).replace("\n    ", " ").split("\n")
    wanted = []
    for begin, behind, meters in (
        ("negative use: meter", "w", [meter for meter, used, _ in lines if used < 0]),
        ("not in both: heat meter", "", sorted(meter for meter in start if start[meter][0] == HEAT and meter not in end)),
        ("not in both: heat meter", "", sorted(meter for meter in end if end[meter][0] == HEAT and meter not in start)),
    ):
        if meters:
            wanted.append(f"{begin}{'s' if len(meters) > 1 else ''} {', '.join(map(str, meters))} {behind}")
    fits = len(notes) == max(len(wanted), 1) and all(note.startswith(begin) for note, begin in zip(notes, wanted or [""]))
    check(fits and (wanted or not notes[0]), f"{where}: {notes}, and not {wanted}")
    check(all(len(row) <= WIDTH for row in rows), f"{where}: wider than {WIDTH} columns")


def pair(program, heatsplit, start, end, where):
    """Holds a pair of tables, in files a and b, to what is expected. The number, 0 for a split."""
    wanted = split(start, end)
    lines, shown = run([program, "heat", "--lines", "a", "b"]), run([program, "heat", "a", "b"])
    if heatsplit:
        printed = run([heatsplit], table(start) + table(end)).stdout.decode()
        check(printed == wanted, f"{where}: heatsplit prints {printed!r} and not {wanted!r}")
    if wanted.startswith("refused"):
        number = int(wanted.split()[1])
        for said in (lines, shown):
            check((said.returncode, said.stdout) == (1, b""), f"{where}: {said}")
            words = said.stderr.decode()
            check(words.startswith(f"paviluko: refused: {number}, ") and "\nwhy: " in words, f"{where}: {words!r}")
        return number
    for said in (lines, shown):
        check((said.returncode, said.stderr) == (0, b""), f"{where}: {said}")
    check(lines.stdout.decode() == wanted, f"{where}: {lines.stdout.decode()!r} and not {wanted!r}")
    seen(wanted, start, end, shown.stdout.decode(), where)
    return 0


def main():
    program, heatsplit = map(os.path.abspath, sys.argv[1:])
    heatsplit = heatsplit if os.path.exists(heatsplit) else None
    draw = random.Random(5)
    numbers = {0: 0, 18: 0, 19: 0}
    with tempfile.TemporaryDirectory() as folder:
        os.chdir(folder)
        try:
            for at in range(PAIRS):
                start, end = drawn(draw)
                for name, entries in (("a", start), ("b", end)):
                    with open(name, "wb") as file:
                        file.write(table(entries))
                numbers[pair(program, heatsplit, start, end, f"pair {at}")] += 1
            check(min(numbers.values()) >= 10, f"too few of a kind: {numbers}")
        except Wrong as wrong:
            print(wrong, file=sys.stderr)
            sys.exit(1)
        finally:
            os.chdir("/")
    by = "by heatsplit and a plain computation" if heatsplit else "by a plain computation (heatsplit is not built)"
    print(f"program: heat: {PAIRS} pairs of tables as {by}: {numbers[0]} split, {numbers[18]} refused with 18, {numbers[19]} with 19")


if __name__ == "__main__":
    main()
