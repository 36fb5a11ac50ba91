#!/usr/bin/env python3
"""Brings the names of this repository's definitions and lemmas to one spelling: snake case, as today's Rattle has them.

usage: python3 tools/respell.py [--list]        at the top of the repository, once, on what port.py left

A name is turned where a file of specs/ or proofs/ defines it (a definition, a lemma, a field, a constructor, a variable) and it has a
capital or a hyphen inside: `cardAfter` and `card-after` are `card_after`. Where a lemma and a definition would fall together, the lemma
is `card_after_law`. Types, modules and what the library or the checker names stay; so does all Rust text but for clauses and `ghost use`
lines. Edits in must-fail/ are not turned here. --list prints the pairs and writes nothing.
"""
import os
import re
import sys

ID = r"[^\W\d][\w'₀-₉-]*"
TOKEN = re.compile(r"(?<![\w'₀-₉-])" + ID)
OF_A_FUNCTION = re.compile(r"/(Proof|Answers|Invariants)\.antt$")
COMMENT = re.compile(r"(?m)(?<!\S)--(?=\s|$).*$")
USE = re.compile(r"(?m)^\s*(?:pub )?use ([^\s{;]+?)(?:\.\{([^}]*)\})?(?: as \S+)?;?\s*$")
HEADS = r"(?:(?:abbrev|unfoldable|pub|record|data|ruleset)\s+)*"
# Definitions in camel case that met a lemma which port.py had turned already: the lemma makes room.
MADE_ROOM = ["digits_of", "end_to_end", "in_order", "laid_out", "step_by", "up_to"]


def crates():
    with open("crates.txt", encoding="utf-8") as f:
        lines = [l.split("#")[0] for l in f]
    return {l.split(":")[0].split()[0] for l in lines if ":" in l}


def files(ending):
    for folder, dirs, names in os.walk("crates"):
        dirs[:] = sorted(d for d in dirs if d != "out")
        for n in sorted(names):
            if n.endswith(ending):
                yield os.path.join(folder, n)


def read(path):
    with open(path, encoding="utf-8") as f:
        return f.read()


def turned(name):
    s = name.replace("-", "_")
    s = re.sub(r"([a-z0-9])([A-Z])", r"\1_\2", s)
    s = re.sub(r"([A-Z])([A-Z][a-z])", r"\1_\2", s)
    return s.lower()


def defined(texts, own_crates):
    """The names that files define, those of fields, and those that other libraries define."""
    own, fields, foreign = set(), set(), set()
    for path, text in texts.items():
        text = COMMENT.sub("", text)
        for m in USE.finditer(text):
            first = m[1].split(".")
            if m[2] is None or (first[0] == "Rattle" and len(first) > 1 and first[1] in own_crates):
                continue
            for n in m[2].split(","):
                foreign.add(n.split(" as ")[0].strip())
        body = USE.sub("", text)
        made = OF_A_FUNCTION.search(path)
        for m in re.finditer(r"(?m)(^|[({;,|]|\bwhere\b|\blet\b|\bin\b)(\s*)%s((?:%s\s+)*%s)\s*:(?=\s|$)(.*)" % (HEADS, ID, ID), body):
            if made and re.match(r"\s*(tie|goal|rules)\.|.*\bstatement\b", m[4]):
                continue
            own.update(m[3].split())
            if m[1] != "" or m[2].lstrip("\n") != "":
                fields.update(m[3].split())
        for m in re.finditer(r"(?:λ|\blet)\s+((?:%s\s+)*%s)\s*(?:[.=:])" % (ID, ID), body):
            own.update(m[1].split())
        for m in re.finditer(r"(?m)^\s+(%s)((?:\s+%s)*)\s*=(?=\s|$)" % (ID, ID), body):
            own.update([m[1]] + m[2].split())
    return own, fields, foreign


def table(texts):
    own, fields, foreign = defined(texts, crates())
    names = {n for n in own if re.match(r"[a-z]", n) and turned(n) != n and n not in foreign}
    pairs = {n: turned(n) for n in names}
    pairs.update({n: turned(n) for n in ("splitBy", "the-example")})  # names by `as`, in a clause and in a proof
    pairs.update({n: n + "_law" for n in MADE_ROOM})
    taken = (own - names - set(MADE_ROOM)) | foreign
    for n in sorted(names):
        if "-" in n and (turned(n) in taken or any(turned(m) == turned(n) and "-" not in m for m in names)):
            pairs[n] = turned(n) + "_law"
    back = {}
    for a, b in pairs.items():
        back.setdefault(b, []).append(a)
    for b, a in back.items():
        if len(a) > 1 or (b in taken and b not in MADE_ROOM):
            print("fall together:", b, a, file=sys.stderr)
    return pairs, fields


def respell_antt(text, pairs, fields, made):
    out, last = [], 0
    comments = [(m.start(), m.end()) for m in COMMENT.finditer(text)]

    def in_comment(i):
        return any(a <= i < b for a, b in comments)

    for m in TOKEN.finditer(text):
        n = m[0]
        if n not in pairs:
            continue
        before = text[max(0, m.start() - 1):m.start()]
        if in_comment(m.start()):
            quoted = before in "`*" and text[m.end():m.end() + 1] in "`*"
            if "-" in n and not quoted or not re.search(r"[A-Z-]", n) and not quoted:
                continue
        elif before == ".":
            head = re.search(r"([^\s(){}\[\],;]*)\.$", text[:m.start()])
            root = head[1].split(".")[0] if head else ""
            if root in ("tie", "goal", "Tie", "Goals"):
                continue
            if made and not re.match(r"[A-Z]", root) and n not in fields:
                continue
        out.append(text[last:m.start()])
        out.append(pairs[n])
        last = m.end()
    out.append(text[last:])
    return "".join(out)


def respell_rust(text, pairs):
    def clause(m):
        return TOKEN.sub(lambda t: pairs.get(t[0], t[0]), m[0])

    text = re.sub(r"(?m)^\s*ghost use [^;]*;", clause, text)
    text = re.sub(r"(?ms)^(\s*)(requires|ensures|invariant|ghost)\b[^\n{]*\{.*?\}(?=,?[ \t]*(?:\n|$))", clause, text)
    # in comments, names with a capital inside, which no Rust name has here
    return re.sub(r"(?m)//.*$", lambda c: TOKEN.sub(lambda t: pairs.get(t[0], t[0]) if re.search("[a-z0-9][A-Z]", t[0]) else t[0], c[0]), text)


def main():
    texts = {p: read(p) for p in files(".antt")}
    pairs, fields = table(texts)
    if "--list" in sys.argv:
        for a, b in sorted(pairs.items()):
            print(a, b)
        return
    for path, text in texts.items():
        new = respell_antt(text, pairs, fields, OF_A_FUNCTION.search(path))
        if new != text:
            with open(path, "w", encoding="utf-8") as f:
                f.write(new)
    for path in files(".rt"):
        text = read(path)
        new = respell_rust(text, pairs)
        if new != text:
            with open(path, "w", encoding="utf-8") as f:
                f.write(new)


if __name__ == "__main__":
    main()
