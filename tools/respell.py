#!/usr/bin/env python3
"""Brings the repository's own definitions and lemmas to today's spelling, once, after port.py.

usage: python3 tools/respell.py [--dry]     at the top of the repository

Words (definitions, lemmas, fields, constructors) are in snake case, types and facts in camel case. Names of Rust
code, of the library and of goals stay. A name that is declared here is respelt wherever it stands in specs/, proofs/
and the ghost parts of src/; strings and imports from the library stay. It refuses to run where two names of one file
would fall together.
"""

import glob
import re
import sys

WORD = r"[A-Za-z_α-ωΑ-Ω][\w'′-]*"
DECLARED = re.compile(r"^(\s*)((?:(?:pub|abbrev|unfoldable|data|record|let)\s+)*)(" + WORD + r")(?:\s[^:=]*)? : (.*)$")
LET = re.compile(r"\blet (" + WORD + r") : ")
TOKEN = re.compile(r"(?<![\w'′«-])" + WORD)
# Names that would fall together with another of their file, each with the name it gets there.
APART = {
    "crates/layers/proofs/Joining.antt": {"first_alone": "first_alone_lem", "second-alone": "second_alone_lem"},
    "crates/layers/proofs/Marking.antt": {"bit-or": "bit_of_or"},
    "crates/texts/proofs/Spacing.antt": {"on-space": "on_space_lem"},
    "crates/whole/proofs/Wholes.antt": {"gaps-from": "gaps_from_lem"},
}
IMPORT = re.compile(r"^(?:ghost )?use ([\w.'·-]+)\.\{(.*?)\};?$")


def files(kind):
    out = []
    for root in ("specs", "proofs"):
        out += glob.glob(f"crates/*/{root}/**/*.antt", recursive=True)
    if kind == "all":
        out += glob.glob("crates/*/src/**/*.rt", recursive=True)
    return sorted(out)


def is_ours(module, crates):
    m = re.match(r"Rattle\.(\w+)\.(specs|proofs)\b", module)
    return bool(m) and m.group(1) in crates


def spelt(name):
    """The name in today's spelling."""
    parts = name.split("-")
    if re.match(r"[A-Z]", name):
        return "".join(p[:1].upper() + p[1:] for p in parts) if len(parts) > 1 else name
    words = [re.sub(r"(?<=[a-z0-9])([A-Z])", lambda m: "_" + m.group(1).lower(), p) for p in parts]
    return "_".join(words)


def declared(text):
    found = set()
    for line in text.split("\n"):
        if line.startswith("use ") or line.lstrip().startswith("--"):
            continue
        m = DECLARED.match(line)
        if m and not m.group(4).startswith("goal."):
            found.add(m.group(3))
        found.update(LET.findall(line))
    return found


def imported(text, crates):
    """Names that a file takes from the library."""
    out = set()
    for line in text.split("\n"):
        m = IMPORT.match(line.strip())
        if m and not is_ours(m.group(1), crates):
            for item in m.group(2).split(","):
                out.add(item.strip().split(" as ")[-1].strip())
    return out


def main():
    crates = {p.split("/")[1] for p in glob.glob("crates/*/src")}
    texts = {p: open(p, encoding="utf-8").read() for p in files("all")}
    ours, theirs = set(), set()
    for p, t in texts.items():
        if p.endswith(".antt"):
            ours |= declared(t)
        theirs |= imported(t, crates)
    table = {n: spelt(n) for n in ours if spelt(n) != n}
    for n in sorted(set(table) & theirs):
        print("kept, since the library has it:", n)
        del table[n]
    bad = 0
    new = {}
    for p, t in texts.items():
        table_here = table | APART.get(p, {})
        before = set(TOKEN.findall(strip(t)))
        after = {}
        for w in before:
            after.setdefault(table_here.get(w, w), set()).add(w)
        for w, olds in sorted(after.items()):
            if len(olds) > 1:
                print(f"{'look' if p.endswith('.rt') else 'together'}: {p}: {sorted(olds)} -> {w}")
                bad += p.endswith(".antt")
        new[p] = turned(t, table_here, p.endswith(".rt"))
    if "--table" in sys.argv:
        for n in sorted(table):
            print(n, table[n])
    if "--dry" in sys.argv:
        return 0
    for p, t in new.items():
        if t != texts[p]:
            open(p, "w", encoding="utf-8").write(t)
    print(f"{len(table)} names, {sum(new[p] != texts[p] for p in texts)} files; {bad} that may fall together")
    return 0


def strip(text):
    return re.sub(r'b?"(?:[^"\\\n]|\\.)*"', '""', text)


def turned(text, table, source):
    """The text with each name respelt. A part of a path behind a step of a proof (`c.`, `goal.`) stays."""
    out = []
    for line in text.split("\n"):
        pieces = re.split(r'(b?"(?:[^"\\\n]|\\.)*")', line) if source else [line]
        for i, piece in enumerate(pieces):
            if source and i % 2:
                continue

            def one(m):
                w = m.group(0)
                if w not in table:
                    return w
                head = piece[: m.start()]
                if head.endswith("goal.") or re.search(r"(?<![\w'-])c\.$", head) or re.search(r"(?<![\w'-])c\.[\w'.-]*\.ensures\.$", head):
                    return w
                return table[w]

            pieces[i] = TOKEN.sub(one, piece)
        out.append("".join(pieces))
    return "\n".join(out)


if __name__ == "__main__":
    raise SystemExit(main())
