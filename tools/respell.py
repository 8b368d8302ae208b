#!/usr/bin/env python3
"""Spells this repository's own definitions and lemmas as today's Rattle does: words in snake case, no dash within a name of ours.

usage: python3 tools/respell.py            at the top of the repository, once, after the kit's port.py

tools/respell.tsv has a row for each name: old, a tab, new. A lemma that would have a definition's name ends in `_lem`.
- A name with a capital within it is ours wherever it stands: it turns in every .antt, .rt, .edit and .md file.
- A name with a dash turns where it is ours: in a file that declares it or imports it from a crate of crates.txt, and behind a dot or before
  a '=' if it is a field that specs/ declares. In comments and pages it turns between backticks.
Functions, fields and variables of src/, and the labels that Rattle makes of them, keep their names.
"""

import os
import re

HERE = os.path.dirname(os.path.realpath(__file__))
TOP = os.path.dirname(HERE)
WORD = re.compile(r"[^\s(){}.;,@\"«»|`\[\]:]+")
DECLARED = re.compile(r"^(\s*)(?:where\s+)?((?:(?:unfoldable|abbrev|pub|pattern|axiom)\s+)*)(?:(record|data)\s+)?([^\s:(){}«»\"]+)\s*(?:\{[^}]*\}\s*)?:\s")
USE = re.compile(r"use\s+Rattle\.(\w+)((?:\.[\w'-]+)*)\.\{([^}]*)\}")
SPAN = re.compile(r"`[^`\n]*`")

with open(os.path.join(HERE, "respell.tsv"), encoding="utf-8") as f:
    TABLE = dict(line.rstrip("\n").split("\t") for line in f if line.strip())
CAMEL = {a: b for a, b in TABLE.items() if re.search(r"[a-z][A-Z]", a) and a[0].islower()}
CAMEL["getD"] = "get_or"
with open(os.path.join(TOP, "crates.txt"), encoding="utf-8") as f:
    OWN = {re.match(r"\w+", line)[0] for line in f if re.match(r"\w", line)}


def files(folder, ends):
    for where, dirs, names in os.walk(os.path.join(TOP, folder)):
        dirs[:] = sorted(d for d in dirs if d not in ("out", "target", ".git"))
        for name in sorted(names):
            if name.endswith(ends):
                yield os.path.join(where, name)


def read(path):
    with open(path, encoding="utf-8") as f:
        return f.read()


def declared(text):
    return [m[4] for m in map(DECLARED.match, text.splitlines()) if m]


def imported(text):
    names = set()
    for crate, _, items in USE.findall(text):
        if crate in OWN:
            names |= {w for item in items.split(",") for w in item.split()[:1]}
    return names


FIELDS = {n for p in files("crates", ".antt") if "/specs/" in p for n in declared(read(p))}


def turn(text, scope):
    """Each word of text that is in the table and ours here."""

    def word(m):
        w = m[0]
        bare = w.rstrip("'")
        tail = w[len(bare):]
        if bare in CAMEL:
            return CAMEL[bare] + tail
        behind = text[m.start() - 1: m.start()] == "."
        field = behind or re.match(r" +=", text[m.end():])
        if bare in TABLE and (bare in FIELDS and field or not behind and bare in scope):
            return TABLE[bare] + tail
        return w

    return WORD.sub(word, text)


def spans(text, scope=None):
    """The words between backticks, and bare words with a capital within them."""
    everything = set(TABLE)
    text = SPAN.sub(lambda m: turn(m[0], everything if scope is None else scope), text)
    return WORD.sub(lambda m: CAMEL.get(m[0], m[0]), text)


def antt(text):
    scope = (set(declared(text)) | imported(text) | {"now-image", "now-s", "now-to"}) & set(TABLE)
    out = []
    for line in text.split("\n"):
        at = re.search(r"(?:^|(?<=\s))--(?=\s|$)", line)
        code, comment = (line[: at.start()], line[at.start():]) if at else (line, "")
        out.append(turn(code, scope) + spans(comment))
    return "\n".join(out)


def main():
    texts = {p: read(p) for p in files("crates", (".antt", ".rt", ".edit"))}
    for path, text in texts.items():
        if path.endswith(".antt"):
            new = antt(text)
        elif path.endswith(".rt"):
            scope = imported(text) & set(TABLE)
            new = "\n".join(spans(turn(line, scope) if "//" not in line else line) for line in text.split("\n"))
        else:
            new = turn(text, set(TABLE))
        if new != text:
            with open(path, "w", encoding="utf-8") as f:
                f.write(new)
    for path in list(files("docs", ".md")) + [os.path.join(TOP, n) for n in ("README.md", "CONTRIBUTING.md")]:
        text = read(path)
        new = spans(text)
        if new != text:
            with open(path, "w", encoding="utf-8") as f:
                f.write(new)


if __name__ == "__main__":
    main()
