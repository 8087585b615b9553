#!/usr/bin/env python3
"""Brings the repository's own definitions and lemmas to today's spelling, once, after port.py: words in snake case.

usage: python3 tools/respell.py        at the top of the repository

A word in camel case, as systemOf, becomes system_of. In a name of specs/ each dash becomes _. Of a lemma's name, as zero-at, a dash stays
where it joins two names of definitions, as in truth-bit, and becomes _ elsewhere. A lemma that would fall together with
another name gets _lem, and a constructor of specs/ _case. It turns specs/, proofs/,
the clauses and ghost items of src/, the must-fail edits, and names between back quotes in the pages. It goes by spelling alone.
"""

import collections
import os
import re
import sys

WORD = r"[^\s(){}.;,@\"«»\[\]|`]+"
QUIET = re.compile(r'"(?:[^"\\\n]|\\.)*"')
NOTE = re.compile(r"(?:(?<=\s)|^)--.*$")
PLACE = re.compile(r"Rattle(?:\.[^\s.{};,]+)+")
PLAIN = set(
    "length take drop append set sets get_or map reverse sum min max replicate suc cond not all any mod div pow bits items".split()
)


def files(root, folders, endings):
    for top in folders:
        for folder, inner, names in os.walk(os.path.join(root, top)):
            inner[:] = sorted(i for i in inner if i not in ("out", "target", ".git"))
            for name in sorted(names):
                if name.endswith(endings):
                    yield os.path.join(folder, name)


def read(path):
    with open(path, encoding="utf-8") as f:
        return f.read()


def is_walk(path):
    return os.path.basename(path) == "Proof.antt"


def bare(text):
    return "\n".join(NOTE.sub("", QUIET.sub('""', line)) for line in text.split("\n"))


def declared(text):
    """The names that a file of antt declares: a line that is a name or names and then a type."""
    for line in bare(text).split("\n"):
        if re.match(r"\s*(use|module|where|let|in|elim|pub mod|mod)\b", line):
            continue
        found = re.match(
            r"(\s*)(?:abbrev )?(?:unfoldable )?(pub )?(?:data |record )?([^\s(){}.;,@\"«»:=|]+)(?:\s*[({][^=]*)?\s*:(?!:)",
            line,
        )
        if found and "=" not in line.split(":")[0]:
            yield found.group(3)


def snake(name):
    return re.sub(r"(?<=[a-z0-9])[A-Z]", lambda m: "_" + m.group(0).lower(), name)


def joined(name, words):
    """The name, its dashes turned to _ where they do not join two names of definitions."""
    parts = name.split("-")
    out = parts[0]
    for left, right in zip(parts, parts[1:]):
        out += ("-" if left in words and right in words else "_") + right
    return out


def tokens(text):
    """The words of a file of antt, but for paths and what stands behind a dot."""
    return set(re.findall(r"(?<![.\w'-])" + WORD, PLACE.sub(" ", bare(text))))


def wanted(name, words, specs):
    """The name in today's spelling."""
    parts = [snake(p) if p[:1].islower() else p for p in name.split("-")]
    return "_".join(parts) if name in specs else joined("-".join(parts), words)


def table(root):
    """Rows (old, new). Where two names of one file would fall together, the definition in camel case has the plain name."""
    seen, own, specs = {}, set(), set()
    for path in files(root, ["crates"], (".antt",)):
        text = read(path)
        seen[path] = tokens(text)
        if not is_walk(path):
            names = set(declared(text))
            own |= names
            if "/specs/" in path:
                specs |= names
    words = {snake(n) for n in specs if "-" not in n} | PLAIN
    groups = collections.defaultdict(list)
    for name in sorted(own):
        if re.fullmatch(r"[A-Za-z][A-Za-z0-9_'-]*", name):
            groups[wanted(name, words, specs)].append(name)
    for new, names in sorted(groups.items()):
        # camel case first, then names that stay, then names with dashes
        names.sort(key=lambda n: (not re.match(r"[a-z][a-z0-9]*[A-Z]", n), "-" in n, n))
        given = []
        for name in names:
            to = new
            while any(t == to and any(o in s and name in s for s in seen.values()) for o, t in given):
                to += "_case" if name in specs else "_lem"
            given.append((name, to))
            if to != name:
                yield name, to


def turned(text, rows, steps=()):
    """The text with each word of the table turned. In a walk through code a name behind a dot may be a step of the code: that stays."""

    def one(m):
        behind = m.start() and m.string[m.start() - 1] == "."
        step = behind and m.group(0).replace("-", "_").rstrip("0123456789") in steps
        return m.group(0) if step else rows.get(m.group(0), m.group(0))

    return re.sub(WORD, one, text)


def turned_code(text, rows, steps=()):
    """All but quoted text and paths."""
    pieces = re.split(r'(b?"(?:[^"\\\n]|\\.)*"|Rattle(?:\.[^\s.{};,]+)+)', text)
    return "".join(p if k % 2 else turned(p, rows, steps) for k, p in enumerate(pieces))


def turned_page(text, rows):
    return re.sub(r"`[^`\n]+`", lambda m: turned(m.group(0), rows), text)


def write(path, old, new):
    if old != new:
        with open(path, "w", encoding="utf-8") as f:
            f.write(new)


def main():
    root = os.getcwd()
    rows = dict(table(root))
    if "--table" in sys.argv:
        print("\n".join(a + "\t" + b for a, b in sorted(rows.items())))
        return
    steps = set()
    for path in files(root, ["crates"], (".rt",)):
        steps.update(re.findall(r"\bfn ([a-z_0-9]+)", read(path)))
    code = {a: b for a, b in rows.items() if "-" in a or re.search("[A-Z]", a)}
    for path in files(root, ["crates"], (".antt", ".rt", ".edit")):
        text = read(path)
        # in src/ a name without a capital or a dash is Rust's
        write(path, text, turned_code(text, code if path.endswith(".rt") else rows, steps if is_walk(path) else ()))
    for path in files(root, ["docs"], (".md",)):
        text = read(path)
        write(path, text, turned_page(text, rows))
    for name in ("README.md", "bench/README.md", "tests/README.md"):
        path = os.path.join(root, name)
        if os.path.exists(path):
            text = read(path)
            write(path, text, turned_page(text, code))


if __name__ == "__main__":
    main()
