#!/usr/bin/env python3
"""Spells the repository's own definitions and lemmas in snake case: putAt and be-below become put_at and be_below.

usage: tools/respell.py [--check] [ROOT]

It was run once, right behind the kit's port.py, which spells the library's names and only some of these. What turns: every name
that a file of specs/ or proofs/ declares and that begins with a small letter, fields and constructors among them, wherever it is
cited: in specs/, in proofs/, in the clauses and comments of src/, in must-fail edits and in the code spans of the pages.
What stays: types and modules, names from src/, a file's own labels for goals, what a goal's names are made of, and a name where
a file has it from a library. It stops, and writes nothing, if two names fall together in a file.
"""
import collections
import os
import re
import sys

TOKEN = r"[^\s(){}.;,@\"«»`]+"
DECLARED = re.compile(rf"\s*(?:(?:pub|abbrev|unfoldable|infix\w* \d+) )*({TOKEN})(?: \{{[^{{}}]*\}})* : (.*)")
BLOCK = re.compile(r"(\s*)(?:pub |private )*(?:record|data) .*where\s*$")
USE = re.compile(r"^\s*(?:pub )?use ([^\s;{]+?)(?:\.\{([^}]*)\})?(?: as ([^\s;]+))?\s*;?$", re.M)


def snake(name):
    name = re.sub(r"(?<=[a-z0-9])[A-Z]", lambda m: "_" + m[0].lower(), name)
    return name.replace("-", "_")


def texts(root, endings, below="crates"):
    for folder, dirs, files in os.walk(os.path.join(root, below)):
        dirs[:] = sorted(d for d in dirs if d not in ("out", "target", ".git"))
        for f in sorted(files):
            if f.endswith(endings):
                yield os.path.join(folder, f)


def read(path):
    with open(path, encoding="utf-8") as f:
        return f.read()


def uncomment(line):
    return re.sub(r"(?:^|(?<=\s))--.*", "", line)


def declared(root):
    """The names that the files declare, and those that are fields or constructors."""
    names, members = set(), set()
    for path in texts(root, ".antt"):
        block = None
        for line in read(path).split("\n"):
            line = uncomment(line)
            depth = len(line) - len(line.lstrip())
            if line.strip() and block is not None and depth <= block:
                block = None
            if BLOCK.match(line):
                block = depth
                continue
            m = DECLARED.match(line)
            if not m or m[1] in ("let", "in") or m[2].startswith(("tie.", "goal.")) or m[2].endswith("statement M"):
                continue
            (members if block is not None else names).add(m[1])
    return names, members


def from_library(text):
    """The names that a file has from a library, and its aliases of modules."""
    foreign, aliases = set(), set()
    for module, items, alias in USE.findall(text):
        if alias and not items:
            aliases.add(alias)
        first = module.split(".")
        own = first[0] == "Rattle" and len(first) > 1 and first[1] != "std"
        generated = own and "proofs" in first and first[-1] in ("Tie", "Statement", "Goals", "Given")
        for item in items.split(",") if items else []:
            word = item.strip().split(" as ")
            if not own or generated:
                foreign.add(word[-1])
            if len(word) == 2:
                foreign.add(word[1])
    return foreign, aliases


def turn_antt(text, rows, members, foreign, aliases, path, clash):
    kept = set()

    def word(m):
        before = m.string[: m.start()]
        name = m[0]
        if name not in rows:
            if not before.endswith("."):
                kept.add(name)
            return name
        if before.endswith("."):
            owner = re.search(rf"({TOKEN})\.$", before)
            module = re.search(r"(?:^|[\s(])((?:[A-Z][\w']*\.)*[A-Z][\w']*)\.$", before)
            if not (name in members or owner and owner[1] in aliases or module):
                return name
        elif name in foreign:
            return name
        return rows[name]

    out = []
    for line in text.split("\n"):
        code = uncomment(line)
        comment = line[len(code):]
        comment = re.sub(r"`[^`]*`", lambda m: re.sub(TOKEN, lambda w: rows.get(w[0], w[0]), m[0]), comment)
        comment = re.sub(r"[a-z]\w*[A-Z]\w*'*", lambda w: rows.get(w[0], w[0]), comment)
        out.append(re.sub(TOKEN, word, code) + comment)
    for old, new in rows.items():
        if new in kept and new not in rows and not path.endswith("/Proof.antt") and re.search(rf"(?<![^\s(){{}}.;,@\"«»`]){re.escape(old)}(?![^\s(){{}}.;,@\"«»`])", text):
            clash.append(f"{path}: {old} would meet {new}")
    return "\n".join(out)


def turn_rt(text, rows):
    def word(m):
        return rows.get(m[0], m[0])

    return re.sub(r"(?<![\w\"'])[a-z]\w*[A-Z]\w*'*(?![\w\"])", word, text)


def turn_page(text, rows):
    return re.sub(r"`[^`\n]+`", lambda m: re.sub(TOKEN, lambda w: rows.get(w[0], w[0]), m[0]), text)


def turn_edit(text, rows, members):
    antt, out = False, []
    for line in text.split("\n"):
        if line.startswith("file:"):
            antt = line.endswith(".antt")
        elif line.startswith(("old:", "new:")):
            head, rest = line[:4], line[4:]
            line = head + (turn_antt(rest, rows, members, set(), set(), "", []) if antt else turn_rt(rest, rows))
        out.append(line)
    return "\n".join(out)


def main(argv):
    check = "--check" in argv
    roots = [a for a in argv if a != "--check"]
    root = roots[0] if roots else os.path.dirname(os.path.dirname(os.path.realpath(__file__)))
    names, members = declared(root)
    rows = {n: snake(n) for n in names | members if n[0].islower() or n[0] == "Q"}
    rows = {a: b for a, b in rows.items() if a != b}
    # a lemma that would have its definition's name gets _lem; a field may be called as another record's
    for a in [a for a in rows if "-" in a and a in names]:
        if any(rows.get(b) == rows[a] for b in rows if b != a and "-" not in b) or rows[a] in names:
            rows[a] += "_lem"
    for a, b in list(rows.items()):
        if "-" not in a and b in names and b not in rows:
            rows[b] = b + "_lem"
    clash = []
    by_new = collections.defaultdict(list)
    for a, b in rows.items():
        by_new[b].append(a)
    for b, olds in by_new.items():
        if len([a for a in olds if a in names]) > 1:
            clash.append(f"{', '.join(olds)} would all be {b}")
    written = {}
    for path in texts(root, ".antt"):
        text = read(path)
        foreign, aliases = from_library(text)
        written[path] = turn_antt(text, rows, members, foreign, aliases, os.path.relpath(path, root), clash)
    for path in texts(root, ".rt"):
        written[path] = turn_rt(read(path), rows)
    for path in texts(root, ".edit"):
        written[path] = turn_edit(read(path), rows, members)
    for path in list(texts(root, ".md", "docs")) + [os.path.join(root, p) for p in ("README.md", "CONTRIBUTING.md")]:
        written[path] = turn_page(read(path), rows)
    for line in clash:
        print("clash: " + line)
    print(f"{len(rows)} names, {len(clash)} clashes")
    if clash and not check:
        return 1
    if not check:
        for path, text in written.items():
            if read(path) != text:
                with open(path, "w", encoding="utf-8") as f:
                    f.write(text)
    return 0


if __name__ == "__main__":
    raise SystemExit(main(sys.argv[1:]))
