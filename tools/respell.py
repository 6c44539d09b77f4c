#!/usr/bin/env python3
"""Brings the project's own definitions and lemmas to the spelling of the library: words in snake case, a dash where it joins two names.

usage: tools/respell.py [--list]      at the top of the repository, once, on files that the port's scripts have turned; --list writes nothing

A name that is declared in specs/ or in a file of lemmas is turned in every .antt file, in the clauses and imports of every .rt file, in edits, and in
the code spans of pages: a capital inside a word begins a new word, and a dash becomes '_' unless it joins two names: one beside it is of several words, or both are in JOINED.
A lemma that would have its definition's name gets '_lem'. Names of the Rust sources, exported names, strings and inputs stay.
"""
import collections
import os
import re
import sys

NAME = re.compile(r"""[^\s(){}.;,@"«»⌜⌝`|/:=<>+*\[\]'!?%&]+'*""")
DECLARED = re.compile(r"^\s*(?:pattern |unfoldable |abbrev |pub )*([a-z_][^\s:(){}]*)(?: \{[^}]*\})? *:", re.M)
PLAIN = re.compile(r"^[a-z][A-Za-z0-9_'ᵇ-]*$")
JOINED = {"length", "at", "set", "find", "append", "changed", "link", "node", "get", "put"}
# two meanings that an earlier spelling told apart by a capital or a dash alone
TOLD_APART = {}


def files(*ends):
    for top in ("crates", "docs", "tests", "tools", "judges", "meter", "bindings", "bench"):
        for folder, dirs, names in os.walk(top):
            dirs[:] = sorted(d for d in dirs if d not in ("out", "target", ".git"))
            for n in sorted(names):
                if n.endswith(ends):
                    yield os.path.join(folder, n)
    for n in ("README.md", "CHANGELOG.md"):
        if n.endswith(ends):
            yield n


def text(path):
    with open(path, encoding="utf-8") as f:
        return f.read()


def words(part):
    return re.sub(r"(?<=[a-z0-9'])([A-Z])", lambda m: "_" + m.group(1).lower(), part) if part[:1].islower() else part


def table():
    theirs, where, definitions = set(), collections.defaultdict(set), set()
    for path in files(".antt"):
        made = path.endswith("/Proof.antt")
        for name in DECLARED.findall(text(path)) + re.findall(r"\bas ([a-z]\w*)", text(path)):
            if PLAIN.match(name):
                where[name].add((path, made))
                if "/specs/" in path:
                    definitions.add(name)
    for path in files(".rt"):
        theirs |= set(re.findall(r"\b(?:fn|let|mod|mut|const) (\w+)", text(path)))
    own = {n for n, at in where.items() if any(not made for _, made in at)}
    new = {}
    for name in sorted(own):
        parts = name.split("-")
        out = words(parts[0])
        for k in range(1, len(parts)):
            both = parts[k - 1] in JOINED and parts[k] in JOINED
            dash = both or words(parts[k - 1]) != parts[k - 1] or words(parts[k]) != parts[k]
            out += ("-" if dash else "_") + words(parts[k])
        new[name] = TOLD_APART.get(name, out)
    taken = collections.defaultdict(set)
    for name, n in new.items():
        taken[n].add(name)
    for n, names in sorted(taken.items()):
        if len(names) > 1:
            keep = [x for x in names if x in definitions] or [x for x in names if "-" not in x] or sorted(names)[:1]
            for x in sorted(names):
                if x != keep[0]:
                    new[x] = n + "_lem"
    return {a: b for a, b in new.items() if a != b}, theirs, where


def turn(line, rows):
    return NAME.sub(lambda m: rows.get(m.group(0), m.group(0)), line)


# the clauses and imports of a .rt file: 'ghost use ..;', and what stands in the braces of requires, ensures and ghost members
def ghosts(t, rows):
    head = re.compile(r"ghost\s+use\b[^;]*;|\b(?:requires|ensures)\s*\*?\s*(?:\w+\s*)?\{|\bghost\s+\w*\s*:?\s*\{|//[^\n]*")
    out, i = [], 0
    while True:
        m = head.search(t, i)
        if not m:
            return "".join(out) + t[i:]
        out.append(t[i : m.start()])
        got, i = m.group(0), m.end()
        if got.startswith("//"):
            out.append(re.sub(r"`[^`\n]*`", lambda s: turn(s.group(0), rows), got))
            continue
        if got.endswith("{"):
            depth = 1
            while depth:
                depth += {"{": 1, "}": -1}.get(t[i], 0)
                i += 1
            got = t[m.start() : i]
        out.append(turn(got, rows))


def main(argv):
    rows, theirs, where = table()
    if "--list" in argv:
        for a in sorted(rows):
            print(a, rows[a], "RUST" if rows[a] in theirs else "", sep="\t")
        return
    for path in files(".antt", ".edit", ".rt", ".md"):
        old = text(path)
        if path.endswith(".md"):
            now = re.sub(r"`[^`\n]*`", lambda m: turn(m.group(0), rows), old)
        elif path.endswith(".rt"):
            now = ghosts(old, rows)
        else:
            now = turn(old, rows)
        if now != old:
            with open(path, "w", encoding="utf-8") as f:
                f.write(now)


if __name__ == "__main__":
    main(sys.argv[1:])
