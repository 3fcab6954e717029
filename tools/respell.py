#!/usr/bin/env python3
"""Respells the repository's own definitions and lemmas in snake case, in proof files, contracts and must-fail edits.

usage: tools/respell.py [--list]     at the top of the repository, once, after the toolchain's own port.py

A name is the repository's own if a file of specs/ or a file of lemmas right in proofs/ declares it. Types, modules and facts begin
with a capital and keep their spelling, and so does a name that begins with one of theirs. What Rattle makes of a function's code is
left alone: in a function's folder of proofs/ a name that the folder's own file declares. A name whose new spelling is in use in one
of the files that have it stays as it is in all of them; --list says which, and writes nothing.
"""

import collections
import os
import re
import sys

WORD = re.compile(r'[^\s(){}.;,@"«»`]+')
DECLARED = re.compile(r"(?m)^(?:(?:abbrev|unfoldable|private|pub|data|record|ruleset) +)*([^\s(){}.;,@\"«»]+)(?: *\{[^}\n]*\}| *\([^)\n]*\))* *:")
FIELDS = re.compile(r"(?m)^ {2,}(?:(?:abbrev|unfoldable|pub|data|record) +)*([^\s(){}.;,@\"«»=]+(?: +[^\s(){}.;,@\"«»=:]+)*)(?: *\{[^}\n]*\}| *\([^)\n]*\))* *:(?= |$)")
CLAUSE = re.compile(r"ghost use [^;]*;|(?:requires|ensures|ghost)\b[^{};]*\{")


def files(*endings):
    for folder, dirs, names in os.walk("crates"):
        dirs[:] = sorted(d for d in dirs if d != "out")
        for name in sorted(names):
            if name.endswith(endings):
                yield os.path.join(folder, name)


def read(path):
    with open(path, encoding="utf-8") as f:
        return f.read()


def is_of_function(path):
    """Whether the file stands in a function's folder of proofs/."""
    parts = path.split(os.sep)
    return parts[2] == "proofs" and len(parts) > 4


def snake(name):
    return re.sub(r"(?<=[a-z0-9])([A-Z])", lambda m: "_" + m[1].lower(), name).replace("-", "_")


def declared(folder):
    """The names that the files right in specs/ or proofs/ of the crates declare, with the fields of their records."""
    found = set()
    for path in files(".antt"):
        if path.split(os.sep)[2] == folder and not is_of_function(path):
            text = re.sub(r"--.*", "", read(path))
            found.update(m[1] for m in DECLARED.finditer(text))
            for m in FIELDS.finditer(text):
                found.update(m[1].split())
    return {n for n in found if n[0].islower()}


def spellings():
    """Each name's new one. A lemma that would have its function's name gets `_lem`."""
    definitions = declared("specs")
    table = {n: snake(n) for n in definitions}
    taken = set(table.values())
    lemmas = declared("proofs") - definitions
    taken |= {snake(n) for n in lemmas if n != n.lower()}
    for n in lemmas:
        table[n] = snake(n) + ("_lem" if snake(n) in taken and n == n.lower() else "")
    return {old: new for old, new in table.items() if old != new}


def met(table):
    """The names that would fall together with another, each with a file where they meet."""
    places = collections.defaultdict(set)
    for old, new in table.items():
        places[new].add(old)
    clash = {old: "another name" for olds in places.values() if len(olds) > 1 for old in olds}
    for path in files(".antt"):
        words = set(WORD.findall(re.sub(r"use Rattle[\w.]*|\.[^\s(){}.;,]+", "", re.sub(r"--.*", "", read(path)))))
        local = set(DECLARED.findall(read(path))) if is_of_function(path) else set()
        for word in words & table.keys():
            if word not in local and table[word] in words and table[word] not in table:
                clash.setdefault(word, path)
    return clash


def turned(text, table, local):
    """The text respelled: code by every word, a comment by its code spans and by names that no prose has."""

    def word(m):
        return m[0] if m[0] in local else table.get(m[0], m[0])

    def comment(m):
        return re.sub(r"`[^`]*`", lambda s: WORD.sub(word, s[0]), WORD.sub(lambda w: table.get(w[0], w[0]) if re.search("[A-Z]", w[0]) else w[0], m[0]))

    out, at = [], 0
    for m in re.finditer(r"--.*", text):
        out += [WORD.sub(word, text[at : m.start()]), comment(m)]
        at = m.end()
    return "".join(out) + WORD.sub(word, text[at:])


def turned_rust(text, table):
    """Rust code has no name of the table but in its clauses: only what no Rust could be turns elsewhere."""
    out, at = [], 0
    for m in CLAUSE.finditer(text):
        end = m.end()
        if not m[0].startswith("ghost use"):
            depth = 1
            while depth:
                depth += {"{": 1, "}": -1}.get(text[end], 0)
                end += 1
        if m.start() < at:
            continue
        out += [text[at : m.start()], turned(text[m.start() : end], table, set())]
        at = end
    rest = "".join(out) + text[at:]
    return re.sub(r"//.*", lambda c: re.sub(r"`[^`]*`", lambda s: WORD.sub(lambda w: table.get(w[0], w[0]), s[0]), c[0]), rest)


def main(argv):
    table = spellings()
    clash = met(table)
    for old in sorted(clash):
        print(f"stays: {old}: meets {table.pop(old)} in {clash[old]}")
    print(f"{len(table)} names respelled")
    if argv == ["--list"]:
        return
    for path in files(".antt", ".rt", ".edit"):
        before = read(path)
        if path.endswith(".antt"):
            after = turned(before, table, set(DECLARED.findall(before)) if is_of_function(path) else set())
        elif path.endswith(".rt"):
            after = turned_rust(before, table)
        else:
            after = turned(before, table, set())
        if after != before:
            with open(path, "w", encoding="utf-8") as f:
                f.write(after)


if __name__ == "__main__":
    main(sys.argv[1:])
