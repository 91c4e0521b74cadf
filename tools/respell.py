#!/usr/bin/env python3
"""Spells the repository's own definitions and lemmas in snake case: `bookLength` and `row-of` become `book_length` and `row_of`.

usage: python3 tools/respell.py [--list]      at the top of the repository, once, after the kit's port.py

The names are those that specs/ and proofs/*.antt declare, the fields of their records too. They turn in .antt files and .edit
files (a comment's code spans too), in the clauses and `ghost use` items of .rt files, and in the code spans of README and docs/.
A function of src/, an exported C name, a string, an input and an output keep their names. Where two names would fall together,
the one with the dash, a lemma, gets `_lem`. --list prints the names, old and new, and writes nothing.
"""

import collections
import os
import re
import sys

DECLARED = re.compile(
    r"^\s*((?:(?:pub|abbrev|unfoldable|data|record)\s+)*)([^\s(){}.;,@\"«»:]+)((?:\s+(?:\{[^{}\n]*\}|\([^()\n]*\)))*)\s+:(?=\s|$)"
)
TOKEN = re.compile(r'[^\s(){}.;,@"«»`]+')
KEYWORDS = {"module", "mod", "use", "let", "in", "where", "elim", "λ"}
# Lemmas that port.py had spelled in snake case already, as definitions are now: each gets another name in the crates named.
MET = {
    "in_use": ("in_use_lem", "reads"),
    "row_is": ("free_row_is", "request_rows request_entry"),
    "no_key": ("no_key_lem", "sound_exposures"),
    "numbers_of": ("numbers_of_lem", "sound_numbers"),
    "all_noted": ("all_noted_lem", "pair_settlement"),
    "in_order": ("in_order_lem", "laws settlement_laws"),
    "same_at": ("same_at_lem", "marking_laws"),
    "last_code": ("last_code_lem", "recalls"),
    "field_in": ("field_in_lem", "facts setup_laws request_laws accounts requests marking_laws ledger day_laws setup"),
    "other_key": ("other_key_lem", "request_laws"),
    "given_back": ("given_back_lem", "bonds marking"),
}
# Names of the library that a file of ours declares too.
LIBRARY = {"not-true", "not-false"}
SPAN = re.compile(r"`[^`\n]+`")
GHOST = re.compile(r"ghost\s+use\b[^;]*;")
CLAUSE = re.compile(r"\b(?:requires|ensures)\s*\*?\s*(?:\w+\s*)?\{")


def snake(name):
    words = re.sub(r"(?<=[a-z0-9])([A-Z])", lambda m: "_" + m[1].lower(), name)
    return words.replace("-", "_")


def texts(*endings):
    for top in ("crates", "docs"):
        for folder, dirs, files in os.walk(top):
            dirs[:] = sorted(d for d in dirs if d != "out")
            for f in sorted(files):
                if f.endswith(endings):
                    yield os.path.join(folder, f)
    if ".md" in endings:
        yield "README.md"


def is_shared(path):
    """A file whose names others cite: not the proof of one function."""
    return not re.search(r"/proofs/.+/", path)


def declared():
    names = {}
    for path in texts(".antt"):
        if not is_shared(path):
            continue
        with open(path, encoding="utf-8") as f:
            for line in f:
                if line.lstrip().startswith("--"):
                    continue
                m = DECLARED.match(line)
                if m and m[2] not in KEYWORDS:
                    names.setdefault(m[2], set()).add(path)
    return names


def mapping():
    names = {n: p for n, p in declared().items() if n not in LIBRARY}
    turned = {}
    plain = {n for n in names if snake(n) == n}
    camel = [n for n in names if snake(n) != n and "-" not in n and n[0].islower()]
    dashed = [n for n in names if "-" in n]
    taken = set(plain)
    for n in sorted(camel):
        turned[n] = snake(n)
        taken.add(turned[n])
    clashes = []
    for n in sorted(dashed):
        new = snake(n)
        if new in taken:
            clashes.append((n, new))
            new += "_lem"
            if new in taken:
                sys.exit(f"{n}: {new} is taken too")
        taken.add(new)
        turned[n] = new
    back = collections.defaultdict(list)
    for old, new in turned.items():
        back[new].append(old)
    for new, olds in back.items():
        if len(olds) > 1:
            sys.exit(f"{olds} fall together as {new}")
    return turned, clashes


def words(text, turned):
    return TOKEN.sub(lambda m: turned.get(m[0], m[0]), text)


def spans(text, turned):
    return SPAN.sub(lambda m: words(m[0], turned), text)


def antt(text, turned):
    out = []
    for line in text.split("\n"):
        at = re.search(r"(?<![^\s(){};,])--(?=\s|$)", line)
        code, comment = (line[: at.start()], line[at.start() :]) if at else (line, "")
        out.append(words(code, turned) + spans(comment, turned))
    return "\n".join(out)


def clause_end(text, at):
    depth = 0
    while at < len(text):
        depth += {"{": 1, "}": -1}.get(text[at], 0)
        at += 1
        if depth == 0:
            return at
    return at


def rt(text, turned):
    text = GHOST.sub(lambda m: words(m[0], turned), text)
    out, at = [], 0
    for m in CLAUSE.finditer(text):
        if m.start() < at:
            continue
        end = clause_end(text, m.end() - 1)
        out += [text[at : m.start()], words(text[m.start() : end], turned)]
        at = end
    out.append(text[at:])
    return "\n".join(
        spans(line, turned) if line.lstrip().startswith("//") else line for line in "".join(out).split("\n")
    )


def edit(text, turned):
    lines, kind = [], antt
    for line in text.split("\n"):
        if line.startswith("file:"):
            kind = rt_line if line.rstrip().endswith(".rt") else antt
            lines.append(line)
            continue
        m = re.match(r"(old|new):", line)
        lines.append(m[0] + kind(line[m.end() :], turned) if m else line)
    return "\n".join(lines)


def rt_line(text, turned):
    return words(text, turned) if re.search(r"\b(?:requires|ensures)\b|ghost use", text) else text


def main(argv):
    turned, clashes = mapping()
    if argv == ["--list"]:
        for old, new in sorted(turned.items()):
            print(f"{old}\t{new}")
        for old, new in clashes:
            print(f"clash: {old}\t{new}", file=sys.stderr)
        return
    for path in texts(".antt", ".rt", ".edit", ".md"):
        with open(path, encoding="utf-8") as f:
            old = f.read()
        if path.endswith(".antt"):
            crate = path.split("/")[1]
            old_text, old = old, words(old, {n: new for n, (new, crates) in MET.items() if crate in crates.split()})
        if path.endswith(".antt"):
            new = antt(old, turned)
        elif path.endswith(".rt"):
            new = rt(old, turned)
        elif path.endswith(".edit"):
            new = edit(old, turned)
        else:
            new = spans(old, turned)
        if new != (old_text if path.endswith(".antt") else old):
            with open(path, "w", encoding="utf-8") as f:
                f.write(new)
    print(f"{len(turned)} names turned; {len(clashes)} fell together with another and got _lem")


main(sys.argv[1:])
