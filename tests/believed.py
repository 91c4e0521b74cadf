#!/usr/bin/env python3
"""What has to be believed: the definitions that the exported promises and the theorems reach.

Reads crates/*/specs/*.antt and the contracts of the exported functions, follows names from the exported contracts and the theorems' statements,
and holds README.md to the outcome: its table lists just the files that have such definitions, and in each of them every definition is
reached. `believed.py --list` prints each file with what is reached and what is not.
"""
import glob
import re
import sys

# Theorems, by the definition that states them; and functions that are no exported entry but carry a demand.
THEOREMS = ["ReadsBack", "WritesBack", "EdgesHold", "Demand3", "OpeningAccepted", "AcceptedLeavesSound", "RulesInPrecedence", "TablesNamed", "ReadRulesInPrecedence", "AllMoneyTold", "program_text"]
CARRIERS = {"crates/replay/src/lib.rt": ["run"]}

IDENTIFIER = re.compile(r"[A-Za-zα-ω][\w'\-]*")
USE = re.compile(r"^\s*(?:ghost )?(?:pub )?use Rattle\.(\w+)\.specs\.([\w.]+?)(?:\.\{([^}]*)\}| as (\w+));?$")


def code(text, mark):
    return "\n".join(line if mark not in line else line[: line.index(mark)] for line in text.split("\n"))


class File:
    """A file of definitions: name -> body, and what its `use` lines bring in."""

    def __init__(self, path):
        self.path = path
        self.crate, self.module = re.match(r"crates/(\w+)/specs/(\w+)\.antt", path).groups()
        text = open(path, encoding="utf-8").read()
        self.lines = text.count("\n")
        self.bodies, self.order, self.uses, name = {}, [], {}, None
        for line in text.split("\n"):
            use = USE.match(line)
            if use:
                crate, module, names, alias = use.groups()
                for item in (names or "").split(","):
                    self.uses[item.strip().split(" as ")[-1]] = (crate, module)
                continue
            if re.match(r"^\s*(use|--|$)", line):
                continue
            # a section's definitions are indented by two; a record's fields too, which stay with their record
            start = re.match(r"^(  )?((?:(?:abbrev|unfoldable|pub) )*)(record |data )?([A-Za-z_][\w'\-]*) ", line + " ")
            marked = start and (start.group(2).startswith(("abbrev", "unfoldable")) or start.group(3) or (not start.group(1) and " : " in line))
            if marked and start.group(4) not in ("module", "unfolding"):
                name = start.group(4)
                if name not in self.bodies:
                    self.bodies[name] = ""
                    self.order.append(name)
            if name:
                self.bodies[name] += code(line, "--") + "\n"
        # constructors and fields stand for their type
        self.members = {}
        for name, body in self.bodies.items():
            if re.match(r"^(pub )?(record|data) ", body):
                for member in re.findall(r"^\s+(?:pub )?([A-Za-z][\w'\-]*) :", body, re.M):
                    self.members.setdefault(member, name)


def files():
    return {(f.crate, f.module): f for f in map(File, sorted(glob.glob("crates/*/specs/*.antt"))) if f.module != "Lib"}


def roots(found):
    """(file key, name) cited by exported contracts and theorems."""
    for path in sorted(glob.glob("crates/*/src/*.rt")):
        text = open(path, encoding="utf-8").read()
        uses = {}
        for line in text.split("\n"):
            use = USE.match(line)
            if use and use.group(3):
                for item in use.group(3).split(","):
                    uses[item.strip()] = (use.group(1), use.group(2))
        contracts = re.findall(r"#\[unsafe\(no_mangle\)\]\npub extern \"C\" fn (.*?)\n\{", text, re.S)
        for name in CARRIERS.get(path, []):
            contracts += re.findall(rf"\npub fn ({name}\(.*?)\n\{{", text, re.S)
        for contract in contracts:
            for word in IDENTIFIER.findall(contract):
                if word in uses and uses[word] in found:
                    yield uses[word], word
    for key, file in found.items():
        for name in THEOREMS:
            if name in file.bodies:
                yield key, name


def reach(found):
    seen, todo = set(), list(roots(found))
    while todo:
        key, name = todo.pop()
        file = found[key]
        name = name if name in file.bodies else file.members.get(name)
        if name is None or (key, name) in seen:
            continue
        seen.add((key, name))
        for word in set(IDENTIFIER.findall(file.bodies[name])):
            if word == name:
                continue
            if word in file.bodies or word in file.members:
                todo.append((key, word))
            elif word in file.uses and file.uses[word] in found:
                todo.append((file.uses[word], word))
    return seen


def main():
    found = files()
    seen = reach(found)
    believed = {key: f for key, f in found.items() if any((key, n) in seen for n in f.order)}
    lines = sum(f.lines for f in believed.values())
    bare = 0
    for f in believed.values():
        text = open(f.path, encoding="utf-8").read()
        bare += sum(1 for l in text.split("\n") if l.strip() and not l.strip().startswith(("--", "use ")))
    if "--list" in sys.argv:
        for key, f in believed.items():
            rest = [n for n in f.order if (key, n) not in seen]
            print(f"{f.path}: {f.lines} lines, {len(f.order) - len(rest)} reached" + (f", NOT REACHED: {' '.join(rest)}" if rest else ""))
        print(f"{len(believed)} files, {lines} lines, {bare} without comments, use lines and blank ones; {len(seen)} definitions")
        return 0
    bad = []
    for key, f in believed.items():
        bad += [f"{f.path}: {n} is reached by no exported promise or theorem" for n in f.order if (key, n) not in seen]
    page = open("README.md", encoding="utf-8").read()
    table = page[page.index("### What has to be believed"):].split("\n\n")[2]
    listed = {"crates/" + path for path in re.findall(r"\w+/specs/\w+\.antt", table)}
    bad += [f"README.md does not name {f.path}" for f in believed.values() if f.path not in listed]
    bad += [f"README.md names {path}, which has nothing to believe" for path in sorted(listed - {f.path for f in believed.values()})]
    print("\n".join(bad) if bad else f"{len(believed)} files, {lines} lines, {bare} of definitions")
    return 1 if bad else 0


if __name__ == "__main__":
    sys.exit(main())
