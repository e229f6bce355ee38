#!/usr/bin/env python3
"""Respells the repository's own definitions, constructors and lemmas: words in snake case, the prime as an apostrophe.
A lemma that would have the name of a definition gets _lem behind it.

usage: python3 tools/respell.py            at the top, once, after the kit's port.py and before any edit by hand

Renames only what the crates themselves define in specs/ and proofs/, and only in files that define or import it: functions
of src/, strings, comments' plain words, types, modules and names that Rattle makes stay as they are. Stops, with nothing
written, where two names would fall together.
"""

import glob
import os
import re
import sys

CRATES = [line.split(":")[0].split()[0] for line in open("crates.txt") if line.strip() and not line.startswith("#")]
TOKEN = re.compile(r"(?<![\w'-])[A-Za-z_][\w'′]*(?:-[\w'′]+)*(?![\w'-])")
DEFINED = re.compile(r"^(\s*)((?:abbrev |unfoldable |pub )*)((?:[A-Za-z_][\w'′-]* )+): (.*)")
IMPORT = re.compile(r"^\s*(?:ghost )?use ([\w.«»'+-]+?)\.\{(.*)\}")
MODULE = re.compile(r"^\s*(?:ghost )?use ([\w.«»'+-]+) as (\w+)")
OWN = re.compile(r"^Rattle\.(?:%s)\." % "|".join(CRATES))
SPECIAL = {"codeOr0": "code_or_0"}
CAMEL = re.compile(r"^[a-z]\w*[A-Z]")
TAKEN = set()  # the new names of the definitions that were in camel case


def respelled(name):
    new = plainly(name)
    return new + "_lem" if new in TAKEN and not CAMEL.match(name) else new


def plainly(name):
    if name in SPECIAL:
        return SPECIAL[name]
    if not name[0].islower():
        return name.replace("′", "'")
    snake = re.sub(r"(?<=[a-z0-9])([A-Z])", lambda m: "_" + m.group(1).lower(), name)
    return snake.replace("-", "_").replace("′", "'")


def files():
    for crate in CRATES:
        for pattern in ("specs/**/*.antt", "proofs/**/*.antt", "src/**/*.rt"):
            yield from sorted(glob.glob(f"crates/{crate}/{pattern}", recursive=True))


def module_of(path):
    """The path by which others import from this file."""
    parts = path[len("crates/"):-len(".antt")].split("/")
    return "Rattle." + ".".join(p for p in parts)


def defined(path):
    names = set()
    for line in open(path):
        m = DEFINED.match(line)
        if m and not line.lstrip().startswith("--") and not m.group(4).startswith("goal."):
            names.update(m.group(3).split())
    return names


def code_of(path, line):
    """The line as pieces, each with whether it is code."""
    if path.endswith(".rt"):
        for m in re.finditer(r'"(?:\\.|[^"\\])*"|//.*|b?\'(?:\\.|[^\\\'])\'|[^"/\']+|.', line, re.S):
            piece = m.group(0)
            yield piece, not (piece[0] == '"' or piece.startswith("//") or piece[0] == "'" or piece.startswith("b'"))
        return
    at = re.search(r"(^|\s)--(\s|$)", line)
    cut = at.start() if at else len(line)
    yield line[:cut], True
    yield line[cut:], False


def main():
    every = list(files())
    made = {path: defined(path) for path in every if path.endswith(".antt")}
    of_module = {module_of(path): names for path, names in made.items()}
    everywhere = set().union(*made.values())
    TAKEN.update(plainly(n) for n in everywhere if CAMEL.match(n))
    clashes, texts, renamed = [], {}, {}
    for path in every:
        lines = open(path).read().split("\n")
        mine, aliases, foreign = set(made.get(path, ())), set(), set()
        for line in lines:
            m = IMPORT.match(line)
            if m and OWN.match(m.group(1)):
                mine.update(w.split(" as ")[0].strip() for w in m.group(2).split(","))
            elif m:
                foreign.update(w.strip().split(" as ")[-1] for w in m.group(2).split(","))
            m = MODULE.match(line)
            if m and OWN.match(m.group(1)):
                aliases.add(m.group(2))
        change = {n: respelled(n) for n in mine if n in everywhere and respelled(n) != n and n not in foreign}
        here = {}
        for n in mine & everywhere:
            if n in foreign:
                continue
            here.setdefault(respelled(n), set()).add(n)
        for new, olds in here.items():
            if len(olds) > 1:
                clashes.append(f"{path}: {sorted(olds)} would all be {new}")
        tokens = set()
        for line in lines:
            for piece, code in code_of(path, line):
                if code and not re.match(r"\s*(ghost )?use ", line):
                    tokens.update(m.group(0) for m in TOKEN.finditer(piece) if piece[:m.start()][-1:] != ".")
        for old, new in change.items():
            if new in tokens - set(change) and path.endswith(".antt"):
                clashes.append(f"{path}: {old} would be {new}, which stands there already")
        out = []
        for line in lines:
            pieces = []
            for piece, code in code_of(path, line):
                if not code:
                    piece = re.sub(r"`?[a-z]+[A-Z]\w*", lambda m: change.get(m.group(0), m.group(0)), piece)
                    pieces.append(piece)
                    continue

                def turn(m, piece=piece):
                    before = piece[:m.start()]
                    if before.endswith("."):
                        head = re.search(r"([\w'-]+)\.$", before)
                        if not head or head.group(1) not in aliases:
                            return m.group(0)
                        return respelled(m.group(0)) if m.group(0) in everywhere else m.group(0)
                    return change.get(m.group(0), m.group(0))

                pieces.append(TOKEN.sub(turn, piece))
            out.append("".join(pieces))
        texts[path] = "\n".join(out)
        for old, new in change.items():
            renamed.setdefault(old, new)
    if clashes:
        print("\n".join(clashes))
        sys.exit(2)
    for path, text in texts.items():
        if open(path).read() != text:
            open(path, "w").write(text)
    for old, new in sorted(renamed.items()):
        print(f"{old} -> {new}")


if __name__ == "__main__":
    main()
