#!/usr/bin/env python3
"""Brings the repository's own definitions, fields and lemmas to the spelling of today's Rattle: words in snake case, a dash only between two
names that are joined.

usage: python3 tools/respell.py [FOLDER]

It is run once, right after the kit's port.py, at the top of the repository (or of FOLDER). It renames in specs/ and proofs/, in the clauses and
`ghost use` items of src/, in the must-fail edits, and in the code spans of README.md and docs/. Functions of src/, exported names, strings,
inputs and outputs keep their names. The table of what it renamed is written to tools/respelled.tsv.
"""

import os
import re
import sys

TOP = sys.argv[1] if len(sys.argv) > 1 else "."
DECLARED = re.compile(r"^\s*((?:pub |abbrev |unfoldable |data |record )*)([^\s:(){},.;\"◌]+) :(?:\s|$)")
USE = re.compile(r"use ([\w.'ᴰ-]+)\.\{([^}]*)\}")
TOKEN = re.compile(r"[^\s(){}\[\],;.:\"`@|«»]+")
WORDS = {"mem", "length", "sum", "drop", "take", "append", "map", "filter", "reverse", "set", "min", "max", "bit", "suc"}


def files(*ends):
    for folder, inner, names in os.walk(os.path.join(TOP, "crates")):
        inner[:] = sorted(d for d in inner if d != "out")
        for name in sorted(names):
            if name.endswith(ends):
                yield os.path.join(folder, name)


def read(path):
    with open(path, encoding="utf-8") as f:
        return f.read()


def is_library(path):
    """A file whose declarations are names of the repository's own, and no labels of one function's proof."""
    return "/specs/" in path or os.path.basename(os.path.dirname(path)) == "proofs"


def declared():
    names, words = set(), set(WORDS)
    for path in files(".antt"):
        if is_library(path):
            for line in read(path).split("\n"):
                it = DECLARED.match(line)
                if it:
                    names.add(it[2])
                    if "abbrev" in it[1] or "unfoldable" in it[1] or "record" in it[1]:
                        words.add(it[2])
    return names, words


def foreign(own):
    """Names that some file imports from outside the repository."""
    found = set()
    for path in files(".antt", ".rt"):
        for it in USE.finditer(read(path)):
            crate = re.match(r"Rattle\.(\w+)", it[1])
            if not (crate and crate[1] in own):
                for name in it[2].split(","):
                    found.update(part.strip() for part in name.split(" as "))
    return found


def snake(word):
    """`minZ` is `min_z`; a lone capital that ends a name, as the A of an example, is lower case too."""
    word = re.sub(r"(?<=[a-z0-9])([A-Z]+)", lambda it: "_" + it[1].lower(), word)
    return re.sub(r"(?<=_)[A-Z](?![A-Za-z])", lambda it: it[0].lower(), word)


def respelled(name, words):
    parts = [snake(part) if part[0].islower() else (part.lower() if len(part) <= 2 else part) for part in name.split("-") if part]
    if len(parts) != name.count("-") + 1:
        return name
    return "-".join(parts) if len(parts) == 2 and all(part in words for part in parts) else "_".join(parts)


def table():
    own = {line.split()[0].rstrip(":") for line in read(os.path.join(TOP, "crates.txt")).split("\n") if ":" in line and not line.startswith("#")}
    names, words = declared()
    others = foreign(own)
    moves = {}
    defined = words
    words = words | {snake(word) for word in words}
    for name in sorted(names - others):
        if not (name[0].islower() or "-" in name):
            continue
        if "-" in name or re.search(r"[a-z][A-Z]", name):
            new = respelled(name, words)
            if new != name:
                moves[name] = new
    # a lemma that would have the name of a definition gets `_lem`
    taken = {}
    for name in sorted(names | others):
        taken.setdefault(moves.get(name, name), []).append(name)
    for new, olds in taken.items():
        if len(olds) > 1:
            lemmas = [old for old in olds if old not in defined and old not in others]
            if len(lemmas) == len(olds):
                lemmas = [old for old in olds if not re.search(r"[a-z][A-Z]", old)]
            for old in lemmas:
                moves[old] = new + "_lem"
            if len(olds) - len(lemmas) != 1 or len(lemmas) != 1:
                print("fall together:", new, olds, lemmas)
    return moves


def turn(text, moves):
    return TOKEN.sub(lambda it: moves.get(it[0], it[0]), text)


def turn_comment(text, moves):
    text = TOKEN.sub(lambda it: moves.get(it[0], it[0]) if re.search(r"[a-z][A-Z]", it[0]) else it[0], text)
    return re.sub(r"`[^`]*`", lambda it: turn(it[0], moves), text)


def turn_line(line, moves, mark):
    """The code of a line by all moves, its comment by those that no English word can be."""
    at = re.search(r"(^|\s)" + mark + r"(\s|$)", line)
    code, rest = (line[: at.start()], line[at.start() :]) if at else (line, "")
    parts = re.split(r'("(?:[^"\\]|\\.)*")', code)
    return "".join(part if part.startswith('"') else turn(part, moves) for part in parts) + (turn_comment(rest, moves) if rest else "")


def turn_file(path, moves):
    text = read(path)
    if path.endswith(".antt"):
        new = "\n".join(turn_line(line, moves, "--") for line in text.split("\n"))
    elif path.endswith(".rt"):
        of_clauses = {old: new for old, new in moves.items() if "-" in old or re.search(r"[A-Z]", old)}
        new = "\n".join(turn_line(line, of_clauses, "//") for line in text.split("\n"))
    elif path.endswith(".edit"):
        new = "\n".join(turn(line, moves) if line.startswith(("old:", "new:")) else line for line in text.split("\n"))
    else:
        new = re.sub(r"`[^`\n]*`", lambda it: turn(it[0], moves), text)
    if new != text:
        with open(path, "w", encoding="utf-8") as f:
            f.write(new)


def main():
    moves = table()
    pages = [os.path.join(TOP, "README.md")] + [os.path.join(TOP, "docs", name) for name in sorted(os.listdir(os.path.join(TOP, "docs"))) if name.endswith(".md")]
    for path in list(files(".antt", ".rt", ".edit")) + pages:
        turn_file(path, moves)
    with open(os.path.join(TOP, "tools", "respelled.tsv"), "w", encoding="utf-8") as f:
        f.writelines(f"{old}\t{new}\n" for old, new in sorted(moves.items()))
    print(len(moves), "names respelled")


if __name__ == "__main__":
    main()
