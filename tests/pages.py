#!/usr/bin/env python3
"""Holds the pages to the files that they name.

    python3 tests/pages.py

Of README.md, docs/, tests/README.md, bench/README.md and the README of theory: each file of a crate that a page names, by its path or as a
module such as Rattle.tree.specs.Demands, is there, and the names that stand in brackets with it occur in it. Of docs/PROMISES.md: its table
of edits has each edit of each crate and no other, and says how many there are; its table of cases has each call that cases are made for,
and as many as its file has lines. Of each edit: each text that it replaces occurs once in its file, as the replacements before it left it.
Of README.md: its table of crates has each crate of crates.txt and no other, the files of specs/ and proofs/ that a row names are there, and
what it shows of the rings and the levels is in examples/. Of the README of theory: each theorem of its table is in the files beside it.

Prints a line for each check that fails, and one with the numbers. Status 0 where none failed, 1 otherwise.
"""
import glob
import os
import re
import sys

ROOT = os.path.dirname(os.path.dirname(os.path.abspath(__file__)))
PAGES = ("README.md", "docs/RULES.md", "docs/PROMISES.md", "docs/DECISIONS.md", "tests/README.md", "bench/README.md", "crates/theory/README.md")
FILE = r"(?<![\w/])(?:crates/)?([a-z_]+)/(specs|src|proofs)/([\w+/]+\.(?:antt|rt))((?:, [A-Z]\w+\.antt)*)"
MODULE = r"\bRattle\.([a-z_]+)\.(specs|proofs)\.([A-Z]\w*(?:\.[A-Z]\w*)*)"

checks = failures = 0


def check(what, passed):
    """Counts one check, and says what is wrong if it fails."""
    global checks, failures
    checks += 1
    if not passed:
        failures += 1
        print(f"pages: {what}")


def read(path):
    with open(os.path.join(ROOT, path), encoding="utf-8") as file:
        return file.read()


def is_there(path):
    return os.path.exists(os.path.join(ROOT, path))


def hold_file(page, path):
    """A file that a page names is there; if its crate has it elsewhere, the message says where."""
    _, crate, _, *_, name = path.split("/")
    found = [] if is_there(path) else [os.path.relpath(it, ROOT) for part in ("src", "specs", "proofs")
                                       for it in glob.glob(os.path.join(ROOT, "crates", crate, part, "**", name), recursive=True)]
    check(f"{page}: there is no {path}{', but ' if found else ''}{', '.join(found)}", is_there(path))


def named_files(text):
    """The files of crates that a text names; behind the first may stand others of the same folder, by their last names."""
    for crate, folder, path, more in re.findall(FILE, text):
        first = f"crates/{crate}/{folder}/{path}"
        yield first
        for name in re.findall(r"[A-Z]\w+\.antt", more):
            yield os.path.join(os.path.dirname(first), name)
    for crate, folder, path in re.findall(MODULE, text):
        if is_there(f"crates/{crate}"):
            yield f"crates/{crate}/{folder}/{path.replace('.', '/')}.antt"


def hold_names(page, text):
    """In brackets, up to a semicolon, names and behind them the files in which they stand."""
    for bracket in re.findall(r"\(([^()]*`[^()]*)\)", text):
        for part in bracket.split(";"):
            files = [path for path in named_files(part) if is_there(path)]
            inside = "".join(map(read, files))
            for name in re.findall(r"`([\w\-'′₁₂:◌]+)`", part) if files else ():
                check(f"{page}: `{name}` is not in {', '.join(files)}", name.split("::")[-1] in inside)


def hold_edit(crate, path):
    """An edit can be made: each text that it replaces occurs once in its file, as the replacements before it left it."""
    edit, file, old, texts, pairs = os.path.relpath(path, ROOT), "", None, {}, 0
    for word, rest in re.findall(r"^(file|old|new):(?: (.*))?$", read(path), re.MULTILINE):
        if word == "file":
            file = rest
        elif word == "old":
            old = rest
        elif file.startswith(("src/", "specs/", "proofs/")) and is_there(f"crates/{crate}/{file}") and old:
            text = texts.get(file) or read(f"crates/{crate}/{file}")
            found = text.count(old)
            check(f"{edit}: what it replaces occurs {found} times in {file}", found == 1)
            check(f"{edit}: it replaces a text by itself", old != rest)
            texts[file], old, pairs = text.replace(old, rest), None, pairs + 1
        else:
            check(f"{edit}: there is no file {file!r} of src/, specs/ or proofs/, or no `old:` line in front of a `new:` line", False)
    check(f"{edit}: no pair of an `old:` and a `new:` line", pairs > 0)


def hold_edits(crates):
    page = read("docs/PROMISES.md")
    table = page[page.index("| Crate | Edits |"):].split("\n\n")[0].split("\n")[2:]
    listed, names = {}, []
    for line in table:
        first, edits = (re.findall(r"`(\w+)`", cell) for cell in line.strip("|").split("|"))
        names = first or names
        for crate in names:
            listed.setdefault(crate, set()).update(edits)
    count = 0
    for crate in crates:
        there = set()
        for path in glob.glob(os.path.join(ROOT, "crates", crate, "must-fail", "*.edit")):
            there.add(os.path.basename(path)[:-len(".edit")])
            hold_edit(crate, path)
        count += len(there)
        check(f"docs/PROMISES.md: edits of {crate}: {sorted(listed.get(crate, set()) ^ there)}", listed.get(crate, set()) == there)
    check(f"docs/PROMISES.md: there are {count} edits in all", f"{count} in all" in page)


def hold_crates(crates):
    """The rows of README's table name the crates, each once, and files of these."""
    named = []
    for line in read("README.md").split("| Crate | What it has |")[1].split("\n"):
        row = re.match(r"\| (`[\w`, ]+`) \| (.*) \|$", line)
        if row:
            of_row = re.findall(r"`(\w+)`", row[1])
            named += of_row
            for path in re.findall(r"`((?:specs|proofs)/[\w/]+\.antt)`", row[2]):
                check(f"README.md: there is no {path} of {row[1]}", any(is_there(f"crates/{crate}/{path}") for crate in of_row))
    check(f"README.md: its table of crates against crates.txt: {sorted(set(named) ^ set(crates))}", sorted(named) == sorted(crates))


def hold_laws():
    """The rows of theory's table name theorems and the files in which they stand: below specs/, or with proofs/ in front, and where a
    file has no folder in that of the one before."""
    page = "crates/theory/README.md"
    for names, files in re.findall(r"^\| .* \| (`.*`) \| (.*) \|$", read(page), re.MULTILINE):
        paths, folder = [], ""
        for file in files.split(", "):
            folder = os.path.dirname(file) or folder
            path = os.path.join(folder, os.path.basename(file))
            paths.append(f"crates/theory/{'' if path.startswith('proofs/') else 'specs/'}{path}.antt")
        for path in paths:
            hold_file(page, path)
        inside = "".join(read(path) for path in paths if is_there(path))
        for name in re.findall(r"`([^`]+)`", names):
            check(f"{page}: `{name}` is not in {', '.join(paths)}", re.search(rf"^\s*(?:pub )?{re.escape(name)} :", inside, re.MULTILINE))


def hold_cases():
    page = read("docs/PROMISES.md")
    table = page[page.index("| Call | Cases |"):].split("\n\n")[0]
    said = {call: int(count.replace(",", "")) for call, count in re.findall(r"`(\w+)` \| ([\d,]+) \|", table)}
    files = glob.glob(os.path.join(ROOT, "crates/cases/data/*.txt"))
    made = {os.path.basename(path)[:-len(".txt")]: read(path).count("\n") for path in files}
    for call in sorted(set(said) | set(made)):
        check(f"docs/PROMISES.md: {call} has {made.get(call, 0)} cases", said.get(call) == made.get(call))
    check(f"docs/PROMISES.md: there are {sum(made.values()):,} cases", f"{sum(made.values()):,} cases" in page)


def main():
    # A line is NAME: LIBRARY .., with words behind the name where the crate is no plain library or program.
    crates = re.findall(r"^(\w+)(?: [^:#\n]*)?:", read("crates.txt"), re.MULTILINE)
    for page in PAGES:
        for text in read(page).split("\n"):
            for path in named_files(text):
                hold_file(page, path)
            hold_names(page, text)
    hold_edits(crates)
    hold_cases()
    hold_crates(crates)
    hold_laws()
    for name in ("ring", "levels"):
        check(f"README.md: what examples/{name}.txt has", read(f"examples/{name}.txt") in read("README.md"))
    print(f"pages: {checks} checks, {failures} failed")
    return 1 if failures else 0


if __name__ == "__main__":
    sys.exit(main())
