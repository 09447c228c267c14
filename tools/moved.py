#!/usr/bin/env python3
"""Has the pages name files where they are now, where a file was moved between specs/ and proofs/ of its crate.

usage: python3 tools/moved.py [FOLDER]

It is run after such moves, at the top of the repository (or of FOLDER). Of README.md, docs/ and the README of theory it writes anew each path
crates/NAME/specs/FILE.antt, with or without crates/ in front and with other files of the folder behind it, and the paths `specs/FILE.antt` in
the rows of README's table of crates. A file that its crate has nowhere, or in two places, stays as it is named: tests/pages.py says so. The
table in the README of theory names files without specs/ in front, and is brought up to date by hand.
"""
import glob
import os
import re
import sys

TOP = sys.argv[1] if len(sys.argv) > 1 else "."
FILE = re.compile(r"(?<![\w/])(crates/)?([a-z_]+)/(specs|proofs)/([\w+/]+\.antt)((?:, [A-Z]\w+\.antt)*)")


def place(crate, folder, path):
    """The folder, specs or proofs with what is below it, and the name of the file."""
    if not os.path.exists(os.path.join(TOP, "crates", crate, folder, path)):
        found = [it for part in ("specs", "proofs")
                 for it in glob.glob(os.path.join(TOP, "crates", crate, part, "**", os.path.basename(path)), recursive=True)]
        if len(found) == 1:
            return os.path.split(os.path.relpath(found[0], os.path.join(TOP, "crates", crate)))
    return os.path.split(f"{folder}/{path}")


def turn(it):
    front, crate, folder, path, more = it.groups()
    names = [path] + [os.path.join(os.path.dirname(path), name) for name in re.findall(r"[A-Z]\w+\.antt", more)]
    text, last = [], None
    for at, name in (place(crate, folder, it) for it in names):
        text.append(name if at == last else f"{front or ''}{crate}/{at}/{name}")
        last = at
    return ", ".join(text)


def turn_row(it):
    crates = re.findall(r"`(\w+)`", it[1])

    def turn_path(it):
        found = {place(crate, it[1], it[2]) for crate in crates} - {os.path.split(f"{it[1]}/{it[2]}")}
        return "`" + os.path.join(*found.pop()) + "`" if len(found) == 1 else it[0]

    return it[1] + re.sub(r"`(specs|proofs)/([\w/]+\.antt)`", turn_path, it[2])


def main():
    pages = ["README.md", "crates/theory/README.md"] + sorted(os.path.relpath(it, TOP) for it in glob.glob(os.path.join(TOP, "docs", "*.md")))
    for page in pages:
        path = os.path.join(TOP, page)
        with open(path, encoding="utf-8") as file:
            text = file.read()
        new = FILE.sub(turn, text)
        if page == "README.md":
            new = re.sub(r"^(\| `[\w`, ]+` \|)(.*\|)$", turn_row, new, flags=re.MULTILINE)
        if page == "crates/theory/README.md":
            new = re.sub(r"`(specs|proofs)/([\w/]+\.antt)`", lambda it: "`" + os.path.join(*place("theory", it[1], it[2])) + "`", new)
        if new != text:
            with open(path, "w", encoding="utf-8") as file:
                file.write(new)
            print(page)


if __name__ == "__main__":
    main()
