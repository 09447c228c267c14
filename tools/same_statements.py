#!/usr/bin/env python3
"""Compares the definitions and theorems of this repository with those of an older checkout on which port.py, tools/respell.py and
tools/respell_edits.py ran.

usage: python3 tools/same_statements.py OLD [NEW]

Of a theorem it compares the statement with the sections round it, of a definition, a record or a datum the whole text; white space and `pub` don't
count. A file of the old checkout may lie in specs/ or proofs/ now. It prints how many statements there are, how many stand elsewhere, and each
that differs or that its crate has nowhere. Proofs of functions are not compared: the check has today's goals.
"""

import os
import re
import sys

OLD, NEW = sys.argv[1], sys.argv[2] if len(sys.argv) > 2 else "."
SIGNATURE = re.compile(r"^(\s*)((?:pub |abbrev |unfoldable )*)([^\s:(){},.;\"]+) :(?:\s|$)")
TYPE = re.compile(r"^(\s*)((?:pub )?)(record|data) ([^\s:(){},.;\"]+)")


def squeezed(text):
    return re.sub(r"\s+", " ", text).strip()


def indent(line):
    return len(line) - len(line.lstrip())


def statement(lines):
    """The name that the lines declare, and what is compared of them."""
    kind, head = TYPE.match(lines[0]), SIGNATURE.match(lines[0])
    if kind:
        return kind[4], squeezed(re.sub(r"^\s*pub ", "", "\n".join(lines)))
    if not head:
        return None
    name, last = head[3], 1
    while last < len(lines) and not re.match(r"^\s*(unfolding |" + re.escape(name) + r"(\s|$))", lines[last]):
        last += 1
    whole = "abbrev" in head[2] or "unfoldable" in head[2]
    text = "\n".join(lines if whole else lines[:last])
    return name, squeezed(re.sub(r"\b(abbrev|unfoldable) pub ", r"\1 ", re.sub(r"^\s*pub ", "", text)))


def statements(text):
    """(name, sections and statement) of each declaration of a file."""
    sections, current = [], []

    def ended():
        if current:
            it = statement(current)
            if it:
                yield it[0], " ".join(head for _, head in sections) + " | " + it[1]

    for line in text.split("\n"):
        if not line.strip() or line.lstrip().startswith("--") or re.match(r"(pub |unfoldable )*use |pub mod |mod ", line):
            continue
        section = re.match(r"^\s*module _ (.*)$", line)
        if section:
            yield from ended()
            current = []
            while sections and sections[-1][0] >= indent(line):
                sections.pop()
            sections.append((indent(line), squeezed(section[1])))
        elif (SIGNATURE.match(line) or TYPE.match(line)) and (not current or indent(line) <= indent(current[0])):
            yield from ended()
            current = [line]
            while sections and sections[-1][0] >= indent(line):
                sections.pop()
        elif current:
            current.append(line)
        elif sections:
            sections[-1] = (sections[-1][0], sections[-1][1] + " " + squeezed(line))
    yield from ended()


def library(root, crate):
    """Name: [(file, statement)] of the crate's files of definitions and theorems."""
    found = {}
    for side in ("specs", "proofs"):
        base = os.path.join(root, "crates", crate, side)
        for folder, inner, names in os.walk(base):
            inner.sort()
            for name in sorted(names):
                if not name.endswith(".antt") or name == "Proof.antt":
                    continue
                with open(os.path.join(folder, name), encoding="utf-8") as f:
                    text = f.read()
                if side == "proofs" and " as goal" in text:
                    continue
                for what, said in statements(text):
                    found.setdefault(what, []).append((side + "/" + os.path.relpath(os.path.join(folder, name), base), said))
    return found


def main():
    count, elsewhere, differ, missing = 0, 0, [], []
    for crate in sorted(os.listdir(os.path.join(OLD, "crates"))):
        old, new = library(OLD, crate), library(NEW, crate)
        for name, places in old.items():
            for file, said in places:
                count += 1
                same = [where for where, now in new.get(name, []) if now == said]
                if same:
                    elsewhere += file not in same
                elif name in new:
                    differ.append((crate, file, name, said, [now for _, now in new[name]]))
                else:
                    missing.append((crate, file, name))
    print(f"{count} statements, {elsewhere} of them in another file now; {len(differ)} differ, {len(missing)} are nowhere")
    for crate, file, name, said, now in differ:
        print(f"differs: {crate}/{file} {name}\n    - {said}\n    + {now[0]}")
    for crate, file, name in missing:
        print(f"nowhere: {crate}/{file} {name}")


if __name__ == "__main__":
    main()
