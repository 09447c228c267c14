#!/usr/bin/env python3
"""Brings the must-fail edits to the spelling that the kit's port.py gave the files that they change: it turns no edit itself.

usage: python3 tools/respell_edits.py [FOLDER]

It is run once, after tools/respell.py. Only the lines `old:` and `new:` of edits are written.
"""

import os
import re
import sys

TOP = sys.argv[1] if len(sys.argv) > 1 else "."
WORDS = {
    "roomCheck": "room_check", "partOf": "part_of", "choiceOf": "choice_of", "valueOf": "value_of", "bitAnd": "bit_and", "isGroup": "is_group",
    "rowLine": "row_line", "tableAt": "table_at", "rowsOf": "rows_of", "bitsOf": "bits_of", "getD": "get_or", "ltZ": "int_lt", "negℤ": "neg",
}


def turn(line):
    line = re.sub(r"(?<![\w'-])(" + "|".join(map(re.escape, WORDS)) + r")(?![\w'-])", lambda it: WORDS[it[1]], line)
    line = re.sub(r"\((\w+) ((?:\.\w+ ?)+)\)", lambda it: it[1] + it[2].replace(" ", ""), line)
    line = re.sub(r"(?<=[\w)]) \.(?=[a-z0-9])", ".", line)
    line = line.replace("′", "'")
    line = re.sub(r"Rattle·(\w+)·specs\.specs", r"Rattle.\1.specs", line)
    line = re.sub(r"Rattle·(\w+)", r"Rattle.\1", line)
    line = re.sub(r"_([^\w\s{},]+)_", r"◌\1◌", line)
    line = re.sub(r"⌜ (.*) ⌝", r"\1", line).replace("{ λ r. r ≡", "{ result ≡")
    line = re.sub(r"\(now \((\w+)\.entry\)\)", r"\1.now", line)
    return re.sub(r"\(now (\w+)\)", r"\1.now", line)


def main():
    for folder, _, names in os.walk(os.path.join(TOP, "crates")):
        for name in names:
            path = os.path.join(folder, name)
            if name.endswith(".edit") and "/must-fail" in folder:
                with open(path, encoding="utf-8") as f:
                    text = f.read()
                new = "\n".join(turn(line) if line.startswith(("old:", "new:")) else line for line in text.split("\n"))
                if new != text:
                    with open(path, "w", encoding="utf-8") as f:
                        f.write(new)


if __name__ == "__main__":
    main()
