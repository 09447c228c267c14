#!/usr/bin/env python3
"""Prints, as Markdown, what differs between the promises of an older checkout and of this one: signatures and clauses of public functions,
structs and enums, definitions and theorems. docs/DESIGN-PASS.md ends with what it prints.

    python3 tools/side_by_side.py OLD [NEW]

Of a theorem the statement is compared, of a definition or a record the whole text; white space does not count.
"""
import glob
import os
import re
import sys

from same_statements import library

OLD, NEW = sys.argv[1].rstrip("/"), (sys.argv[2] if len(sys.argv) > 2 else ".").rstrip("/")


def squeezed(text):
    return re.sub(r"\s+", " ", text).replace("( ", "(").replace(", )", ")").strip()


def public_items(top):
    """What the sources promise: (crate, name) to signature and clauses, or to the text of a struct or an enum."""
    found = {}
    for path in sorted(glob.glob(f"{top}/crates/*/src/**/*.rt", recursive=True)):
        crate = path.split("/crates/")[1].split("/")[0]
        text = open(path, encoding="utf-8").read()
        for item in re.finditer(r"^( *)pub (?:extern \"C\" )?fn (\w+)(.*?)\n?\1?\{\n", text, re.S | re.M):
            kind = re.findall(r"^impl(?:<[^{]*?>)? (?:[\w<>, ()']+ for )?(\w+)", text[: item.start()], re.M) if item[1] else []
            name = f"{kind[-1]}::{item[2]}" if kind else item[2]
            found[crate, name] = squeezed(f"fn {item[2]}{item[3]}")
        for item in re.finditer(r"^pub (struct|enum) (\w+)(.*?)\n\}\n", text, re.S | re.M):
            body = re.sub(r"//[^\n]*", "", item[3])
            found[crate, item[2]] = squeezed(f"{item[1]} {item[2]}{body} }}")
        for item in re.finditer(r"^impl(?:<[^{]*?>)? (\w+<[^{]*>) for (\w+) \{(.*?)^\}\n", text, re.S | re.M):
            for ghost in re.findall(r"ghost \w+ = \{.*?\};", item[3]):
                found[crate, f"{item[1]} for {item[2]}"] = squeezed(f"impl {item[1]} for {item[2]}, {ghost}")
    return found


def all_statements(top):
    found = {}
    for crate in sorted(os.listdir(f"{top}/crates")):
        for name, places in library(top, crate).items():
            found[crate, name] = " ‖ ".join(sorted({said for _, said in places}))
    return found


def cell(text):
    return text.replace("|", "\\|") if text else "–"


def table(title, old, new, wanted):
    changed = [key for key in sorted(set(old) | set(new)) if old.get(key) != new.get(key) and wanted(key)]
    print(f"\n### {title}: {len(changed)}\n\n| where | old | new |\n|---|---|---|")
    for crate, name in changed:
        print(f"| {crate} `{name}` | {cell(old.get((crate, name)))} | {cell(new.get((crate, name)))} |")


def main():
    sides = public_items(OLD), public_items(NEW)
    table("Public functions, structs and enums", *sides, lambda key: True)
    old = all_statements(OLD)
    table("Definitions and theorems that stood before", old, all_statements(NEW), lambda key: key in old)


main()
