#!/usr/bin/env python3
"""Counts, in the sources of a checkout, the places that docs/DESIGN-PASS.md speaks of.

    python3 tools/count_places.py [--list] [FOLDER]

FOLDER is the top of a checkout, this one if none is named. With --list each place is printed, as file:line: text.
"""
import glob
import re
import sys
from collections import Counter, defaultdict

ANSWERS = (
    "Check Answer SignedAnswer Written StoredCosts StoredLinks Shared Comparison Batched Chosen NewickTree TwoCosts Field Scanned"
).split()
WIDTHS = re.compile(r"\b(u8|u16|u32|u64|usize|i64)\b")


def sources(top):
    for path in sorted(glob.glob(f"{top}/crates/*/src/**/*.rt", recursive=True)):
        yield path.removeprefix(f"{top}/"), open(path, encoding="utf-8").read().split("\n")


def functions(lines):
    """Each function as (line, text), from its first line to its closing brace at the same indentation."""
    at = 0
    while at < len(lines):
        begun = re.match(r"( *)(?:pub )?(?:extern \"C\" )?fn (\w+)", lines[at])
        if begun:
            end = at
            while end < len(lines) and lines[end] != begun.group(1) + "}":
                end += 1
            yield at, begun.group(2), lines[at : end + 1]
            at = end
        at += 1


def lines_with(pattern, top, leave_out=None):
    found = re.compile(pattern)
    for path, lines in sources(top):
        for at, line in enumerate(lines):
            code = line.split("//")[0]
            if found.search(code) and not (leave_out and re.search(leave_out, code)):
                yield f"{path}:{at + 1}: {line.strip()}"


def counted_loops(top):
    """Loops `while` whose body counts an index on or back by one."""
    for path, lines in sources(top):
        for at, line in enumerate(lines):
            loop = re.match(r"( *)while (.*) \{$", line)
            if not loop:
                continue
            end = at
            while lines[end] != loop.group(1) + "}":
                end += 1
            names = set(re.findall(r"\b[a-z_]+\b", loop.group(2)))
            body = "\n".join(lines[at + 1 : end])
            if any(re.search(rf"\b{name} [+-]= 1;", body) for name in names):
                yield f"{path}:{at + 1}: {line.strip()}"


def twins(top):
    """Functions of the same crate family that are the same text but for names of their own, widths and numbers."""
    same = defaultdict(list)
    for path, lines in sources(top):
        if "/kemotuiki/" in path:
            continue
        for at, name, text in functions(lines):
            code = [line for line in text if not line.strip().startswith(("//", "#["))]
            code = "\n".join(code)
            code = re.sub(r"requires \{.*?\}\n|ensures (?:\w+ )?\{.*?\}\n", "", code, flags=re.S)
            code = re.sub(r"\b\d+\b", "0", code)
            code = re.sub(r"\b(0)(u8|u32|u64|usize)\b", r"\1", code)
            code = WIDTHS.sub("T", code)
            code = re.sub(r"\b[a-z]\w*(?=(::|\())", "f", code)
            code = re.sub(r"b\"[^\"]*\"", "TEXT", code)
            code = re.sub(r"\b[A-Z]\w*", "N", code)
            names = {}
            code = re.sub(r"\b[a-z_]\w*\b", lambda it: it.group(0) if it.group(0) in KEPT else names.setdefault(it.group(0), f"v{len(names)}"), code)
            if len(code.split()) >= 28:
                same[code].append(f"{path}:{at + 1}: {name}")
    for places in same.values():
        if len(places) > 1:
            yield " ~ ".join(places)


KEPT = set("fn let mut if else while for in return match pub true false as extern".split())


def clauses(top):
    """Facts, by their text, that stand in the `requires` of three functions or more."""
    facts = Counter()
    for path, lines in sources(top):
        for _, _, text in functions(lines):
            text = "\n".join(text)
            for clause in re.findall(r"requires (?:\w+ )?\{(.*?)\}\n", text, flags=re.S):
                depth, part, parts = 0, "", []
                for char in " ".join(clause.split()):
                    depth += (char in "([{") - (char in ")]}")
                    if char == "×" and not depth:
                        parts.append(part)
                        part = ""
                    else:
                        part += char
                for fact in {it.strip().strip("()") for it in [*parts, part]}:
                    facts[re.sub(r"\b(old|new)\b", "now", fact)] += 1
    for fact, times in facts.most_common():
        if times >= 3 and not re.fullmatch(r"[\w.]+ [<≤] [\w.]+", fact):
            yield f"{times} times: {fact}"


def together(top):
    """Groups of parameters that stand side by side in three signatures or more."""
    groups = Counter()
    for path, lines in sources(top):
        if "/kemotuiki/" in path:
            continue
        for _, _, text in functions(lines):
            text = "\n".join(text)
            if "(" not in text:
                continue
            signature = re.split(r"\n *(?:requires|ensures)|\{\n", text, maxsplit=1)[0]
            names = [it.strip() for it in re.findall(r"[(,]\s*(\w+: [^,()]*(?:\([^)]*\))?[^,()]*)", signature)]
            for size in (2, 3):
                for at in range(len(names) - size + 1):
                    group = names[at : at + size]
                    if all("[" in it for it in group):
                        groups[", ".join(group)] += 1
    for group, times in groups.most_common():
        if times >= 3:
            yield f"{times} times: {group}"


def answers(top):
    for path in sorted(glob.glob(f"{top}/crates/*/proofs/**/Answers.antt", recursive=True)):
        for at, line in enumerate(open(path, encoding="utf-8")):
            if re.match(r"pub \S+ : goal\.", line):
                yield f"{path.removeprefix(top + '/')}:{at + 1}: {line.strip()}"


def points(top):
    names = "|".join(ANSWERS)
    return [
        ("1 own enums of the shape of Option or Result, declared", lines_with(rf"^pub enum ({names}) ", top)),
        ("1 uses of their variants", lines_with(rf"\b({names})::[A-Z]", top)),
        ("1 flags with a value beside", lines_with(r"^    pub stop: ", top)),
        ("1 numbers for kinds", lines_with(r"^pub const [A-Z_0-9]+: u32 = \d+;$", top, "LIMIT|CAP")),
        ("1 refusals by number, built in code", lines_with(r"^\s+number: \d+,", top)),
        ("2 groups of twins", twins(top)),
        ("3 loops that count an index by hand", counted_loops(top)),
        ("3 other loops `while`", None),
        ("3 loops `for` over numbers", lines_with(r"for \w+ in [^{]*\.\.", top)),
        ("4 equality, order, copying and conversion by hand", lines_with(
            r"^ *(pub )?fn (lower|lesser|higher|greater|less|wide|byte|wide_byte|number_of|place_of|narrow8|narrow32|same\w*|number_at|no_figures|nothing)\(", top)),
        ("5 facts in the contracts of three functions or more", clauses(top)),
        ("5 and 6 slices that travel together, in three signatures or more", together(top)),
        ("6 buffers of a fixed size", lines_with(r"= \[0\w*; \d+\];", top)),
        ("7 switches on which step to run", lines_with(r"^ *(if call [!=]= |match (engine|which|call) )", top)),
        ("8 goals answered by hand", answers(top)),
    ]


def main():
    words = [it for it in sys.argv[1:] if it != "--list"]
    top = (words or ["."])[0].rstrip("/")
    loops = list(lines_with(r"^\s*while ", top))
    for title, places in points(top):
        if places is None:
            counted = {it for it in counted_loops(top)}
            places = [it for it in loops if it not in counted]
        places = list(places)
        print(f"{len(places):5}  {title}")
        if "--list" in sys.argv:
            for it in places:
                print(f"         {it}")


main()
