#!/usr/bin/env python3
"""Moves theorems from specs/ to proofs/, where a must-fail edit of a definition is to be refused for them and not be unreadable.

usage: python3 tools/move_theorems.py LIST [FOLDER]

LIST names files, one a line, as `tables/specs/Laws/Formed.antt`: the files whose theorems rest on a definition that an edit changes. What
contracts, edits and the files that stay need of such a file stays in specs/; everything else of it goes to the same place below proofs/, and so
does each file of the crate's specs/ that rests on what goes. Every import in the repository follows. No statement changes.
What was moved is written to moved.tsv beside this script: crate, file, the names that went, the names that stayed. docs/PORT.md has it all.
"""

import os
import re
import sys

TOP = sys.argv[2] if len(sys.argv) > 2 else "."
HEAD = re.compile(r"^((?:pub |abbrev |unfoldable )*)([^\s:(){},.;\"]+) :(?:\s|$)")
TYPE = re.compile(r"^((?:pub )?)(record|data) ([^\s:(){},.;\"]+)")
TOKEN = re.compile(r"[^\s(){}\[\],;.:\"`@|«»]+")
USE = re.compile(r"^((?:ghost )?use )Rattle\.(\w+)\.(specs)\.([\w.]+?)(?:\.\{([^}]*)\}|( as [\w-]+))?(;?)$", re.M)


def read(path):
    with open(path, encoding="utf-8") as f:
        return f.read()


def write(path, text):
    os.makedirs(os.path.dirname(path), exist_ok=True)
    with open(path, "w", encoding="utf-8") as f:
        f.write(text)


def below(folder, *ends):
    for at, inner, names in os.walk(folder):
        inner[:] = sorted(d for d in inner if d not in ("out", "target", ".git"))
        for name in sorted(names):
            if name.endswith(ends):
                yield os.path.join(at, name)


class Unit:
    """A declaration with its comment, or a module block with all that it declares."""

    def __init__(self):
        self.lines, self.names, self.fields, self.is_definition, self.is_theorem = [], [], [], False, False

    def text(self):
        return "\n".join(self.lines)

    def tokens(self):
        body = "\n".join(line for line in self.lines if not line.lstrip().startswith("--"))
        return set(TOKEN.findall(body)) - set(self.names) - set(self.fields)


def parts(name):
    return [part for part in name.split("◌") if part] if "◌" in name else [name]


def parse(text):
    """The comment in front, the imports, and the units of a file."""
    lines = text.split("\n")
    front, uses, units, comment, unit, i = [], [], [], [], None, 0
    while i < len(lines):
        line = lines[i]
        if line.startswith("use "):
            whole = line
            while whole.count("{") > whole.count("}"):
                i += 1
                whole += " " + lines[i].strip()
            uses.append(whole)
            front += comment
            comment, unit = [], None
        elif not line.strip():
            if unit and unit.lines and not unit.lines[0].startswith("module") and i + 1 < len(lines) and lines[i + 1].startswith(" "):
                unit.lines.append(line)
            elif unit and any(l.startswith("module") for l in unit.lines) and i + 1 < len(lines) and (lines[i + 1].startswith(" ") or not lines[i + 1].strip()):
                unit.lines.append(line)
            elif comment:
                units.append(as_comment(comment))
                comment, unit = [], None
            else:
                unit = None if not unit else unit
        elif line.startswith("--"):
            comment.append(line)
        elif line.startswith((" ", ")", "]", "}")):
            unit.lines.append(line)
        else:
            head, kind = HEAD.match(line), TYPE.match(line)
            if head or kind or line.startswith(("module ", "infix")):
                unit = Unit()
                unit.lines = comment + [line]
                comment = []
                units.append(unit)
                if kind:
                    unit.is_definition = True
                    unit.names.append(kind[3])
                elif head:
                    unit.names.append(head[2])
                    unit.is_definition = "abbrev" in head[1] or "unfoldable" in head[1]
                    unit.is_theorem = not unit.is_definition
            elif unit is None or line.startswith("pub mod "):
                units.append(as_comment(comment + [line]))
                comment, unit = [], None
            else:
                if comment:
                    unit.lines += comment
                    comment = []
                unit.lines.append(line)
        i += 1
    if comment:
        units.append(as_comment(comment))
    for unit in units:
        if any(line.startswith("module ") for line in unit.lines):
            for line in unit.lines:
                inner = re.match(r"^  ((?:pub |abbrev |unfoldable )*)([^\s:(){},.;\"]+) :(?:\s|$)", line)
                kind = re.match(r"^  ((?:pub )?)(record|data) ([^\s:(){},.;\"]+)", line)
                if kind:
                    unit.names.append(kind[3])
                    unit.is_definition = True
                elif inner:
                    unit.names.append(inner[2])
                    if "abbrev" in inner[1] or "unfoldable" in inner[1]:
                        unit.is_definition = True
                    elif len(line) - len(line.lstrip()) == 2:
                        unit.is_theorem = True
        elif unit.is_definition and TYPE.match(next((l for l in unit.lines if not l.startswith("--")), "")):
            for line in unit.lines:
                inner = re.match(r"^  (?:pub )?([^\s:(){},.;\"]+) :(?:\s|$)", line)
                if inner:
                    unit.fields.append(inner[1])
    return front, uses, units


def as_comment(lines):
    unit = Unit()
    unit.lines = list(lines)
    return unit


def imports(text):
    """(crate, dotted path, names or None for the whole module) of each import of specs."""
    for it in USE.finditer(joined(text)):
        if it[5] is not None:
            yield it[2], it[4], [name.strip() for name in it[5].split(",") if name.strip()]
        else:
            yield it[2], it[4], None


def joined(text):
    """The text with each import on one line."""
    return re.sub(r"^((?:ghost )?use [^\n{]*\{)([^}]*)\}", lambda it: it[1] + re.sub(r"\s+", " ", it[2]).strip().rstrip(",") + "}", text, flags=re.M)


def dotted(file):
    return file[: -len(".antt")].replace("/", ".")


def main():
    wanted = {}
    for line in read(sys.argv[1]).split("\n"):
        if line.strip():
            crate, _, file = line.strip().split("/", 2)
            if not os.path.exists(os.path.join(TOP, "crates", line.strip())):
                continue
            wanted.setdefault(crate, set()).add(file)
    moved = {}
    rows = []
    crates = sorted(os.listdir(os.path.join(TOP, "crates")))
    sources = {path: read(path) for crate in crates for path in below(os.path.join(TOP, "crates", crate, "src"), ".rt")}
    for crate in sorted(wanted):
        rows += one_crate(crate, wanted[crate], sources, moved)
    follow(crates, moved)
    write(os.path.join(TOP, "tools", "moved.tsv"), "".join("\t".join(row) + "\n" for row in rows))
    print(len(rows), "files")


def edits_of(crate):
    """The old texts of edits of specs, by file."""
    found = {}
    for path in below(os.path.join(TOP, "crates", crate, "must-fail"), ".edit"):
        file = None
        for line in read(path).split("\n"):
            if line.startswith("file: "):
                file = line[6:].strip()
            elif line.startswith("old: ") and file.startswith("specs/"):
                found.setdefault(file[len("specs/") :], []).append(line[5:])
    return found


def one_crate(crate, wanted, sources, moved):
    folder = os.path.join(TOP, "crates", crate, "specs")
    files = {os.path.relpath(path, folder): read(path) for path in below(folder, ".antt")}
    parsed = {file: parse(text) for file, text in files.items()}
    nodes = {file for file, text in files.items() if re.search(r"^pub mod ", text, re.M)}
    by_path = {dotted(file): file for file in files}
    needed = {file: set() for file in files}
    for text in sources.values():
        for c, path, names in imports(text):
            if c == crate and path in by_path:
                needed[by_path[path]] |= set(name.split(" as ")[0] for name in names) if names is not None else {"*"}
    edits = edits_of(crate)
    for file, olds in edits.items():
        for unit in parsed[file][2]:
            if any(old in unit.text() for old in olds) and (unit.is_definition or not unit.is_theorem):
                needed[file] |= set(unit.names)
    going = set(wanted)
    while True:
        for file in going:
            # what is no law of Laws/ keeps its definitions in specs/, where they are read
            if not file.startswith("Laws"):
                needed[file] |= {name for unit in parsed[file][2] if unit.is_definition and not unit.is_theorem for name in unit.names}
        stays = {file: stay_of(parsed[file][2], needed[file]) if file in going else None for file in files}
        more = set()
        again = False
        for file in files:
            if file in nodes and not parsed[file][2]:
                continue
            units = parsed[file][2] if stays[file] is None else [u for k, u in enumerate(parsed[file][2]) if k in stays[file]]
            if not units:
                continue
            used = set().union(*(unit.tokens() for unit in units)) if units else set()
            for c, path, names in imports(files[file]):
                if c != crate or path not in by_path or by_path[path] not in going:
                    continue
                target = by_path[path]
                kept = set().union(*(set(u.names) for k, u in enumerate(parsed[target][2]) if k in stays[target])) if stays[target] else set()
                for name in names if names is not None else ["*"]:
                    bare = name.split(" as ")[0]
                    shown = name.split(" as ")[-1]
                    if stays[file] is not None and not all(part in used for part in parts(shown)) and bare != "*":
                        continue
                    if bare in kept:
                        continue
                    unit = next((u for u in parsed[target][2] if bare in u.names), None)
                    if stays[file] is None and unit is not None and unit.is_theorem and not unit.is_definition:
                        more.add(file)
                    elif bare not in needed[target]:
                        needed[target].add(bare)
                        again = True
        if more - going:
            going |= more
            again = True
        if not again:
            break
    rows = []
    for file in sorted(going):
        front, uses, units = parsed[file]
        kept = stays[file]
        away = [u for k, u in enumerate(units) if k not in kept]
        left = [u for k, u in enumerate(units) if k in kept]
        kept_names = [name for u in left for name in u.names]
        gone_names = [name for u in away for name in u.names]
        if not gone_names:
            continue
        for u in left:
            if u.is_theorem and not u.is_definition:
                print(f"theorem stays: {crate}/specs/{file}: {u.names}")
        path = os.path.join(folder, file)
        target = os.path.join(TOP, "crates", crate, "proofs", file)
        if not any(u.names for u in left):
            os.remove(path)
            write(target, files[file])
            moved[(crate, dotted(file))] = None
        else:
            for unit in left:
                unit.lines = [re.sub(r"^(abbrev|unfoldable) (?!pub )", r"\1 pub ", re.sub(r"^(record|data) ", r"pub \1 ", line)) for line in unit.lines]
            write(path, layout(front, uses, left))
            own = f"pub use Rattle.{crate}.specs.{dotted(file)}.{{{', '.join(n for n in importable(left))}}}"
            write(target, layout(front, uses + [own], away))
            moved[(crate, dotted(file))] = set(importable_all(away))
        rows.append([crate, file, ", ".join(gone_names), ", ".join(kept_names)])
        declare(crate, file, not any(u.names for u in left))
    return rows


def importable(units):
    return [u.names[0] if TYPE.match(next((l for l in u.lines if not l.startswith("--")), "")) else n for u in units for n in (u.names[:1] if TYPE.match(next((l for l in u.lines if not l.startswith("--")), "")) else u.names)]


def importable_all(units):
    return [n for u in units for n in u.names]


def stay_of(units, needed):
    """The places of the units that are needed, and of those that they need."""
    if "*" in needed:
        needed = set(needed) | {n for u in units if u.is_definition for n in u.names}
    stay = {k for k, u in enumerate(units) if set(u.names) & needed}
    while True:
        used = set().union(*(units[k].tokens() for k in stay)) if stay else set()
        more = {k for k, u in enumerate(units) if k not in stay and any(all(p in used for p in parts(n)) for n in u.names)}
        if not more:
            return stay
        stay |= more


def layout(front, uses, units):
    body = "\n\n".join(u.text().rstrip("\n") for u in units)
    return "\n".join(front + uses) + "\n\n" + body + "\n"


def declare(crate, file, whole):
    """Moves the line that declares a file, or copies it where a part stays, from specs/ to proofs/."""
    where = os.path.join(TOP, "crates", crate)
    folder, name = os.path.split(file[: -len(".antt")])
    node = (folder + ".antt") if folder else "Lib.antt"
    source = os.path.join(where, "specs", node)
    lines = read(source).split("\n")
    k = lines.index("pub mod " + name)
    start = k
    while start > 0 and lines[start - 1].startswith("--"):
        start -= 1
    block = lines[start : k + 1]
    target = os.path.join(where, "proofs", node)
    have = read(target).rstrip("\n").split("\n") if os.path.exists(target) else []
    if "pub mod " + name not in have:
        write(target, "\n".join(have + block) + "\n")
    if whole:
        del lines[start : k + 1]
        if any(line.startswith("pub mod ") for line in lines):
            write(source, "\n".join(lines))
        else:
            os.remove(source)
            if folder:
                declare(crate, folder + ".antt", True)
                return
    if folder:
        up = os.path.join(where, "proofs", "Lib.antt")
        have = read(up).rstrip("\n").split("\n") if os.path.exists(up) else []
        if "pub mod " + folder not in have:
            write(up, "\n".join(have + ["-- Laws."  if folder == "Laws" else "-- " + folder, "pub mod " + folder]) + "\n")


def follow(crates, moved):
    for crate in crates:
        for path in below(os.path.join(TOP, "crates", crate), ".antt", ".rt"):
            text = read(path)
            if "Rattle." not in text:
                continue

            def turn(it):
                whole = moved.get((it[2], it[4]), 0)
                if whole == 0:
                    return it[0]
                at = f"{it[1]}Rattle.{it[2]}.proofs.{it[4]}"
                if it[5] is None:
                    # what stays of a file that is split is passed on by the other part
                    return at + (it[6] or "") + it[7]
                names = [name.strip() for name in it[5].split(",") if name.strip()]
                gone = [name for name in names if whole is None or name.split(" as ")[0] in whole]
                left = [name for name in names if name not in gone]
                if not gone:
                    return it[0]
                first = f"{it[1]}Rattle.{it[2]}.specs.{it[4]}.{{{', '.join(left)}}}{it[7]}\n" if left else ""
                return first + at + f".{{{', '.join(gone)}}}{it[7]}"

            new = USE.sub(turn, joined(text) if path.endswith(".antt") else text)
            if new != text and not (path.endswith(".antt") and new == joined(text)):
                write(path, new)


if __name__ == "__main__":
    main()
