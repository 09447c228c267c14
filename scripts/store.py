#!/usr/bin/env python3
"""Turns a cost table that is given as text into its stored form, and a stored one back into text.

    python3 scripts/store.py [--form F] [FILE] > table      the text in FILE, or on standard input: without FILE, or where it is -
    python3 scripts/store.py [--form F] N COST.. > table    N images and the costs of the upper triangle
    python3 scripts/store.py --matrix [FILE]                prints a stored table, from FILE or standard input, as a matrix

A first argument that is a number is N; a file of such a name is given as ./4.

Stored tables of either form stand one after another for a term report, kemotuiki_report: cat week1 week2 week3 > term

F is old or new. The old form is for costs to 1,000,000, and it is written where nothing is said, since programs before
version 3 read no other; the new form is for costs to 8,000,000. A matrix is printed of either.

Text has one row a line: whole numbers with blanks, tabs, commas or semicolons between them. Empty lines and lines that begin
with # are skipped. There are three shapes, and the one that more lines fit is meant:

    matrix                 n lines of n numbers, 0 on the diagonal and nowhere else, and d(i,j) = d(j,i)
    upper triangle         line i has d(i,i+1), .., d(i,n), so the lines have n-1, n-2, .., 1 numbers
    the same, diagonal     line i has d(i,i), .., d(i,n), so the lines have n, n-1, .., 1 numbers

Both triangles have lines of the same lengths. Where each line begins with 0 it is one with its diagonal, and a note says so.

A 0 between two different images is a link that nobody timed, and is refused. A stored table that has one, as programs before
version 4 wrote it, is still printed as a matrix, and a note names the first.

Status 0; 1 where the table is refused or cannot be read, with a message on standard error and nothing on standard output; 2
where the arguments are wrong.
"""
import re
import sys

FEWEST_IMAGES, MOST_IMAGES = 3, 64
MOST_COST = 8_000_000
IMAGES_BITS = 7

# The stored forms: the bits in front of n, the bits of a cost, and the largest cost.
FORMS = {"old": ("", 20, 1_000_000), "new": ("1111111", 23, MOST_COST)}


class Refused(Exception):
    """What is wrong with a table, in words; behind them the number of the line, where it is one line's fault."""


def note(words):
    """Says something beside the answer."""
    print(f"store.py: {words}", file=sys.stderr)


def counted(count, noun):
    """A number of things, in words."""
    return f"{count} {noun}" + "s" * (count != 1)


def check_images(n):
    """Refuses an n that no table has."""
    if not FEWEST_IMAGES <= n <= MOST_IMAGES:
        raise Refused(f"{counted(n, 'image')}, and it must be {FEWEST_IMAGES} to {MOST_IMAGES}")


def pairs(n):
    """Row and column of each entry of the upper triangle, counted from 1, in stored order."""
    return [(i, j) for i in range(1, n + 1) for j in range(i + 1, n + 1)]


def first_zero(n, costs):
    """Row and column of the first 0 of the upper triangle, in words, or None."""
    return next((f"row {row}, column {column}: 0" for (row, column), cost in zip(pairs(n), costs) if cost == 0), None)


def cost_of(word, row, column, *line, most=MOST_COST):
    """The cost that the word is, or what is wrong with it."""
    try:
        value = float(word)
    except ValueError:
        value = None
    wrong = (f'"{word}" is no number' if value is None else
             f"{word} is below 0" if value < 0 else
             f"{word} is not written as a whole number" if not re.fullmatch("[0-9]+", word) else
             f"{word} is above {most:,}" if value > most else None)
    if wrong:
        raise Refused(f"row {row}, column {column}: {wrong}", *line)
    return int(value)


def text_lines(data):
    """The words of each line that counts, with the line's number. A byte order mark in front is skipped."""
    try:
        text = data.decode("utf-16" if data[:2] in (b"\xff\xfe", b"\xfe\xff") else "utf-8-sig")
    except UnicodeDecodeError as error:
        raise Refused(f"this is no text: byte {error.start + 1} is no part of a character")
    lines = [(re.findall(r"[^\s,;]+", line), number) for number, line in enumerate(text.splitlines(), 1)]
    return [(words, number) for words, number in lines if words and not words[0].startswith("#")]


def shape_of(rows):
    """The shape that more rows fit, a matrix if as many fit both: its name, its n, and the lengths of its rows."""
    count, lengths = len(rows), [len(words) for words, _ in rows]
    falling = list(range(count, 0, -1))
    if sum(one == other for one, other in zip(lengths, falling)) <= lengths.count(count):
        if set(lengths) != {count} and len(set(lengths)) == 1:
            raise Refused(f"{counted(count, 'row')} of {counted(lengths[0], 'number')}, and a matrix has as many rows as columns")
        return "a matrix", count, [count] * count
    if any(words[0].strip("0") for words, _ in rows):
        return "an upper triangle", count + 1, falling
    note(f"each line begins with 0, so this is an upper triangle with its diagonal, of {count} images")
    return "an upper triangle with diagonal", count, falling


def entries_of(rows):
    """n, and the entries that the text has by row and column; those below the diagonal are there in a matrix alone."""
    if not rows:
        raise Refused("there are no numbers")
    shape, n, lengths = shape_of(rows)
    check_images(n)
    for row, ((words, line), length) in enumerate(zip(rows, lengths), 1):
        if len(words) != length:
            there = "in each row" if shape == "a matrix" else "there"
            raise Refused(f"row {row} has {counted(len(words), 'number')}, and {shape} of {n} images has {length} {there}", line)
    return n, {(row, column): cost_of(word, row, column, line) for row, (words, line) in enumerate(rows, 1)
               for column, word in enumerate(words, n + 1 - len(words))}


def from_text(data):
    """n and the upper triangle of the table in this text."""
    n, entries = entries_of(text_lines(data))
    for i in range(1, n + 1):
        if entries.get((i, i), 0) != 0:
            raise Refused(f"row {i}, column {i}: the diagonal must be 0, and it is {entries[i, i]}")
    for i, j in pairs(n):
        if entries.get((j, i), entries[i, j]) != entries[i, j]:
            raise Refused(f"rows {i} and {j}: d({i},{j}) is {entries[i, j]} and d({j},{i}) is {entries[j, i]}")
    return n, [entries[pair] for pair in pairs(n)]


def from_words(n, words):
    """n and the upper triangle, from the arguments N COST .. ."""
    check_images(n)
    if len(words) != len(pairs(n)):
        raise Refused(f"{counted(len(words), 'cost')}, and {n} images have {len(pairs(n))}")
    return n, [cost_of(word, row, column) for word, (row, column) in zip(words, pairs(n))]


def from_stored(data):
    """n and the upper triangle of the stored table at the front of these bytes, in the form that its first bits say."""
    if not data:
        raise Refused("there are no bytes")
    bits = "".join(f"{byte:08b}" for byte in data)
    mark, cost_bits, most = FORMS["new" if bits.startswith(FORMS["new"][0]) else "old"]
    start = len(mark) + IMAGES_BITS
    if len(bits) < start:
        raise Refused("the bytes end early: the new form has 2 before the costs, and there is 1")
    n = int(bits[len(mark):start], 2)
    check_images(n)
    end = start + cost_bits * len(pairs(n))
    used = (end + 7) // 8
    if len(data) < used:
        raise Refused(f"the bytes end early: {n} images need {used}, and there are {len(data)}")
    if "1" in bits[end:8 * used]:
        raise Refused(f"the bits that fill byte {used}, the last of {n} images, are not zero")
    fields = [bits[at:at + cost_bits] for at in range(start, end, cost_bits)]
    costs = [cost_of(str(int(field, 2)), row, column, most=most) for field, (row, column) in zip(fields, pairs(n))]
    zero = first_zero(n, costs)
    if zero:
        note(f"{zero}, a link that nobody timed; every call refuses this table with 20")
    if len(data) > used:
        note(f"{counted(len(data) - used, 'byte')} behind the table of {used} bytes, not looked at")
    return n, costs


def stored(form, n, costs):
    """The stored form: fields of bits, the most significant first, and zeros behind them to a whole byte. It is refused where
    two different images cost nothing, and the old form where a cost is above its limit."""
    mark, cost_bits, most = FORMS[form]
    zero = first_zero(n, costs)
    if zero:
        raise Refused(f"{zero}, and two different images must cost something")
    for cost, (row, column) in zip(costs, pairs(n)):
        if cost > most:
            raise Refused(f"row {row}, column {column}: {cost} is above {most:,}, the limit of the old form; --form new takes it")
    bits = mark + f"{n:0{IMAGES_BITS}b}" + "".join(f"{cost:0{cost_bits}b}" for cost in costs)
    bits += "0" * (-len(bits) % 8)
    return bytes(int(bits[at:at + 8], 2) for at in range(0, len(bits), 8))


def matrix(n, costs):
    """The whole table as text, one row a line, all columns as wide as the widest entry."""
    entries, width = dict(zip(pairs(n), costs)), len(str(max(costs)))
    rows = [[entries.get((min(i, j), max(i, j)), 0) for j in range(1, n + 1)] for i in range(1, n + 1)]
    return "".join(" ".join(f"{cost:{width}}" for cost in row) + "\n" for row in rows).encode()


def main(arguments):
    """Writes the answer, or says why there is none."""
    form, told = "old", arguments[:1] == ["--form"]
    if told:
        form, arguments = "".join(arguments[1:2]), arguments[2:]
    back = arguments[:1] == ["--matrix"]
    name, *more = arguments[back:] or ["-"]
    by_arguments = not back and re.fullmatch("[0-9]{1,9}", name)
    if form not in FORMS or told and back or not by_arguments and (more or name.startswith("-") and name != "-"):
        print(__doc__.strip(), file=sys.stderr)
        return 2
    try:
        if by_arguments:
            answer = stored(form, *from_words(int(name), more))
        else:
            with sys.stdin.buffer if name == "-" else open(name, "rb") as file:
                data = file.read()
            answer = matrix(*from_stored(data)) if back else stored(form, *from_text(data))
    except OSError as error:
        note(f"{name} cannot be read: {error.strerror}")
        return 1
    except Refused as refused:
        words, *line = refused.args
        place = ["standard input" if name == "-" else name] * (not by_arguments) + [f"line {number}" for number in line]
        note(words + f" ({', '.join(place)})" * bool(place))
        return 1
    sys.stdout.buffer.write(answer)
    return 0


if __name__ == "__main__":
    sys.exit(main(sys.argv[1:]))
