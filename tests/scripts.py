#!/usr/bin/env python3
"""Runs scripts/store.py and scripts/draw.py, and checks what they print.

    python3 tests/scripts.py

What store.py writes is compared with the stored form of the independent program, and every message with the words below. A
drawing is checked by itself: the links that it shows must divide the images as the rows of the listing say, none may cross
another, and each must have its cost. The kept drawing in docs/ is compared byte for byte.

Prints a line for each check that fails, and one with the numbers. Status 0 where none failed, 1 otherwise.
"""
import glob
import os
import re
import subprocess
import sys
import tempfile
import xml.etree.ElementTree as xml

sys.dont_write_bytecode = True

import independent as law

ROOT = os.path.dirname(os.path.dirname(os.path.abspath(__file__)))
SVG = "{http://www.w3.org/2000/svg}"

checks = failures = 0


def check(what, found, wanted=True):
    """Counts one check, and says what is wrong if it fails."""
    global checks, failures
    checks += 1
    if found != wanted:
        failures += 1
        print(f"scripts: {what}: {short(found)}, and it should be {short(wanted)}")


def short(thing):
    """Enough of it to see what it is."""
    return repr(thing) if len(repr(thing)) <= 300 else repr(thing)[:300] + " .."


def run(script, *arguments, given=b""):
    """Status, standard output and standard error of a script that runs in an empty directory, with given on standard input."""
    command = [sys.executable, "-BS", os.path.join(ROOT, "scripts", script), *arguments]
    done = subprocess.run(command, input=given, stdout=subprocess.PIPE, stderr=subprocess.PIPE, cwd=work)
    return done.returncode, done.stdout, done.stderr.decode()


def kept(path):
    """A file of the repository."""
    with open(os.path.join(ROOT, path), "rb") as file:
        return file.read()


def put(name, data):
    """A file in the directory that the scripts run in."""
    with open(os.path.join(work, name), "wb") as file:
        file.write(data)
    return name


# Texts of tables, made without store.py

def rows_of(n, upper, shape):
    """The rows of a text of this shape, with the numbers of the upper triangle."""
    d = law.square(n, law.table_from(n, upper))
    images = range(1, n + 1)
    return {"matrix": [[d[i][j] for j in images] for i in images],
            "triangle": [[d[i][j] for j in images if j > i] for i in images if i < n],
            "diagonal": [[d[i][j] for j in images if j >= i] for i in images]}[shape]


def text_of(rows, between=" ", end="\n"):
    return "".join(between.join(map(str, row)) + end for row in rows).encode()


def stored_of(n, upper, form=law.OLD):
    return bytes(law.stored_costs(n, law.table_from(n, upper), form))


FOUR = [2, 4, 4, 4, 4, 2]
FOUR_STORED = stored_of(4, FOUR)
WITH_DIAGONAL = "store.py: each line begins with 0, so this is an upper triangle with its diagonal, of {} images\n"


def test_shapes():
    """Each shape with each separator and line end; what is skipped; where the text comes from."""
    for shape in ("matrix", "triangle", "diagonal"):
        answer = 0, FOUR_STORED, WITH_DIAGONAL.format(4) if shape == "diagonal" else ""
        for between, end in ((" ", "\n"), (",", "\n"), ("\t", "\r\n"), (";", ";\n"), (" , ", "\r\n"), ("   ", " \r")):
            given = text_of(rows_of(4, FOUR, shape), between, end)
            check(f"{shape} with {between!r} and {end!r}", run("store.py", given=given), answer)
    text = text_of(rows_of(4, FOUR, "triangle"))
    for what, given in (("comments", b"# costs\n\n  # more\n" + text.replace(b"\n", b"\n\n#\n")),
                        ("no last line end", text.rstrip()), ("a byte order mark", b"\xef\xbb\xbf" + text),
                        ("two bytes a character", text.decode().encode("utf-16")),
                        ("empty cells below the diagonal", b",2,4,4\n,,4,4\n,,,2\n,,,\n"),
                        ("zeros in front", b"02 004 4\n4 4\n2\n")):
        check(what, run("store.py", given=given), (0, FOUR_STORED, ""))
    check("a lone -", run("store.py", "-", given=text), (0, FOUR_STORED, ""))
    check("a file", run("store.py", put("costs.txt", text)), (0, FOUR_STORED, ""))
    check("a file with the name 4", run("store.py", "./" + put("4", text)), (0, FOUR_STORED, ""))
    check("arguments", run("store.py", "4", *map(str, FOUR)), (0, FOUR_STORED, ""))


def test_which_triangle():
    """The zeros in front of the lines decide."""
    check("two lines", run("store.py", given=b"1 7\n2\n"), (0, stored_of(3, [1, 7, 2]), ""))
    check("three lines", run("store.py", given=b"1 7 8\n2 9\n3\n"), (0, stored_of(4, [1, 7, 8, 2, 9, 3]), ""))
    check("three lines, zeros", run("store.py", given=b"0 7 8\n0 9\n0\n"), (0, stored_of(3, [7, 8, 9]), WITH_DIAGONAL.format(3)))


TOO_LARGE_FOR_OLD = ", the limit of the old form; --form new takes it"
COSTS_NOTHING = "row {}, column {}: 0, and two different images must cost something"
# What is given, and the message without the script's name and "standard input".
REFUSED_TEXTS = (
    ("", "there are no numbers ({})"),
    ("# nothing\n\n", "there are no numbers ({})"),
    ("1 2 3\n4 x4\n6\n", 'row 2, column 4: "x4" is no number ({}, line 2)'),
    ("0 1 1\n\n1 0 x4\n1 1 0\n", 'row 2, column 3: "x4" is no number ({}, line 3)'),
    ("# a\n# b\n0 1 1\n0 x4\n0\n", 'row 2, column 3: "x4" is no number ({}, line 4)'),
    ("0 1 1\n1 0 8000001\n1 8000001 0\n", "row 2, column 3: 8000001 is above 8,000,000 ({}, line 2)"),
    ("0 1 1\n1 0 1\n1 " + "9" * 5000 + " 0\n", "row 3, column 2: " + "9" * 5000 + " is above 8,000,000 ({}, line 3)"),
    ("0 1 1\n1 0 1000001\n1 1000001 0\n", "row 2, column 3: 1000001 is above 1,000,000" + TOO_LARGE_FOR_OLD + " ({})"),
    ("1000000 8000000\n1000001\n", "row 1, column 3: 8000000 is above 1,000,000" + TOO_LARGE_FOR_OLD + " ({})"),
    ("0 1 1\n1 0 1000001\n1 1000002 0\n", "rows 2 and 3: d(2,3) is 1000001 and d(3,2) is 1000002 ({})"),
    ("0 1 1\n1 0 1.5\n1 1.5 0\n", "row 2, column 3: 1.5 is not written as a whole number ({}, line 2)"),
    ("1 2\n1e3\n", "row 2, column 3: 1e3 is not written as a whole number ({}, line 2)"),
    ("1 -3\n2\n", "row 1, column 3: -3 is below 0 ({}, line 1)"),
    ("0 1 1\n1 0 1\n1 1 5\n", "row 3, column 3: the diagonal must be 0, and it is 5 ({})"),
    ("0 1 2\n1 0 4\n2 5 0\n", "rows 2 and 3: d(2,3) is 4 and d(3,2) is 5 ({})"),
    ("0 0 0\n0 0 0\n0 0 0\n", COSTS_NOTHING.format(1, 2) + " ({})"),
    ("0 1 1\n1 0 0\n1 0 0\n", COSTS_NOTHING.format(2, 3) + " ({})"),
    ("0 7 8\n0 9\n1\n", COSTS_NOTHING.format(1, 2) + " ({})"),
    ("1 7 0\n2 0\n3\n", COSTS_NOTHING.format(1, 4) + " ({})"),
    ("0 7 8\n0 00\n0\n", COSTS_NOTHING.format(2, 3) + " ({})"),
    ("0 0 1\n0 0 8000001\n1 8000001 0\n", "row 2, column 3: 8000001 is above 8,000,000 ({}, line 2)"),
    ("0 0 1\n0 0 1\n1 1 5\n", "row 3, column 3: the diagonal must be 0, and it is 5 ({})"),
    ("0 0 2\n0 0 4\n2 5 0\n", "rows 2 and 3: d(2,3) is 4 and d(3,2) is 5 ({})"),
    ("0 0 2\n3 0 4\n2 4 0\n", "rows 1 and 2: d(1,2) is 0 and d(2,1) is 3 ({})"),
    ("1000001 2\n0\n", COSTS_NOTHING.format(2, 3) + " ({})"),
    ("0 1 1 1 1\n" * 3 + "1 1 1\n1 1 1 1 0\n", "row 4 has 3 numbers, and a matrix of 5 images has 5 in each row ({}, line 4)"),
    ("1 1 1\n" + "0 1 1 1\n" * 3, "row 1 has 3 numbers, and a matrix of 4 images has 4 in each row ({}, line 1)"),
    ("1 2 3\n4 5\n6 7\n", "row 3 has 2 numbers, and an upper triangle of 4 images has 1 there ({}, line 3)"),
    ("0 2 3 4\n0 5\n0 6\n0\n", "row 2 has 2 numbers, and an upper triangle with diagonal of 4 images has 3 there ({}, line 2)"),
    ("0 1 1\n1 0 1\n", "2 rows of 3 numbers, and a matrix has as many rows as columns ({})"),
    ("1 2 3 4 5 6\n", "1 row of 6 numbers, and a matrix has as many rows as columns ({})"),
    ("0\n", "1 image, and it must be 3 to 64 ({})"),
    ("0 1\n1 0\n", "2 images, and it must be 3 to 64 ({})"),
    ("0 7\n0\n", "2 images, and it must be 3 to 64 ({})"),
    ("0 " * 65 + "\n", "1 row of 65 numbers, and a matrix has as many rows as columns ({})"),
    (("0 " * 65 + "\n") * 65, "65 images, and it must be 3 to 64 ({})"),
)
REFUSED_ARGUMENTS = (
    ("4", "0 costs, and 4 images have 6"),
    ("3 1", "1 cost, and 3 images have 3"),
    ("2 1", "2 images, and it must be 3 to 64"),
    ("65", "65 images, and it must be 3 to 64"),
    ("4 2 4 4 4 x 2", 'row 2, column 4: "x" is no number'),
    ("3 1 8000001 1", "row 1, column 3: 8000001 is above 8,000,000"),
    ("3 1 1000001 1", "row 1, column 3: 1000001 is above 1,000,000" + TOO_LARGE_FOR_OLD),
    ("--form old 3 1 1000001 1", "row 1, column 3: 1000001 is above 1,000,000" + TOO_LARGE_FOR_OLD),
    ("--form new 3 1 8000001 1", "row 1, column 3: 8000001 is above 8,000,000"),
    ("3 0 0 0", COSTS_NOTHING.format(1, 2)),
    ("--form new 4 2 4 4 4 0 0", COSTS_NOTHING.format(2, 4)),
    ("3 0 8000001 1", "row 1, column 3: 8000001 is above 8,000,000"),
    ("3 1000001 0 1", COSTS_NOTHING.format(1, 3)),
    ("nowhere", "nowhere cannot be read: No such file or directory"),
)


def refusal(text):
    """The answer that says this and nothing else."""
    return 1, b"", f"store.py: {text}\n"


def test_messages():
    for given, words in REFUSED_TEXTS:
        status, answer, said = run("store.py", given=given.encode())
        note, found, rest = said.rpartition("store.py: ")
        check(f"the text {short(given)}", (status, answer, found + rest), refusal(words.format("standard input")))
        check(f"what is said before, of {short(given)}", note in ("", *map(WITH_DIAGONAL.format, (2, 3, 4))))
    in_file = refusal('row 2, column 3: "x" is no number (bad.txt, line 2)')
    check("in a file", run("store.py", put("bad.txt", b"1 2\nx\n")), in_file)
    no_text = refusal("this is no text: byte 5 is no part of a character (standard input)")
    check("no text", run("store.py", given=b"1 2\n\xfe"), no_text)
    for arguments, words in REFUSED_ARGUMENTS:
        check(f"the arguments {arguments}", run("store.py", *arguments.split()), refusal(words))
    for call in ("store.py a b", "store.py --matrix a b", "store.py --rows", "store.py --form", "store.py --form newer",
                 "store.py --form new a b", "store.py --form new --matrix", "store.py --matrix --form new", "draw.py a b",
                 "draw.py -x"):
        status, answer, said = run(*call.split())
        check(call, (status, answer, f"python3 scripts/{call.split()[0]} [" in said), (2, b"", True))


def test_forms():
    """Each form by its name, the old one where nothing is said, from text and from arguments."""
    text = text_of(rows_of(4, FOUR, "matrix"))
    for said, form in (((), law.OLD), (("--form", "old"), law.OLD), (("--form", "new"), law.NEW)):
        answer = 0, stored_of(4, FOUR, form), ""
        check(f"the form {said}", run("store.py", *said, given=text), answer)
        check(f"the form {said}, a lone -", run("store.py", *said, "-", given=text), answer)
        check(f"the form {said}, a file", run("store.py", *said, put("costs.txt", text)), answer)
        check(f"the form {said}, arguments", run("store.py", *said, "4", *map(str, FOUR)), answer)
    upper = [8_000_000, 1_000_001, 1_000_000]
    check("the largest costs", run("store.py", "--form", "new", "3", *map(str, upper)), (0, stored_of(3, upper, law.NEW), ""))


def test_limits_of_n():
    """The smallest and the largest tables, in each shape, with the smallest and the largest costs."""
    for n in (3, 64):
        for shape in ("matrix", "triangle", "diagonal"):
            for name, form in (("old", law.OLD), ("new", law.NEW)):
                upper = [form.most_entry, 1, 2] * (n * (n - 1) // 6)
                answer = run("store.py", "--form", name, given=text_of(rows_of(n, upper, shape)))
                check(f"{shape} of {n}, {name} form", answer[:2], (0, stored_of(n, upper, form)))


def test_round_trips(dice):
    """Stored, printed as a matrix, and stored again; the matrix is the one that is made here."""
    for n in (3, 4, 9, 33, 64):
        for most, name, form in ((9, "old", law.OLD), (1_000_000, "old", law.OLD), (8_000_000, "new", law.NEW)):
            upper = [dice.between(1, most) for _ in law.pairs(n)]
            table = stored_of(n, upper, form)
            status, text, said = run("store.py", "--matrix", put("table", table))
            wide = len(str(max(upper)))
            wanted = [[str(cost).rjust(wide) for cost in row] for row in rows_of(n, upper, "matrix")]
            check(f"the matrix of {n} images", (status, text, said), (0, text_of(wanted), ""))
            check(f"{n} images stored again", run("store.py", "--form", name, given=text), (0, table, ""))


UNTIMED = "store.py: row {}, column {}: 0, a link that nobody timed; every call refuses this table with 20\n"


def test_untimed_links():
    """Stored tables with zeros off the diagonal are printed, and the first zero is named; what was printed is refused as text."""
    for n, upper, zero in ((3, [0, 0, 0], (1, 2)), (4, [2, 4, 4, 4, 0, 2], (2, 4)), (64, [7] * 2015 + [0], (63, 64))):
        wanted = text_of(rows_of(n, upper, "matrix"))
        for form in (law.OLD, law.NEW):
            answer = run("store.py", "--matrix", given=stored_of(n, upper, form))
            check(f"the matrix of {n} images, {zero} untimed", answer, (0, wanted, UNTIMED.format(*zero)))
        again = refusal(COSTS_NOTHING.format(*zero) + " (standard input)")
        check(f"{zero} untimed, stored again", run("store.py", given=wanted), again)


REFUSED_BYTES = {
    "empty": "there are no bytes",
    "short": "the bytes end early: 3 images need 9, and there are 8",
    "two_images": "2 images, and it must be 3 to 64",
    "fill": "the bits that fill byte 9, the last of 3 images, are not zero",
    "damaged": "row 2, column 5: 1000001 is above 1,000,000",
    "new_damaged": "row 2, column 3: 8000001 is above 8,000,000",
    "new_short": "the bytes end early: the new form has 2 before the costs, and there is 1",
}


def test_stored_bytes():
    """The inputs of the listing program: printed and stored again, or refused where the independent program refuses them. Where it
    refuses with 20 the table is printed with a note, and cannot be stored again."""
    for path in sorted(glob.glob(os.path.join(ROOT, "tests/listing/*.stdin"))):
        name = os.path.basename(path)[:-len(".stdin")]
        data = kept(path)
        number, *places = law.read_costs(list(data), 0, [0] * 64 * 64)
        status, text, said = run("store.py", "--matrix", given=data)
        if number not in (0, 20):
            check(f"the bytes {name}", (status, text, said), refusal(REFUSED_BYTES.get(name, "?") + " (standard input)"))
            continue
        rows = [[int(word) for word in line.split()] for line in text.splitlines()]
        n, form = len(rows), "new" if data[0] >= 254 else "old"
        upper = [rows[i - 1][j - 1] for i, j in law.pairs(n)]
        table = stored_of(n, upper, law.NEW if form == "new" else law.OLD)
        check(f"the matrix of {name}", (rows, table), (rows_of(n, upper, "matrix"), data[:len(table)]))
        zero = next((pair for pair, cost in zip(law.pairs(n), upper) if cost == 0), ())
        check(f"the first zero of {name}", number == 0 or tuple(places[:2]) == zero)
        again = refusal(COSTS_NOTHING.format(*zero) + " (standard input)") if zero else (0, table, "")
        check(f"{name} stored again", run("store.py", "--form", form, "-", given=text), again)
        over = len(data) - len(table)
        note = f"store.py: {over} byte{'s' * (over != 1)} behind the table of {len(table)} bytes, not looked at\n"
        check(f"said of {name}", said, (UNTIMED.format(*zero) if zero else "") + (note if over else ""))


# Drawings. Places are whole tenths, so all of this is exact.

def tenths(element, *names):
    """These attributes, each written with one decimal."""
    return tuple(int(element.get(name).replace(".", "")) for name in names)


def side(a, b, c):
    """On which side of the line from a to b the place c is: 1, 0 or -1."""
    turn = (b[0] - a[0]) * (c[1] - a[1]) - (b[1] - a[1]) * (c[0] - a[0])
    return (turn > 0) - (turn < 0)


def on(link, c):
    """Is this place on the link?"""
    a, b = link
    return side(a, b, c) == 0 and min(a[0], b[0]) <= c[0] <= max(a[0], b[0]) and min(a[1], b[1]) <= c[1] <= max(a[1], b[1])


def meet(one, other):
    """Do two links meet elsewhere than in a common end?"""
    if set(one) & set(other):
        return any(on(link, place) for link, places in ((one, other), (other, one)) for place in set(places) - set(link))
    parted = [side(*link, a) * side(*link, b) for link, (a, b) in ((one, other), (other, one))]
    return parted == [-1, -1] or any(on(link, place) for link, places in ((one, other), (other, one)) for place in places)


def reached(start, links):
    """All places that the links join with this one."""
    found = [start]
    for place in found:
        found += [end for link in links if place in link for end in link if end not in found]
    return set(found)


def check_drawing(name, svg, listing):
    """A drawing shows what the listing says."""
    lines = listing.splitlines()
    rows, order = [tuple(map(int, line.split())) for line in lines[1:-1]], lines[-1].split()[1:]
    root = xml.fromstring(svg)
    groups = {group.get("id"): group for group in root.findall(SVG + "g")}
    check(f"{name}: title and description", [bool(root.findtext(SVG + kind)) for kind in ("title", "desc")], [True, True])

    numbers = groups["images"].findall(SVG + "text")
    ring = [tenths(disc, "cx", "cy") for disc in groups["images"].findall(SVG + "circle")]
    check(f"{name}: images in the order", [number.text for number in numbers], order)
    check(f"{name}: numbers on their images", [tenths(number, "x", "y") for number in numbers], ring)
    check(f"{name}: the first on top, at a radius in whole pixels", (ring[0][0], ring[0][1] % 10), (0, 0))
    check(f"{name}: clockwise on a ring", all(side(ring[at - 2], ring[at - 1], ring[at]) == 1 for at in range(len(ring))))

    drawn, labels = groups["links"].findall(SVG + "line"), groups["costs"].findall(SVG + "text")
    links = [(tenths(line, "x1", "y1"), tenths(line, "x2", "y2")) for line in drawn]
    costs = [cost for _, cost, _ in rows]
    dotted = [line.get("stroke-dasharray") is not None for line in drawn]
    far_from_link = [label.text for link, label in zip(links, labels) if not near(link, tenths(label, "x", "y"))]
    check(f"{name}: a cost a row", [int(label.text) for label in labels], costs)
    check(f"{name}: costs that are not at their links", far_from_link, [])
    check(f"{name}: links of cost 0 are dotted", dotted, [cost == 0 for cost in costs])

    at = dict(zip(map(int, order), ring))
    near_sides = [reached(at[1], links[:row] + links[row + 1:]) for row in range(len(links))]
    far_sides = [sum(2 ** (image - 1) for image in at if at[image] not in near_side) for near_side in near_sides]
    crossing = [(a, b) for b in range(len(links)) for a in range(b) if meet(links[a], links[b])]
    switches = {tenths(dot, "cx", "cy") for dot in groups["switches"]}
    check(f"{name}: each link divides the images as its row does", far_sides, [far for far, _, _ in rows])
    check(f"{name}: links that meet", crossing, [])
    check(f"{name}: ends of links", {place for link in links for place in link}, switches | set(ring))


def near(link, place):
    """Is this place on the link but for the rounding to tenths, with no end of the link nearer than a fifth of it?"""
    (ax, ay), (bx, by) = link
    across, down = bx - ax, by - ay
    length = across * across + down * down
    along = (place[0] - ax) * across + (place[1] - ay) * down
    beside = (place[0] - ax) * down - (place[1] - ay) * across
    return length <= 5 * along <= 4 * length and beside * beside <= length


def listing_of(n, rows):
    """The listing of a tree, with the independent program's upper rows and order."""
    d = law.square(n, law.tree_table(n, rows))
    order = law.order_of(n, d, 1, law.far_end(n, d))
    uppers = law.upper_rows_of([far for far, _ in rows])
    lines = [f"{far} {cost} {upper}" for (far, cost), upper in zip(rows, uppers)]
    return "\n".join([f"images {n} rows {len(rows)}", *lines, "order " + " ".join(map(str, order)), ""])


def test_drawings(dice):
    """The listings that are kept, and trees of each shape, with small costs and with the largest."""
    paths = sorted(path for program in ("listing", "listing_last_n")
                   for path in glob.glob(os.path.join(ROOT, f"tests/{program}/*.stdout")))
    listings = {os.path.relpath(path, ROOT): kept(path).decode() for path in paths}
    listings["nine.listing"] = kept("tests/drawing/nine.listing").decode()
    for n, most in ((4, 2), (11, 40), (30, 1_000), (64, 60_000)):
        for shape in ("star", "caterpillar", "uneven"):
            listings[f"{shape} of {n}"] = listing_of(n, law.tree_rows(dice, n, shape, most))
    for name, listing in listings.items():
        status, svg, said = run("draw.py", given=listing.encode())
        if listing.startswith("refused"):
            words = f"draw.py: there is no tree, the table was refused: {listing.strip()} (standard input)\n"
            check(f"the drawing of {name}", (status, svg, said), (1, b"", words))
        else:
            check(f"the drawing of {name}", (status, said), (0, ""))
            if status == 0:
                check_drawing(name, svg, listing)


def test_kept_drawing():
    """docs/nine-images.svg is the tree of image 1 in the examples; its listing says what the examples print."""
    listing, printed = kept("tests/drawing/nine.listing").decode(), kept("examples/expected.txt").decode()
    rows = [tuple(map(int, pair.split(":"))) for pair in re.search(r"image 1's tree\n(.*)", printed).group(1).split()]
    uppers = re.search(r"upper rows: (.*)", printed).group(1).split()
    order = re.search(r"order from 1 to there: (.*)", printed).group(1)
    stored = law.stored_costs(9, law.tree_table(9, rows))
    check("the listing of the nine images", listing, law.listing(stored))
    check("their table as text", run("store.py", os.path.join(ROOT, "examples", "costs.csv")), (0, bytes(stored), ""))
    check("its upper rows", [line.split()[2] for line in listing.splitlines()[1:-1]], uppers)
    check("its order", listing.splitlines()[-1], "order " + order)
    answer = 0, kept("docs/nine-images.svg"), ""
    check("the kept drawing", run("draw.py", put("nine", listing.encode())), answer)
    check("with other line ends", run("draw.py", "-", given=listing.replace("\n", "\r\n").encode()), answer)


NO_LISTING = "this is no listing, which is a line images N rows R, then R rows of three numbers, then a line order .."
FOUR_LISTING = "images 4 rows 5\n2 2 5\n4 2 4\n8 2 4\n12 4 5\n14 2 0\norder 1 2 3 4\n"
A_LISTING = law.LISTING_A_LAST_N
# What to put in the place of what in the listing of A, and what is said of the outcome.
REFUSED_LISTINGS = (
    (A_LISTING, "", NO_LISTING),
    ("order", "ring", NO_LISTING),
    ("4 1 3", "4 -1 3", NO_LISTING),
    ("4 1 3", "4 1", NO_LISTING),
    ("rows 3", "rows 4", "there are 3 rows, and the first line says 4"),
    ("images 3", "images 65", "65 images, and it must be 3 to 64"),
    ("1 2 3\n", "1 2 2\n", "the order does not have each of the images 1 to 3 once"),
    ("6 1 0", "6 1 3", "the last row is not image 1's own link with upper row 0"),
    ("6 1 0", "14 1 0", "the last row is not image 1's own link with upper row 0"),
    ("2 1 3", "4 1 3", "row 2: far side 4 is not above the one before it"),
    ("2 1 3", "2 1 9", "row 1: far side 2 has upper row 9, which is no later row"),
    ("2 1 3", "3 1 3", "row 1: far side 3 is no single image, and no row has it as its upper row"),
    ("2 1 3", "1 1 3", "row 3: far side 6 is not what the rows with this upper row make up"),
    (A_LISTING, FOUR_LISTING.replace("8 2 4", "8 2 5"), "row 4: far side 12 is not what the rows with this upper row make up"),
    (A_LISTING, FOUR_LISTING.replace("1 2 3 4", "1 3 2 4"), "row 4: far side 12 is no run of neighbours in the order"),
)


def test_refused_listings():
    for old, new, words in REFUSED_LISTINGS:
        answer = run("draw.py", given=A_LISTING.replace(old, new).encode())
        check(f"the listing of A with {short(new)}", answer, (1, b"", f"draw.py: {words} (standard input)\n"))
    check("no file", run("draw.py", "nowhere"), (1, b"", "draw.py: nowhere cannot be read: No such file or directory\n"))


with tempfile.TemporaryDirectory() as work:
    test_shapes()
    test_which_triangle()
    test_messages()
    test_forms()
    test_limits_of_n()
    test_round_trips(law.Dice(1))
    test_untimed_links()
    test_stored_bytes()
    test_drawings(law.Dice(2))
    test_kept_drawing()
    test_refused_listings()
print(f"scripts: {checks} checks, {failures} failed")
sys.exit(1 if failures else 0)
