#!/usr/bin/env python3
"""Cases for every public call, with the answers of the independent program.

    python3 tests/generate.py            writes the files
    python3 tests/generate.py --check    says whether the files are what it makes

It writes crates/cases/data/CALL.txt, one case a line: the call's arguments in
order, a slice as its length and then its elements, but the bytes of a report in
pieces, and its slices as length and fill. It writes crates/cases/stdout,
for each call a line with its name and then one line a case: the numbers of the
answer, then each lent output as the call leaves it, its length first. It writes
tests/listing/NAME.stdin, stored bytes for both listing programs, for the one that
prints Newick text and for the one that lists levels, and the text that each of them
prints, tests/PROGRAM/NAME.stdout; example H is also what `rt ci` runs them on, and E what
it runs the one that lists levels on. It writes tests/term/NAME.stdin, stored
tables one behind another for the program that prints the term report, and its text,
tests/term/NAME.stdout; `rt ci` runs it on the examples E, F, G and E. All is decided by
the seeds below.
"""

import functools
import itertools
import os
import sys

if not __debug__:
    sys.exit("generate.py: run it without -O, which leaves out the assertions")

sys.dont_write_bytecode = True

import independent as law
from independent import (NEW, OLD, Dice, holds, is_inner, own_link, pairs, stored_costs, table_from,
                         tree_rows, tree_table)

ROOT = os.path.dirname(os.path.dirname(os.path.abspath(__file__)))

# The programs that run the cases have arrays of these lengths: for a slice of numbers, for
# the joined tables of a team, for a slice of bytes, for the bytes of the reader's calls, for
# the bytes of a report and for each slice that it is lent, and for a file of cases.
LONGEST_LINE = 140000
LONGEST_SLICE = 4200
LONGEST_TEAM = 65600
LONGEST_BYTES = 5900
LONGEST_READ = 11800
LONGEST_REPORT = 27000
LONGEST_LENT = 1100
LARGEST_FILE = 400000
LARGEST_ANSWERS = 1342000
LARGEST_TOTAL = 5549000
FEWEST_CASES = 2500
FEWEST_OF_EACH_REFUSAL = 8
FEWEST_IN_EACH_FORM = 5

# With so many images the index is negative, 0 and positive in some cases each.
EVERY_SIGN = (3, 4, 5, 9, 17, 33, 64)

# Each call: its function; its arguments, a single number of 64 bits as n and a
# slice by the bits of its elements, a lent output with a star; the refusal
# numbers it can give.
CALLS = {
    "index": (law.index, "n 32 n", (1, 2, 4, 5, 6, 12, 20)),
    "order": (law.order, "n 32 n n 32*", (1, 2, 3, 4, 5, 6, 8, 20)),
    "measured": (law.measured, "n 32 64* 32*", (1, 2, 3, 4, 5, 6, 20)),
    "exact": (law.exact, "n 32 64* 32*", (1, 2, 3, 4, 5, 6, 7, 20)),
    "path": (law.path, "n n 64 32 n n", (1, 2, 8, 10, 12, 13)),
    "upper_rows": (law.upper_rows, "n n 64 32 32*", (1, 2, 3, 10, 12, 13)),
    "route": (law.route, "n n 64 32 n 32*", (1, 2, 3, 8, 10, 12, 13)),
    "compare": (law.compare, "n 32 32", (1, 2, 4, 5, 6, 7, 20)),
    "write_costs": (law.write_costs, "n n 32 8*", (1, 2, 3, 4, 5, 6, 17, 20)),
    "read_costs": (law.read_costs, "8 n 32*", (1, 3, 4, 9, 11, 20)),
    "write_links": (law.write_links, "n n n 64 32 8*", (1, 2, 3, 10, 12, 13, 17)),
    "read_links": (law.read_links, "8 n 64* 32*", (1, 3, 9, 10, 11, 12, 13)),
    "write_batch": (law.write_batch, "n 32 32 64 32 8*", (1, 2, 3, 10, 12, 13, 17)),
    "choice": (law.choice, "8 8", (1, 9, 10, 11, 12, 13, 14, 15)),
    "first_two": (law.first_two, "8 n 32* 32*", (1, 3, 4, 9, 11, 20)),
    "first_links": (law.first_links, "8 n 64* 32*", (1, 3, 9, 10, 11, 12, 13)),
    "two_costs": (law.two_costs, "8 32* 32*", (1, 3, 4, 9, 11, 20)),
    "two_fields": (law.two_fields, "8 n n n", (3, 9)),
    "refusal_text": (law.refusal_text, "n n n n n n 8*", (3,)),
    "consensus": (law.consensus, "n n 32 64* 32*", (1, 2, 3, 4, 5, 6, 7, 16, 20)),
    "listing": (law.listing, "8", (1, 4, 7, 9, 11, 20)),
    "exact_grafted": (law.exact_grafted, "n 32 64* 32*", (1, 2, 3, 4, 5, 6, 7, 20)),
    "convert_costs": (law.convert_costs, "n 8 8*", (1, 3, 4, 9, 11, 17, 20)),
    "convert_links": (law.convert_links, "n 8 8*", (1, 3, 9, 10, 11, 12, 13, 17)),
    "write_newick": (law.write_newick, "n n 64 32 8*", (1, 2, 3, 10, 12, 13)),
    "read_newick": (law.read_newick, "8 64* 32*", (1, 3, 12, 13, 18, 22)),
    "replay": (law.replay, "n 32 8 64* 32*", (1, 2, 3, 4, 5, 6, 7, 8, 20)),
    "report": (law.report, "8 64* 32* 64*", (1, 3, 4, 9, 11, 15, 19, 20)),
    "levels": (law.levels, "n 32 64* 32*", (1, 2, 3, 4, 5, 6, 20, 21)),
    "levels_listing": (law.levels_listing, "8", (1, 4, 9, 11, 20, 21)),
}

# With so many images each answer of the calls for Newick text is met, but for 18, which is found
# before images are counted, for 1, and for 13 where a writer has three images.
EVERY_SIZE = (3, 4, 5, 9, 33, 64)

# With so many images at its start a replay meets every refusal of the start but 1, every refusal of an
# event, and each of the events that are looked for below.
EVERY_REPLAY = (3, 9, 33, 64)

# More events than can be taken.
MANY_EVENTS = 62

# With so many images in its first table a report meets every refusal of a later table but 19.
EVERY_REPORT = (3, 9, 33, 64)

# With so many images the levels have every answer but 1, and each of the tables that are looked for below; with so
# many also tables in which each other order of three images would find others first.
EVERY_LEVEL = (3, 9, 33, 64)
EVERY_ORDER = 9

# Bytes that a report has in front as the case before has them are not written again, if they are so many.
FEWEST_KEPT = 100

# Those that are told a form, and those that find it in the bytes. Every refusal of these calls
# is met in both forms, but for those that one form alone has or that are about no one table.
TOLD_A_FORM = ("write_costs", "write_links", "write_batch")
FIND_A_FORM = ("read_costs", "read_links", "choice", "first_two", "first_links", "two_costs", "listing",
               "convert_costs", "convert_links", "levels_listing")
OF_ONE_FORM = (14, 15, 17)

# Where two images of many cost nothing: the first pair, the last, one between, or two, of which the one
# in the lower row has the higher column. With so many images each call that gives 20 meets all of these, and
# every choice of the pairs of three images; with more it meets some, and all calls together meet each.
ZERO_WORDS = ("first", "last", "between", "lower row")
EVERY_ZERO = 9
LARGE_ZEROS = (33, 64)

# The engines of the exact reading, each with the other one, which answers the same.
OTHER_ENGINE = {"exact": law.exact_grafted, "exact_grafted": law.exact}

# With so many images there are cases that the second engine refuses at its first test, at the
# first of the last graft, and at its last test.
EVERY_TEST = (4, 5, 9, 33, 64)

# The programs that print a listing, and what they print. The cases of `listing` have the
# text of each, and a refusal stands in the text, as in those of `levels_listing`.
LISTINGS = {"listing": law.listing, "listing_last_n": law.listing_last_n}
TEXTS = {"listing": list(LISTINGS.values()), "levels_listing": [law.levels_listing]}

# All programs that read a stored cost table: these, the one that prints Newick text and the one that lists
# levels. With each the example that `rt ci` runs it on.
PROGRAMS = dict(LISTINGS, newick=law.newick_line, listing_levels=law.levels_listing)
RUN_ON = dict.fromkeys(PROGRAMS, "H")
RUN_ON["listing_levels"] = "E"

# Those that put a table's number behind a refusal number.
OVER_SEVERAL_TABLES = ("compare", "write_batch", "choice", "two_costs", "consensus")

# Those of the reader.
READER = ("first_two", "first_links", "two_costs", "two_fields")

# Those that answer twice, each answer with a position behind it, and how many numbers
# an accepted answer has.
TWICE = {"first_two": 3, "two_fields": 2}

BAD_N = [0, 1, 2, 65, 66, 127, 2 ** 32 + 3, 2 ** 32 + 4, 2 ** 40, 2 ** 63, 2 ** 64 - 1]
HUGE = [2 ** 32, 2 ** 32 + 1, 2 ** 40, 2 ** 63, 2 ** 64 - 8, 2 ** 64 - 1]
BAD_IN_LIST = [0, 1, 2, 65, 127, 2 ** 31, 2 ** 32 - 1]
BAD_ENTRY = [8000001, 8000001, 8388607, 16000000, 2 ** 31, 2 ** 32 - 1]
BAD_COST = [16000001, 16000001, 16777215, 2 ** 32 - 1]
BAD_OLD_COST = [2000001, 2000001, 2097151, 2 ** 32 - 1]

# Entries and costs that a table may have, but not in the old form.
ABOVE_OLD_ENTRY = [1000001, 1000001, 1048575, 1048576, 8000000]
ABOVE_OLD_COST = [2000001, 2000001, 2097151, 2097152, 16000000]

# What a writer is told for the form: 0, and numbers that all say the new one, 2^32 among them,
# whose low 32 bits are 0.
FORM_NUMBERS = [0, 0, 0, 0, 0, 1, 1, 1, 1, 2, 127, 2 ** 32, 2 ** 63, 2 ** 64 - 1]


# Small parts

def small_n(dice):
    return dice.one_of([3, 3, 3, 3, 4, 4, 4, 4, 4, 5, 5, 5, 5, 6, 6, 7, 8, 9])


def damaged_n(dice, least=3):
    """Few images where there is a fault."""
    return max(least, dice.one_of([3, 3, 3, 3, 3, 4, 4, 4, 4, 4, 4, 5, 5, 5, 6, 9]))


def places(dice, length):
    """A lent output of small numbers, filled so that untouched places show."""
    kind = dice.below(4)
    if kind == 0 and length < 8:
        return [2 ** 32 - 1 - k for k in range(length)]
    return [70 + (7 * k + kind) % 29 for k in range(length)]


def far_places(dice, length):
    """The same for far sides."""
    if dice.below(5) == 0 and length < 8:
        return [2 ** 64 - 1 - k for k in range(length)]
    return places(dice, length)


def byte_places(dice, length):
    """The same for bytes."""
    kind = dice.below(3)
    return [255 if kind == 0 else (165 + 37 * k) % 256 if kind == 1 else 90 - k % 7
            for k in range(length)]


def room(dice, needed, short):
    if short:
        return dice.one_of([0, needed - 1, needed - 1, needed // 2])
    return dice.one_of([needed, needed, needed + 1, needed + 4])


def two_rooms(dice, needed, short):
    """Room in two outputs; where it is short, in the first, the second or both."""
    which = dice.below(3) if short else 3
    return room(dice, needed, which in (0, 2)), room(dice, needed, which in (1, 2))


def fault_sets(dice, kinds, alone, together):
    """Each kind alone some times; a zero with each other kind; then several at once. The
    kinds stand in the order of the call's checks, so that each but the last comes first
    about as often; the last stands alone a few times more."""
    for kind in kinds + kinds[-1:]:
        for _ in range(alone):
            yield {kind}
    for kind in kinds:
        if "zero" in kinds and kind != "zero":
            yield {kind, "zero"}
    for turn in range(together):
        first = turn % (len(kinds) - 1)
        later = [kind for kind in kinds[first + 1:] if dice.chance(1, 2)]
        yield {kinds[first], dice.one_of(kinds[first + 1:])} | set(later)


def some_of(dice, faults):
    """Of three faults and more, some: where two tables are damaged, each has its own."""
    if len(faults) < 3:
        return set(faults)
    return {fault for fault in sorted(faults) if dice.chance(1, 2)}


def bad_image(dice, n):
    return dice.one_of([0, n + 1, n + 1, 64 + n, 2 ** 32 + 1, 2 ** 40, 2 ** 63, 2 ** 64 - 1])


def sides_and_costs(rows):
    return [far for far, _ in rows], [cost for _, cost in rows]


# The two stored forms

def any_form(dice):
    return dice.one_of([OLD, NEW])


def fitted(t, form):
    """The table with entries that this form can have: an eighth of those above its limit, but
    for entries that no table has."""
    return [entry // 8 if form.most_entry < entry <= NEW.most_entry else entry for entry in t]


def fitted_rows(rows, form):
    """The same of rows."""
    return [(far, cost // 8 if form.most_cost < cost <= NEW.most_cost else cost) for far, cost in rows]


def costs_in(n, t, form):
    return stored_costs(n, fitted(t, form), form)


def links_in(n, rows, form):
    return law.stored_links(n, *sides_and_costs(fitted_rows(rows, form)), form)


def costs_length(form, n):
    return (len(form.mark) + 7 + form.entry_bits * n * (n - 1) // 2 + 7) // 8


def links_length(form, n, count):
    return (len(form.mark) + 14 + count * (n - 1 + form.cost_bits) + 7) // 8


def images_of(stored):
    """What the header of a stored table of either form has for n."""
    return law.header_of(stored, 1)[1][0]


def sparse_table(dice, n, most):
    """One entry in four is large and the others are 1, so that the lines stay short."""
    return table_from(n, [dice.between(1, most) if dice.chance(1, 4) else 1 for _ in pairs(n)])


# Cost tables

def tree(dice, n, most=None, shape=None):
    shape = shape or law.random_shape(dice)
    return tree_table(n, tree_rows(dice, n, shape, most or dice.one_of([1, 3, 20, 20, 300])))


def costs_of(n, rows):
    """The table of these rows, of which some may have been left out: where two images came to cost nothing,
    one of their own links is longer."""
    return tree_table(n, law.held_apart(n, rows))


def all_ones(n):
    return table_from(n, [1] * (n * n))


def good_table(dice, n):
    kind = dice.below(12)
    if kind < 5:
        return tree(dice, n)
    if kind < 7:
        return law.noisy(dice, n, tree(dice, n), dice.one_of([1, 1, 2, 8]))
    if kind < 9:
        return law.random_table(dice, n, dice.one_of([2, 3, 4, 9]))
    if kind == 9 and n < 7:
        return law.random_table(dice, n, 8000000)
    if kind == 10:
        return table_from(n, [dice.one_of([1, 8000000]) for _ in pairs(n)])
    return table_from(n, [dice.one_of([1, 8000000, 7999999, 1000001])] * (n * n))


TABLE_FAULTS = ["n", "length", "entry", "diagonal", "asymmetric", "zero"]


def damage_pairs(dice, n, t, faults):
    """The table with entries above the old limits, and with zeros between images, where these are faults."""
    if "old" in faults:
        for i, j in dice.mixed(pairs(n))[:dice.between(1, 2)]:
            t = with_entry(n, t, i, j, dice.one_of(ABOVE_OLD_ENTRY))
    if "zero" in faults:
        t = with_zeros(n, t, dice.mixed(pairs(n))[:dice.between(1, 2)])
    return t


def damage_table(dice, n, t, faults):
    """The table with these faults, and the n that goes with it."""
    t = damage_pairs(dice, n, list(t), faults)
    for _ in range(dice.between(1, 2)):
        i, j = dice.below(n), dice.below(n)
        other = dice.one_of([k for k in range(n) if k != i])
        if "entry" in faults:
            t[i * n + j] = dice.one_of(BAD_ENTRY)
        if "diagonal" in faults:
            k = dice.below(n)
            t[k * n + k] = max(t[k * n + k], dice.one_of([1, 5, 8000000]))
        if "asymmetric" in faults:
            at = i * n + other
            t[at] += -1 if t[at] > 7999999 or (t[at] > 0 and dice.chance(1, 2)) else 1
    if "length" in faults:
        t = dice.one_of([t[:-1], t + [0], [], t[:n], t[:(n - 1) ** 2], t + t[:2 * n + 1]])
    if "n" in faults:
        n = dice.one_of(BAD_N)
    return n, t


def all_small_tables():
    for x in range(1, 4):
        for y in range(1, 4):
            for z in range(1, 4):
                yield table_from(3, [x, y, z])


def with_zeros(n, t, zeros):
    """The table in which these pairs of images cost nothing."""
    for i, j in zeros:
        t = with_entry(n, t, i, j, 0)
    return t


def zeros_at(dice, n, word):
    """Pairs of many images by one of the words for where zeros stand."""
    return {"first": [(1, 2)], "last": [(n - 1, n)], "between": [dice.one_of(pairs(n)[1:-1])],
            "lower row": [(1, dice.one_of([min(5, n), n])), (2, 3)]}[word]


def zero_tables(dice):
    """Tables in which images cost nothing: of three images each choice of pairs, of four and of nine zeros
    at each place, all of them, and several in one row."""
    for chosen in range(1, 8):
        zeros = [pair for bit, pair in enumerate(pairs(3)) if chosen >> bit & 1]
        yield 3, with_zeros(3, law.random_table(dice, 3, 9), zeros)
    for n in (4, EVERY_ZERO):
        for word in ZERO_WORDS:
            yield n, with_zeros(n, dice.one_of([tree(dice, n, 9), all_ones(n)]), zeros_at(dice, n, word))
    yield 4, [0] * 16
    yield 9, with_zeros(9, tree(dice, 9, 3), [(2, 9), (2, 5), (8, 9), (3, 4)])


def large_zeros(dice, *places_of):
    """Tables of many images with zeros, for each n and word that is given."""
    for n, word in places_of:
        yield n, with_zeros(n, all_ones(n), zeros_at(dice, n, word))


def example_tables():
    return [law.example(name) for name in sorted(law.EXAMPLES)]


def tables(dice, good):
    """Well-formed tables, among them some in which images cost nothing, then tables
    without a possible n; with each whether it is well-formed."""
    for n, t in example_tables():
        yield n, t, True
    for t in all_small_tables():
        if dice.chance(1, 2):
            yield 3, t, True
    for n, t in zero_tables(dice):
        yield n, t, True
    for _ in range(good):
        n = small_n(dice)
        yield n, good_table(dice, n), True
    for _ in range(5):
        yield 9, tree(dice, 9, 20, "uneven"), True
    for n in BAD_N:
        yield n, [], False
    for n in (1, 2):
        yield n, [0] * (n * n), False


def damaged(dice, kinds, alone, together):
    """n, an undamaged table of n images, n and table damaged, the faults."""
    for faults in fault_sets(dice, kinds, alone, together):
        n = damaged_n(dice)
        t = good_table(dice, n)
        bad_n, bad_t = damage_table(dice, n, t, faults)
        yield n, bad_n, bad_t, faults


# Cases of the calls that take a cost table

def any_far_side(dice, n, t, bad):
    if bad:
        beyond = [2 ** n, 2 ** n + 2, 2 ** 63] if n < 64 else []
        return dice.one_of([0, 0, 1, 3, 2 ** n - 1, 2 ** 64 - 1] + beyond)
    if dice.chance(1, 3):
        return own_link(n, dice.between(1, n))
    if dice.chance(1, 2):
        rows = law.measured_rows(n, tuple(t))
        return dice.one_of([far for far, _ in rows])
    return 2 * dice.between(1, 2 ** (n - 1) - 1)


def index_cases(dice):
    for n, t, sound in tables(dice, 60):
        yield n, t, any_far_side(dice, n, t, False) if sound else 2
    for n, bad_n, bad_t, faults in damaged(dice, TABLE_FAULTS + ["side"], 7, 54):
        yield bad_n, bad_t, any_far_side(dice, n, [0] * (n * n), "side" in faults)
    for n, most in ((33, 2), (33, 20), (64, 1)):
        rows = tree_rows(dice, n, "uneven", most)
        inner = [far for far, _ in rows if is_inner(n, far)]
        t = tree_table(n, rows)
        yield n, t, dice.one_of(inner)
    for n, t in large_zeros(dice, (33, "lower row"), (64, "last")):
        yield n, t, 2 ** (n - 1)
    for s in (2 ** 33 + 2, 2 ** 32):
        yield 33, all_ones(33), s
    yield from signed_index_cases(dice)


def two_groups(n, s, inside, across):
    """Images of one group of the division cost the one, images of both the other."""
    return table_from(n, [inside if holds(s, i) == holds(s, j) else across for i, j in pairs(n)])


def signed_index_cases(dice):
    """An index below 0, 0 and above it, and at its ends, for few images and for many. By
    two_groups it is 2 across - 2 inside, and 2 across - inside for an own link; with no zeros
    the ends are 15,999,998 and -15,999,998, and 15,999,999 and -7,999,998 for an own link."""
    for n in EVERY_SIGN:
        owns = [own_link(n, 1), own_link(n, dice.between(2, n))]
        inners = [2 ** (n - 1) + 2 ** dice.between(1, n - 2), 2 ** n - 4] if n > 3 else []
        for s in owns + inners if n < 10 else owns[1:] + inners[:1]:
            # Of 64 images one table for each sign is enough.
            some = [(3, 1), (2, 1), (1, 1), (2, 3)] if n < 64 else [(3, 1), (1, 1)] if is_inner(n, s) else [(2, 3)]
            for inside, across in some:
                yield n, two_groups(n, s, inside, across), s
        for s in owns[:1] + inners[:1] if n < 64 else inners[:1]:
            for inside, across in (8000000, 1), (1, 8000000):
                yield n, two_groups(n, s, inside, across), s
        # Where all entries are 4 the index is 0; one that is 5 inside or 3 across makes it -1.
        for s in inners[:1]:
            t = two_groups(n, s, 4, 4)
            t[1] = t[n] = 5 if not holds(s, 2) else 3
            yield n, t, s
        for _ in range(2 if n < 64 else 1):
            yield n, law.random_table(dice, n, 9), 2 * dice.between(1, 2 ** (n - 1) - 1)


def two_images(dice, n, bad):
    first, last = dice.mixed(range(1, n + 1))[:2]
    if bad:
        kind = dice.below(4)
        if kind == 0:
            first = bad_image(dice, n)
        elif kind == 1:
            last = bad_image(dice, n)
        elif kind == 2:
            last = first
        else:
            first, last = bad_image(dice, n), bad_image(dice, n)
    return first, last


def order_cases(dice):
    n, t = law.example("H")
    yield n, t, 1, 2, places(dice, 7)
    for first in range(1, 8):
        for last in range(1, 8):
            if dice.chance(1, 3):
                yield n, t, first, last, places(dice, 8)
    n, t = law.example("E")
    for image in [0, 5, 65] + HUGE:
        for first, last in ((1, image), (image, 2), (image, image)):
            yield n, t, first, last, places(dice, 4)
    for n, t, sound in tables(dice, 60):
        first, last = two_images(dice, n, False) if sound else (1, 2)
        yield n, t, first, last, places(dice, room(dice, n, False) if sound else 4)
    kinds = ["n", "length", "room", "entry", "diagonal", "asymmetric", "zero", "image"]
    for n, bad_n, bad_t, faults in damaged(dice, kinds, 7, 56):
        first, last = two_images(dice, n, "image" in faults)
        yield bad_n, bad_t, first, last, places(dice, room(dice, n, "room" in faults))
    for n, most, first, last in ((33, 3, 1, 33), (33, 20, 17, 2), (64, 1, 64, 1)):
        yield n, tree(dice, n, most, "uneven"), first, last, places(dice, n + 1)
    for n, t in large_zeros(dice, (33, "between"), (64, "lower row")):
        yield n, t, n, 1, places(dice, n)
    # A line, and timings of it by which the ring is longer than another by as much as it can be.
    for n in (3, 4, 9, 33, 64):
        wired, timed = law.timed_line(n)
        for t in (wired, timed) if n < 33 else (timed,):
            yield n, t, n, 1, places(dice, n)


def reading_cases(dice, exactly):
    for n, t, sound in tables(dice, 60):
        room1, room2 = two_rooms(dice, 2 * n - 3, False) if sound else (3, 3)
        yield n, t, far_places(dice, room1), places(dice, room2)
    kinds = ["n", "length", "room", "entry", "diagonal", "asymmetric", "zero"]
    for n, bad_n, bad_t, faults in damaged(dice, kinds, 7, 54):
        room1, room2 = two_rooms(dice, 2 * n - 3, "room" in faults)
        yield bad_n, bad_t, far_places(dice, room1), places(dice, room2)
    # Room for the rows of a star, but not the 2n-3 places that are asked.
    for n in (4, 5, 9):
        t = tree(dice, n, 5, "star")
        yield n, t, far_places(dice, n), places(dice, 2 * n - 3)
        yield n, t, far_places(dice, 2 * n - 3), places(dice, 2 * n - 4)
    # Trees of every shape, and the same with one entry, or every entry, a little off.
    for n in (4, 5, 6, 7, 9):
        for shape in ("star", "caterpillar", "uneven"):
            t = tree(dice, n, 12, shape)
            i, j = sorted(dice.mixed(range(n))[:2])
            off = list(t)
            off[i * n + j] = off[j * n + i] = t[i * n + j] + 1
            yield n, dice.one_of([t, off, law.noisy(dice, n, t, 1)]), \
                far_places(dice, 2 * n - 3), places(dice, 2 * n - 3)
    for n, most, shape in ((33, 1, "caterpillar"), (33, 30, "uneven"),
                           (64, 1, "caterpillar" if exactly else "uneven")):
        yield n, tree(dice, n, most, shape), far_places(dice, 2 * n - 3), places(dice, 2 * n)
    zeros = ((33, "first"), (64, "last")) if exactly else ((33, "last"), (64, "first"))
    for n, t in large_zeros(dice, *zeros):
        yield n, t, far_places(dice, 2 * n - 3), places(dice, 2 * n - 3)
    # The last pair of images a little too far apart.
    n = 64
    t = tree(dice, n, 1, "uneven")
    t[n * n - 2] += 1
    t[n * (n - 1) - 1] += 1
    yield n, t, far_places(dice, 2 * n - 3), places(dice, 2 * n - 3)
    if not exactly:
        n = 33
        yield n, law.noisy(dice, n, tree(dice, n, 30, "uneven"), 3), \
            far_places(dice, 2 * n - 3), places(dice, 2 * n - 3)


def fewer_inner(dice, n, rows):
    """The rows without some of the inner ones."""
    return [row for row in rows if not is_inner(n, row[0]) or dice.chance(1, 2)]


def related_rows(dice, n):
    """Rows of two trees: the same far sides, fewer of them, or another tree."""
    one = tree_rows(dice, n, law.random_shape(dice), 20)
    kind = dice.below(4)
    if kind == 0:
        return one, [(far, cost + 2 * dice.below(4)) for far, cost in one]
    if kind == 1:
        less = [(far, 2 * cost) for far, cost in fewer_inner(dice, n, one)]
        return dice.one_of([(one, less), (less, one)])
    return one, tree_rows(dice, n, law.random_shape(dice), 20)


def disagreeing(dice, n):
    """Rows of two trees, by their disagreement: 0 over 1 without inner ones; 1 where one
    tree alone has some, and where none is common; between, and 0 over all of both."""
    star = tree_rows(dice, n, "star", 1)
    yield star, tree_rows(dice, n, "star", 2)
    if n == 3:
        return
    one = tree_rows(dice, n, "caterpillar", 1)
    inner = {far for far, _ in one if is_inner(n, far)}
    yield star, one
    yield one, star
    two = one
    while inner & {far for far, _ in two}:
        two = tree_rows(dice, n, dice.one_of(["caterpillar", "uneven"]), 1)
    yield one, two
    last = max(inner)
    yield one, [(far, 2 * cost) for far, cost in one if far != last]
    yield one, [(far, 2 * cost) for far, cost in one]


def even_rows(rows):
    return [(far, 2 * cost) for far, cost in rows]


def compare_cases(dice):
    for n, t in example_tables():
        for n2, t2 in example_tables():
            if n == n2 and (n != 3 or dice.chance(1, 2)):
                yield n, t, t2
    for n in [small_n(dice) for _ in range(50)] + [9] * 6:
        one, two = related_rows(dice, n)
        yield n, costs_of(n, even_rows(one)), costs_of(n, even_rows(two))
    for _ in range(20):
        n = small_n(dice)
        yield n, good_table(dice, n), good_table(dice, n)
    for n in BAD_N:
        yield n, [], [1]
    for faults in fault_sets(dice, TABLE_FAULTS + ["wiring"], 8, 54):
        n = damaged_n(dice)
        t = [tree(dice, n), tree(dice, n)]
        bad_n = n
        for which in dice.one_of([[0], [1], [1], [0, 1]]):
            if "wiring" in faults:
                t[which] = good_table(dice, n)
            some = some_of(dice, faults)
            changed, t[which] = damage_table(dice, n, t[which], some)
            bad_n = changed if changed != n else bad_n
        yield bad_n, t[0], t[1]
    # Each fault in the first table with each in the second.
    n, crooked = law.example("F")
    kinds = ["length", "entry", "diagonal", "asymmetric", "zero", "wiring"]
    for fault in kinds:
        for fault2 in kinds:
            yield (n, damage_table(dice, n, crooked, {fault})[1],
                   damage_table(dice, n, crooked, {fault2})[1])
    for n, most in ((33, 3), (64, 1)):
        one = tree_rows(dice, n, "uneven", most)
        two = fewer_inner(dice, n, one) if n == 64 else tree_rows(dice, n, "caterpillar", 1)
        yield n, costs_of(n, even_rows(one)), costs_of(n, even_rows(two))
    for n in (3, 4, 9, 33, 64):
        found = list(disagreeing(dice, n))
        for one, two in found if n < 64 else found[:2] + found[3:5]:
            yield n, costs_of(n, one), costs_of(n, two)
    # Images that cost nothing, in the first table, in the second, and in both.
    for n, t in zero_tables(dice):
        good, worse = tree(dice, n), with_zeros(n, t, [(1, 2)])
        yield (n, *dice.one_of([(t, good), (good, t), (t, worse)]))
        if n == 3:
            yield n, good, t
    for n, t in large_zeros(dice, (33, "last"), (33, "lower row"), (64, "between")):
        yield n, all_ones(n), t


def write_costs_cases(dice):
    for n, t, sound in tables(dice, 40):
        number = dice.one_of(FORM_NUMBERS)
        form = law.form_named(number)
        needed = room(dice, costs_length(form, n), False) if sound else 9
        yield number, n, fitted(t, form), byte_places(dice, needed)
    for n, bad_n, bad_t, faults in damaged(dice, TABLE_FAULTS + ["old", "room"], 7, 56):
        number = 0 if "old" in faults else dice.one_of(FORM_NUMBERS)
        form = law.form_named(number)
        bad_t = bad_t if "old" in faults else fitted(bad_t, form)
        yield number, bad_n, bad_t, byte_places(dice, room(dice, costs_length(form, n), "room" in faults))
    for n in (4, 5, 8):
        for number in (0, 1):
            form = law.form_named(number)
            t = law.random_table(dice, n, form.most_entry)
            for more in (-1, 0, 1):
                yield number, n, t, byte_places(dice, costs_length(form, n) + more)
    # The same table in each form, at each limit and just above it, with just enough room, one
    # byte less and none: the first entry, the last one, or one between them.
    for n in (3, 4, 9):
        for entry in (1000000, 1000001, 8000000, 8000001):
            i, j = dice.one_of([(1, 2), (n - 1, n), dice.one_of(pairs(n))])
            t = with_entry(n, all_ones(n), i, j, entry)
            for number in (0, dice.one_of([1, 2, 2 ** 32, 2 ** 64 - 1])):
                needed = costs_length(law.form_named(number), n)
                yield number, n, t, byte_places(dice, dice.one_of([needed, needed, needed - 1, 0]))
    # Many images: above the old limits in the first and the last entry, and with a zero behind, with little room.
    for n in (9, 33, 64):
        for i, j in ((1, 2), (n - 1, n)):
            t = with_entry(n, all_ones(n), i, j, 1000001)
            yield 0, n, with_entry(n, t, n - 1, n, 8000000) if (i, j) != (n - 1, n) else t, byte_places(dice, 20)
        yield 0, n, with_entry(n, with_zeros(n, all_ones(n), [(1, n), (2, 3)]), 1, 2, 1000001), byte_places(dice, 20)
    for n, t in large_zeros(dice, (33, "last"), (33, "between"), (64, "last")):
        yield dice.one_of(FORM_NUMBERS), n, t, byte_places(dice, 20)
    # Each earlier fault in a table of zeros.
    for form, number in ((OLD, 0), (NEW, 1)):
        yield number, 33, law.random_table(dice, 33, form.most_entry), byte_places(dice, costs_length(form, 33))
        for row, column, entry in ((33, 32, 8000001), (33, 33, 1), (32, 33, 5)):
            t = [0] * 33 * 33
            t[(row - 1) * 33 + column - 1] = entry
            yield number, 33, t, byte_places(dice, 30)
    # 64 images: the old form has 5,041 bytes and one fill bit, the new one 5,798 bytes and two.
    n = 64
    assert costs_length(OLD, n) == 5041 and costs_length(NEW, n) == 5798
    last = table_from(n, [1000000] + [1] * 2014 + [1000000])
    yield 0, n, last, [9] * 5041
    yield 2, n, last, [9] * 5797
    yield 1, n, sparse_table(dice, n, 8000000), [9] * 5802
    for row, column, entry in ((64, 63, 8000001), (64, 64, 1), (63, 64, 5)):
        t = [0] * n * n
        t[(row - 1) * n + column - 1] = entry
        yield dice.below(2), n, t, [9] * 40
    yield 1, n, [0] * (n * n - 1), [9] * 40


# Link tables

def good_links(dice, n):
    most = dice.one_of([1, 2, 9, 9, 300, 15999999])
    return tree_rows(dice, n, law.random_shape(dice), most, even=False)


def damage_row(dice, n, fars, costs, bad_cost):
    """One bad row, or several."""
    row = dice.below(len(fars))
    kind = dice.below(9)
    inner = [r for r, far in enumerate(fars) if is_inner(n, far)]
    if kind == 0:
        fars[row] = 0
    elif kind == 1:
        fars[row] += 1
    elif kind == 2 and n < 64:
        row = dice.one_of([row, len(fars) - 1])
        fars[row] = dice.one_of([fars[row] + 2 ** n, 2 ** n, 2 ** 64 - 2])
    elif kind == 3 and row > 0:
        fars[row] = fars[row - 1]
    elif kind == 4 and row > 0:
        fars[row], fars[row - 1] = fars[row - 1], fars[row]
    elif kind == 5 and inner:
        row = dice.one_of(inner)
        costs[row] = 0
    elif kind < 7:
        costs[row] = dice.one_of(bad_cost)
    else:
        # A far side that fits between its neighbours as a number, and may cross.
        least = fars[row - 1] // 2 + 1 if row > 0 else 1
        most = fars[row + 1] // 2 - 1 if row + 1 < len(fars) else 2 ** (n - 1) - 1
        if least <= most:
            fars[row] = 2 * dice.between(least, most)
        else:
            costs[row] = dice.one_of(bad_cost)


def damage_links(dice, n, rows, faults, bad_cost=BAD_COST):
    """n, count, far sides and costs with these faults."""
    if "own" in faults and n > 3:
        rows = tree_rows(dice, n, "caterpillar", 9, even=False)
        lost = dice.between(1, len(rows) - n)
        images = dice.mixed(range(1, n + 1))[:lost]
        rows = [row for row in rows if row[0] not in [own_link(n, i) for i in images]]
    fars, costs = sides_and_costs(rows)
    if "old" in faults:
        for row in dice.mixed(range(len(rows)))[:dice.between(1, 2)]:
            costs[row] = dice.one_of(ABOVE_OLD_COST)
    if "row" in faults:
        for _ in range(dice.between(1, 2)):
            damage_row(dice, n, fars, costs, bad_cost)
    count = len(fars)
    if "count" in faults:
        kind = dice.below(4)
        if kind == 0:
            count = n - 1
            fars, costs = fars[:count], costs[:count]
        elif kind == 1:
            count = 2 * n - 2
            fars = (fars + fars)[:count]
            costs = (costs + costs)[:count]
        else:
            count = dice.one_of([0, 1, n - 1, 2 * n - 2, 2 ** 32 + count, 2 ** 40, 2 ** 63,
                                 2 ** 64 - 1])
    if "length" in faults:
        kind = dice.below(6)
        if kind in (0, 4):
            fars = fars[:-1]
        if kind in (1, 4):
            costs = costs[:-1]
        if kind in (2, 5):
            fars = fars + [2 ** n - 2]
        if kind == 3:
            costs = costs + [1]
        if kind == 5:
            costs = dice.one_of([costs + [0], []])
    if "n" in faults:
        n = dice.one_of(BAD_N)
    return n, count, fars, costs


def subsets_of_four():
    """Four images: every choice of four or five of the seven far sides."""
    for chosen in range(128):
        fars = [2 * far for far in range(1, 8) if chosen >> (far - 1) & 1]
        if len(fars) in (4, 5):
            yield fars


def bare_links(dice, n, shape="uneven"):
    """A link table whose own links all cost nothing, as it may have: its rules are not those of a cost table."""
    return [(far, 1 if is_inner(n, far) else 0) for far in law.tree_far_sides(dice, n, shape)]


def links(dice, good):
    """Link tables of all sizes, with their n."""
    for name in sorted(law.EXAMPLES):
        yield law.EXAMPLES[name][0], law.MEASURED[name]
    for n, shape in ((4, "star"), (5, "caterpillar"), (9, "uneven")):
        yield n, bare_links(dice, n, shape)
    for _ in range(good):
        n = small_n(dice)
        yield n, good_links(dice, n)
    for n, shape in [(9, "uneven")] * 5 + [(33, "uneven"), (64, "star"), (64, "caterpillar")]:
        yield n, tree_rows(dice, n, shape, 9, even=False)


def link_tables(dice, good, kinds, alone, together):
    """n undamaged, the four arguments of a link table, the faults. The kinds of
    faults stand in the order of the call's checks."""
    for n, rows in links(dice, good):
        fars, costs = sides_and_costs(rows)
        yield n, (n, len(rows), fars, costs), set()
    for fars in subsets_of_four():
        if dice.chance(1, 2):
            yield 4, (4, len(fars), fars, [1] * len(fars)), set()
    for faults in fault_sets(dice, kinds, alone, together):
        n = damaged_n(dice, 4 if "own" in faults else 3)
        yield n, damage_links(dice, n, good_links(dice, n), faults), faults
    for n in BAD_N:
        yield 3, (n, dice.one_of([0, 3, n]), [2, 4, 6], [1, 1, 1]), {"n"}
    for count in [0, 1, 2, 4, 65, 2 ** 32 + 3] + HUGE:
        yield 3, (3, count, [2, 4, 6], [1, 1, 1]), {"count"}
    yield from random_rows(dice)
    yield from lost_own_links(dice)
    yield from changed_stars(dice)


def random_rows(dice):
    """Far sides drawn at random, in most cases ascending."""
    for _ in range(24):
        n = dice.one_of([3, 4, 4])
        count = dice.between(n, 2 * n - 3)
        fars = [dice.below(2 ** n + 3) for _ in range(count)]
        if dice.chance(2, 3):
            fars = sorted(set(2 * (far // 2) for far in fars))
            fars += [2 ** n - 2] * (count - len(fars))
        yield n, (n, count, fars, [dice.below(3) for _ in range(count)]), {"row"}


def lost_own_links(dice):
    """Five images, all inner rows of a caterpillar, one or two own links lost."""
    rows = tree_rows(dice, 5, "caterpillar", 9, even=False)
    for i in range(1, 6):
        for j in range(i, 6):
            lost = [own_link(5, i), own_link(5, j)]
            fars, costs = sides_and_costs([row for row in rows if row[0] not in lost])
            yield 5, (5, len(fars), fars, costs), {"own"}


def changed_stars(dice):
    """64 images: far sides that cross, an inner row of cost 0, image 64's link lost, a cost too large."""
    n = 64
    for change in range(4):
        rows = dict(tree_rows(dice, n, "star", 9, even=False))
        if change == 0:
            rows[2 ** 63 + 2] = rows[2 ** 63 + 4] = 1
        elif change == 1:
            rows[2 ** 63 + 2] = 0
        elif change == 2:
            rows[2 ** 63 + 2 ** 62] = 16000000
            del rows[2 ** 63]
        else:
            rows[2 ** 64 - 4] = 16000001
        fars, costs = sides_and_costs(sorted(rows.items()))
        yield n, (n, len(fars), fars, costs), {"row"}


def path_cases(dice):
    kinds = ["n", "count", "length", "row", "own", "image"]
    for n, table, faults in link_tables(dice, 60, kinds, 7, 60):
        if "image" in faults:
            i, j = dice.mixed([bad_image(dice, n),
                               dice.one_of([bad_image(dice, n), dice.between(1, n)])])
        else:
            i, j = dice.between(1, n), dice.between(1, n)
        yield table + (i, j)
    for image in [0, 4, 65] + HUGE:
        for i, j in ((1, image), (image, 2), (image, image)):
            yield 3, 3, [2, 4, 6], [1, 1, 1], i, j
    # The largest path cost: 125 links of 16,000,000 would need every row on the path.
    n = 64
    fars = law.tree_far_sides(dice, n, "caterpillar")
    deepest = dice.one_of([far for far in fars if law.ones(far) == 1])
    for i, j in ((1, deepest.bit_length()), (64, 64)):
        yield n, len(fars), fars, [16000000] * len(fars), i, j
    # Costs above the old limit, which every link table may have.
    for n in (3, 4, 9):
        rows = [(far, cost + 2000000) for far, cost in tree_rows(dice, n, "uneven", 9)]
        yield (n, len(rows)) + sides_and_costs(rows) + (1, n)


def upper_rows_cases(dice):
    kinds = ["n", "count", "length", "room", "row", "own"]
    for n, table, faults in link_tables(dice, 50, kinds, 7, 60):
        yield table + (places(dice, room(dice, 2 * n - 3, "room" in faults)),)
    for n in (4, 5, 9):
        fars, costs = sides_and_costs(tree_rows(dice, n, "star", 9))
        yield n, n, fars, costs, places(dice, n)
        yield n, n, fars, costs, places(dice, 2 * n - 4)


def route_cases(dice):
    kinds = ["n", "count", "length", "room", "row", "own", "image"]
    for n, table, faults in link_tables(dice, 50, kinds, 7, 60):
        image = bad_image(dice, n) if "image" in faults else dice.between(1, n)
        yield table + (image, places(dice, room(dice, 2 * n - 3, "room" in faults)))
    n, rows = 7, law.MEASURED["H"]
    for image in range(1, 8):
        yield (n, len(rows)) + sides_and_costs(rows) + (image, places(dice, 11))
    for image in [0, 4, 65] + HUGE:
        yield 3, 3, [2, 4, 6], [1, 1, 1], image, places(dice, 3)
    n = 9
    fars, costs = sides_and_costs(tree_rows(dice, n, "caterpillar", 9))
    for image in range(1, 10):
        yield n, len(fars), fars, costs, image, places(dice, 2 * n - 3)
    yield n, len(fars), fars, costs, 1, places(dice, 2 * n - 4)


def in_some_form(dice, table, faults):
    """The form's number, and the table with costs that fit it, but for those that are to be
    above its limits."""
    number = 0 if "old" in faults else dice.one_of(FORM_NUMBERS)
    n, count, fars, costs = table
    if "old" not in faults:
        costs = [cost for _, cost in fitted_rows([(0, cost) for cost in costs], law.form_named(number))]
    return number, (n, count, fars, costs)


def write_links_cases(dice):
    kinds = ["n", "count", "length", "row", "own", "old", "room"]
    for n, table, faults in link_tables(dice, 40, kinds, 7, 66):
        number, table = in_some_form(dice, table, faults)
        count = min(table[1], 2 * n - 3)
        needed = links_length(law.form_named(number), n, count) if n < 64 or not faults else 40
        yield (number,) + table + (byte_places(dice, room(dice, needed, "room" in faults)),)
    for n in (3, 4, 5, 9, 9):
        rows = good_links(dice, n)
        for number in (0, dice.one_of([1, 2, 2 ** 32, 2 ** 64 - 1])):
            form = law.form_named(number)
            fars, costs = sides_and_costs(fitted_rows(rows, form))
            for more in (-1, 0, 1):
                yield number, n, len(fars), fars, costs, byte_places(dice, links_length(form, n, len(fars)) + more)
    # The same rows in each form, one cost at each limit and just above it, with just enough room,
    # one byte less and none; many images among them, the last row and an inner one.
    for n in (3, 4, 9, 33, 64):
        fars = law.tree_far_sides(dice, n, "star" if n == 64 else "uneven")
        for cost in (2000000, 2000001, 16000000, 16000001):
            costs = [1] * len(fars)
            costs[dice.one_of([0, len(fars) - 1, dice.below(len(fars))])] = cost
            for number in (0, dice.one_of([1, 2, 2 ** 32, 2 ** 64 - 1])):
                needed = links_length(law.form_named(number), n, len(fars))
                needed = dice.one_of([needed, needed, needed - 1, 0]) if n < 10 or cost == 2000000 else 20
                yield number, n, len(fars), fars, costs, byte_places(dice, needed)
    # The longest link table in the new form.
    fars = law.tree_far_sides(dice, 64, "caterpillar")
    assert links_length(NEW, 64, len(fars)) == 1362
    yield 1, 64, len(fars), fars, [dice.between(1, 16000000) for _ in fars], [9] * 1362


def joined(several):
    """The four lists of a batch from its tables."""
    fars = [far for table in several for far in table[2]]
    costs = [cost for table in several for cost in table[3]]
    return [table[0] for table in several], [table[1] for table in several], fars, costs


def batch_length(form, several):
    return sum(links_length(form, table[0], table[1]) for table in several)


def sound_table(dice, n, form):
    rows = fitted_rows(good_links(dice, n), form)
    return (n, len(rows)) + sides_and_costs(rows)


def damaged_tables(dice, form, faults):
    """Tables of a batch, one or two of them damaged, and the bytes that the sound ones need."""
    several = [sound_table(dice, damaged_n(dice), form) for _ in range(dice.one_of([1, 2, 2, 3]))]
    out = batch_length(form, several)
    last = len(several) - 1
    for at in dice.one_of([[last], [last], [0], dice.mixed(range(last + 1))[:2]]):
        some = some_of(dice, faults)
        n = max(several[at][0], 4 if "own" in some else 3)
        rows_faults = some & {"n", "count", "row", "own", "old"}
        bad = list(damage_links(dice, n, fitted_rows(good_links(dice, n), form), rows_faults))
        if "n" in some:
            bad[0] = dice.one_of(BAD_IN_LIST)
        bad[1] = min(bad[1], 2 ** 32 - 1)
        several[at] = tuple(bad)
        if not some & {"n", "count"}:
            out = batch_length(form, [table for table in several
                                      if 3 <= table[0] <= 64 and table[1] <= 125])
    return several, out


def damaged_lists(dice, faults, ns, counts, fars, costs):
    """The joined rows cut short or left over, and the lists of unequal length."""
    if "joined" in faults:
        cut = dice.between(1, min(4, len(fars)))
        which = dice.below(3)
        fars = fars[:-cut] if which != 1 else fars
        costs = costs[:-cut] if which != 0 else costs
    if "left" in faults:
        which = dice.below(3)
        fars = fars + [2] * (1 + dice.below(3)) if which != 1 else fars
        costs = costs + [1] if which != 0 else costs
    if "lists" in faults:
        ns, counts = dice.one_of([(ns + [3], counts), (ns, counts + [3]), (ns[:-1], counts),
                                  ([], counts), (ns, [])])
    return ns, counts, fars, costs


def batch_cases(dice):
    for number in (0, 1):
        yield number, [], [], [], [], []
        yield number, [], [], [], [], byte_places(dice, 5)
        yield number, [], [], [2], [], byte_places(dice, 5)
        yield number, [], [], [], [1], []
        yield number, [], [3], [2, 4, 6], [1, 1, 1], byte_places(dice, 13)
        yield number, [3], [], [2, 4, 6], [1, 1, 1], byte_places(dice, 13)
        yield number, [2, 3], [3], [], [], []
    for _ in range(36):
        number = dice.one_of(FORM_NUMBERS)
        form = law.form_named(number)
        several = [sound_table(dice, small_n(dice), form) for _ in range(dice.one_of([1, 2, 2, 3, 4]))]
        needed = room(dice, batch_length(form, several), False)
        yield (number,) + joined(several) + (byte_places(dice, needed),)
    for number in (0, 1):
        several = [(n, len(rows)) + sides_and_costs(rows) for n, rows in
                   ((n, bare_links(dice, n)) for n in (3, 5, 4))]
        yield (number,) + joined(several) + (byte_places(dice, batch_length(law.form_named(number), several)),)
    for number, sizes in ((0, (64, 3, 33)), (1, (3, 64, 9))):
        form = law.form_named(number)
        several = [sound_table(dice, n, form) for n in sizes]
        yield (number,) + joined(several) + (byte_places(dice, batch_length(form, several) + 2),)
    kinds = ["lists", "n", "count", "joined", "row", "own", "old", "room", "left"]
    for faults in fault_sets(dice, kinds, 8, 96):
        number = 0 if "old" in faults else dice.one_of(FORM_NUMBERS)
        several, out = damaged_tables(dice, law.form_named(number), faults)
        lists = damaged_lists(dice, faults, *joined(several))
        yield (number,) + lists + (byte_places(dice, room(dice, max(out, 2), "room" in faults)),)
    for n in BAD_IN_LIST:
        for number in (0, dice.one_of([1, 2 ** 32])):
            yield number, [3, n], [3, 3], [2, 4, 6] * 2, [1] * 6, byte_places(dice, 26)
    # Above the old limits in the first table, in the second, and in both, beside each later fault
    # and an earlier one of the other table; then the same in the new form, which takes them.
    good = (4, 4, [2, 4, 8, 14], [1, 2, 3, 4])
    high = (4, 4, [2, 4, 8, 14], [1, 2000000, 2000001, 16000000])
    lost = (4, 4, [2, 4, 12, 14], [1, 2000001, 3, 4])
    too_large = (4, 4, [2, 4, 8, 14], [2000001, 16000001, 1, 1])
    for pair in ((high, good), (good, high), (high, high), (high, lost), (lost, high), (high, too_large),
                 (too_large, high), (good, lost), (good, too_large)):
        for number in (0, 1):
            for more in (0, -1):
                needed = batch_length(law.form_named(number), pair) + more
                yield (number,) + joined(pair) + (byte_places(dice, needed),)
    yield (0,) + joined([good, high]) + ([],)
    yield (0,) + joined([good, high]) + (byte_places(dice, links_length(OLD, 4, 4)),)
    n, fars = 33, law.tree_far_sides(dice, 33, "star")
    last = (n, n, fars, [1] * (n - 1) + [2000001])
    yield (0,) + joined([good, last]) + (byte_places(dice, 30),)


# Stored bytes

def bits_of_rows(n, rows, form):
    """The rows of a link table as they stand, whatever they hold."""
    return "".join(law.field(n - 1, far // 2 % 2 ** (n - 1))
                   + law.field(form.cost_bits, cost % 2 ** form.cost_bits) for far, cost in rows)


def bits_of_links(n, count, rows, form):
    """Fields of a link table as they stand."""
    return form.mark + law.field(7, n) + law.field(7, count) + bits_of_rows(n, rows, form)


def filled(dice, bits, bad):
    """Whole bytes; where `bad`, some of the fill bits are ones."""
    fill = -len(bits) % 8
    tail = "0" * fill
    if bad and fill > 0:
        tail = law.field(fill, dice.between(1, 2 ** fill - 1))
    return law.bytes_of_bits(bits + tail)


def cut_body(dice, stored, least):
    """Some of the bytes behind the header are missing."""
    most = len(stored) - 1
    return stored[:dice.one_of([most, most, dice.between(least, most)])]


def around(dice, stored, faults):
    """Bytes in front and behind, and the position; the end stays the end where
    bytes are to be missing."""
    front = [dice.below(256) for _ in range(dice.one_of([0, 0, 0, 1, 3]))]
    return placed(dice, front, stored, faults)


def placed(dice, front, stored, faults):
    """The same, with these bytes in front."""
    rest = [dice.below(256) for _ in range(dice.one_of([0, 0, 1, 4]))]
    if faults & {"header", "body"}:
        rest = []
    whole = front + stored + rest
    position = 8 * len(front)
    if "position" in faults:
        position = dice.one_of([position + dice.between(1, 7), 8 * len(whole) + 8,
                                8 * len(whole) + 1, 8 * len(whole), 2 ** 32 + position, 2 ** 40,
                                2 ** 63, 2 ** 64 - 8, 2 ** 64 - 1])
    return whole, position


def bad_header_n(dice, form):
    """127 is no n of the old form: there it says that the table is in the new one."""
    return dice.one_of([0, 1, 2, 65, 66, 100, 126 if form == OLD else 127])


def damaged_stored_links(dice, n, rows, faults, form):
    """Stored bytes of a link table with the faults that bytes can have."""
    if "own" in faults and n < 4:
        n, rows = 4, good_links(dice, 4)
    rows = fitted_rows(rows, form)
    bad_cost = BAD_OLD_COST if form == OLD else BAD_COST
    _, count, fars, costs = damage_links(dice, n, rows, faults & {"row", "own", "old"}, bad_cost)
    header_n, header_count = n, count
    if "n" in faults:
        header_n = bad_header_n(dice, form)
    if "count" in faults:
        header_count = dice.one_of([0, 1, n - 1, 2 * n - 2, 127])
    bits = form.mark + law.field(7, header_n) + law.field(7, header_count)
    bits += bits_of_rows(n, list(zip(fars, costs)), form)
    stored = filled(dice, bits, "fill" in faults)
    header = 2 if form == OLD else 3
    if "body" in faults:
        stored = cut_body(dice, stored, header)
    if "header" in faults:
        stored = stored[:dice.below(header)]
    return n, stored


def short_headers():
    """Bytes that end in the header or right behind it: 127 in front needs a byte more, and a
    second 127 is an n."""
    for stored in ([254], [255], [252], [253], [6], [130], [254, 12], [255, 255], [255, 254], [255, 252],
                   [254, 0], [254, 9], [252, 255], [253, 255], [6, 0], [6, 13], [254, 12, 26],
                   [254, 12, 24], [254, 12, 16], [255, 255, 255], [255, 252, 0], [255, 0, 0], [254, 1, 26],
                   [255, 255, 255, 255]):
        yield stored


def read_links_cases(dice):
    yield [], 0, far_places(dice, 3), places(dice, 3)
    yield law.STORED_A_LINKS, 0, far_places(dice, 3), places(dice, 3)
    yield law.STORED_A_LINKS_NEW, 0, far_places(dice, 3), places(dice, 3)

    def outputs(n, short):
        room1, room2 = two_rooms(dice, 2 * n - 3, short)
        return far_places(dice, room1), places(dice, room2)

    for n, rows in links(dice, 40):
        yield around(dice, links_in(n, rows, any_form(dice)), set()) + outputs(n, False)
    for fars in subsets_of_four():
        stored = law.bytes_of_bits(bits_of_links(4, len(fars), [(far, 1) for far in fars], any_form(dice)))
        yield stored, 0, [8] * 5, [8] * 5
    kinds = ["position", "header", "n", "count", "room", "body", "fill", "row", "own"]
    for form in (OLD, NEW):
        for faults in fault_sets(dice, kinds, 5, 48):
            n = damaged_n(dice)
            n, stored = damaged_stored_links(dice, n, good_links(dice, n), faults, form)
            yield around(dice, stored, faults) + outputs(n, "room" in faults)
    for stored in short_headers():
        yield stored, 0, [8] * 3, [8] * 3
        yield [9] + stored, 8, [8] * 3, [8] * 2
    yield from at_link_limits(dice, lambda n, stored: (stored, 0, [8] * (2 * n - 3), [7] * (2 * n - 3)))
    # Two tables one after another, of both forms, read at both starts and at every bit between.
    first, second = law.stored_links(4, [2, 4, 8, 12, 14], [1, 2, 3, 4, 5]), law.STORED_A_LINKS_NEW
    for position in list(range(0, 20)) + [8 * len(first) - 8, 8 * len(first), 8 * len(first) + 8]:
        yield first + second, position, [9] * 6, [9] * 6
    for position in HUGE:
        yield first, position, [9] * 6, [9] * 6
    for _ in range(30):
        n, form = dice.one_of([3, 3, 4]), any_form(dice)
        count = dice.between(n, 2 * n - 3)
        bits = form.mark + law.field(7, n) + law.field(7, count)
        length = links_length(form, n, count)
        body = [dice.one_of([0, 0, 1, 2, 4, 8, 64, 255]) for _ in range(length)]
        stored = law.bytes_of_bits(bits + law.bits_of_bytes(body)[:8 * length - len(bits)])
        yield stored, 0, [7] * 5, [7] * 5
    # The longest table of each form.
    fars = law.tree_far_sides(dice, 64, "caterpillar")
    for form in (OLD, NEW):
        stored = law.stored_links(64, fars, [dice.one_of([1, 2, form.most_cost]) for _ in fars], form)
        yield stored, 0, [8] * 125, [7] * 125
        yield stored[:-1], 0, [8] * 125, [7] * 125


def at_link_limits(dice, case):
    """Stored link tables of both forms with one cost at each limit and just above it; the old
    form has no bits for the two that are higher."""
    for n in (3, 4, 9, 33):
        fars = law.tree_far_sides(dice, n, "star" if n == 33 else "uneven")
        for form, limits in ((OLD, (2000000, 2000001)), (NEW, (2000000, 2000001, 16000000, 16000001))):
            for cost in limits:
                costs = [1] * len(fars)
                costs[dice.one_of([0, len(fars) - 1, dice.below(len(fars))])] = cost
                yield case(n, law.stored_links(n, fars, costs, form))


def at_cost_limits(dice, case, sizes=(3, 4, 9, 33)):
    """The same of stored cost tables."""
    for n in sizes:
        for form, limits in ((OLD, (1000000, 1000001)), (NEW, (1000000, 1000001, 8000000, 8000001))):
            for entry in limits:
                i, j = dice.one_of([(1, 2), (n - 1, n), dice.one_of(pairs(n))])
                yield case(n, stored_costs(n, with_entry(n, all_ones(n), i, j, entry), form))


def damaged_stored_costs(dice, n, t, faults, form):
    """Stored bytes of a cost table with the faults that bytes can have."""
    t = damage_pairs(dice, n, fitted(t, form), faults)
    if "entry" in faults:
        for _ in range(dice.between(1, 2)):
            i, j = sorted(dice.mixed(range(n))[:2])
            t[i * n + j] = dice.one_of([form.most_entry + 1, form.most_entry + 1, 2 ** form.entry_bits - 1])
    header = bad_header_n(dice, form) if "n" in faults else n
    bits = form.mark + law.field(7, header)
    bits += "".join(law.field(form.entry_bits, t[(i - 1) * n + j - 1]) for i, j in pairs(n))
    stored = filled(dice, bits, "fill" in faults)
    header = 1 if form == OLD else 2
    if "body" in faults:
        stored = cut_body(dice, stored, header)
    if "header" in faults:
        stored = stored[:dice.below(header)]
    return stored


def read_costs_cases(dice):
    yield [], 0, places(dice, 9)
    yield law.STORED_A_COSTS, 0, places(dice, 9)
    yield law.STORED_A_COSTS_NEW, 0, places(dice, 9)

    def output(n, short):
        return (places(dice, room(dice, n * n, short)),)

    for n, t in example_tables():
        yield around(dice, costs_in(n, t, any_form(dice)), set()) + output(n, False)
    for _ in range(40):
        n = small_n(dice)
        yield around(dice, costs_in(n, good_table(dice, n), any_form(dice)), set()) + output(n, False)
    for n, t in zero_tables(dice):
        yield around(dice, costs_in(n, t, any_form(dice)), set()) + output(n, False)
    kinds = ["position", "header", "n", "room", "body", "fill", "entry", "zero"]
    for form in (OLD, NEW):
        for faults in fault_sets(dice, kinds, 5, 35):
            n = damaged_n(dice)
            stored = damaged_stored_costs(dice, n, good_table(dice, n), faults, form)
            yield around(dice, stored, faults) + output(n, "room" in faults)
    for stored in short_headers():
        yield stored, 0, [8] * 9
        yield [9] + stored, 8, [8] * 9
    yield from at_cost_limits(dice, lambda n, stored: (stored, 0, [8] * (n * n)), (3, 4, 9))
    first, second = stored_costs(4, law.random_table(dice, 4, 9)), law.STORED_A_COSTS_NEW
    for position in list(range(0, 18)) + [8 * len(first) - 8, 8 * len(first), 8 * len(first) + 8]:
        yield first + second, position, [9] * 16
    for position in HUGE:
        yield first, position, [9] * 16
    # 33 images in each form: accepted, too little room, each fault, and two at once; where the last entry is
    # too large, all others are 0.
    for form, word in ((OLD, "last"), (NEW, "lower row")):
        top = form.most_entry
        stored = costs_in(33, sparse_table(dice, 33, top), form)
        too_large = stored_costs(33, table_from(33, [0] * 527 + [top + 1]), form)
        for n, t in large_zeros(dice, (33, word)):
            yield stored_costs(n, t, form), 0, [8] * 1089
        yield stored, 0, [8] * 1090
        yield stored, 0, [8] * 1088
        yield stored[:-1], 0, [8] * 1089
        yield stored[:-1] + [stored[-1] + 1], 0, [8] * 1089
        yield too_large, 0, [8] * 1089
        yield too_large[:-1] + [too_large[-1] + 1], 0, [8] * 1089
    # 64 images: too little room, which is looked at before the bytes behind the header.
    for form in (OLD, NEW):
        start = stored_costs(64, [1] * 4096, form)[:40]
        yield start, 0, places(dice, 64)
    # All of the 5,041 or 5,798 bytes: accepted, with just enough room and with more, alone and
    # between other bytes; then faults of the last place, among zeros.
    yield costs_in(64, sparse_table(dice, 64, 1000000), OLD), 0, [8] * 4096
    yield [7] + costs_in(64, sparse_table(dice, 64, 8000000), NEW) + [6, 0], 8, [8] * 4097
    upper = [1000000] + [0] * 2014
    stored = stored_costs(64, table_from(64, upper + [1000000]), OLD)
    new = stored_costs(64, table_from(64, upper + [8000000]), NEW)
    assert len(stored) == 5041 and len(new) == 5798
    yield stored[:-1], 0, [8] * 4096
    yield stored_costs(64, table_from(64, upper + [8000001]), NEW), 0, [8] * 4096
    yield [130] + stored[1:], 0, [8] * 50
    yield new[:1] + [new[1] + 4] + new[2:], 0, [8] * 50
    yield [7] + stored, 8 * 5042, [8] * 50
    for n, t in large_zeros(dice, (64, "last")):
        yield stored_costs(n, t), 0, [8] * 4096


def choice_cases(dice):
    def stored(n, rows):
        behind = [dice.below(256) for _ in range(dice.one_of([0, 0, 1, 3]))]
        return links_in(n, rows, any_form(dice)) + behind

    old, new = law.STORED_A_LINKS, law.STORED_A_LINKS_NEW
    yield [], []
    for one in (old, new):
        yield one, []
        yield [], one
        for other in (old, new):
            yield one, other
    for header in short_headers():
        yield header, dice.one_of([old, new])
        yield dice.one_of([old, new]), header
    for name in sorted(law.EXAMPLES):
        for other in sorted(law.EXAMPLES):
            if dice.chance(1, 2):
                yield (stored(law.EXAMPLES[name][0], law.MEASURED[name]),
                       stored(law.EXAMPLES[other][0], law.MEASURED[other]))
    for n in [small_n(dice) for _ in range(60)] + [9] * 6:
        one, two = related_rows(dice, n)
        yield stored(n, one), stored(n, two)
    for n in (33, 64):
        rows = tree_rows(dice, n, "uneven", 9, even=False)
        yield stored(n, fewer_inner(dice, n, rows)), stored(n, rows)
    for n in (3, 4, 9):
        yield stored(n, bare_links(dice, n, "star")), stored(n, bare_links(dice, n))
    # Each form beside each: the first includes the other, the second does, both do, neither does.
    for n in (5, 9, 33):
        rows = tree_rows(dice, n, "caterpillar", 9, even=False)
        inner = [row for row in rows if is_inner(n, row[0])]
        fewer, other = [[row for row in rows if row != lost] for lost in (inner[0], inner[-1])]
        for one, two in ((rows, fewer), (fewer, rows), (rows, even_rows(rows)), (fewer, other)):
            for form in (OLD, NEW):
                for form2 in (OLD, NEW):
                    if n < 33 or form != form2:
                        yield links_in(n, one, form), links_in(n, two, form2)
    yield from at_link_limits(dice, lambda n, table: (table, old) if n == 3 else (table, table[:]))
    for _ in range(10):
        n = damaged_n(dice, 4)
        yield stored(n, good_links(dice, n)), stored(n - 1, good_links(dice, n - 1))
    kinds = ["header", "n", "count", "body", "fill", "row", "own"]
    # Each fault in the first table with each in the second.
    for fault in kinds:
        for fault2 in kinds:
            yield (damaged_stored_links(dice, 4, good_links(dice, 4), {fault}, any_form(dice))[1],
                   damaged_stored_links(dice, 4, good_links(dice, 4), {fault2}, any_form(dice))[1])
    for faults in fault_sets(dice, kinds, 9, 84):
        n = damaged_n(dice)
        one, two = related_rows(dice, n)
        both = [stored(n, one), stored(n, two)]
        for which in dice.one_of([[0], [1], [1], [0, 1]]):
            some = some_of(dice, faults)
            both[which] = damaged_stored_links(dice, n, one, some, any_form(dice))[1]
        yield both[0], both[1]


# Cases of the reader, which goes from one stored table to the next

def few_images(dice):
    """Few, since a table's bytes stand in a line for each place at which it is read."""
    return dice.one_of([3, 3, 3, 4, 4, 5])


def any_stored(dice):
    """A stored table of either kind, in either form."""
    n = few_images(dice)
    if dice.chance(1, 2):
        return costs_in(n, good_table(dice, n), any_form(dice))
    return links_in(n, good_links(dice, n), any_form(dice))


def tables_in_a_row(dice):
    """Lists of stored tables of both kinds and forms that stand one after another."""
    one, other = law.STORED_A_COSTS, law.STORED_A_LINKS
    new, other_new = law.STORED_A_COSTS_NEW, law.STORED_A_LINKS_NEW
    yield from ([], [one], [other], [one, one], [one, other], [other, one], [other, other])
    yield from ([new], [other_new], [one, new], [new, one], [new, other_new], [other_new, other, new])
    for name in sorted(law.EXAMPLES)[1:]:
        n, t = law.example(name)
        yield dice.mixed([costs_in(n, t, any_form(dice)),
                          links_in(n, law.MEASURED[name], any_form(dice))])
    for _ in range(2):
        yield [any_stored(dice) for _ in range(3)]


def reader_stops(dice):
    """Bytes, a position, and images to make room for. The position is where a table
    begins or the last one ends, so that it is the one that the reader comes to; then
    it is a bit beside such a place, inside a byte, and far past the end."""
    for several in tables_in_a_row(dice):
        stored = sum(several, [])
        at = 0
        for table in several:
            yield stored, 8 * at, images_of(table)
            at += len(table)
        yield stored, 8 * at, 3
    stored = law.STORED_A_COSTS + law.STORED_A_LINKS
    for stop in (0, 72, 160):
        for bits in (-8, -1, 1, 4, 8):
            if stop + bits > 0:
                yield stored, stop + bits, 3
    for position in (2 ** 32, 2 ** 64 - 8, 2 ** 64 - 1):
        yield stored, position, 3


def each_fill_bit(stored):
    """Example A's stored form, in which each of the five fill bits is a one in turn."""
    for bit in (1, 2, 4, 8, 16):
        yield stored[:-1] + [stored[-1] + bit]


def tables_in_front(dice):
    """The bytes of no table, of one or of two."""
    return sum([any_stored(dice) for _ in range(dice.one_of([0, 1, 1, 2]))], [])


def first_two_cases(dice):
    def output(n, short):
        return places(dice, room(dice, n * n, short))

    one, other_kind = law.STORED_A_COSTS, law.STORED_A_LINKS
    new = law.STORED_A_COSTS_NEW
    for stored, position, n in reader_stops(dice):
        yield stored, position, output(n, False), output(few_images(dice), False)
    for stored in (one + one, one + other_kind, one + one[:-1], one + one + one, one + new, new + one,
                   new + new, new + new[:-1], one + [254], one + [255, 255], new + [255]):
        yield stored, 0, places(dice, 9), places(dice, 9)
    for n, t in example_tables():
        n2 = few_images(dice)
        yield (costs_in(n, t, any_form(dice)) + costs_in(n2, good_table(dice, n2), any_form(dice)), 0,
               output(n, False), output(n2, False))
    for n, t in zero_tables(dice):
        good, bad = costs_in(n, tree(dice, n), any_form(dice)), stored_costs(n, t, any_form(dice))
        yield bad + good, 0, output(n, False), output(n, dice.chance(1, 4))
        if n == 3:
            yield good + bad, 0, output(n, False), output(n, False)
    # The first is damaged, so that the reader stays and the second take is of it too.
    kinds = ["position", "header", "n", "room", "body", "fill", "entry", "zero"]
    for form in (OLD, NEW):
        for faults in fault_sets(dice, kinds, 4, 14):
            n = few_images(dice)
            stored = damaged_stored_costs(dice, n, good_table(dice, n), faults, form)
            yield (placed(dice, tables_in_front(dice), stored, faults)
                   + (output(n, "room" in faults), output(n, dice.chance(1, 2))))
    # The second is damaged, behind an accepted one.
    for form in (OLD, NEW):
        for faults in fault_sets(dice, kinds[1:], 4, 12):
            n, n2 = few_images(dice), few_images(dice)
            stored = costs_in(n, good_table(dice, n), any_form(dice))
            stored += damaged_stored_costs(dice, n2, good_table(dice, n2), faults, form)
            yield (placed(dice, tables_in_front(dice), stored, faults)
                   + (output(n, False), output(n2, "room" in faults)))
    for stored in each_fill_bit(one):
        yield new + stored, 0, places(dice, 9), places(dice, 9)
        yield stored + one, 0, places(dice, 9), places(dice, 9)
    for stored in each_fill_bit(new):
        yield one + stored, 0, places(dice, 9), places(dice, 9)
        yield stored + new, 0, places(dice, 9), places(dice, 9)
    for n in (3, 4, 8):
        stored = other_kind + costs_in(n, law.random_table(dice, n, 9), any_form(dice)) + one
        for more in (-1, 0, 1):
            yield stored, 88, places(dice, n * n + more), places(dice, n * n + more)
    for n, n2 in ((9, 33), (33, 9)):
        stored = one + costs_in(n, good_table(dice, n), NEW)
        stored += costs_in(n2, good_table(dice, n2), any_form(dice))
        yield stored + [6, 0], 72, places(dice, n * n + 1), places(dice, n2 * n2)
    # Too little room and then too few bytes, for 33 images; the second of 33 one byte short, and with a zero.
    yield [66, 0], 0, [8] * 1088, [9] * 1089
    stored = stored_costs(33, table_from(33, [1] * 527 + [8000000]), NEW)
    yield stored + stored[:-1], 0, [8] * 1089, [9] * 1089
    for n, t in large_zeros(dice, (33, "between")):
        yield one + stored_costs(n, t), 72, [8] * 1089, [9] * 9
    # 64 images behind another table, and with a zero before another one.
    stored = stored_costs(64, tree(dice, 64, 1, "star"), NEW)
    yield one + stored, 0, places(dice, 9), [8] * 4096
    for n, t in large_zeros(dice, (64, "lower row")):
        yield stored_costs(n, t) + one, 0, [8] * 4096, [9] * 40


def first_links_cases(dice):
    def outputs(n, short):
        room1, room2 = two_rooms(dice, 2 * n - 3, short)
        return far_places(dice, room1), places(dice, room2)

    for stored, position, n in reader_stops(dice):
        yield (stored, position) + outputs(n, False)
    kinds = ["position", "header", "n", "count", "room", "body", "fill", "row", "own"]
    for form in (OLD, NEW):
        for faults in fault_sets(dice, kinds, 4, 20):
            n = few_images(dice)
            n, stored = damaged_stored_links(dice, n, good_links(dice, n), faults, form)
            yield placed(dice, tables_in_front(dice), stored, faults) + outputs(n, "room" in faults)
    for table in (law.STORED_A_LINKS, law.STORED_A_LINKS_NEW):
        for stored in each_fill_bit(table):
            yield (law.STORED_A_COSTS + stored, 72) + outputs(3, False)
    for stored in short_headers():
        yield (law.STORED_A_COSTS + stored, 72) + outputs(3, False)
    yield from at_link_limits(dice, lambda n, stored: (law.STORED_A_COSTS_NEW + stored, 88) + outputs(n, False))
    for _ in range(8):
        n = few_images(dice)
        stored = links_in(n, good_links(dice, n), any_form(dice))
        yield placed(dice, tables_in_front(dice), stored, set()) + outputs(n, False)
    # One row of example E spoilt, behind another table: repeated, without images, across
    # a later one, an inner cost of 0, a cost above the most.
    for form in (OLD, NEW):
        for row, far, cost in ((1, 2, 2), (0, 0, 2), (2, 6, 2), (3, 12, 0), (4, 14, form.most_cost + 1)):
            rows = list(law.MEASURED["E"])
            rows[row] = far, cost
            stored = law.STORED_A_LINKS + law.bytes_of_bits(bits_of_links(4, 5, rows, form))
            yield stored, 88, far_places(dice, 5), places(dice, 5)
    for n in (3, 5):
        stored = law.STORED_A_COSTS + links_in(n, good_links(dice, n), NEW)
        for more, more2 in ((0, 0), (-1, 0), (0, -1), (1, 2)):
            yield (stored, 72, far_places(dice, 2 * n - 3 + more),
                   places(dice, 2 * n - 3 + more2))
    for n, shape in ((17, "uneven"), (64, "star"), (9, "uneven"), (33, "caterpillar"),
                     (64, "uneven")):
        rows = tree_rows(dice, n, shape, 9, even=False)
        stored = law.STORED_A_COSTS + links_in(n, rows, any_form(dice))
        yield stored + [6, 13], 72, far_places(dice, 2 * n), places(dice, 2 * n - 3)


def two_damaged(dice, faults, faults2):
    """Two cost tables with these faults, and their outputs. Where bytes of the first
    are missing, the second stands right behind or is missing too."""
    n, n2 = few_images(dice), few_images(dice)
    stored = damaged_stored_costs(dice, n, good_table(dice, n), faults, any_form(dice))
    if not faults & {"header", "body"} or dice.chance(1, 3):
        stored = stored + damaged_stored_costs(dice, n2, good_table(dice, n2), faults2, any_form(dice))
        if not faults2 & {"header", "body"}:
            stored = stored + [dice.below(256) for _ in range(dice.below(3))]
    return (stored, places(dice, room(dice, n * n, "room" in faults)),
            places(dice, room(dice, n2 * n2, "room" in faults2)))


def two_costs_cases(dice):
    one, other_kind, new = law.STORED_A_COSTS, law.STORED_A_LINKS, law.STORED_A_COSTS_NEW
    for stored in ([], one, one + one, one * 3, one + other_kind, other_kind + one, new, one + new, new + one,
                   new + new, new * 3, [254], [255, 255], one[:-1], new[:-1], one[:1]):
        yield stored, places(dice, 9), places(dice, 9)
    for stored in short_headers():
        yield dice.one_of([one, new]) + stored, places(dice, 9), places(dice, 9)
    for n, t in example_tables():
        n2, t2 = dice.one_of(example_tables())
        yield (costs_in(n, t, any_form(dice)) + costs_in(n2, t2, any_form(dice)),
               places(dice, room(dice, n * n, False)), places(dice, room(dice, n2 * n2, False)))
    for _ in range(8):
        yield two_damaged(dice, set(), set())
    # Each output too short, exact and too long.
    for n, n2 in ((3, 3), (4, 5)):
        stored = costs_in(n, good_table(dice, n), OLD) + costs_in(n2, good_table(dice, n2), NEW)
        for more in (-1, 0, 2):
            for more2 in (-1, 0, 2):
                yield stored, places(dice, n * n + more), places(dice, n2 * n2 + more2)
    for n, t in zero_tables(dice):
        good, bad = costs_in(n, tree(dice, n), any_form(dice)), stored_costs(n, t, any_form(dice))
        yield dice.one_of([bad + good, good + bad, bad + bad]), places(dice, n * n), places(dice, n * n)
        if n == 3:
            yield good + bad, places(dice, n * n), places(dice, n * n)
    # Each fault in the first table with each in the second.
    kinds = ["header", "n", "room", "body", "fill", "entry", "zero"]
    for fault in kinds:
        for fault2 in kinds:
            yield two_damaged(dice, {fault}, {fault2})
    for faults in fault_sets(dice, kinds, 5, 36):
        damage = [set(), set()]
        for which in dice.one_of([[0], [1], [1], [0, 1]]):
            damage[which] = some_of(dice, faults)
        yield two_damaged(dice, damage[0], damage[1])
    yield from at_cost_limits(dice, lambda n, stored: (one + stored, places(dice, 9), places(dice, n * n)), (3, 4))
    yield from at_cost_limits(dice, lambda n, stored: (stored + new, places(dice, n * n), places(dice, 9)), (3, 4))
    for stored in each_fill_bit(new):
        yield stored + one, places(dice, 9), places(dice, 9)
        yield one + stored, places(dice, 9), places(dice, 9)
    n = 17
    stored = costs_in(n, tree(dice, n, 3, "uneven"), NEW)
    yield one + stored, places(dice, 10), places(dice, n * n)
    # 33 and 64 images: in the second, with a zero; 64 in both.
    last = [1] * 2015 + [1000000]
    stored = stored_costs(64, table_from(64, last), NEW)
    for n, t in large_zeros(dice, (33, "first"), (64, "last")):
        yield one + stored_costs(n, t), [8] * 9, [9] * (n * n)
    yield stored_costs(64, table_from(64, last)) + stored + [1], [8] * 4096, [9] * 4096


def two_fields_cases(dice):
    one, other_kind = law.STORED_A_COSTS, law.STORED_A_LINKS
    # n and the first entry of a stored cost table, n and the row count of a link table,
    # and a row: its far side and its doubled cost.
    for n in (3, 9, 33, 64):
        for form in (OLD, NEW):
            costs = costs_in(n, good_table(dice, n), form)[:40]
            links = links_in(n, good_links(dice, n), form)[:80]
            front, entry = len(form.mark) + 7, form.entry_bits
            yield costs, front - 7, 7, entry
            yield costs, front + entry, entry, entry
            yield links, front - 7, 7, 7
            yield links, front + 7, n - 1, form.cost_bits
            yield links, 0, 7, 7
    # Each width at each bit of a byte, with more bits than are needed, as many, one too few.
    for width in (0, 1, 7, 8, 20, 31, 32, 33, 56, 57, 63, 64):
        for start in range(0, 16, 3):
            stored = [dice.below(256) for _ in range((start + width + 7) // 8 + 9)]
            yield stored, start, width, dice.one_of([0, 1, 5, 8, 31, 64])
            end = 8 * len(stored)
            yield stored, end - width - start, start, width
            yield stored, end - width - start, start + 1, width
            yield stored, end - width - start, width, start + 1
    # Too wide, alone and with too few bits; the second after a refusal is read where the first was.
    stored = [dice.below(256) for _ in range(40)]
    for width in (65, 66, 100, 127, 128, 255, 256, 320, 321, 2 ** 32, 2 ** 63, 2 ** 64 - 1):
        for position in (0, 1, 64, 65, 319, 320, 321):
            yield stored, position, width, dice.one_of([0, 1, 8, 64])
            yield stored, position, dice.one_of([0, 1, 8, 64]), width
        yield stored, dice.below(320), width, dice.one_of([65, 300, 2 ** 64 - 1])
    for stored in ([], [255], one, other_kind, one + other_kind):
        end = 8 * len(stored)
        for position in (0, end, end + 1, end + 8, 2 ** 32, 2 ** 63, 2 ** 64 - 8, 2 ** 64 - 1):
            for width in (0, 1, 8, 64):
                yield stored, position, width, dice.one_of([0, 1, 8, 64, 65, 2 ** 64 - 1])


def refusal_text_cases(dice):
    """Every number with a table and without one, in just enough room and in more; numbers that
    no refusal has; the longest text; and too little room."""
    enough = law.TEXT_BYTES
    unknown = [99, 2 ** 32 + 7, 2 ** 64 - 1]

    def bytes_of_text(length):
        """One digit a place, since there are many lines of these."""
        return [k % 10 for k in range(length)]

    def texts_of(number):
        for table in (0, dice.one_of([1, 2, 10, 64, 500])):
            places_of = [dice.one_of([1, 2, 9, 10, 33, 64, 99, 100, 12345]) for _ in range(4)]
            yield (number, table, *places_of, bytes_of_text(dice.one_of([enough, enough, enough + 3])))
        yield number, 0, 0, 0, 0, 0, bytes_of_text(enough)
        yield (number, *[2 ** 64 - 1] * 5, bytes_of_text(enough))
        yield number, 3, 1, 2, 3, 5, byte_places(dice, dice.one_of([0, 1, 20, enough - 1, enough - 1]))

    for number in list(range(19)) + unknown:
        yield from texts_of(number)
    # Refusal 17 of a row alone, and of a row and a column; 12 beside a second place, which it has not.
    for number in (12, 17):
        for a, b in ((1, 0), (125, 0), (0, 0), (0, 3), (1, 2), (63, 64), (2 ** 64 - 1, 0), (2 ** 64 - 1, 1)):
            yield number, dice.one_of([0, 0, 2]), a, b, 0, 0, bytes_of_text(enough)
    # The numbers beside 18 and 22, and each of the two with the place of a byte alone; the pairs of 20.
    for number in (19, 20, 21, 22, 23):
        yield from texts_of(number)
    for table, a, b in ((0, 1, 2), (2, 63, 64), (500, 1, 64), (0, 2, 3)):
        yield 20, table, a, b, 0, 0, bytes_of_text(enough)
    for number in (18, 22):
        for a in (1, 5, 1432, 2 ** 64 - 1):
            yield number, 0, a, 0, 0, 0, bytes_of_text(enough)
    # The three images of 21, beside a fourth place, which it has not.
    for a, b, c, d in ((1, 2, 3, 0), (62, 63, 64, 0), (1, 9, 64, 0), (2, 3, 4, 5), (0, 0, 1, 2 ** 64 - 1)):
        yield 21, 0, a, b, c, d, bytes_of_text(enough)


# Teams: tables over the same images, joined

TEAMS = ["all", "but one", "some", "none", "any", "same", "stars"]


def team(dice, n, number, kind, most=20):
    """The trees of so many tables: with the same far sides, one of which one tree may lack,
    with some of them, with own links alone in common, or whatever trees come; one tree so
    many times; stars, of whose own links one may cost nothing."""
    one = tree_rows(dice, n, "uneven", most)
    inner = [far for far, _ in one if is_inner(n, far)]
    if kind == "same":
        return [one] * number
    if kind == "all" or (kind == "but one" and not inner):
        return [[(far, cost + 2 * dice.below(4)) for far, cost in one] for _ in range(number)]
    if kind == "but one":
        lacking, lost = dice.below(number), dice.one_of(inner)
        trees = [[(far, cost + dice.below(4)) for far, cost in one] for _ in range(number)]
        trees[lacking] = [row for row in trees[lacking] if row[0] != lost]
    elif kind == "some":
        trees = [[(far, cost + dice.below(4)) for far, cost in one
                  if not is_inner(n, far) or dice.chance(4, 5)] for _ in range(number)]
    elif kind == "none":
        trees = [tree_rows(dice, n, law.random_shape(dice), most) for _ in range(number)]
        trees[dice.below(number)] = tree_rows(dice, n, "star", most)
    elif kind == "any":
        trees = [tree_rows(dice, n, law.random_shape(dice), most) for _ in range(number)]
    else:
        trees = [[(own_link(n, i), dice.below(3)) for i in list(range(2, n + 1)) + [1]]
                 for _ in range(number)]
    return [even_rows(rows) for rows in trees]


def team_tables(n, trees):
    return [costs_of(n, rows) for rows in trees]


def one_slice(tables_of_team):
    return [entry for t in tables_of_team for entry in t]


def crooked(dice, n):
    """A well-formed table without a wiring: one entry longer than the way over a third image."""
    t = tree(dice, n)
    i, j, k = dice.mixed(range(n))[:3]
    t[i * n + j] = t[j * n + i] = t[i * n + k] + t[k * n + j] + dice.between(1, 3)
    return t


def bad_number(dice, number):
    return dice.one_of([0, 0, 17, 17, 18, 32, 2 ** 32 + number, 2 ** 40, 2 ** 60, 2 ** 63, 2 ** 64 - 1])


def bad_joined(dice, n, entries):
    """Joined tables of another length."""
    return dice.one_of([entries[:-1], entries + [0], [], entries[:-n * n], entries + entries[:n * n],
                        entries[:n], entries + entries])


def damaged_team(dice, faults):
    """n, the number of tables and the joined tables with these faults, which several tables
    share where there are some of a table; and the n that the outputs are for."""
    n, number = damaged_n(dice), dice.one_of([1, 2, 2, 3, 3, 5])
    tables_of_team = team_tables(n, team(dice, n, number, dice.one_of(TEAMS)))
    for which in {dice.below(number), dice.below(number)} if dice.chance(1, 2) else {number - 1}:
        if "wiring" in faults:
            tables_of_team[which] = crooked(dice, n)
        some = faults & {"entry", "diagonal", "asymmetric", "zero"}
        tables_of_team[which] = damage_table(dice, n, tables_of_team[which], some_of(dice, some))[1]
    entries = one_slice(tables_of_team)
    if "length" in faults:
        entries = bad_joined(dice, n, entries)
    if "number" in faults:
        number = bad_number(dice, number)
    bad_n = dice.one_of(BAD_N) if "n" in faults else n
    return bad_n, number, entries, n


def team_of_examples(dice):
    """Every settled example alone, sixteen times, and beside every other over as many images."""
    for n, t in example_tables():
        yield n, [t]
        yield n, [t] * 16
        for n2, t2 in example_tables():
            if n == n2 and t != t2:
                yield n, [t, t2]
                if dice.chance(1, 3):
                    yield n, [t2] * dice.between(1, 3) + [t, t2]


def teams_of_trees(dice):
    """Trees that share all far sides, some or none; one row that one tree lacks, wherever it
    stands; all costs lowered to 1 by one table after another, or to 0 by stars in each of which
    another image stands at the switch; entries of 8,000,000."""
    for kind in TEAMS:
        for number in (1, 2, 3, 5, 16):
            for n in (small_n(dice), dice.one_of([4, 5, 6])):
                yield n, team_tables(n, team(dice, n, number, kind, dice.one_of([1, 3, 20])))
    for n, number in ((4, 2), (4, 3), (5, 5), (9, 3)):
        rows = even_rows(tree_rows(dice, n, "caterpillar", 5))
        lost = dice.one_of([far for far, _ in rows if is_inner(n, far)])
        fewer = [row for row in rows if row[0] != lost]
        for place in range(number):
            yield n, team_tables(n, [fewer if k == place else rows for k in range(number)])
    for n in (3, 4):
        far_away = [table_from(n, [8000000 if image in pair else 1 for pair in pairs(n)])
                    for image in range(1, n + 1)]
        yield n, far_away[:1]
        yield n, far_away[:2]
        yield n, far_away
        yield n, [star(n, [int(i != image) for i in range(n)]) for image in range(n)]
        yield n, [table_from(n, [8000000] * (n * n)), table_from(n, [7999999] * (n * n))]
        yield n, [table_from(n, [1000001] * (n * n)), table_from(n, [8000000] * (n * n))]
    for kind in ("all", "but one", "some", "any"):
        yield 9, team_tables(9, team(dice, 9, dice.one_of([2, 3, 4]), kind))
    yield 9, team_tables(9, team(dice, 9, 16, "some", 3))


def refused_tables(dice):
    """Each fault of a table with each in a later one, next to it and behind others; and one
    fault in each of sixteen."""
    n, good = law.example("E")
    kinds = ["entry", "diagonal", "asymmetric", "zero", "wiring"]

    def spoilt(fault):
        t = crooked(dice, n) if fault == "wiring" else good
        return damage_table(dice, n, t, {fault})[1]

    for fault in kinds:
        for fault2 in kinds:
            yield n, [spoilt(fault), spoilt(fault2)]
            yield n, [good, good, spoilt(fault), good, spoilt(fault2)]
        for place in (2, 9, 15):
            yield n, [good] * place + [spoilt(fault)] + [good] * (15 - place)
    yield n, [law.example("F")[1]] * 16
    for n, t in zero_tables(dice):
        team_of_three = [tree(dice, n, 3), tree(dice, n, 3), t]
        yield n, dice.mixed(team_of_three)
        if n == 3:
            yield n, [t] * dice.one_of([1, 1, 2])
    for n, t in large_zeros(dice, (33, "first"), (64, "between")):
        yield n, [t]


def no_teams(dice):
    """An n and a number of tables that no team has, alone and with each other, beside tables
    that fit them as far as there can be; 2^60 tables over four images have 2^64 entries."""
    for n in BAD_N:
        yield n, dice.one_of([1, 2, 16]), [], 3
        yield n, bad_number(dice, 1), dice.one_of([[], [8000001] * 4]), 3
    for n in (1, 2):
        yield n, 2, [0] * (2 * n * n), 3
    for n in (3, 4):
        for number in (0, 17, 18, 2 ** 32 + 1, 2 ** 60, 2 ** 62, 2 ** 63, 2 ** 64 - 1):
            yield n, number, [], n
            yield n, number, [0] * (n * n * min(number, 18)), n
    for number in (1, 2, 15, 16):
        yield 3, number, [0] * (9 * number + dice.one_of([-9, -1, 1, 9])), 3
        yield 3, number, [8000001] * (9 * number + dice.one_of([-9, -1, 1, 9])), 3


def large_teams(dice):
    """Thirty-three and sixty-four images, sixteen tables of them with small entries."""
    yield 33, team_tables(33, team(dice, 33, 1, "same", 3))
    yield 33, team_tables(33, team(dice, 33, 5, "some", 1))
    yield 33, team_tables(33, team(dice, 33, 5, "some", 1)) + [crooked(dice, 33)]
    yield 64, team_tables(64, team(dice, 64, 1, "same", 1))
    yield 64, team_tables(64, team(dice, 64, 2, "but one", 1))
    # Own links and some of four inner far sides, one inside another, image 64 in two of them.
    own = [own_link(64, image) for image in list(range(2, 65)) + [1]]
    sides = [2 ** 63 + 2 ** 62, 2 ** 63 + 2 ** 62 + 2 ** 40, 6, 2 ** 33 + 2 ** 32 + 2 ** 31]
    trees = []
    for lost in (None, 1, 2, None, 1):
        inner = [far for at, far in enumerate(sides) if at != lost]
        trees.append(sorted((far, dice.one_of([1, 2]) if far in inner else dice.below(2))
                            for far in own + inner))
    tables_of_team = team_tables(64, [even_rows(rows) for rows in trees])
    yield 64, (tables_of_team * 4)[:16]


def consensus_cases(dice):
    def outputs(n, short=False):
        room1, room2 = two_rooms(dice, 2 * n - 3, short)
        return far_places(dice, room1), places(dice, room2)

    for source in (team_of_examples, teams_of_trees, refused_tables, large_teams):
        for n, tables_of_team in source(dice):
            yield (n, len(tables_of_team), one_slice(tables_of_team), *outputs(n))
    for bad_n, number, entries, n in no_teams(dice):
        yield (bad_n, number, entries, *outputs(n, dice.chance(1, 3)))
    kinds = ["n", "number", "length", "room", "entry", "diagonal", "asymmetric", "zero", "wiring"]
    for faults in fault_sets(dice, kinds, 6, 72):
        bad_n, number, entries, n = damaged_team(dice, faults)
        yield (bad_n, number, entries, *outputs(n, "room" in faults))
    # Room for the rows that are shared, but not the 2n-3 places that are asked; just enough; more.
    for n in (4, 5, 9):
        entries = one_slice(team_tables(n, team(dice, n, 2, "none", 5)))
        for room1, room2 in ((n, 2 * n - 3), (2 * n - 3, 2 * n - 4), (2 * n - 3, 2 * n - 3), (2 * n, 3 * n)):
            yield n, 2, entries, far_places(dice, room1), places(dice, room2)


# Listings

def star(n, own):
    """The table of a star whose images have these own links."""
    return table_from(n, [own[i - 1] + own[j - 1] for i, j in pairs(n)])


def far_ends(dice):
    """Stars in which some images are the farthest, also with image 1 on the switch itself; stars
    of equal links, and of links without a cost, which are refused; trees with so small costs
    that images tie."""
    for n in (4, 5, 9):
        for farthest in ({2}, {3}, {n - 1}, {n}, {2, n}, {3, n}, {n - 1, n}, set()):
            for own in (0, dice.between(1, 9)) if n < 9 else (dice.one_of([0, 5]),):
                yield n, star(n, [own] + [7 if i in farthest else dice.between(1, 6) for i in range(2, n + 1)])
    for n in (3, 4, 9, 33):
        yield n, star(n, [1] * n)
        yield n, [0] * (n * n)
    for n in (9, 9, 9, 33):
        yield n, tree(dice, n, 2, "uneven")


def listing_cases(dice):
    def followed(stored):
        return stored + [dice.below(256) for _ in range(dice.one_of([0, 0, 0, 1, 3]))]

    yield [],
    for source in (example_tables(), ((3, t) for t in all_small_tables()), far_ends(dice), zero_tables(dice),
                   large_zeros(dice, (33, "last"), (33, "lower row"), (64, "first"))):
        for n, t in source:
            yield followed(stored_costs(n, t, any_form(dice))),
    for n, t in example_tables():
        yield stored_costs(n, t, NEW),
    for n in [small_n(dice) for _ in range(24)]:
        yield followed(stored_costs(n, tree(dice, n), any_form(dice))),
    for entry in (1000000, 1000001, 8000000, 8000001):
        yield stored_costs(4, table_from(4, [entry] * 6), NEW),
        if entry < 8000000:
            yield stored_costs(4, table_from(4, [entry] * 6), OLD),
    for n, i in ((3, 1), (9, 2), (33, 33)):
        own = [1] * n
        own[i - 1] = 7999999
        yield stored_costs(n, star(n, own), NEW),
    for stored in short_headers():
        yield stored,
    yield stored_costs(33, tree(dice, 33, 3000, "caterpillar")),
    yield stored_costs(64, star(64, [4000000] + [dice.between(1, 4000000) for _ in range(63)]), NEW),
    for n, form in ((33, NEW), (64, OLD), (64, NEW)):
        yield stored_costs(n, crooked(dice, n), form),
        yield stored_costs(n, tree(dice, n), form)[:-1],
    kinds = ["header", "n", "body", "fill", "entry", "zero", "wiring"]
    for form in (OLD, NEW):
        for faults in fault_sets(dice, kinds, 6, 18):
            n = damaged_n(dice)
            t = crooked(dice, n) if "wiring" in faults else tree(dice, n)
            stored = damaged_stored_costs(dice, n, t, faults, form)
            yield (stored if faults & {"header", "body"} else followed(stored)),


# The second engine of the exact reading

def failing_test(n, t):
    """The first test of the second engine that fails: the place in the order of the image
    that is grafted, from 0, and that of the image whose entry is tested, -1 for the test
    that the new own link is not below 0. None where there is none."""
    d = law.square(n, t)
    order = law.order_of(n, d, 1, n)
    for place in range(1, n):
        x, z = order[place - 1], order[place]
        if d[1][x] > d[1][z] + d[x][z]:
            return place, -1
        for at, j in enumerate(order[:place]):
            if d[j][z] + d[1][x] != max(d[1][j] + d[x][z], d[1][z] + d[x][j]):
                return place, at
    return None


def with_entry(n, t, i, j, entry):
    t = list(t)
    t[(i - 1) * n + j - 1] = t[(j - 1) * n + i - 1] = entry
    return t


def on_a_line(stands):
    """Images that stand on a line: no own link but those of the two ends costs anything."""
    return table_from(len(stands), [abs(stands[i - 1] - stands[j - 1]) for i, j in pairs(len(stands))])


def in_halves(n):
    """Images part in halves, quarters and eighths, so that all that are not yet placed tie."""
    return table_from(n, [(i - 1 ^ j - 1).bit_length() for i, j in pairs(n)])


def one_away(dice, n, few):
    """The table of a tree over few images, with all others one away from the place of one of these, at which an
    own link of 0 then ends at a switch."""
    t = tree(dice, few, 9, "uneven")
    stands = dice.mixed([(place, 0) for place in range(few)] + [(dice.below(few), 1) for _ in range(n - few)])
    return table_from(n, [t[at * few + at2] + away + away2 for (at, away), (at2, away2) in
                          ((stands[i - 1], stands[j - 1]) for i, j in pairs(n))])


def bare_star(dice, n):
    """A star of small costs in which one image stands at the switch itself."""
    bare = dice.below(n)
    return star(n, [0 if i == bare else dice.between(1, 2) for i in range(n)])


def bare_tree(dice, n, most, shape=None):
    """The table of a tree in which many own links cost nothing, one at most at each switch."""
    return tree_table(n, law.bare_rows(dice, n, tree_rows(dice, n, shape or law.random_shape(dice), most)))


def grafted_trees(dice):
    """Own links of 0, ties, halves, entries of 8,000,000; few images and many."""
    for n in (3, 3, 3, 4, 4, 5, 5, 6, 7, 8, 9, 9):
        yield n, bare_tree(dice, n, dice.one_of([1, 3, 30]))
    for n, few in ((4, 3), (5, 3), (6, 4), (9, 4), (9, 7), (33, 6)):
        yield n, one_away(dice, n, few)
    for n in (3, 4, 5, 9):
        yield n, on_a_line(dice.mixed(range(0, 3 * n, 3)))
        yield n, in_halves(n)
        yield n, bare_star(dice, n)
        yield n, table_from(n, [8000000 if 1 in pair else 1 for pair in pairs(n)])
        yield n, table_from(n, [8000000 if n in pair else 1 for pair in pairs(n)])
        yield n, on_a_line([8000000 // i for i in range(1, n)] + [0])
    yield 9, [0] * 81
    yield 33, in_halves(33)
    yield 33, bare_tree(dice, 33, 40, "uneven")
    yield 33, tree(dice, 33, 1, "caterpillar")
    yield 64, bare_tree(dice, 64, 2, "caterpillar")
    yield 64, bare_tree(dice, 64, 9, "uneven")
    yield from large_zeros(dice, (33, "between"), (64, "between"))


def refused_at_tests(dice):
    """One entry of a tree is moved so that the engine stops at a test of the first graft that
    has any, or of the last one: with few images wherever this is met, with more images, on a
    line, at the very first test, at the first one of the last graft, and at the very last."""
    for n in (3, 4, 5, 9):
        seen = set()
        for _ in range(700):
            t = bare_tree(dice, n, dice.one_of([1, 2, 6]))
            t = with_entry(n, t, *dice.one_of(pairs(n)), dice.between(1, 12))
            found = failing_test(n, t)
            if found and found[0] in (2, n - 1) and found not in seen:
                seen.add(found)
                yield n, t
    for n in EVERY_TEST:
        # All but 1, 2 and 3 stand on the other side of image 1: 3 is grafted first, and then 2, too near to it.
        yield n, with_entry(n, on_a_line([0, 2, 4] + list(range(-2, -2 * n + 4, -2))), 2, 3, 1)
        # Image n stands before image n-1, and then behind it, both times too near to it.
        line = list(range(0, 2 * n, 2))
        yield n, with_entry(n, on_a_line(line[:-2] + [line[-1], line[-2]]), n - 1, n, 1)
        yield n, with_entry(n, on_a_line(line), n - 1, n, 1)


def grafted_cases(dice):
    def outputs(n, short=False):
        room1, room2 = two_rooms(dice, 2 * n - 3, short) if n < 10 else (2 * n - 3, 2 * n - 3)
        return far_places(dice, room1), places(dice, room2)

    for n, t, sound in tables(dice, 8):
        yield (n, t, *outputs(n if sound else 3))
    for source in (grafted_trees, refused_at_tests):
        for n, t in source(dice):
            yield (n, t, *outputs(n))
    kinds = ["n", "length", "room", "entry", "diagonal", "asymmetric", "zero", "wiring"]
    for faults in fault_sets(dice, kinds, 4, 28):
        n = damaged_n(dice)
        t = crooked(dice, n) if "wiring" in faults else tree(dice, n)
        yield (*damage_table(dice, n, t, faults), *outputs(n, "room" in faults))
    # Room for the rows of a star, but not the 2n-3 places that are asked.
    for n in (4, 9):
        t = tree(dice, n, 5, "star")
        yield n, t, far_places(dice, n), places(dice, 2 * n - 3)
        yield n, t, far_places(dice, 2 * n - 3), places(dice, 2 * n - 4)


# Conversions from one stored form into the other, and into the form that a table has

def needed_bytes(convert, number, stored):
    """The bytes that a conversion writes, or those that a small table would need."""
    answer = convert(number, stored, [0] * LONGEST_BYTES)
    return answer[1] if answer[0] == 0 else 14


def conversion_cases(dice, convert, some_stored, damaged_stored, kinds, limits):
    """Conversions of one kind of table: of examples and others with what may stand behind, into
    each form; each limit; each fault and several at once, with 17 behind the reader's faults and
    before room; short headers. `some_stored` gives a stored table of this form."""
    def followed(stored):
        return stored + [dice.below(256) for _ in range(dice.one_of([0, 0, 0, 1, 3]))]

    def out(number, stored, short=False):
        return byte_places(dice, room(dice, needed_bytes(convert, number, stored), short))

    for stored in [[]] + list(short_headers()):
        for number in (0, 1):
            yield number, stored, byte_places(dice, 14)
    for form in (OLD, NEW):
        for stored in some_stored(form):
            for number in (0, dice.one_of(FORM_NUMBERS[5:])):
                yield number, followed(stored), out(number, stored)
    # Just enough room, one byte less and one more.
    for form in (OLD, NEW):
        accepted = [stored for stored in some_stored(form) if convert(1, stored, [0] * LONGEST_BYTES)[0] == 0]
        for stored in accepted[:2] + accepted[-2:]:
            for number in (0, 1):
                for more in (-1, 0, 1):
                    yield number, stored, byte_places(dice, needed_bytes(convert, number, stored) + more)
    for n, stored in limits:
        for number in (0, 1):
            yield number, stored, out(number, stored) if n < 10 else byte_places(dice, 20)
    for form in (OLD, NEW):
        together = 36 if "zero" in kinds else 42
        for faults in fault_sets(dice, [kind for kind in kinds if kind != "old" or form == NEW], 5, together):
            number = 0 if "old" in faults else dice.one_of(FORM_NUMBERS)
            stored = damaged_stored(damaged_n(dice), faults, form)
            stored = stored if faults & {"header", "body"} else followed(stored)
            yield number, stored, out(number, stored, "room" in faults)


def convert_costs_cases(dice):
    def some_stored(form):
        sizes = [small_n(dice) for _ in range(12)] + [9, 9]
        found = [stored_costs(n, t, form) for n, t in example_tables()]
        return found + [costs_in(n, law.random_table(dice, n, dice.one_of([9, 1000000])), form) for n in sizes]

    def damaged_stored(n, faults, form):
        return damaged_stored_costs(dice, n, good_table(dice, n), faults, form)

    kinds = ["header", "n", "body", "fill", "entry", "zero", "old", "room"]
    limits = list(at_cost_limits(dice, lambda n, stored: (n, stored)))
    yield from conversion_cases(dice, law.convert_costs, some_stored, damaged_stored, kinds, limits)
    # Entries above the old limits: the first of several counts.
    for n in (3, 4, 9, 33):
        for high in (1, 2, 3):
            upper = [dice.between(1, 9) for _ in pairs(n)]
            for place in dice.mixed(range(len(upper)))[:high]:
                upper[place] = dice.one_of(ABOVE_OLD_ENTRY)
            stored = stored_costs(n, table_from(n, upper), NEW)
            yield 0, stored, byte_places(dice, dice.one_of([0, 9, 60]))
            if n < 33:
                yield 1, stored, byte_places(dice, len(stored))
    for form, number in ((OLD, 1), (NEW, 0), (NEW, 1)):
        stored = costs_in(33, sparse_table(dice, 33, 1000000), form)
        yield number, stored, [9] * costs_length(law.form_named(number), 33)
    for n, t in zero_tables(dice):
        yield dice.one_of([0, 1]), stored_costs(n, t, any_form(dice)), byte_places(dice, costs_length(NEW, n))
    for n, t in large_zeros(dice, (33, "last"), (33, "between")):
        yield dice.one_of([0, 1]), stored_costs(n, t, any_form(dice)), byte_places(dice, 20)
    # 64 images: each way, the whole room and little; a fill bit that is a one; the last entry above the old limits,
    # behind a zero too, and above all limits among zeros.
    t = sparse_table(dice, 64, 1000000)
    yield 1, stored_costs(64, t), [9] * 5800
    yield 0, stored_costs(64, t, NEW) + [3], [9] * 5041
    last = stored_costs(64, table_from(64, [1] * 2015 + [1000000]))
    yield 1, last, [9] * 50
    yield 1, last[:-1] + [last[-1] + 1], [9] * 50
    for upper in ([1] * 2015 + [1000001], [1] * 2014 + [0, 8000000], [0] * 2015 + [8000001]):
        yield 0, stored_costs(64, table_from(64, upper), NEW), [9] * 50


def convert_links_cases(dice):
    def some_stored(form):
        found = [law.stored_links(law.EXAMPLES[name][0], *sides_and_costs(law.MEASURED[name]), form)
                 for name in sorted(law.EXAMPLES)]
        for n in [small_n(dice) for _ in range(12)] + [9, 9]:
            found.append(links_in(n, fitted_rows(good_links(dice, n), dice.one_of([OLD, OLD, NEW])), form))
        return found

    def damaged_stored(n, faults, form):
        return damaged_stored_links(dice, n, good_links(dice, n), faults, form)[1]

    kinds = ["header", "n", "count", "body", "fill", "row", "own", "old", "room"]
    limits = list(at_link_limits(dice, lambda n, stored: (n, stored)))
    yield from conversion_cases(dice, law.convert_links, some_stored, damaged_stored, kinds, limits)
    for fars in subsets_of_four():
        stored = law.bytes_of_bits(bits_of_links(4, len(fars), [(far, 1) for far in fars], any_form(dice)))
        yield dice.one_of([0, 1]), stored, byte_places(dice, 22)
    # Costs above the old limits: the first of several counts.
    for n in (3, 4, 9, 33, 64):
        fars = law.tree_far_sides(dice, n, "uneven")
        for high in (1, 2, 3):
            costs = [dice.between(1, 9) for _ in fars]
            for row in dice.mixed(range(len(fars)))[:high]:
                costs[row] = dice.one_of(ABOVE_OLD_COST)
            stored = law.stored_links(n, fars, costs, NEW)
            yield 0, stored, byte_places(dice, dice.one_of([0, 9, 60]))
            if n < 33:
                yield 1, stored, byte_places(dice, len(stored))
    # The longest tables, each way and one byte short.
    fars = law.tree_far_sides(dice, 64, "caterpillar")
    costs = [dice.between(1, 2000000) for _ in fars]
    old, new = law.stored_links(64, fars, costs), law.stored_links(64, fars, costs, NEW)
    assert len(old) == 1315 and len(new) == 1362
    yield 1, old + [3], [9] * 1362
    yield 0, new, [9] * 1316
    yield 1, old, [9] * 1361
    yield 0, new, [9] * 1314


# Newick text

def text_bytes(text):
    return list(text.encode("latin-1"))


def vertices_of(rows):
    """What stands in the outermost brackets of these rows' text: for each vertex its image, or the
    list of the vertices in its bracket, and its cost."""
    fars, costs = sides_and_costs(rows)
    uppers = law.upper_rows_of(fars)

    def right_behind(row):
        return [[right_behind(r) if law.ones(fars[r - 1]) > 1 else fars[r - 1].bit_length(), costs[r - 1]]
                for r, upper in enumerate(uppers, 1) if upper == row]

    return [[1, costs[-1]]] + right_behind(len(fars))


def in_brackets(vertices):
    return "(" + ",".join("%s:%s" % (in_brackets(inside) if isinstance(inside, list) else inside, cost)
                          for inside, cost in vertices) + ")"


def newick(vertices):
    return text_bytes(in_brackets(vertices) + ";")


def all_brackets(vertices):
    """The lists of siblings, each once, the outermost first."""
    found = [vertices]
    for inside, _ in vertices:
        found += all_brackets(inside) if isinstance(inside, list) else []
    return found


def all_vertices(vertices):
    """Image 1 is the first."""
    return [vertex for siblings in all_brackets(vertices) for vertex in siblings]


def any_tree(dice, n, most=9, shape=None):
    return vertices_of(tree_rows(dice, n, shape or law.random_shape(dice), most, even=False))


def on_a_chain(n, cost=0):
    """Images 1 to n one behind another, a bracket for each but the last two."""
    inside = [[n - 1, cost], [n, cost]]
    for image in range(n - 2, 1, -1):
        inside = [[image, cost], [inside, 1]]
    return [[1, cost]] + inside


def rename(dice, n, vertices):
    """One image but the first has another's name, 1, or one that no image has."""
    vertex = dice.one_of([vertex for vertex in all_vertices(vertices)[1:] if not isinstance(vertex[0], list)])
    names = [1, n + 1, dice.between(65, 99)] + [image for image in range(2, n + 1) if image != vertex[0]][:2]
    vertex[0] = dice.one_of([name for name in names if name < 100])


def spoil_cost(dice, vertices):
    """One cost is above the limit, or 0 behind a bracket."""
    vertex = dice.one_of(all_vertices(vertices))
    vertex[1] = dice.one_of([16000001, 16000001, 16777216, 20000000, 99999999])
    if isinstance(vertex[0], list) and dice.chance(2, 3):
        vertex[1] = 0


def exchange(dice, vertices):
    """Two siblings that stand side by side are exchanged, image 1 apart."""
    siblings = dice.one_of([vertices, dice.one_of(all_brackets(vertices))])
    at = dice.between(1 if siblings is vertices else 0, len(siblings) - 2)
    siblings[at], siblings[at + 1] = siblings[at + 1], siblings[at]


def turn_about(vertices):
    """All siblings stand in descending order, image 1 apart."""
    for siblings in all_brackets(vertices):
        siblings.reverse()
    vertices.insert(0, vertices.pop())


def spoil_bytes(dice, text):
    """One byte is another one, missing, or put in; or the text ends early, or goes on."""
    at, put = dice.below(len(text)), text_bytes(dice.one_of("(),:; 01x"))
    return dice.one_of([text[:at] + put + text[at + 1:], text[:at] + text[at + 1:], text[:at] + put + text[at:],
                        text[:at], text + put])


def damaged_newick(dice, n, faults):
    """A text with these faults, and the n that room is made for."""
    vertices = any_tree(dice, n, dice.one_of([1, 9, 300]))
    for _ in range(dice.between(1, 2)):
        if "order" in faults:
            exchange(dice, vertices)
        if "cost" in faults:
            spoil_cost(dice, vertices)
        if "name" in faults:
            rename(dice, n, vertices)
    if "n" in faults:
        images = dice.one_of([65, 65, 66, 67, 80])
        vertices += [[dice.between(2, 9), 0] for _ in range(images - n)]
    text = newick(vertices)
    return (spoil_bytes(dice, text) if "profile" in faults else text), n


def with_few_places(text):
    """The case of this text, with just enough room where room matters and a place else."""
    few = law.read_newick(text, [], [])[0] in (1, 18)
    needed = 1 if few else 2 * (text.count(ord(",")) + 1) - 3
    return text, [8] * needed, [7] * needed


def changed_bytes(dice):
    """Each byte of some texts is changed to each of the profile's marks, to a blank, to 0 and to
    another digit; in the first to bytes too that no text has, in the last to some of all these."""
    ten = "(1:0,2:12,3:0,4:7,5:0,(6:0,10:0):3,7:0,8:9,9:0);"
    for text in (law.NEWICK["A"], law.NEWICK["E"], "(1:10,(2:0,(3:16000000,5:1):7):3,4:20);", ten):
        for at in range(len(text)):
            changes = "(),:; 0" + dice.one_of("123456789") + ("/x\xb1\x00" if len(text) < 15 else "")
            for change in changes if text != ten else dice.mixed(changes)[:2]:
                yield text_bytes(text[:at] + change + text[at + 1:])


def ended_texts():
    """Texts that end at every byte, and others with something behind."""
    for text in (law.NEWICK["E"], "(1:10,(10:0,16:16000000):20,9:0);"):
        for end in range(len(text)):
            yield text_bytes(text[:end])
    for name in ("A", "H"):
        for behind in ("\n", " ", "\r\n", ";", "(", ")", "0", "\x00", "\xff", law.NEWICK["A"]):
            yield text_bytes(law.NEWICK[name] + behind)
    yield text_bytes(" " + law.NEWICK["A"])


def numbers_in_texts():
    """Costs and images of every length, with zeros and signs in front; at the first vertex, at an
    image and behind a bracket."""
    for cost in ("0", "00", "01", "000", "1", "10", "9999999", "10000000", "15999999", "16000000", "16000001",
                 "16777216", "020", "99999999", "100000000", "160000000", "999999999", "4294967297", "+1", "-1",
                 "1.0", "1e3", ""):
        for text in ("(1:%s,2:0,(3:0,4:0):1);", "(1:0,2:%s,3:0);", "(1:0,2:0,(3:0,4:0):%s);", "(1:0,2:0,3:%s);"):
            yield text_bytes(text % cost)
    names = ["0", "00", "01", "02", "1", "10", "3", "4", "9", "20", "64", "100", "002", "+2", "x", ""]
    for name in names + list(range(65, 100)):
        yield text_bytes("(1:0,%s:0,3:0);" % name)
    for name in ("0", "01", "10", "2", "11", "x", ""):
        yield text_bytes("(%s:0,2:0,3:0);" % name)
        yield text_bytes("(1:0,2:0,(%s:0,4:0):1);" % name)


def shapes_of_texts():
    """Brackets with too few vertices, empty ones, without a cost, and around all; what else is Newick
    text elsewhere; and 1 in other places, or again."""
    for text in ("();", "(1);", "(1:0);", "(1:0,2:0);", "(1:0,(2:0,3:0):1);", "(1:0,(2:0):1,3:0);",
                 "(1:0,((2:0,3:0):1):1,4:0);", "(1:0,():1,3:0);", "(1:0,2:0,3:0):0;", "(1:0,2:0,3:0)0;",
                 "((1:0,2:0,3:0):0);", "((1:0,2:0):1,3:0,4:0);", "(1:0,2:0,(3:0,4:0));", "(1:0,2:0,(3:0,4:0)5:1);",
                 "(1:0,2,3:0);", "(1,2,3);", "(1:0,,2:0,3:0);", "(1:0,2:0,3:0,);", "(,1:0,2:0,3:0);", ";", "1:0;",
                 "1;", "(2:0,1:0,3:0);", "(2:0,3:0,4:0);", "(1:0,2:0,1:0);", "(1:0,1:0,1:0);",
                 "(1:0,(1:0,2:0):1,3:0);", "(1:0,2:0,(3:0,1:0):1);", "(1:0,2:0,(1:0,1:0):1,4:0);",
                 "[x](1:0,2:0,3:0);", "(1:0,2:0,3:0)", "(1:0,2:0,(3:0,4:0):1;", "(1:0,2:0,3:0));",
                 "(11:0,2:0,3:0);", "(1:0,'2':0,3:0);"):
        yield text_bytes(text)
    for names in ((2, 2), (3, 3), (4, 4), (3, 2), (1, 2), (2, 1), (99, 99), (64, 2), (33, 3)):
        yield text_bytes("(1:0,%d:0,%d:0);" % names)
        yield text_bytes("(1:0,2:0,(%d:0,%d:0):1,5:0);" % names)


def texts_out_of_order():
    """Siblings exchanged at every depth, at one place and at several: the first in the text counts,
    also where a bracket that begins before it ends behind it."""
    for text in ("(1:0,3:0,2:0);", "(1:0,2:0,4:0,3:0);", "(1:0,4:0,3:0,2:0);", "(1:0,3:0,2:0,4:0);",
                 "(1:0,2:0,(4:0,3:0):1);", "(1:0,(4:0,3:0):1,2:0);", "(1:0,(3:0,4:0):1,2:0);",
                 "(1:0,(2:0,4:0):1,3:0);", "(1:0,3:0,(2:0,4:0):1);", "(1:0,(2:0,(5:0,4:0):1):1,3:0);",
                 "(1:0,2:0,((5:0,4:0):1,3:0):1,6:0);", "(1:0,6:0,((5:0,4:0):1,3:0):1,2:0);",
                 "(1:0,2:0,(3:0,(4:0,(6:0,5:0):1):1):1);", "(1:0,2:0,(3:0,((6:0,5:0):1,4:0):1):1);",
                 "(1:0,2:0,(((5:0,6:0):1,4:0):1,3:0):1);", "(1:0,(((6:0,5:0):1,4:0):1,3:0):1,2:0);",
                 "(1:0,5:0,(4:0,3:0):1,(2:0,6:0):1);", "(1:0,(3:0,2:0):1,(5:0,4:0):1,6:0);",
                 "(1:0,(5:0,4:0):1,(3:0,2:0):1,6:0);", "(1:0,(2:0,3:0):1,(5:0,4:0):1,6:0);",
                 "(1:0,(2:0,9:0):1,(3:0,8:0):1,(4:0,7:0):1,(5:0,6:0):1);",
                 "(1:0,4:0,(3:0,2:0):1);", "(1:0,5:0,(4:0,3:0):1,2:0);", "(1:0,2:0,(6:0,((5:0,4:0):1,3:0):1):1);",
                 "(1:0,7:0,(2:0,(6:0,(5:0,(4:0,3:0):1):1):1):1);",
                 "(1:0,9:0,((8:0,7:0):1,(6:0,5:0):1):1,(4:0,3:0):1,2:0);",
                 "(1:0,(9:0,(8:0,7:0):1):1,(6:0,(5:0,4:0):1):1,(3:0,2:0):1);",
                 "(1:0,10:0,9:0,8:0,7:0,6:0,5:0,4:0,3:0,2:0);", "(1:0,2:0,3:0,4:0,5:0,6:0,7:0,8:0,10:0,9:0);"):
        yield text_bytes(text)
        # The same with a bad cost too, with a name too, and with a byte.
        yield text_bytes(text.replace("):1", "):0"))
        yield text_bytes(text.replace("2:0", "2:16000001"))
        yield text_bytes(text.replace("2:0", "3:16000001"))
        yield text_bytes(text.replace("2:0", "3:16000001").replace(";", "; "))


def deep_texts(dice):
    """62 brackets open at once, and 63; 64 images, and 65; with the largest costs, or the least."""
    for n in (63, 64):
        yield newick(on_a_chain(n))
    yield newick(on_a_chain(64, 16000000))
    for n in (65, 66):
        yield newick(on_a_chain(n))
    deep = in_brackets(on_a_chain(64))
    # Behind the 62nd bracket: another one, too early an end, an image more, and each mark.
    at = deep.index("63:0")
    for put in ("(", "(63:0,64:0):1", "63:0)", "65:0,", ""):
        yield text_bytes(deep[:at] + put)
    yield text_bytes(deep[:at] + "65:0," + deep[at:] + ";")
    yield text_bytes("(" * 70)
    # A bracket is closed, and another one opened at the same depth, which takes more than 64 images;
    # then one too many.
    deep = "(1:0," + "(2:0," * 60
    for put in ("(4:0,5:0):1,(6:0,7:0):1", "(4:0,5:0):1,((6:0,7:0):1,8:0):1"):
        yield text_bytes(deep + put + "):1" * 60 + ",3:0);")
    # One place that is wrong, where the brackets are deepest and elsewhere: siblings exchanged, a name, a
    # cost, a byte; then two.
    for first, then in (("63:0,64:0>64:0,63:0", ""), ("64:0>33:0", ""), ("64:0>65:0", ""), ("64:0>64:16000001", ""),
                        ("1:0,2>1:16000001,2", ""), ("64:0):1>64:0):0", ""), ("(33:0>(34:0", ""), (";>; ", ""),
                        ("63:0,64:0>64:0,63:0", "0):1)>0):0)"), ("64:0>2:0", "1:0,2>1:16000001,2"),
                        ("64:0>64:16000001", ";>")):
        text = in_brackets(on_a_chain(64)) + ";"
        for change in (first, then) if then else (first,):
            old, new = change.split(">")
            assert old in text
            text = text.replace(old, new)
        yield text_bytes(text)
    for n in (33, 64):
        vertices = any_tree(dice, n, 9, "uneven")
        yield newick(vertices)
        exchange(dice, vertices)
        yield newick(vertices)


def many_images():
    """More than 64 images: named twice, out of order, with bad costs, and with bytes behind. With
    320 of them a count of 8 bits is 64."""
    for images in (65, 66, 80, 100, 127, 128, 320):
        yield newick([[1, 0]] + [[2 + k % 8, 0] for k in range(images - 1)])
    yield newick([[1, 16000001]] + [[image, 0] for image in range(65, 1, -1)])
    yield newick([[1, 0], [[[2, 0]] * 63, 0], [3, 0]])
    yield newick([[1, 0]] + [[2, 0]] * 64) + [10]
    yield newick([[1, 0]] + [[2, 0]] * 64)[:-1]


def read_newick_cases(dice):
    def outputs(n, short):
        room1, room2 = two_rooms(dice, 2 * n - 3, short)
        return far_places(dice, room1), places(dice, room2)

    yield [], [], []
    for n, rows in links(dice, 30):
        yield (newick(vertices_of(rows)),) + outputs(n, False)
    kinds = ["profile", "n", "room", "name", "cost", "order"]
    for faults in fault_sets(dice, kinds, 8, 60):
        # More than 64 images make long lines, so few of them stand behind other bytes.
        faults = faults - {"n"} if "profile" in faults and dice.chance(2, 3) else faults
        text, n = damaged_newick(dice, damaged_n(dice), faults)
        if faults & {"profile", "n"}:
            yield text, [8] * dice.below(6), [7] * dice.below(6)
        else:
            yield (text,) + outputs(n, "room" in faults)
    for texts in (changed_bytes(dice), ended_texts(), numbers_in_texts(), shapes_of_texts(), texts_out_of_order(),
                  deep_texts(dice), many_images()):
        for text in texts:
            yield with_few_places(text)
    # Room in each output: just enough, one less, more; where all is well, where something is wrong
    # behind room, and where 18 or 1 comes before it.
    for n in EVERY_SIZE:
        vertices = any_tree(dice, n, 9, "star" if n > 9 else "uneven")
        needed = 2 * n - 3
        text = newick(vertices)
        for more, more2 in ((0, 0), (-1, 0), (0, -1), (1, 2), (-needed, -needed)):
            yield text, [8] * (needed + more), [7] * (needed + more2)
        vertices[-1][:] = 99, 16000001
        for wrong in (newick(vertices), text[:-1]):
            yield wrong, [8] * needed, [7] * (needed - 1)
            yield wrong, [], []
        if n in (3, 64):
            yield newick(vertices + [[2, 0]] * (65 - n)), [8] * needed, []
    for n in EVERY_SIZE:
        for spoil in (lambda vertices: rename(dice, n, vertices), lambda vertices: spoil_cost(dice, vertices),
                      lambda vertices: exchange(dice, vertices), turn_about):
            vertices = any_tree(dice, n, 9, "star" if n > 9 and spoil is not turn_about else "uneven")
            spoil(vertices)
            yield with_few_places(newick(vertices))


def needed_text(table):
    """The bytes that the writer of this table needs, or few where it is refused."""
    answer = law.write_newick(*table, [0] * LONGEST_BYTES)
    return answer[1] if answer[0] == 0 else 6


def write_newick_cases(dice):
    kinds = ["n", "count", "length", "row", "own", "room"]
    for n, table, faults in link_tables(dice, 40, kinds, 7, 60):
        yield table + (byte_places(dice, room(dice, needed_text(table), "room" in faults)),)
    for n in EVERY_SIZE + (9, 12):
        rows = tree_rows(dice, n, "star" if n > 12 else "uneven", 300, even=False)
        table = (n, len(rows)) + sides_and_costs(rows)
        for more in (-1, 0, 1):
            yield table + ([9] * (needed_text(table) + more),)
    # Costs of every number of digits, at the first row, at the last, and at an inner one.
    fars = [2, 4, 8, 12, 14]
    for cost in [10 ** digits - less for digits in range(8) for less in (1, 0)] + [15999999, 16000000, 16000001]:
        for row in (0, 3, 4):
            costs = [1] * 5
            costs[row] = cost
            yield 4, 5, fars, costs, byte_places(dice, needed_text((4, 5, fars, costs)))
    # Many images: bad rows, lost own links, and too little room, with each fault before it.
    for n in (5, 9, 33, 64):
        rows = tree_rows(dice, n, "caterpillar", 9, even=False)
        fars, costs = sides_and_costs(rows)
        for row in (0, len(rows) - 1):
            spoilt = list(costs)
            spoilt[row] = 16000001
            yield n, len(rows), fars, spoilt, [9] * 3
        inner = [row for row, far in enumerate(fars) if is_inner(n, far)]
        yield n, len(rows), fars, [0 if row == inner[-1] else cost for row, cost in enumerate(costs)], []
        lost = [row for row in rows if row[0] != own_link(n, n)]
        yield (n, len(lost)) + sides_and_costs(lost) + ([9] * 3,)
    # The longest text, with just enough room, and one byte less.
    fars = law.tree_far_sides(dice, 64, "caterpillar")
    for needed in (1432, 1431):
        yield 64, len(fars), fars, [16000000] * len(fars), [9] * needed
    rows = sorted(tree_rows(dice, 64, "uneven", 15999999, even=False))
    yield (64, len(rows)) + sides_and_costs(rows) + ([9] * 1432,)


# Images that leave

def leaving(dice, n, count):
    """So many images of n leave, in an order of chance."""
    return [dice.between(1, n - gone) for gone in range(count)]


def all_but_three(dice, n):
    """Image 1 each time, the last one each time, or images in an order of chance."""
    return dice.one_of([[1] * (n - 3), list(range(n, 3, -1)), leaving(dice, n, n - 3), leaving(dice, n, n - 3)])


def good_events(dice, n):
    return dice.one_of([[], leaving(dice, n, min(1, n - 3)), leaving(dice, n, dice.between(0, n - 3)),
                        all_but_three(dice, n)])


def unknown_image(dice, left):
    """A byte that is none of the images that are left."""
    return dice.one_of([0, 0, left + 1, left + 1, 64 + left, 128 + dice.between(1, left), 255])


def bad_events(dice, n):
    """An event is refused: it would leave two, or its image is unknown. Others may stand behind it."""
    if dice.chance(1, 3):
        events = all_but_three(dice, n) + [dice.between(1, 3)]
    else:
        events = leaving(dice, n, dice.between(0, n - 3))
        events.append(unknown_image(dice, n - len(events)))
    return events + dice.one_of([[], [], [1], [0, 255], leaving(dice, n, n - 3)])


# Images that are unknown, by how many are left.
UNKNOWN = (lambda left: 0, lambda left: left + 1, lambda left: 255)


def with_unknown(dice, n, unknown, place):
    """One of these, first, between others, or last, where three images are left."""
    before = {"first": 0, "between": (n - 3) // 2, "last": n - 3}[place]
    behind = [] if place == "last" else leaving(dice, n - before, max(n - 3 - before, 1))
    return leaving(dice, n, before) + [unknown(n - before)] + behind


def mixed_halves(dice, n):
    """The balanced tree of in_halves, with the images in an order of chance."""
    t, at = in_halves(n), dice.mixed(range(n))
    return table_from(n, [t[at[i - 1] * n + at[j - 1]] for i, j in pairs(n)])


def four_and_five_images(dice):
    """Each tree of four images, and trees of five: each image leaves."""
    own = [2, 4, 8, 14]
    for inner in ([], [6], [10], [12]):
        rows = sorted((far, 2 * dice.between(1, 4)) for far in own + inner)
        for image in range(1, 5):
            yield 4, tree_table(4, rows), [image]
    for shape in ("star", "caterpillar", "caterpillar", "caterpillar", "uneven"):
        t = bare_tree(dice, 5, dice.one_of([1, 3, 20]), shape)
        for image in range(1, 6):
            yield 5, t, [image] + dice.one_of([[], leaving(dice, 4, 1)])


def leaving_trees(dice):
    """Trees of every shape, with own links of 0, ties, halves, images on a line and one away from others, and
    with entries of 8,000,000."""
    for n in (4, 5, 6, 7, 8, 9):
        for shape in ("star", "caterpillar", "uneven"):
            yield n, tree(dice, n, dice.one_of([1, 3, 20, 300]), shape)
            yield n, bare_tree(dice, n, dice.one_of([1, 3, 30]), shape)
        yield n, mixed_halves(dice, n)
        yield n, on_a_line(dice.mixed(range(0, 3 * n, 3)))
        yield n, one_away(dice, n, dice.between(3, n - 1))
    for n in (4, 5, 9):
        yield n, table_from(n, [8000000] * (n * n))
        for image in (1, n):
            yield n, table_from(n, [8000000 if image in pair else 1 for pair in pairs(n)])
        yield n, on_a_line([0] + dice.mixed([8000000 // i for i in range(1, n)]))


def many_leaving(dice, n):
    """Events over many images, each over a tree of another shape; entries of one digit or two. Where n - 1
    leaves first, image n stays to the end."""
    yield bare_star(dice, n), []
    if n < 64:
        yield bare_tree(dice, n, 2, "caterpillar"), [1]
        yield bare_tree(dice, n, 1, "uneven"), [n]
    yield mixed_halves(dice, n), [n - 1] + leaving(dice, n - 2, n - 4)
    yield bare_tree(dice, n, 1, "caterpillar"), [1] * (n - 3)
    yield one_away(dice, n, 8), list(range(n, 3, -1)) + [4]
    yield tree(dice, n, 1, "uneven"), leaving(dice, n, n - 3) + [2]
    yield star(n, [1] * n), with_unknown(dice, n, UNKNOWN[0], "first")
    yield mixed_halves(dice, n), with_unknown(dice, n, UNKNOWN[2], "between")
    yield bare_tree(dice, n, 1, "uneven"), with_unknown(dice, n, UNKNOWN[1], "last")
    yield bare_star(dice, n), leaving(dice, n, n - 3) + [3] + [dice.below(256) for _ in range(300)]


def bad_start(n, number):
    """A table that gets this refusal, in its last row if it is one of an entry. Where it comes before 20, all
    else is 0."""
    t = [0] * (n * n) if number not in (7, 20) else all_ones(n)
    for row, column, entry in {4: [(n, n - 1, 8000001)], 5: [(n, n, 1)], 6: [(n - 1, n, 1)],
                               20: [(n - 1, n, 0), (n, n - 1, 0)], 7: [(n - 1, n, 3), (n, n - 1, 3)]}.get(number, []):
        t[(row - 1) * n + column - 1] = entry
    return t[:n] if number == 2 else t


def replay_cases(dice):
    def outputs(n, short=False):
        room1, room2 = two_rooms(dice, 2 * n - 3, short)
        return far_places(dice, room1), places(dice, room2)

    def plain(n, more=0, more2=0):
        return [8] * (2 * n - 3 + more), [7] * (2 * n - 3 + more2)

    for name in sorted(law.EXAMPLES):
        n, t = law.example(name)
        yield (n, t, [], *outputs(n))
        if name in law.NOT_EXACT:
            for events in ([1], [0], [n + 1, 1]):
                yield (n, t, events, *plain(n))
        else:
            for image in list(range(n + 2)) + [255]:
                yield (n, t, [image], *plain(n))
            for events in (all_but_three(dice, n), [1] * (n - 2), [n] + [n - 1] * 2, [0, 1]):
                yield (n, t, events, *plain(n))
    for n, t, events in four_and_five_images(dice):
        yield (n, t, events, *plain(n, dice.below(2), dice.below(2)))
    for t in all_small_tables():
        if dice.chance(1, 2):
            yield (3, t, dice.one_of([[], bad_events(dice, 3)]), *plain(3))
    for n, t in zero_tables(dice):
        yield (n, t, dice.one_of([good_events, bad_events])(dice, n), *plain(n))
    for n in [small_n(dice) for _ in range(8)]:
        yield (n, good_table(dice, n), good_events(dice, n), *plain(n))
    for n in BAD_N + [1, 2]:
        yield (n, [0] * dice.one_of([0, min(n, 3) ** 2]), good_events(dice, 5), *plain(3))
    for n, t in leaving_trees(dice):
        events = dice.one_of([good_events, all_but_three, bad_events])(dice, n)
        yield n, t, events, places(dice, room(dice, 2 * n - 3, False)), places(dice, room(dice, 2 * n - 3, False))
    # Two images 8,000,000 from the others: when one of them has left, and when all others but one have,
    # the link between them is joined with an own link, and the cost is the largest, 15,999,999.
    for n in (4, 5, 9):
        for events in ([n], [n - 1], [1] * (n - 3)):
            yield (n, two_groups(n, 2 ** (n - 1) + 2 ** (n - 2), 1, 8000000), events, *plain(n))
    # Unknown images at each place; with three images 8 comes before 1.
    for n, found in ((3, ("first", "last")), (4, ("first", "last")), (9, ("first", "between", "last"))):
        for unknown in UNKNOWN:
            for place in found:
                yield (n, bare_tree(dice, n, 9), with_unknown(dice, n, unknown, place), *plain(n))
    # Faults of the start with each other, and with events that are refused where the start is not.
    kinds = ["n", "length", "room", "entry", "diagonal", "asymmetric", "zero", "wiring", "event"]
    for faults in fault_sets(dice, kinds, 4, 42):
        n = damaged_n(dice)
        t = crooked(dice, n) if "wiring" in faults else tree(dice, n)
        events = (bad_events if "event" in faults else good_events)(dice, n)
        bad_n, bad_t = damage_table(dice, n, t, faults)
        yield (bad_n, bad_t, events, *outputs(n, "room" in faults))
    # Room is that of the start: enough for the rows of the smaller tables is too little.
    for n in (4, 5, 9):
        t, events = tree(dice, n, 5), leaving(dice, n, n - 3)
        for more, more2 in ((0, -1), (-1, 0), (-2, -2), (6 - 2 * n, 6 - 2 * n), (0, 0), (3, 9)):
            yield (n, t, events, *plain(n, more, more2))
    for more, more2 in ((130, 0), (0, 130)):
        yield (4, tree(dice, 4, 5), [2], *plain(4, more, more2))
    for n in (9, 33, 64):
        for t, events in many_leaving(dice, n):
            yield (n, t, events, *plain(n, dice.below(5), dice.below(5)))
    for n in EVERY_REPLAY:
        for number in (2, 3, 4, 5, 6, 20, 7):
            few = 6 - 2 * n if number == 3 and n > 3 else -1
            rest = plain(n, few, few) if number in (2, 3) else plain(n)
            yield (n, bad_start(n, number), dice.one_of([[1] * (n - 3), [0], [255] * MANY_EVENTS]), *rest)
    # With three images no image can leave, whatever the events are.
    for events in ([], [1] * MANY_EVENTS, [3, 0], [0] * MANY_EVENTS, [4] + [1] * 90, [255, 1], [129], [67]):
        yield (3, tree(dice, 3, 9), events, *plain(3))


# The term report. A case has the stored tables one after another, each with how often it stands there,
# and three lent slices, each as its length and the number that it is full of.

def lent(*more):
    """Slices with so many places more than a report asks for."""
    return [(law.MOST_SIDES + places_more, fill) for places_more, fill in zip(more or (0, 0, 0), (8, 7, 9))]


def any_lent(dice):
    """Enough places or more, full of small numbers and of the largest."""
    return [(law.MOST_SIDES + dice.one_of([0, 0, 0, 1, 76]), dice.one_of([0, 1, 8, 2 ** 32 - 1, most]))
            for most in (2 ** 64 - 1, 2 ** 32 - 1, 2 ** 64 - 1)]


def once(n, t, form=OLD):
    return 1, costs_in(n, t, form)


def any_tables(dice, n, count):
    """Tables of n images in either form: trees, among them the same one again, and some without a wiring."""
    found = []
    for _ in range(count):
        t = dice.one_of([tree(dice, n)] * 3 + [dice.one_of(found) if found else tree(dice, n), crooked(dice, n)])
        found.append(t)
    return [once(n, t, any_form(dice)) for t in found]


def examples_reported(dice):
    """The settled examples: all streams of up to three of E, F and G, of which F gets 7; each example alone
    and again; no bytes, and bytes that end in a header, alone and behind a table."""
    names = ["EFGE", "FE", "EF", "FFF", "FEFGF"]
    names += [x + y + z for x in " EFG" for y in " EFG" if x + y != "E " for z in "EFG"]
    for tables_named in names:
        yield [once(*law.example(name), any_form(dice)) for name in tables_named.replace(" ", "")]
    for form in (OLD, NEW):
        yield [once(*law.example(name), form) for name in "EFGE"]
        yield [once(*law.example(name), form) for name in "EFGE"] + [(1, [6])]
    for n, t in example_tables():
        yield [once(n, t)]
        yield [(dice.between(2, 9), stored_costs(n, t, any_form(dice)))]
    yield []
    a = once(*law.example("A"))
    for byte in (0, 4, 6, 128, 130, 252, 254, 255):
        yield [(1, [byte])]
        yield [a, (1, [byte])]
    for stored in short_headers():
        yield [(1, stored)]
        yield [dice.one_of([a, once(*law.example("D"), NEW)]), (1, stored)]


def trees_reported(dice):
    """Two trees and the first of them again, by how far they disagree; streams of chance."""
    for n in (3, 4, 5, 9):
        for one, two in disagreeing(dice, n):
            forms = [any_form(dice) for _ in range(3)]
            yield [once(n, costs_of(n, even_rows(rows)), form) for rows, form in zip((one, two, one), forms)]
    for _ in range(30):
        n = small_n(dice)
        stream = any_tables(dice, n, dice.between(1, 6))
        yield [(dice.one_of([1, 1, 1, 2, 7, 40]), stored) for _, stored in stream]
    # Entries at the limit of each form, and the largest doubled cost that a table without zeros has.
    for form in (OLD, NEW):
        t = table_from(4, [1, form.most_entry, form.most_entry, form.most_entry, form.most_entry, 1])
        yield [once(4, t, form), once(*law.example("E")), once(4, t, form)]


REPORT_FAULTS = ["n", "body", "fill", "entry", "zero", "images"]


def bad_table(dice, n, faults, form):
    """Stored bytes of a table with these faults; of another n where that is one of them."""
    if "images" in faults:
        n = dice.one_of([images for images in (3, 4, 5, 6) if images != n])
    t = crooked(dice, n) if "wiring" in faults else tree(dice, n)
    return 1, damaged_stored_costs(dice, n, t, faults, form)


def refused_reports(dice):
    """Each fault in the first, a middle and the last table, in both forms; faults together, in one table, in
    which the first found ends the report, and in two, where the first table does. What ends early ends all."""
    for fault in REPORT_FAULTS:
        for form in (OLD, NEW):
            for before, behind in ((0, 2), (0, 0), (1, 1), (2, 0), (3, 2)):
                n = dice.one_of([3, 5, 6, 9] if fault != "images" else [3, 4, 9])
                front = any_tables(dice, n, max(before, int(fault == "images")))
                rest = any_tables(dice, n, behind) if fault != "body" else []
                faults = {fault, "wiring"} if dice.chance(1, 3) else {fault}
                yield front + [bad_table(dice, n, faults, form)] + rest
    for faults in fault_sets(dice, REPORT_FAULTS + ["wiring"], 0, 36):
        n, form = damaged_n(dice), any_form(dice)
        front = any_tables(dice, n, dice.between(0, 3))
        rest = any_tables(dice, n, dice.below(2)) if "body" not in faults else []
        yield front + [bad_table(dice, n, faults, form)] + rest
    for fault in REPORT_FAULTS:
        for fault2 in REPORT_FAULTS:
            if fault != "body":
                front = any_tables(dice, 5, 1)
                yield front + [bad_table(dice, 5, {some}, any_form(dice)) for some in (fault, fault2)]


def zeros_reported(dice):
    """Images that cost nothing: in the first table, a middle one and the last, in each form; with many images."""
    for n, t in zero_tables(dice):
        place = dice.below(3)
        stream = any_tables(dice, n, 2)
        yield stream[:place] + [(1, stored_costs(n, t, any_form(dice)))] + stream[place:]
    for n in LARGE_ZEROS:
        for form, other in ((OLD, NEW), (NEW, OLD)):
            for word in ZERO_WORDS:
                for _, t in large_zeros(dice, (n, word)):
                    yield [once(n, star(n, [1] * n), other), once(n, t, form)]


def last_entry_bad(n, form):
    """An entry above the form's limit in the last place, all others 2."""
    return with_entry(n, star(n, [1] * n), n - 1, n, form.most_entry + 1)


def large_reports(dice):
    """Many images: stars, two groups, and the same with each fault; then trees of every kind."""
    for n in (9, 33, 64):
        halves = [two_groups(n, 2 ** n - 2 ** (n // 2), 2, 6), two_groups(n, 2 ** n - 2 ** (n // 2 + 1), 2, 3)]
        plain = star(n, [1] * n)
        for form in (OLD, NEW):
            other = NEW if form == OLD else OLD
            good, whole = once(n, plain, form), stored_costs(n, plain, form)
            yield [once(n, halves[0], form), good, once(n, halves[1], other)]
            yield [good, (1, whole[:-1])]
            yield [good, (1, whole[:2])]
            yield [good, (1, whole[:-1] + [whole[-1] + 1]), good]
            yield [good, (1, stored_costs(n, last_entry_bad(n, form), form)), good]
            yield [once(n, halves[0], other), once(n - 1, star(n - 1, [1] * (n - 1)), form), good]
            yield [once(n, bent_star(n), other), once(n - 1, bent_star(n - 1), form)]
            yield [good, (1, law.bytes_of_bits(form.mark + law.field(7, 65)) + whole[2:])]
            yield [once(n, halves[1], form), once(n, bent_star(n), other), once(n, halves[1], other)]
            yield [(1, whole[:-1])]
    rows = tree_rows(dice, 33, "uneven", 3)
    less = fewer_inner(dice, 33, even_rows(rows))
    other = tree(dice, 33, 2, "caterpillar")
    yield [once(33, t) for t in (tree_table(33, rows), costs_of(33, less), other)]
    yield [once(64, tree(dice, 64, 1, "uneven")), once(64, tree(dice, 64, 1, "caterpillar"))]


def bent_star(n):
    """A star whose last two images are too far apart."""
    return law.bent(n, star(n, [1] * n))


def slices_reported(dice):
    """Slices of too few places: each of the three, two, and all, over tables that are well and that are not;
    slices of more places than are asked for."""
    e, f = [once(*law.example(name)) for name in "EF"]
    for short in range(1, 8):
        for stream in ([e, f, e], [(1, [255])], [], [e, once(*law.example("A"))]):
            few = dice.one_of([1023, 1023, 1000, 512, 1, 0])
            lengths = [few if short >> place & 1 else dice.one_of([1024, 1100]) for place in range(3)]
            if short in (1, 2, 4) or stream[:1] != [e]:
                yield stream, [(length, dice.one_of([0, 8, 2 ** 32 - 1])) for length in lengths]
    yield [e, f], [(1023, 2 ** 64 - 1), (1023, 2 ** 32 - 1), (1023, 2 ** 64 - 1)]
    for more in ((1, 0, 0), (0, 1, 0), (0, 0, 1), (76, 76, 76)):
        yield [e, f, e], lent(*more)
        yield [(5, stored_costs(*law.example("H"), NEW)), (1, [6])], lent(*more)


def long_reports(dice):
    """500 tables, which is the end, whatever stands behind; 501; what table 500 itself has; pairs over many
    tables with 7; the largest sum of costs and the largest number of trees."""
    e, f, g = [stored_costs(*law.example(name), any_form(dice)) for name in "EFG"]
    a, d = stored_costs(*law.example("A")), stored_costs(*law.example("D"), NEW)
    for behind in ([], [(1, [0])], [(1, [255])], [(1, a)], [(1, e)], [(1, a[:-1])], [(30, [171])]):
        yield [(500, a)] + behind
    too_much = stored_costs(3, last_entry_bad(3, OLD))
    nothing, also_n = stored_costs(*law.example("B")), stored_costs(4, [0] * 16, NEW)
    for last in (d, e, a[:-1], [7], a[:-1] + [33], [4] * 9, too_much, nothing, also_n):
        yield [(499, a), (1, last)]
    yield [(501, d)]
    yield [(498, a), (3, d)]
    yield [(500, f)]
    yield [(499, f), (2, e)]
    yield [(1, e), (498, f), (1, g), (1, e)]
    yield [(125, e + f + g + e), (1, e)]
    yield [(250, e + g)]
    yield [(249, e + f), (1, e), (1, g), (7, f)]
    most = table_from(4, [1, 8000000, 8000000, 8000000, 8000000, 1])
    yield [(500, stored_costs(4, most, NEW))]
    one, two = [costs_of(6, even_rows(rows)) for rows in list(disagreeing(dice, 6))[3]]
    yield [(250, stored_costs(6, one) + stored_costs(6, two))]
    yield [(499, stored_costs(6, one)), (2, stored_costs(6, two))]


def many_sides(dice):
    """1,020 far sides, and behind them tables that bring others, up to 1,024 and to 1,025 or more; behind 1,024
    of them tables that bring none, and those with another refusal beside 19."""
    n = 13
    trees = law.trees_with_sides(dice, n, law.MOST_SIDES - 4)
    front = [once(n, tree_table(n, rows)) for rows in trees]
    seen, fresh = {far for rows in trees for far, _ in rows}, []
    while len(fresh) < 6:
        fresh = [far for far in law.tree_far_sides(dice, n, "caterpillar") if far not in seen]

    def bringing(sides):
        own = [own_link(n, image) for image in range(1, n + 1)]
        return tree_table(n, sorted((far, 2) for far in own + sides))

    four, five, other, six = [bringing(sides) for sides in (fresh[:4], fresh[:5], fresh[4:5], fresh)]
    plain = once(n, star(n, [1] * n))
    full = front + [once(n, four)]
    yield full + [once(n, law.bent(n, other), NEW), plain, front[0], once(n, four, NEW), once(n, law.bent(n, six))]
    yield full + [once(n, other, NEW)]
    yield full + [once(n, law.bent(n, other)), once(n, other)]
    yield full + [front[7], once(n, six), plain]
    yield full + [once(n, other), once(n, other, NEW), (1, [255])]
    yield full + [(1, stored_costs(n, other)[:-1] + [1]), plain]
    yield full + [once(14, star(14, [1] * 14))]
    yield full + [once(n, with_zeros(n, other, [(3, 4)])), once(n, other)]
    yield front + [once(n, five)]
    yield front + [once(n, five, NEW), once(n, four), (1, [9])]
    yield front + [once(n, other), once(n, four)]
    yield front + [once(n, other, NEW), plain, once(n, four, NEW), (20, [0])]


def report_cases(dice):
    for streams in (examples_reported, trees_reported, refused_reports, zeros_reported, large_reports):
        for stream in streams(dice):
            yield (stream, *any_lent(dice))
    for stream, slices in slices_reported(dice):
        yield (stream, *slices)
    for streams in (long_reports, many_sides):
        for stream in streams(dice):
            yield (stream, *lent())


# Levels

def leveled(dice, n, shape=None, most=None):
    """A table with levels, of this shape or of any."""
    shape = shape or dice.one_of(law.LEVEL_SHAPES)
    return law.level_table(n, law.level_rows(dice, n, shape, most or dice.one_of([1, 3, 20, 300])))


def up_to_the_limit(n, t):
    """The table with levels in which every entry is as much higher, so that the highest is 8,000,000."""
    more = law.MOST_ENTRY - max(t)
    return table_from(n, [t[(i - 1) * n + j - 1] + more for i, j in pairs(n)])


# Entries of three images of which the largest is there once, none of them above 5.
FAILING = [(1, 2, 3), (3, 2, 1), (2, 3, 1), (1, 3, 2), (1, 1, 2), (1, 2, 1), (2, 1, 1), (4, 4, 5), (5, 1, 1)]


def one_pair_off(n, i, j, entry):
    """All images equally far but these two: where they are farther, every three with both fail."""
    return with_entry(n, table_from(n, [5] * (n * n)), i, j, entry)


def leveled_tables(dice):
    """Tables with levels: of each shape, in orders of chance and from the first image or the last on, with small
    entries and with entries up to the limit, few images and many."""
    for n in (3, 4, 5, 6, 9):
        for shape in law.LEVEL_SHAPES:
            t = leveled(dice, n, shape)
            yield n, t if dice.chance(2, 3) else up_to_the_limit(n, t)
    for n in (3, 4, 9, 33, 64):
        images = list(range(1, n + 1))
        for order in (images, images[::-1]) if n < 64 else (images,):
            yield n, law.level_table(n, law.level_rows(dice, n, "caterpillar", 1, order))
    for n in (4, 9):
        yield n, up_to_the_limit(n, law.level_table(n, law.level_rows(dice, n, "caterpillar", 1)))
        yield n, table_from(n, [1 if (i - 1) // 2 == (j - 1) // 2 else 8000000 for i, j in pairs(n)])
        yield n, in_halves(n)
    for shape, most in (("balanced", 9), ("three", 4), ("uneven", 99), ("uneven", 2)):
        yield 33, leveled(dice, 33, shape, most)
    yield 33, up_to_the_limit(33, leveled(dice, 33, "balanced", 3))
    yield 64, leveled(dice, 64, "uneven", 1)
    yield 64, two_groups(64, sum(2 ** i for i in range(64) if i % 3 == 2), 1, 8000000)
    yield 64, all_ones(64)
    yield 64, in_halves(64)


def tables_without_levels(dice):
    """Tables without levels: with a wiring; with levels but for one entry that is 1 off; with three images in each
    place that alone fail, where with those beyond image 1 all threes with image 1 pass; with two images that are
    too far; and with the last three."""
    for n in (3, 4, 4, 5, 5, 6, 9, 9, 33):
        yield n, tree(dice, n, 20, dice.one_of(["star", "caterpillar", "uneven"]))
    for n in (4, 5, 6, 9, 9, 33):
        yield n, law.moved_entries(dice, n, leveled(dice, n, dice.one_of(["balanced", "caterpillar", "uneven"])), 1)
    for n in (4, 5):
        for i, j in pairs(n):
            for k in range(j + 1, n + 1):
                yield n, law.with_failing_three(n, i, j, k, dice.one_of(FAILING))
    for i, j, k in ((1, 2, 3), (1, 2, 9), (1, 8, 9), (2, 3, 4), (2, 8, 9), (4, 5, 6), (4, 6, 9), (7, 8, 9)):
        yield 9, law.with_failing_three(9, i, j, k, dice.one_of(FAILING))
    for n, threes in ((33, ((1, 2, 33), (2, 3, 4), (31, 32, 33))), (64, ((1, 2, 3), (2, 3, 4), (62, 63, 64)))):
        for i, j, k in threes:
            yield n, law.with_failing_three(n, i, j, k, dice.one_of(FAILING))
    for n in (3, 4, 5, 9):
        for i, j in dice.mixed(pairs(n))[:3]:
            yield n, one_pair_off(n, i, j, dice.one_of([6, 8000000]))
    yield 64, tree(dice, 64, 1, "caterpillar")
    t = law.level_table(64, law.level_rows(dice, 64, "caterpillar", 1, list(range(1, 65))))
    yield 64, with_entry(64, t, 63, 64, 3)


# Orders in which a search could go through three images, other than the dictionary's: which of them it takes first, next
# and last.
OTHER_ORDERS = ((0, 2, 1), (1, 0, 2), (1, 2, 0), (2, 0, 1), (2, 1, 0))


def other_orders_met(n, t):
    """The orders by which others are the first three that fail. For few images only."""
    d = law.square(n, t)
    failing = [three for three in itertools.combinations(range(1, n + 1), 3) if not law.three_point_holds(d, *three)]
    return {order for order in OTHER_ORDERS
            if failing and min(failing) != min(failing, key=lambda three: [three[place] for place in order])}


def found_by_order(dice):
    """Tables in which the first three that fail are others in another order, each order in turn; and two sets of three
    images that alone fail, of which the one with image 1 has the higher others."""
    for n in (6, EVERY_ORDER):
        for order in OTHER_ORDERS:
            t = all_ones(n)
            while order not in other_orders_met(n, t):
                t = leveled(dice, n, dice.one_of(["balanced", "two", "uneven"]))
                t = law.moved_entries(dice, n, t, dice.between(1, 3))
            yield n, t
    for n, low, high in ((6, (2, 3, 4), (1, 5, 6)), (33, (2, 3, 4), (1, 32, 33)), (64, (30, 31, 32), (1, 33, 64))):
        one, other = [law.with_failing_three(n, *three) for three in (low, high)]
        yield n, [min(entries) for entries in zip(one, other)]


def leveled_or_not(dice, n, faults):
    """A table with levels; where it is to have none, one that is so in another way each time."""
    if "levels" not in faults:
        return leveled(dice, n)
    three = sorted(dice.mixed(range(1, n + 1))[:3])
    return dice.one_of([law.with_failing_three(n, *three, dice.one_of(FAILING)), one_pair_off(n, *three[:2], 6)])


LEVEL_FAULTS = ["n", "length", "room", "entry", "diagonal", "asymmetric", "zero", "levels"]


def levels_cases(dice):
    def outputs(n, short=False):
        room1, room2 = two_rooms(dice, n - 1, short)
        return far_places(dice, room1), places(dice, room2)

    for source in (example_tables(), ((3, t) for t in all_small_tables()), zero_tables(dice), leveled_tables(dice),
                   tables_without_levels(dice), found_by_order(dice),
                   large_zeros(dice, (33, "lower row"), (64, "between"))):
        for n, t in source:
            yield (n, t, *outputs(n))
    for n in BAD_N:
        yield (n, [], *outputs(3))
    for n in (1, 2):
        yield (n, [0] * (n * n), *outputs(3))
    # Each fault alone, with a zero, with others, and with the one that is looked for next.
    neighbours = [{kind, later} for kind, later in zip(LEVEL_FAULTS, LEVEL_FAULTS[1:])]
    for faults in list(fault_sets(dice, LEVEL_FAULTS, 3, 21)) + neighbours * 2:
        n = damaged_n(dice)
        bad_n, bad_t = damage_table(dice, n, leveled_or_not(dice, n, faults), faults)
        yield (bad_n, bad_t, *outputs(n, "room" in faults))
    # Room for the one group that there is, but not the n-1 places that are asked; just enough; more.
    for n in (3, 4, 9, 33):
        t = table_from(n, [7] * (n * n))
        for room1, room2 in ((n - 2, n - 1), (n - 1, n - 2), (n - 2, n - 2), (1, 1), (n - 1, n - 1), (2 * n, n + 3)):
            yield n, t, far_places(dice, room1), places(dice, room2)
    for room1, room2 in ((62, 63), (63, 62), (66, 63)):
        yield 64, table_from(64, [7] * 64 * 64), far_places(dice, room1), places(dice, room2)
    # Each fault of many images, in one of the last places that it can have.
    for n in (9, 33, 64):
        t = all_ones(n)
        yield n, t[:-1], far_places(dice, 2), places(dice, 2)
        for i, j, entry in ((n, n - 1, 8000001), (n, n, 1), (n - 1, n, 2)):
            bad = list(t)
            bad[(i - 1) * n + j - 1] = entry
            yield n, bad, far_places(dice, n - 1), places(dice, n - 1)


def levels_met(n, t, answer):
    """What is met by a table whose entries are well: its groups, or the three that fail."""
    met = set()
    if answer[0] == 21:
        three = answer[1:4]
        words = {(n - 2, n - 1, n): "last three", (1, 2, 3): "first three"}
        met |= {"without levels"} | ({words[three]} if three in words else set())
        met |= {"image 1 is well"} if three[0] > 1 else set()
        met |= other_orders_met(n, t) if n == EVERY_ORDER else set()
        met |= {"wired"} if law.first_failing_four(n, tuple(t)) is None else set()
    if answer[0] == 0:
        found = law.level_groups(n, tuple(t))
        law.hold_groups(n, t, found)
        met |= {"one group"} if len(found) == 1 else {"all groups"} if len(found) == n - 1 else set()
        met |= {"with image 1" if holds(members, 1) else "without image 1" for members, _ in found[:-1]}
        met |= {"limit"} if max(t) == law.MOST_ENTRY else set()
    return met


def check_levels(levels):
    """Each n has what the levels are to meet; of three images the first three are the last."""
    for n in EVERY_LEVEL:
        met = {(n, number) for number in (0, 2, 3, 4, 5, 6, 20, 21)}
        words = {"without levels", "wired", "one group", "all groups", "with image 1", "without image 1", "limit"}
        words |= {"first three", "last three", "image 1 is well"} if n > 3 else {"first three"}
        words |= set(OTHER_ORDERS) if n == EVERY_ORDER else set()
        met |= {(n, word) for word in words}
        assert met <= levels, met - levels


def levels_listing_cases(dice):
    def followed(stored):
        return stored + [dice.below(256) for _ in range(dice.one_of([0, 0, 0, 1, 3]))]

    yield [],
    for form in (OLD, NEW):
        for n, t in example_tables():
            yield followed(stored_costs(n, t, form)),
    for n, t in zero_tables(dice):
        yield stored_costs(n, t, any_form(dice)),
    for n, t in large_zeros(dice, (33, "first"), (64, "last")):
        yield stored_costs(n, t, NEW if n == 33 else OLD),
    for n in (3, 4, 5, 9, 9):
        yield followed(stored_costs(n, leveled(dice, n), any_form(dice))),
        yield stored_costs(n, up_to_the_limit(n, leveled(dice, n)), NEW),
    for shape, form in (("balanced", OLD), ("caterpillar", NEW)):
        yield stored_costs(33, leveled(dice, 33, shape, 9), form),
    yield stored_costs(64, leveled(dice, 64, "uneven", 200), OLD),
    yield law.longest_levels_listing(),
    yield stored_costs(64, law.with_failing_three(64, 62, 63, 64), OLD),
    yield stored_costs(33, law.with_failing_three(33, 2, 3, 33), NEW),
    for stored in ([254], [255], [6], [254, 12], [255, 255], [255, 252], [254, 0], [6, 0]):
        yield stored,
    kinds = ["header", "n", "body", "fill", "entry", "zero", "levels"]
    neighbours = [{kind, later} for kind, later in zip(kinds, kinds[1:])]
    for form in (OLD, NEW):
        for faults in [{kind} for kind in kinds + ["fill"] for _ in range(4)] + neighbours:
            n = damaged_n(dice)
            stored = damaged_stored_costs(dice, n, leveled_or_not(dice, n, faults), faults, form)
            yield (stored if faults & {"header", "body"} else followed(stored)),


CASES = {
    "index": index_cases,
    "order": order_cases,
    "measured": lambda dice: reading_cases(dice, False),
    "exact": lambda dice: reading_cases(dice, True),
    "path": path_cases,
    "upper_rows": upper_rows_cases,
    "route": route_cases,
    "compare": compare_cases,
    "write_costs": write_costs_cases,
    "read_costs": read_costs_cases,
    "write_links": write_links_cases,
    "read_links": read_links_cases,
    "write_batch": batch_cases,
    "choice": choice_cases,
    "first_two": first_two_cases,
    "first_links": first_links_cases,
    "two_costs": two_costs_cases,
    "two_fields": two_fields_cases,
    "refusal_text": refusal_text_cases,
    "consensus": consensus_cases,
    "listing": listing_cases,
    "exact_grafted": grafted_cases,
    "convert_costs": convert_costs_cases,
    "convert_links": convert_links_cases,
    "write_newick": write_newick_cases,
    "read_newick": read_newick_cases,
    "replay": replay_cases,
    "report": report_cases,
    "levels": levels_cases,
    "levels_listing": levels_listing_cases,
}


# Lines and files

def line_of(arguments):
    numbers = []
    for argument in arguments:
        if isinstance(argument, list):
            numbers.append(len(argument))
            numbers.extend(argument)
        else:
            numbers.append(argument)
    return " ".join(map(str, numbers))


@functools.lru_cache(maxsize=None)
def pieces_of(stored):
    """The bytes as pieces, each with how often it stands there: one byte, five or 23 that follow each other
    often are one piece. Five bytes have two entries of the old form, 23 have eight of the new one."""
    pieces, plain, at = [], [], 0
    while at < len(stored):
        repeat, length = max(((repeats(stored, at, length), length) for length in (1, 5, 23)),
                             key=lambda found: (found[0] - 1) * found[1])
        if (repeat - 1) * length < 12:
            plain.append(stored[at])
            at += 1
        else:
            pieces += ([(1, plain)] if plain else []) + [(repeat, list(stored[at:at + length]))]
            plain = []
            at += repeat * length
    return pieces + ([(1, plain)] if plain else [])


def repeats(stored, at, length):
    """How often the bytes of this length from a place on follow each other there."""
    count = 1
    while stored[at + count * length:at + (count + 1) * length] == stored[at:at + length]:
        count += 1
    return count


def written_out(pieces):
    return [byte for repeat, part in pieces for _ in range(repeat) for byte in part]


def report_pieces(stream):
    return [piece for repeat, stored in stream
            for piece in (pieces_of(tuple(stored)) if repeat == 1 else [(repeat, stored)])]


def report_line(arguments, before):
    """The line of a report: how many bytes of the case before are kept in front, the pieces behind these, and
    the slices. `before` has the pieces of the case before."""
    pieces, same = report_pieces(arguments[0]), 0
    while pieces[same:same + 1] == before[same:same + 1] != []:
        same += 1
    if len(written_out(pieces[:same])) < FEWEST_KEPT:
        same = 0
    numbers = [len(written_out(pieces[:same])), len(pieces) - same]
    numbers += [number for piece in pieces[same:] for number in piece]
    return line_of(numbers + [number for places_lent in arguments[1:] for number in places_lent])


def longest_slice(name, kind):
    if kind in ("8", "8*"):
        return LONGEST_READ if name in READER else LONGEST_BYTES
    return LONGEST_TEAM if name == "consensus" and kind == "32" else LONGEST_SLICE


def check_arguments(name, arguments):
    """Every number fits its type, and no slice is too long."""
    if name == "report":
        return check_report_arguments(*arguments)
    kinds = CALLS[name][1].split()
    assert len(kinds) == len(arguments), name
    for kind, argument in zip(kinds, arguments):
        if kind == "n":
            assert 0 <= argument < 2 ** 64, (name, argument)
        else:
            bits = int(kind.rstrip("*"))
            assert len(argument) <= longest_slice(name, kind), (name, len(argument))
            most = 2 ** bits
            assert all(0 <= element < most for element in argument), (name, argument)


def check_report_arguments(stream, *slices):
    """The same of a report."""
    stored = written_out(stream)
    assert max([len(part) for _, part in report_pieces(stream)], default=0) <= LONGEST_BYTES
    assert len(stored) <= LONGEST_REPORT and all(0 <= byte < 256 for byte in stored), len(stored)
    for (length, fill), bits in zip(slices, (64, 32, 64)):
        assert length <= LONGEST_LENT and 0 <= fill < 2 ** bits, (length, fill)


def report_answer(stream, *slices):
    """The line of a report: the answer, and of each slice the places in front and how many hold behind them
    what they held, which are all. The second way to the report gives the same."""
    stored = written_out(stream)
    given = [[fill] * length for length, fill in slices]
    answer = law.report(stored, *given)
    sides = answer[-5]
    if answer[0] != 3:
        steps, entries = law.report_by_steps(stored)
        assert steps == answer and entries == list(zip(*[places_left[:sides] for places_left in given])), stream
    shown = []
    for (length, fill), places_left in zip(slices, given):
        assert places_left[sides:] == [fill] * (length - sides), stream
        shown += [places_left[:sides], length - sides]
    return line_of(list(answer) + shown), answer


def answer_line(name, arguments):
    """The line that a call's answer makes, and the answer."""
    if name == "report":
        return report_answer(*arguments)
    function, kinds, _ = CALLS[name]
    if name in TEXTS:
        texts = [program(*arguments) for program in TEXTS[name]]
        return line_of([0] + [list(text.encode()) for text in texts]), listing_answer(texts)
    outputs = [at for at, kind in enumerate(kinds.split()) if kind.endswith("*")]
    given = [list(a) if isinstance(a, list) else a for a in arguments]
    answer = function(*given)
    for at, (before, after) in enumerate(zip(arguments, given)):
        written = answer[0] == 0 or name in TWICE or is_stopped_replay(name, answer)
        assert before == after or (written and at in outputs), (name, arguments)
    if name in OTHER_ENGINE:
        again = [list(a) if isinstance(a, list) else a for a in arguments]
        assert OTHER_ENGINE[name](*again) == answer and again == given, (name, arguments)
    if name == "replay" and answer[-3] > 0:
        hold_to_mending(arguments, answer, given)
    left = [given[at] for at in outputs]
    if name == "choice":
        left.append(law.choose(*given))
    return line_of(list(answer) + left), answer


def is_stopped_replay(name, answer):
    """Did an event end a replay? Its refusal alone is one with which something is written."""
    return name == "replay" and answer[-1] > 0


def hold_to_mending(arguments, answer, given):
    """The rows of a replay are those that mending gives, event by event, from the rows of the start; the
    places behind them are as they were."""
    n, t, events, fars, costs = arguments
    images, count, _ = answer[-3:]
    rows = law.exact_rows(n, tuple(t))
    for image in events[:n - images]:
        n, rows = n - 1, law.mended(n, rows, image)
    assert n == images and sides_and_costs(rows) == (given[3][:count], given[4][:count]), arguments
    assert given[3][count:] == fars[count:] and given[4][count:] == costs[count:], arguments


def replay_met(n, t, events, answer):
    """What is met by a replay of a table that is accepted: its shape, the events that are taken, and the
    one that is refused, with its place."""
    images, count, event = answer[-3:]
    rows = law.exact_rows(n, tuple(t))
    inner = sum(is_inner(n, far) for far, _ in rows)
    met = {"star" if inner == 0 else "all switches of three links" if inner == n - 3 else "other shape"}
    if any(cost == 0 for _, cost in rows):
        met.add("own links of 0")
    if not events:
        met.add("no events")
    if images < n:
        words = {1: "1 leaves", n - 1: "n - 1 leaves", n: "n leaves"}
        met |= {words[events[0]]} if events[0] in words else set()
        met |= {"three are left"} if images == 3 else set()
        met |= {"rows joined"} if len(rows) - count > n - images else set()
    if len(events) >= MANY_EVENTS:
        met.add("many events")
    if event > 0:
        place = "first" if event == 1 else "last" if event == len(events) else "between"
        met |= {(answer[0], place), (answer[0], "others behind" if event < len(events) else "none behind")}
    if answer[0] == 8:
        unknown = {0: "0", images + 1: "n + 1", 255: "255"}.get(events[event - 1], "another")
        met |= {(8, unknown), (8, unknown, place)}
    return met


def check_replays(replays):
    """Each n has what the replays are to meet; with three images no image leaves."""
    for n in EVERY_REPLAY:
        met = {(n, 0, False), (n, 1, True), (n, 8, True)} | {(n, number, False) for number in (2, 3, 4, 5, 6, 7, 20)}
        words = {"star", "own links of 0", "no events", "many events",
                 (8, "0"), (8, "n + 1"), (8, "255"), (8, "first"), (8, "others behind"), (8, "none behind"),
                 (1, "others behind"), (1, "none behind")}
        if n > 3:
            words |= {"all switches of three links", "other shape", "1 leaves", "n - 1 leaves", "n leaves",
                      "three are left", "rows joined", (8, "between"), (8, "last"), (1, "last")}
        if n == 9:
            places_met = ("first", "between", "last")
            words |= {(8, unknown, place) for unknown in ("0", "n + 1", "255") for place in places_met}
        met |= {(n, word) for word in words}
        assert met <= set(replays), (n, met - set(replays))
    for number, at_event in ((1, False), (1, True), (8, True)):
        count = sum(replays[met] for met in replays if met[1:] == (number, at_event))
        assert count >= FEWEST_OF_EACH_REFUSAL, (number, at_event, count)


def report_met(stream, slices, answer):
    """What is met by a report: its refusal, its n, and what the tables read are."""
    stored, figures = written_out(stream), law.Figures(*answer[-9:])
    if answer[0] == 3:
        return {(3, tuple(length < law.MOST_SIDES for length, _ in slices))}
    met = {(answer[0], figures.images)} | tables_met(stored)
    if answer[0] != 0:
        met |= refused_table_met(stored[figures.used:], *answer[:2])
    if any(length > law.MOST_SIDES for length, _ in slices):
        met.add("more places")
    if figures.tables == law.MOST_READ:
        met.add("500 tables" if figures.used == len(stored) else "bytes behind 500 tables")
    if figures.sides == law.MOST_SIDES:
        met.add((answer[0], "1,024 far sides"))
    return met


def refused_table_met(stored, number, table):
    """The form of a refused table, at the front of these bytes, its place, and whether one with 15 would get 7.
    A table with a bad n is its header, and one that ends early is the last."""
    form = NEW if stored[0] >= 254 else OLD
    end = len(stored) if number == 9 else costs_length(form, 0 if number == 1 else images_of(stored))
    met = {(number, "form", form == NEW),
           (number, "first" if table == 1 else "last" if len(stored) == end else "middle")}
    if number == 15:
        n, t, _ = law.cost_table_in(stored, None)
        met.add((15, "with 7" if law.first_failing_four(n, tuple(t)) else "wired"))
    return met


def tables_met(stored):
    """What the tables are that a report reads, and what neighbours have in common."""
    read, _ = law.tables_read(stored)
    wired = [table.tree is not None for table in read]
    ends = [sum(table.used for table in read[:place]) for place in range(len(read))]
    met = {"both forms"} if len({stored[end] >= 254 for end in ends}) == 2 else set()
    if read and any(wired):
        first, last = wired.index(True), len(wired) - 1 - wired[::-1].index(True)
        met |= {"7 first"} if first > 0 else set()
        met |= {"7 last"} if last < len(wired) - 1 else set()
        met |= {"7 between"} if not all(wired[first:last]) else set()
    elif read:
        met.add("7 alone")
    trees = law.trees_of(read)
    for tree_before, tree_after in zip(trees, trees[1:]):
        one, two = set(tree_before), set(tree_after)
        met.add("no far sides" if not one | two else "the same" if one == two
                else "one without" if not (one and two) else "none in common" if not one & two else "some in common")
    return met


def check_reports(reports):
    """Each refusal is met in the first, a middle and the last table, where it can be, and in both forms; with each
    n; each slice too short; and what the tables are to be."""
    met = {(number, n) for n in EVERY_REPORT for number in (0, 1, 4, 9, 11, 15, 20)}
    met |= {(number, place) for number in (1, 4, 11, 15, 19, 20) for place in ("first", "middle", "last")}
    met |= {(9, "first"), (9, "last"), (15, "with 7"), (15, "wired")}
    met |= {(number, "1,024 far sides") for number in (0, 11, 15, 19, 20)}
    met |= {(3, (short & 1 > 0, short & 2 > 0, short & 4 > 0)) for short in range(1, 8)}
    met |= {"7 first", "7 last", "7 between", "7 alone", "both forms", "no far sides", "the same", "one without",
            "none in common", "some in common", "more places", "500 tables", "bytes behind 500 tables"}
    met -= {(15, "first"), (19, "first")}
    assert met <= set(reports), met - set(reports)
    for number in (1, 4, 9, 11, 15, 20):
        for new in (False, True):
            assert reports.get((number, "form", new), 0) >= FEWEST_IN_EACH_FORM, (number, new)


def stored_zeros(stored):
    """n and the pairs of images that cost nothing, of the stored table at the front of these bytes."""
    form, (n,) = law.header_of(stored, 1)
    bits, width = law.bits_of_bytes(stored[:costs_length(form, n)])[len(form.mark) + 7:], form.entry_bits
    return n, [pair for place, pair in enumerate(pairs(n)) if "1" not in bits[place * width:(place + 1) * width]]


def refused_zeros(name, arguments, answer):
    """The same of the table that gets 20 from a call."""
    if name == "report":
        return stored_zeros(written_out(arguments[0])[answer[-1]:])
    if name in ("read_costs", "first_two"):
        return stored_zeros(arguments[0][arguments[1] // 8:])
    if name == "two_costs":
        form, (n,) = law.header_of(arguments[0], 1)
        return stored_zeros(arguments[0][costs_length(form, n) if answer[1] == 2 else 0:])
    if name in ("listing", "levels_listing", "convert_costs"):
        return stored_zeros(arguments[name == "convert_costs"])
    n = arguments[name == "write_costs"]
    if name == "consensus":
        return n, law.zeros_in(n, arguments[2][(answer[1] - 1) * n * n:answer[1] * n * n])
    return n, law.zeros_in(n, arguments[answer[1] if name == "compare" else 2 if name == "write_costs" else 1])


def zero_word(n, zeros):
    """Where zeros stand, the lowest pair first: of three images these pairs, of more a word."""
    if n == 3:
        return tuple(zeros)
    if len(zeros) > 1:
        return "lower row" if any(column < zeros[0][1] for _, column in zeros) else "several"
    return {(1, 2): "first", (n - 1, n): "last"}.get(zeros[0], "between")


def check_zeros(zeros):
    """Each call that gives 20 meets each choice of pairs of three images, each word of nine, and some of more,
    of which all calls together meet each."""
    calls = [name for name in CALLS if 20 in CALLS[name][2]]
    for name in calls:
        met = {(name, EVERY_ZERO, word) for word in ZERO_WORDS}
        met |= {(name, 3, tuple(pair for bit, pair in enumerate(pairs(3)) if chosen >> bit & 1)) for chosen in range(1, 8)}
        assert met <= zeros, met - zeros
        for n in LARGE_ZEROS:
            assert any((name, n, word) in zeros for word in ZERO_WORDS), (name, n)
    for n in LARGE_ZEROS:
        for word in ZERO_WORDS:
            assert any((name, n, word) in zeros for name in calls), (n, word)


def listing_answer(texts):
    """The numbers of the refusal that all these texts are, or 0."""
    first = texts[0].split()
    if first[0] != "refused":
        return 0,
    assert texts == texts[:1] * len(texts), texts
    return tuple(map(int, first[1:]))


def form_met(name, arguments, answer):
    """The form of the table that the answer is about, 0 or 1; None where none is told."""
    if name in TOLD_A_FORM:
        return int(arguments[0] != 0)
    if name not in FIND_A_FORM:
        return None
    stored, at = arguments[0], 0
    if name.startswith("convert"):
        stored = arguments[1]
    elif name == "choice":
        stored = arguments[1 if answer[1] == 2 else 0]
    elif name == "two_costs" and answer[0] != 0 and answer[1] == 2:
        return None
    elif name not in ("two_costs", "listing", "levels_listing"):
        at = arguments[1] // 8
    return int(stored[at] >= 254) if at < len(stored) else None


def make():
    """All files by name, and what was made of each call."""
    files, report, answers, signs, tests, sizes, zeros, replays, reports = {}, [], [], set(), set(), set(), set(), {}, {}
    levels = set()
    for seed, name in enumerate(CALLS, 1):
        inputs, seen, refusals, behind, by_table, by_form = [], set(), {}, {}, set(), {}
        answers.append(name)
        before = []
        for arguments in CASES[name](Dice(1000 * seed)):
            arguments = list(arguments)
            check_arguments(name, arguments)
            line = line_of(arguments) if name != "report" else report_line(arguments, [])
            if line in seen:
                continue
            seen.add(line)
            if name == "report":
                line, before = report_line(arguments, before), report_pieces(arguments[0])
            inputs.append(line)
            text, answer = answer_line(name, arguments)
            answers.append(text)
            assert max(len(line), len(text)) <= LONGEST_LINE, (name, len(line), len(text))
            refusals[answer[0]] = refusals.get(answer[0], 0) + 1
            met = answer[0], form_met(name, arguments, answer)
            by_form[met] = by_form.get(met, 0) + 1
            if name in TWICE and answer[0] == 0:
                second = answer[TWICE[name] + 1]
                behind[second] = behind.get(second, 0) + 1
            if name == "index" and answer[0] == 0:
                signs.add((arguments[0], (answer[1] > 0) - (answer[1] < 0)))
            if name == "exact_grafted" and answer[0] == 7:
                tests.add((arguments[0], failing_test(*arguments[:2])))
            if name == "write_newick":
                sizes.add((name, answer[0], arguments[0]))
            if name == "read_newick":
                sizes.add((name, answer[0], arguments[0].count(ord(",")) + 1))
            if name == "replay":
                words = replay_met(*arguments[:3], answer) if answer[-3] > 0 else set()
                for met in [(arguments[0], answer[0], answer[-1] > 0)] + [(arguments[0], word) for word in words]:
                    replays[met] = replays.get(met, 0) + 1
            if name == "report":
                for met in report_met(arguments[0], arguments[1:], answer):
                    reports[met] = reports.get(met, 0) + 1
            if name == "levels":
                met = {answer[0]} | levels_met(*arguments[:2], answer)
                levels |= {(arguments[0], word) for word in met}
            if answer[0] == 20:
                found = refused_zeros(name, arguments, answer)
                zeros.add((name, found[0], zero_word(*found)))
            if name in OVER_SEVERAL_TABLES and answer[0] != 0:
                by_table.add(answer[:2])
        for number in CALLS[name][2]:
            assert refusals.get(number, 0) >= FEWEST_OF_EACH_REFUSAL, (name, number, refusals)
            if name in TWICE:
                assert behind.get(number, 0) >= FEWEST_OF_EACH_REFUSAL, (name, number, behind)
        if name in TOLD_A_FORM + FIND_A_FORM:
            for number in set((0,) + CALLS[name][2]) - set(OF_ONE_FORM):
                for form in (0, 1):
                    assert by_form.get((number, form), 0) >= FEWEST_IN_EACH_FORM, (name, number, form, by_form)
        assert set(refusals) == {0} | set(CALLS[name][2]), (name, refusals)
        for number, table in by_table:
            assert table == 0 or {(number, 1), (number, 2)} <= by_table, (name, number, table)
        files["crates/cases/data/%s.txt" % name] = "".join(line + "\n" for line in inputs).encode()
        report.append((name, len(inputs), refusals))
    assert signs >= {(n, sign) for n in EVERY_SIGN for sign in (-1, 0, 1)}, signs
    assert tests >= {(n, test) for n in EVERY_TEST for test in ((2, -1), (n - 1, -1), (n - 1, n - 2))}, tests
    for n in EVERY_SIZE:
        met = [("write_newick", number, n) for number in ((0, 3, 12, 13) if n > 3 else (0, 3, 12))]
        met += [("read_newick", number, n) for number in (0, 3, 12, 13, 22)]
        assert sizes >= set(met), (n, set(met) - sizes)
    check_zeros(zeros)
    check_replays(replays)
    check_reports(reports)
    check_levels(levels)
    assert max(map(len, files.values())) <= LARGEST_FILE, {f: len(t) for f, t in files.items()}
    files["crates/cases/stdout"] = "".join(line + "\n" for line in answers).encode()
    assert len(files["crates/cases/stdout"]) <= LARGEST_ANSWERS, len(files["crates/cases/stdout"])
    for name, stored in listing_inputs():
        files["tests/listing/%s.stdin" % name] = bytes(stored)
        for program, text_of in PROGRAMS.items():
            files["tests/%s/%s.stdout" % (program, name)] = text_of(stored).encode()
    for program, text_of in PROGRAMS.items():
        stored = stored_costs(*law.example(RUN_ON[program]))
        files["crates/%s/stdin" % program] = bytes(stored)
        files["crates/%s/stdout" % program] = text_of(stored).encode()
    for name, stored in term_inputs():
        files["tests/term/%s.stdin" % name] = bytes(stored)
        files["tests/term/%s.stdout" % name] = law.term_text(stored).encode()
    for kind in ("stdin", "stdout"):
        files["crates/term/" + kind] = files["tests/term/four_tables." + kind]
    assert sum(count for _, count, _ in report) >= FEWEST_CASES
    assert sum(map(len, files.values())) <= LARGEST_TOTAL, sum(map(len, files.values()))
    return files, report


def listing_inputs():
    dice = Dice(64)
    for name in ("A", "C", "H"):
        yield name, stored_costs(*law.example(name))
    yield "tree64", stored_costs(64, tree(dice, 64, 3000, "uneven"))
    n, t = law.example("H")
    t[1 * n + 4] = t[4 * n + 1] = 1000001
    yield "damaged", stored_costs(n, t)
    yield "followed", law.STORED_A_COSTS + [255, 6, 0]
    yield "empty", []
    yield "short", law.STORED_A_COSTS[:-1]
    yield "fill", law.STORED_A_COSTS[:-1] + [0x21]
    yield "two_images", [4, 0, 0, 32]
    # Stars: all images tie, of 4 and of 64; all cost nothing, which is refused; the farthest are 3, 5 and
    # 6 of 9, with image 7 at the switch; image n alone is, with image 1 there. Then trees with inner links and ties.
    yield "star", stored_costs(*law.example("G"))
    yield "star64", stored_costs(64, star(64, [1] * 64))
    yield "zeros", stored_costs(*law.example("B"))
    yield "tie", stored_costs(9, star(9, [4, 1, 6, 2, 6, 6, 0, 5, 1]))
    yield "far_end_n", stored_costs(9, star(9, [0, 3, 3, 3, 3, 3, 3, 3, 4]))
    yield "tie_in_tree", stored_costs(*law.example("E"))
    yield "tie64", stored_costs(64, tree(dice, 64, 2, "uneven"))
    # The new form: example H, trees with entries that the old form has no place for, one of them the
    # longest input that a table can have, an entry above the limit, and a header that ends early.
    yield "new_form", stored_costs(*law.example("H"), NEW)
    yield "nanoseconds", stored_costs(9, tree(dice, 9, 1500000, "uneven"), NEW) + [255]
    yield "nanoseconds64", stored_costs(64, tree(dice, 64, 900000, "uneven"), NEW)
    yield "new_damaged", stored_costs(4, table_from(4, [1, 8000000, 1000001, 8000001, 0, 0]), NEW)
    yield "new_short", [255]
    # Levels: nine images of which image 1 is in groups, and others are; the longest listing of levels; many images
    # of which the last three alone have no levels.
    yield "levels", stored_costs(9, law.level_table(9, LEVELS_OF_NINE))
    yield "levels64", law.longest_levels_listing()
    yield "no_levels64", stored_costs(64, law.with_failing_three(64, 62, 63, 64))


# Groups of nine images: 1 and 2, these and 5, 3 and 9, three that are equally far, these with 3 and 9, and all.
LEVELS_OF_NINE = [(3, 2), (19, 6), (260, 4), (104, 5), (364, 7), (511, 12)]


def term_inputs():
    """For the program that prints the term report: bytes by name."""
    dice = Dice(500)
    e, f, g = [stored_costs(*law.example(name)) for name in "EFG"]
    yield "empty", []
    yield "four_tables", e + f + g + e
    yield "none_accepted", f + f
    # Both forms, and inner far sides that come, go and come again.
    yield "mixed_forms", [byte for _, stored in any_tables(dice, 9, 12) for byte in stored]
    yield "sixty_four", written_out([once(64, tree(dice, 64, 900000, "uneven"), NEW)])
    # What ends it: bytes that are no table, a table that ends early, another n, an entry above the limit with
    # a table behind it, a fill bit, a header with a bad n, and two pairs of images that cost nothing.
    yield "no_table", [255]
    yield "short_table", e + g + e[:-1]
    yield "other_images", e + f + stored_costs(*law.example("A")) + e
    yield "damaged", e + stored_costs(4, last_entry_bad(4, OLD)) + e
    yield "fill", g + e[:-1] + [e[-1] + 1]
    yield "two_images", f + [4, 0, 0, 32]
    yield "zeros", e + f + g + stored_costs(4, with_zeros(4, all_ones(4), [(1, 4), (2, 3)]), NEW) + e
    # 500 tables are read, and the bytes behind them are not looked at.
    yield "five_hundred", stored_costs(*law.example("A")) * 500 + [255]
    # 1,024 far sides, and a table that brings one more.
    yield "many_sides", written_out(list(many_sides(dice))[1])


def check(files):
    """Lines that say which files are not what is made here."""
    wrong = []
    for name, text in files.items():
        path = os.path.join(ROOT, name)
        if not os.path.exists(path):
            wrong.append("missing: " + name)
        else:
            with open(path, "rb") as file:
                if file.read() != text:
                    wrong.append("differs: " + name)
    for folder in ["crates/cases/data"] + ["tests/" + program for program in PROGRAMS] + ["tests/term"]:
        path = os.path.join(ROOT, folder)
        for name in sorted(os.listdir(path)) if os.path.isdir(path) else []:
            if folder + "/" + name not in files:
                wrong.append("not made here: %s/%s" % (folder, name))
    return wrong


def main(arguments):
    if arguments not in ([], ["--check"]):
        sys.exit("usage: generate.py [--check]")
    files, report = make()
    if arguments:
        wrong = check(files)
        for line in wrong:
            print(line)
        print("%d files checked, %d wrong" % (len(files), len(wrong)))
        return 1 if wrong else 0
    for name, text in files.items():
        path = os.path.join(ROOT, name)
        os.makedirs(os.path.dirname(path), exist_ok=True)
        with open(path, "wb") as file:
            file.write(text)
    for name, count, refusals in report:
        numbers = " ".join("%d:%d" % pair for pair in sorted(refusals.items()))
        print("%-13s %4d cases, by first number %s" % (name, count, numbers))
    print("%d cases, %d bytes" % (sum(count for _, count, _ in report),
                                  sum(map(len, files.values()))))
    return 0


if __name__ == "__main__":
    sys.exit(main(sys.argv[1:]))
