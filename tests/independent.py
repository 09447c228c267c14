#!/usr/bin/env python3
"""Every public call of document 01, and of document 02 the links that a team shares,
the far end of the listing, the second engine of the exact reading, the larger costs
with the new stored forms, trees as Newick text, images that leave, the term report,
that two images may not cost nothing, and the levels, written from their definitions.

Nothing here is taken from the crates: the words, the orders of checks and the
numbers are the documents', and where they leave a point open, the decision noted
for the project. The code is as plain as it can be at 64 images.

A call answers a tuple of numbers. The first is 0 where the call accepts, and
the refusal number where it refuses. A refusal is (number, a, b, c, d), the four
places with unused ones 0; comparison, consensus, batch, choice, the reading of
two tables and the report put the table's number behind the refusal number: (number,
table, a, b, c, d). Where a reader stands after a call is the last number, behind a
refusal too. A replay has three numbers more, behind a refusal too: the images and the
rows that are left, and the event that was refused. A report has its nine figures last,
behind a refusal too.

Slices are lists of numbers. A lent output is a list that an accepted call
writes into. A refused call alters no list, but for a replay that an event ends, and a
report that a table ends.

    python3 tests/independent.py --self-test

runs the settled examples of document 01, checks of demands 2 and 3 on tables drawn
from a fixed seed, and what document 02 says of the links that a team shares, of the
far end, of the second engine, which answers as the first on every table tried, of the
two stored forms and the conversions between them, of Newick text, of images that
leave, of the term report, of tables in which two images cost nothing, of the
ring of the order, than which none is shorter, and of the levels.
"""

import functools
import itertools
import operator
import re
import sys
from collections import namedtuple
from fractions import Fraction

if not __debug__:
    sys.exit("independent.py: run it without -O, which leaves out the assertions")

MOST_ENTRY = 8000000
MOST_COST = 16000000
MOST_TABLES = 16

# A report: the tables that it reads, and the far sides that it keeps, for which it asks room.
MOST_READ = 500
MOST_SIDES = 1024

# Newick text: brackets open at once, and the digits of a cost.
MOST_OPEN = 62
MOST_DIGITS = 8

# A stored form: the bits in front of n, the bits and the limit of an entry, and those of a
# doubled cost. The limits of the new form are those of every table.
Form = namedtuple("Form", "mark entry_bits most_entry cost_bits most_cost")
OLD = Form("", 20, 1000000, 21, 2000000)
NEW = Form("1111111", 23, MOST_ENTRY, 24, MOST_COST)


# Refusals

class Refusal(Exception):
    """A refusal on its way out of a call."""

    def __init__(self, number, places=(), table=None):
        super().__init__(number)
        self.number = number
        self.places = tuple(places)
        self.table = table

    def answer(self):
        table = () if self.table is None else (self.table,)
        unused = (0,) * (4 - len(self.places))
        return (self.number,) + table + self.places + unused


def refuse(number, *places):
    raise Refusal(number, places)


def numbered(table, step, *arguments):
    """What the step answers; its refusal carries the table's number."""
    try:
        return step(*arguments)
    except Refusal as refusal:
        raise Refusal(refusal.number, refusal.places, table) from None


def call(body):
    """A public call: what the body answers, or the refusal it ran into."""
    @functools.wraps(body)
    def answered(*arguments):
        try:
            return body(*arguments)
        except Refusal as refusal:
            return refusal.answer()
    return answered


# Checks of arguments. Each looks at one kind of fault, lowest place first.

def check_n(n):
    if n < 3 or n > 64:
        refuse(1, n)


def check_length(n, t):
    if len(t) != n * n:
        refuse(2)


def check_room(out, places):
    if len(out) < places:
        refuse(3)


def check_entries(n, t):
    """4, then 5, then 6, then 20."""
    images = range(1, n + 1)
    for row in images:
        for column in images:
            if t[(row - 1) * n + column - 1] > MOST_ENTRY:
                refuse(4, row, column)
    for image in images:
        if t[(image - 1) * n + image - 1] != 0:
            refuse(5, image)
    for row in images:
        for column in range(row + 1, n + 1):
            if t[(row - 1) * n + column - 1] != t[(column - 1) * n + row - 1]:
                refuse(6, row, column)
    check_no_zeros(n, t)


def check_no_zeros(n, t):
    """20 at the lowest pair of two images, the lowest row first, that cost nothing."""
    for i, j in pairs(n):
        if t[(i - 1) * n + j - 1] == 0:
            refuse(20, i, j)


def check_wiring(n, t):
    four = first_failing_four(n, tuple(t))
    if four is not None:
        refuse(7, *four)


def check_levels(n, t):
    three = first_failing_three(n, tuple(t))
    if three is not None:
        refuse(21, *three)


def check_table_count(number):
    if number < 1 or number > MOST_TABLES:
        refuse(16)


def check_joined_length(n, number, tables):
    if len(tables) != number * n * n:
        refuse(2)


def check_image(n, image):
    if image < 1 or image > n:
        refuse(8)


def check_count(n, count):
    if count < n or count > 2 * n - 3:
        refuse(10, count)


def check_both_lengths(count, fars, costs):
    if len(fars) != count or len(costs) != count:
        refuse(2)


def check_rows(n, fars, costs, most_cost=MOST_COST):
    """12 at the lowest bad row, then 13 at the lowest image without its own link."""
    for row in range(len(fars)):
        if is_bad_row(n, fars, costs, row, most_cost):
            refuse(12, row + 1)
    for image in range(1, n + 1):
        if own_link(n, image) not in fars:
            refuse(13, image)


def is_bad_row(n, fars, costs, row, most_cost):
    """Is this row (counted from 0) bad, the rows before it being good?"""
    far, cost = fars[row], costs[row]
    if far == 0 or far % 2 == 1 or far >= 2 ** n:
        return True
    if row > 0 and far <= fars[row - 1]:
        return True
    if any(crosses(far, earlier) for earlier in fars[:row]):
        return True
    return cost > most_cost or (is_inner(n, far) and cost == 0)


def check_entries_fit(n, t, form):
    """17 at the lowest pair whose entry this form has no place for; the new form has one
    for every entry."""
    for i, j in pairs(n):
        if t[(i - 1) * n + j - 1] > form.most_entry:
            refuse(17, i, j)


def check_costs_fit(costs, form):
    """17 at the lowest row whose cost this form has no place for."""
    for row, cost in enumerate(costs, 1):
        if cost > form.most_cost:
            refuse(17, row)


# Divisions

def ones(far):
    return bin(far).count("1")


def is_inner(n, far):
    return 2 <= ones(far) <= n - 2


def own_link(n, image):
    """The far side of the division that cuts off this image alone."""
    return 2 ** n - 2 if image == 1 else 2 ** (image - 1)


def holds(far, image):
    return far // 2 ** (image - 1) % 2 == 1


def crosses(one, other):
    """Neither nested nor disjoint."""
    common = one & other
    return common != 0 and common != one and common != other


def groups(n, far):
    """The group with image 1, and the group without it."""
    images = range(1, n + 1)
    return ([i for i in images if not holds(far, i)],
            [i for i in images if holds(far, i)])


def square(n, t):
    """The table as d[i][j] over images 1 to n; row and column 0 are not used."""
    return [[0] * (n + 1)] + [[0] + list(t[i * n:i * n + n]) for i in range(n)]


# The index of one division

def index_by_definition(n, d, far):
    """Document 01's least value, word for word. It may be negative."""
    near_group, far_group = groups(n, far)
    return min(
        min(d[a][b] + d[a2][b2], d[a][b2] + d[a2][b]) - d[a][a2] - d[b][b2]
        for a in near_group for a2 in near_group
        for b in far_group for b2 in far_group)


def index_of(n, d, far):
    """The same value. Exchanging b and b' turns one sum of the definition into
    the other, so one of them is enough; and once a and b' stand, b and a' can be
    chosen apart: d(a,b) - d(b,b') and d(a',b') - d(a,a')."""
    near_group, far_group = groups(n, far)
    from_near = {i: [d[i][a] for a in near_group] for i in range(1, n + 1)}
    from_far = {i: [d[i][b] for b in far_group] for i in range(1, n + 1)}
    return min(
        min(map(operator.sub, from_far[a], from_far[b]))
        + min(map(operator.sub, from_near[b], from_near[a]))
        for a in near_group for b in far_group)


# The measured reading

def rows_by_definition(n, t):
    """The measured reading over all divisions. For few images only."""
    d = square(n, t)
    rows = []
    for far in range(2, 2 ** n, 2):
        index = index_by_definition(n, d, far)
        if not is_inner(n, far):
            rows.append((far, max(index, 0)))
        elif index > 0:
            rows.append((far, index))
    return rows


def divisions_above_zero(n, d):
    """Far sides of all divisions with index above 0, grown image by image.

    Cut down to the images below m, such a division keeps an index above 0, or
    loses its far group. So over images 1 to m the far side is m alone, or one
    kept over the images before, with m on either side.
    """
    kept = []
    for m in range(2, n + 1):
        alone = 2 ** (m - 1)
        candidates = kept + [alone] + [far + alone for far in kept]
        kept = [far for far in candidates if above_zero_at(m, d, far)]
    return kept


def above_zero_at(m, d, far):
    """Is every value of the index over images 1 to m in which m takes part above
    0? With a = m these are d(m,b) + d(a',b') - d(m,a') - d(b,b')."""
    with_m, other = groups(m, far)
    if holds(far, m):
        with_m, other = other, with_m
    m_to_other = [d[m][b] for b in other]
    m_to_with = [d[m][a] for a in with_m]
    for b2 in other:
        b2_to_other = [d[b2][b] for b in other]
        b2_to_with = [d[b2][a] for a in with_m]
        if (min(map(operator.sub, m_to_other, b2_to_other))
                + min(map(operator.sub, b2_to_with, m_to_with))) <= 0:
            return False
    return True


@functools.lru_cache(maxsize=None)
def measured_rows(n, t):
    """Rows (far side, doubled cost) of the measured reading, ascending."""
    d = square(n, t)
    rows = {far: index_of(n, d, far)
            for far in divisions_above_zero(n, d) if is_inner(n, far)}
    for image in range(1, n + 1):
        far = own_link(n, image)
        rows[far] = max(index_of(n, d, far), 0)
    return sorted(rows.items())


# The four-point condition

def four_point_holds(d, i, j, k, l):
    """Does the largest of the three sums occur at least twice?"""
    sums = sorted([d[i][j] + d[k][l], d[i][k] + d[j][l], d[i][l] + d[j][k]])
    return sums[1] == sums[2]


@functools.lru_cache(maxsize=None)
def first_failing_four(n, t):
    """The first i <= j <= k <= l that fails, in dictionary order, or None."""
    d = square(n, t)
    for i in range(1, n + 1):
        di = d[i]
        for j in range(i, n + 1):
            dj, ij = d[j], di[j]
            for k in range(j, n + 1):
                dk, ik, jk = d[k], di[k], dj[k]
                for l in range(k, n + 1):
                    x, y, z = ij + dk[l], ik + dj[l], di[l] + jk
                    if x == y:
                        fails = z > x
                    else:
                        fails = z != (x if x > y else y)
                    if fails:
                        return i, j, k, l
    return None


# Levels

def three_point_holds(d, i, j, k):
    """Does the largest of the three entries occur at least twice?"""
    entries = sorted([d[i][j], d[i][k], d[j][k]])
    return entries[1] == entries[2]


@functools.lru_cache(maxsize=None)
def first_failing_three(n, t):
    """The first i <= j <= k that fails, in dictionary order, or None."""
    d = square(n, t)
    for i in range(1, n + 1):
        for j in range(i, n + 1):
            for k in range(j, n + 1):
                if not three_point_holds(d, i, j, k):
                    return i, j, k
    return None


def member_sum(images):
    return sum(2 ** (image - 1) for image in images)


def members_of(n, members):
    """The images of a group, ascending; image 1 counts 1."""
    return [image for image in range(1, n + 1) if holds(members, image)]


def largest_inside(d, images):
    return max(d[i][j] for i in images for j in images)


def groups_by_definition(n, t):
    """Document 02's groups, word for word, each with its height: for each entry of the table the sets of
    images in which every entry is at most that one, and which no larger such set contains; those of two
    images or more. For few images only."""
    d, found = square(n, t), {}
    largest = {members: largest_inside(d, members_of(n, members)) for members in range(1, 2 ** n)}
    for entry in sorted(set(t)):
        sets = [members for members in largest if largest[members] <= entry]
        for members in sets:
            contained = any(members & other == members != other for other in sets)
            if ones(members) >= 2 and not contained:
                found[members] = largest[members]
    return sorted(found.items())


def groups_by_joining(n, t):
    """The same of a table with levels. The pairs of images, ascending by their entries, join the sets of their
    two images; a set that stands when all pairs of an entry are done is a group, and that entry is its height."""
    d, found = square(n, t), {}
    sets = {image: {image} for image in range(1, n + 1)}
    for entry in sorted({d[i][j] for i, j in pairs(n)}):
        for i, j in pairs(n):
            if d[i][j] == entry and sets[i] is not sets[j]:
                both = sets[i] | sets[j]
                sets.update((image, both) for image in both)
        for images in sets.values():
            if len(images) > 1:
                found.setdefault(member_sum(images), entry)
    return sorted(found.items())


def smallest_holding(groups_found, i, j):
    """The smallest of these groups that holds both images, with its height."""
    return min((group for group in groups_found if holds(group[0], i) and holds(group[0], j)),
               key=lambda group: ones(group[0]))


@functools.lru_cache(maxsize=None)
def level_groups(n, t):
    """Groups (member sum, height) of a table with levels, ascending. That the entry of two images is the
    height of the smallest group that holds both is looked at for every table."""
    found = groups_by_joining(n, t)
    for i, j in pairs(n):
        assert smallest_holding(found, i, j)[1] == t[(i - 1) * n + j - 1], (n, t, i, j)
    return found


# Link tables

def path_of(rows, i, j):
    return sum(cost for far, cost in rows if holds(far, i) != holds(far, j))


@functools.lru_cache(maxsize=None)
def exact_rows(n, t):
    """Rows of the exact reading, for a table in which no four fails. They are computed as
    the measured reading's; what makes them the exact reading is that their path costs are
    twice the entries, and that is looked at for every table."""
    rows = measured_rows(n, t)
    for i, j in pairs(n):
        assert path_of(rows, i, j) == 2 * t[(i - 1) * n + j - 1], (n, t, i, j)
    return rows


def upper_rows_of(fars):
    """The upper row of each row, rows numbered from 1; 0 for the last."""
    uppers = []
    for row, far in enumerate(fars):
        later = [r for r in range(row + 1, len(fars)) if fars[r] & far == far]
        uppers.append(later[0] + 1 if later else 0)
    return uppers


def route_of(n, fars, image):
    uppers = upper_rows_of(fars)
    route = [fars.index(own_link(n, image)) + 1]
    while uppers[route[-1] - 1] != 0:
        route.append(uppers[route[-1] - 1])
    return route


# The order around the tree

def order_of(n, d, first, last):
    order = [last]
    waiting = [w for w in range(1, n + 1) if w not in (first, last)]
    while waiting:
        x = order[0]
        left = min(waiting, key=lambda w: (d[x][w] - d[first][w], w))
        waiting.remove(left)
        order.insert(0, left)
    return [first] + order


def far_end(n, d):
    """The other image with the greatest cost from image 1, the lowest on a tie."""
    others = range(2, n + 1)
    greatest = max(d[1][i] for i in others)
    return min(i for i in others if d[1][i] == greatest)


# The exact reading by grafting

class Drawing:
    """A tree as it is drawn. Its vertices are the images 1 to n, and switches with numbers
    from n + 1 on. Lengths are those of the entries, so a link may have a half."""

    def __init__(self, n, image, length):
        """Image 1, this image, and the link between them."""
        self.n = n
        self.lengths = {1: {}, image: {}}
        self.join(1, image, Fraction(length))

    def join(self, u, v, length):
        self.lengths[u][v] = self.lengths[v][u] = length

    def part(self, u, v):
        del self.lengths[u][v], self.lengths[v][u]

    def new_switch(self):
        switch = self.n + 1 + sum(1 for vertex in self.lengths if vertex > self.n)
        self.lengths[switch] = {}
        return switch

    def way(self, image, vertex=1, before=None):
        """The vertices from image 1 to this image."""
        if vertex == image:
            return [vertex]
        for after in self.lengths[vertex]:
            rest = self.way(image, after, vertex) if after != before else []
            if rest:
                return [vertex] + rest
        return []

    def switch_at(self, away, image):
        """The switch so far away from image 1 on the way to this image; where none stands
        there, the link is cut in two. Images have links that end in them alone: where they
        stand themselves, their own link is cut, and what is left of it has length 0."""
        way, stands = self.way(image), Fraction(0)
        for u, v in zip(way, way[1:]):
            length = self.lengths[u][v]
            if u > self.n and stands == away:
                return u
            if away < stands + length or (away == stands + length and v <= self.n):
                switch = self.new_switch()
                self.part(u, v)
                self.join(u, switch, away - stands)
                self.join(switch, v, stands + length - away)
                return switch
            stands += length
        raise AssertionError("the way is too short")

    def graft(self, image, switch, length):
        self.lengths[image] = {}
        self.join(switch, image, length)

    def images_behind(self, u, v):
        """The images that v leads to when one comes from u, as a far side."""
        own = 2 ** (v - 1) if v <= self.n else 0
        return own + sum(self.images_behind(v, after) for after in self.lengths[v] if after != u)

    def rows(self, u=None, v=1):
        """Far sides and doubled costs of the links behind v when one comes from u."""
        found = []
        for after in self.lengths[v]:
            if after != u:
                doubled = 2 * self.lengths[v][after]
                assert doubled.denominator == 1
                found.append((self.images_behind(v, after), doubled.numerator))
                found += self.rows(v, after)
        return found


def recognised(d, placed, x, z):
    """Document 001's Algorithm 3 for one image z more, behind the placed ones, the last of
    which is x: no length is negative where the ways between images 1, x and z meet, and
    every other entry of z is what the formula makes of the entries before."""
    if (d[x][z] > d[1][x] + d[1][z] or d[1][z] > d[1][x] + d[x][z] or d[1][x] > d[1][z] + d[x][z]):
        return False
    return all(d[j][z] == max(d[1][j] + d[x][z], d[1][z] + d[x][j]) - d[1][x]
               for j in placed if j not in (1, x))


@functools.lru_cache(maxsize=None)
def grafted_rows(n, t):
    """Rows of the tree that is grown along the order from image 1 with last n: each image is
    grafted onto the way from image 1 to the one placed before. None where an entry is not
    recognised, and there is no tree."""
    d = square(n, t)
    order_found = order_of(n, d, 1, n)
    drawing = Drawing(n, order_found[1], d[1][order_found[1]])
    for place in range(2, n):
        x, z = order_found[place - 1], order_found[place]
        if not recognised(d, order_found[:place], x, z):
            return None
        switch = drawing.switch_at(Fraction(d[1][x] + d[1][z] - d[x][z], 2), x)
        drawing.graft(z, switch, Fraction(d[1][z] + d[x][z] - d[1][x], 2))
    return sorted(drawing.rows())


# Stored forms

def field(width, value):
    assert 0 <= value < 2 ** width, (width, value)
    return format(value, "0%db" % width)


def form_named(number):
    """The form that a writer is told: 0 is the old one, every other number the new one."""
    return OLD if number == 0 else NEW


def bytes_of_bits(bits):
    """Filled with zero bits to a whole byte."""
    bits += "0" * (-len(bits) % 8)
    return [int(bits[at:at + 8], 2) for at in range(0, len(bits), 8)]


def bits_of_bytes(stored):
    return "".join(field(8, byte) for byte in stored)


def pairs(n):
    return [(i, j) for i in range(1, n + 1) for j in range(i + 1, n + 1)]


def stored_costs(n, t, form=OLD):
    d = square(n, t)
    entries = "".join(field(form.entry_bits, d[i][j]) for i, j in pairs(n))
    return bytes_of_bits(form.mark + field(7, n) + entries)


def stored_links(n, fars, costs, form=OLD):
    bits = form.mark + field(7, n) + field(7, len(fars))
    for far, cost in zip(fars, costs):
        bits += "".join("1" if holds(far, i) else "0" for i in range(n, 1, -1))
        bits += field(form.cost_bits, cost)
    return bytes_of_bits(bits)


def rest_at(stored, position):
    """The bytes from the reader's bit position on."""
    if position % 8 != 0 or position // 8 > len(stored):
        refuse(9)
    return stored[position // 8:]


def header_of(stored, fields):
    """The form of a stored table, told by its first bits, and the numbers of so many fields
    of 7 bits in its header: 9 where the bytes of the header are not all there."""
    form = NEW if bits_of_bytes(stored[:1]).startswith(NEW.mark) else OLD
    ends = [len(form.mark) + 7 * place for place in range(fields + 1)]
    if 8 * len(stored) < ends[-1]:
        refuse(9)
    bits = bits_of_bytes(stored[:ends[-1] // 8 + 1])
    return form, [int(bits[start:end], 2) for start, end in zip(ends, ends[1:])]


def body_of(stored, width):
    """The first `width` bits: 9 where they are not all there, 11 where the bits
    that fill the last byte are not zero. With them, the bytes used."""
    used = (width + 7) // 8
    if len(stored) < used:
        refuse(9)
    bits = bits_of_bytes(stored[:used])
    if "1" in bits[width:]:
        refuse(11)
    return bits[:width], used


def link_table_in(stored, outputs):
    """The link reader's checks, 3 for the outputs among them. Answers n, far
    sides, costs, bytes used."""
    form, (n, count) = header_of(stored, 2)
    check_n(n)
    check_count(n, count)
    for out in outputs:
        check_room(out, 2 * n - 3)
    header = len(form.mark) + 14
    each = n - 1 + form.cost_bits
    bits, used = body_of(stored, header + count * each)
    fars, costs = [], []
    for at in range(header, len(bits), each):
        marks = bits[at:at + n - 1]
        fars.append(sum(2 ** (image - 1)
                        for image, mark in zip(range(n, 1, -1), marks) if mark == "1"))
        costs.append(int(bits[at + n - 1:at + each], 2))
    check_rows(n, fars, costs, form.most_cost)
    return n, fars, costs, used


def cost_table_in(stored, room):
    """The cost reader's checks; `room` is the output's length, None for no 3.
    Answers n, the n*n entries, bytes used."""
    form, (n,) = header_of(stored, 1)
    check_n(n)
    if room is not None and room < n * n:
        refuse(3)
    header = len(form.mark) + 7
    bits, used = body_of(stored, header + form.entry_bits * len(pairs(n)))
    t = [0] * (n * n)
    for place, (i, j) in enumerate(pairs(n)):
        at = header + form.entry_bits * place
        entry = int(bits[at:at + form.entry_bits], 2)
        if entry > form.most_entry:
            refuse(4, i, j)
        t[(i - 1) * n + j - 1] = t[(j - 1) * n + i - 1] = entry
    check_no_zeros(n, t)
    return n, t, used


# Newick text

# A vertex as it stands in a text: the place of its first byte, from 1, the images behind it in the
# order in which they are named, the vertices in its bracket, none for an image, and its cost.
Vertex = namedtuple("Vertex", "place images inside cost")


def newick_text(fars, costs):
    """The text of a link table. A row is a vertex of it: an image, or a bracket around the rows
    whose upper row it is. The last row is image 1's own link; behind it is the root."""
    uppers = upper_rows_of(fars)

    def right_behind(row):
        return [vertex(other) for other, upper in enumerate(uppers, 1) if upper == row]

    def vertex(row):
        far, cost = fars[row - 1], costs[row - 1]
        name = str(far.bit_length()) if ones(far) == 1 else bracket(right_behind(row))
        return "%s:%d" % (name, cost)

    def bracket(vertices):
        return "(" + ",".join(vertices) + ")"

    return bracket(["1:%d" % costs[-1]] + right_behind(len(fars))) + ";"


class NewickReader:
    """Goes through a text from its first byte to its last, and takes each as soon as it is
    known that some text of the profile goes on with it; 18 where none does."""

    def __init__(self, text):
        self.text = text
        self.taken = 0

    def sees(self, wanted):
        """Is the next byte one of these?"""
        return self.taken < len(self.text) and chr(self.text[self.taken]) in wanted

    def take(self, wanted):
        """The next byte, which must be one of these."""
        if not self.sees(wanted):
            refuse(18, self.taken + 1)
        self.taken += 1
        return chr(self.text[self.taken - 1])

    def image(self):
        digits = self.take("123456789")
        if self.sees("0123456789"):
            digits += self.take("0123456789")
        return int(digits)

    def cost(self):
        self.take(":")
        digits = self.take("0123456789")
        while digits != "0" and len(digits) < MOST_DIGITS and self.sees("0123456789"):
            digits += self.take("0123456789")
        return int(digits)

    def vertex(self, now_open):
        """An image or, where one more may be open, a bracket of two vertices or more."""
        place = self.taken + 1
        if now_open < MOST_OPEN and self.sees("("):
            self.take("(")
            inside = self.rest_of_bracket([self.vertex(now_open + 1)], 2, now_open + 1)
            images = [image for vertex in inside for image in vertex.images]
        else:
            inside, images = [], [self.image()]
        return Vertex(place, images, inside, self.cost())

    def rest_of_bracket(self, vertices, fewest, now_open):
        """The vertices of a bracket from the first on, which was read; there are so many or more."""
        while self.take(",)" if len(vertices) >= fewest else ",") == ",":
            vertices.append(self.vertex(now_open))
        return vertices

    def root(self):
        """The vertices of the outermost bracket, image 1 the first of them; nothing stands behind."""
        self.take("(")
        self.take("1")
        vertices = self.rest_of_bracket([Vertex(2, [1], [], self.cost())], 3, 1)
        self.take(";")
        if self.taken < len(self.text):
            refuse(18, self.taken + 1)
        return vertices


def far_side_of(n, vertex):
    """The far side of the row that this vertex is; of image 1 it is its own link's."""
    return own_link(n, 1) if vertex.images == [1] else sum(2 ** (image - 1) for image in vertex.images)


def rows_behind(n, vertices):
    """Far sides and costs of these vertices and of all that stand in their brackets."""
    rows = []
    for vertex in vertices:
        rows.append((far_side_of(n, vertex), vertex.cost))
        rows += rows_behind(n, vertex.inside)
    return rows


def places_out_of_order(n, vertices):
    """The places of all siblings whose far side is below that of the one before."""
    found = [after.place for before, after in zip(vertices, vertices[1:])
             if far_side_of(n, after) < far_side_of(n, before)]
    for vertex in vertices:
        found += places_out_of_order(n, vertex.inside)
    return found


# Images that leave

def table_without(n, t, image):
    """The smaller cost table, over the other images: numbers above this one drop by one."""
    left = [i for i in range(1, n + 1) if i != image]
    return [t[(i - 1) * n + j - 1] for i in left for j in left]


def mended(n, rows, image):
    """The mending of document 02, word for word: the image is taken out of both groups of a row, and
    numbers above it drop by one; the row is named again by the group without the new image 1; one
    with an empty group is dropped, and those that became equal are joined with their costs added."""
    joined = {}
    for far, cost in rows:
        sides = [[i - 1 if i > image else i for i in side if i != image] for side in groups(n, far)]
        if all(sides):
            named = sum(2 ** (i - 1) for side in sides if 1 not in side for i in side)
            joined[named] = joined.get(named, 0) + cost
    return sorted(joined.items())


# The term report

# A table that a report has read: its n, the bytes that it used, and the doubled cost of each inner far
# side of its tree, None for a table that gets 7.
TableRead = namedtuple("TableRead", "n used tree")

Figures = namedtuple("Figures", "images tables accepted apart sides pairs count_sum largest_count used")


def trees_of(read):
    """The trees of the accepted tables. One that gets 7 is left out, so that it does not part the others."""
    return [table.tree for table in read if table.tree is not None]


def sides_seen(read):
    """The inner far sides that are in some tree, ascending."""
    return sorted({far for tree in trees_of(read) for far in tree})


def number_of_trees(read, far):
    return sum(1 for tree in trees_of(read) if far in tree)


def sum_of_costs(read, far):
    return sum(tree[far] for tree in trees_of(read) if far in tree)


def neighbours_counts(read):
    """The Robinson-Foulds count of each accepted table and the next accepted one."""
    trees = trees_of(read)
    return [len(set(tree) ^ set(after)) for tree, after in zip(trees, trees[1:])]


def figures_of(read):
    """The figures of a report over these tables."""
    counts = neighbours_counts(read)
    return Figures(images=read[0].n if read else 0,
                   tables=len(read),
                   accepted=len(trees_of(read)),
                   apart=sum(1 for table in read if table.tree is None),
                   sides=len(sides_seen(read)),
                   pairs=len(counts),
                   count_sum=sum(counts),
                   largest_count=max(counts, default=0),
                   used=sum(table.used for table in read))


def next_table(read, stored):
    """The table at the front of these bytes, behind those that were read: the stored cost table's own
    refusals, then 15, then 19. A table that gets 7 brings no far side, so it gets no 19."""
    n, t, used = cost_table_in(stored, None)
    if read and n != read[0].n:
        refuse(15)
    t = tuple(t)
    wired = first_failing_four(n, t) is None
    inner = {far: cost for far, cost in exact_rows(n, t) if is_inner(n, far)} if wired else None
    table = TableRead(n, used, inner)
    if wired and len(sides_seen(read + [table])) > MOST_SIDES:
        refuse(19)
    return table


def tables_read(stored):
    """The tables that a report reads, and the refusal of the table behind them, None where the bytes end
    there and where table 500 was read."""
    read = []
    while len(read) < MOST_READ:
        rest = stored[sum(table.used for table in read):]
        if not rest:
            break
        try:
            read.append(numbered(len(read) + 1, next_table, read, rest))
        except Refusal as refusal:
            return read, refusal
    return read, None


# The public calls

@call
def index(n, t, s):
    check_n(n)
    check_length(n, t)
    check_entries(n, t)
    if s == 0 or holds(s, 1) or s >= 2 ** n:
        refuse(12)
    return 0, index_of(n, square(n, t), s)


@call
def order(n, t, first, last, out):
    check_n(n)
    check_length(n, t)
    check_room(out, n)
    check_entries(n, t)
    check_image(n, first)
    check_image(n, last)
    if first == last:
        refuse(8)
    out[:n] = order_of(n, square(n, t), first, last)
    return 0, n


def reading(n, t, fars, costs, rows_of):
    check_n(n)
    check_length(n, t)
    check_room(fars, 2 * n - 3)
    check_room(costs, 2 * n - 3)
    check_entries(n, t)
    rows = rows_of(n, tuple(t))
    fars[:len(rows)] = [far for far, cost in rows]
    costs[:len(rows)] = [cost for far, cost in rows]
    return 0, len(rows)


@call
def measured(n, t, fars, costs):
    return reading(n, t, fars, costs, measured_rows)


def wired_rows(n, t):
    """7, or the rows of the exact reading."""
    check_wiring(n, t)
    return exact_rows(n, t)


@call
def exact(n, t, fars, costs):
    return reading(n, t, fars, costs, wired_rows)


def grafted_or_refused(n, t):
    """The same by the second engine, which looks for the four images after a failure alone."""
    rows = grafted_rows(n, t)
    if rows is None:
        check_wiring(n, t)
        raise AssertionError("no graft, and yet no four that fails")
    return rows


@call
def exact_grafted(n, t, fars, costs):
    return reading(n, t, fars, costs, grafted_or_refused)


def leveled_groups(n, t):
    """21, or the groups."""
    check_levels(n, t)
    return level_groups(n, t)


@call
def levels(n, t, members, heights):
    """Groups and heights in front of the lists. The checks are those of the exact reading, but for the places
    that 3 asks, and for 21 where 7 would stand."""
    check_n(n)
    check_length(n, t)
    check_room(members, n - 1)
    check_room(heights, n - 1)
    check_entries(n, t)
    found = leveled_groups(n, tuple(t))
    members[:len(found)] = [group for group, _ in found]
    heights[:len(found)] = [height for _, height in found]
    return 0, len(found)


@call
def path(n, count, fars, costs, i, j):
    check_n(n)
    check_count(n, count)
    check_both_lengths(count, fars, costs)
    check_rows(n, fars, costs)
    check_image(n, i)
    check_image(n, j)
    return 0, path_of(list(zip(fars, costs)), i, j)


@call
def upper_rows(n, count, fars, costs, out):
    check_n(n)
    check_count(n, count)
    check_both_lengths(count, fars, costs)
    check_room(out, 2 * n - 3)
    check_rows(n, fars, costs)
    out[:count] = upper_rows_of(fars)
    return 0, count


@call
def route(n, count, fars, costs, i, out):
    check_n(n)
    check_count(n, count)
    check_both_lengths(count, fars, costs)
    check_room(out, 2 * n - 3)
    check_rows(n, fars, costs)
    check_image(n, i)
    climbed = route_of(n, fars, i)
    out[:len(climbed)] = climbed
    return 0, len(climbed)


def inner_far_sides(n, t):
    """Of a table that is read exactly, with the checks 2, 4, 5, 6, 20, 7."""
    check_length(n, t)
    check_entries(n, t)
    check_wiring(n, t)
    return {far for far, cost in exact_rows(n, tuple(t)) if is_inner(n, far)}


@call
def compare(n, first, second):
    numbered(0, check_n, n)
    one = numbered(1, inner_far_sides, n, first)
    two = numbered(2, inner_far_sides, n, second)
    over = len(one) + len(two) if one or two else 1
    return 0, len(one), len(two), len(one & two), len(one ^ two), over


def tree_of(n, t):
    """The doubled cost of each far side of a table that is read exactly, with the checks
    4, 5, 6, 20, 7."""
    check_entries(n, t)
    check_wiring(n, t)
    return dict(exact_rows(n, tuple(t)))


@call
def consensus(n, number, tables, fars, costs):
    """The far sides present in every tree, each with the smallest of its doubled costs."""
    numbered(0, check_n, n)
    numbered(0, check_table_count, number)
    numbered(0, check_joined_length, n, number, tables)
    numbered(0, check_room, fars, 2 * n - 3)
    numbered(0, check_room, costs, 2 * n - 3)
    trees = [numbered(table, tree_of, n, tables[(table - 1) * n * n:table * n * n])
             for table in range(1, number + 1)]
    in_all = sorted(far for far in trees[0] if all(far in tree for tree in trees))
    fars[:len(in_all)] = in_all
    costs[:len(in_all)] = [min(tree[far] for tree in trees) for far in in_all]
    return 0, len(in_all)


def check_event(n, image):
    """8, then 1 if two images would be left."""
    check_image(n, image)
    check_n(n - 1)


def replay(n, t, events, fars, costs):
    """The images of the events leave one after another, and the smaller table is read anew. The
    start is read into other lists, so that the rows of the end alone are written."""
    start = exact(n, t, list(fars), list(costs))
    if start[0] != 0:
        return start + (0, 0, 0)
    stop, refused = (0,), 0
    for event, image in enumerate(events, 1):
        try:
            check_event(n, image)
        except Refusal as refusal:
            stop, refused = refusal.answer(), event
            break
        n, t = n - 1, table_without(n, t, image)
    _, count = exact(n, t, fars, costs)
    return stop + (n, count, refused)


def report(stored, fars, trees, sums):
    """The figures of the tables read; in front of the lists each far side seen, in how many trees it is,
    and the sum of its doubled costs. A refused table ends it, and what was read before it stands."""
    try:
        for out in (fars, trees, sums):
            numbered(0, check_room, out, MOST_SIDES)
    except Refusal as refusal:
        return refusal.answer() + figures_of([])
    read, refusal = tables_read(stored)
    sides = sides_seen(read)
    fars[:len(sides)] = sides
    trees[:len(sides)] = [number_of_trees(read, far) for far in sides]
    sums[:len(sides)] = [sum_of_costs(read, far) for far in sides]
    return (refusal.answer() if refusal else (0,)) + figures_of(read)


def written(stored, out):
    """3, or the stored bytes at the front of the output."""
    check_room(out, len(stored))
    out[:len(stored)] = stored
    return 0, len(stored)


@call
def write_costs(form, n, t, out):
    check_n(n)
    check_length(n, t)
    check_entries(n, t)
    check_entries_fit(n, t, form_named(form))
    return written(stored_costs(n, t, form_named(form)), out)


@call
def write_links(form, n, count, fars, costs, out):
    check_n(n)
    check_count(n, count)
    check_both_lengths(count, fars, costs)
    check_rows(n, fars, costs)
    check_costs_fit(costs, form_named(form))
    return written(stored_links(n, fars, costs, form_named(form)), out)


@call
def convert_costs(form, stored, out):
    """The cost table at the front of the bytes, which may be of either form, in this one."""
    n, t, _ = cost_table_in(stored, None)
    check_entries_fit(n, t, form_named(form))
    return written(stored_costs(n, t, form_named(form)), out)


@call
def convert_links(form, stored, out):
    """The same of a link table."""
    n, fars, costs, _ = link_table_in(stored, [])
    check_costs_fit(costs, form_named(form))
    return written(stored_links(n, fars, costs, form_named(form)), out)


@call
def read_costs(stored, position, out):
    n, t, used = cost_table_in(rest_at(stored, position), len(out))
    out[:n * n] = t
    return 0, n, used


@call
def read_links(stored, position, fars, costs):
    n, found, found_costs, used = link_table_in(rest_at(stored, position), [fars, costs])
    fars[:len(found)] = found
    costs[:len(found)] = found_costs
    return 0, n, len(found), used


@call
def write_newick(n, count, fars, costs, out):
    check_n(n)
    check_count(n, count)
    check_both_lengths(count, fars, costs)
    check_rows(n, fars, costs)
    return written(list(newick_text(fars, costs).encode("ascii")), out)


@call
def read_newick(text, fars, costs):
    vertices = NewickReader(text).root()
    names = [image for vertex in vertices for image in vertex.images]
    n = len(names)
    check_n(n)
    check_room(fars, 2 * n - 3)
    check_room(costs, 2 * n - 3)
    for image in range(1, n + 1):
        if image not in names:
            refuse(13, image)
    rows = sorted(rows_behind(n, vertices))
    found, found_costs = [far for far, _ in rows], [cost for _, cost in rows]
    check_rows(n, found, found_costs)
    places = places_out_of_order(n, vertices[1:])
    if places:
        refuse(22, min(places))
    fars[:len(found)] = found
    costs[:len(found)] = found_costs
    return 0, n, len(found)


# What each number says, and what its places are called; the number of places is that of the
# letters behind it. Refusal 12 has no place where the index call gives it, and refusal 17 a
# row alone where it is about a link table.
SAYINGS = {
    0: ("accepted", None, ""),
    1: ("n outside 3..64", "n", "a"),
    2: ("a length does not fit n or the row count", None, ""),
    3: ("too little room", None, ""),
    4: ("entry above the limit", "row and column", "ab"),
    5: ("diagonal not zero", "image", "a"),
    6: ("asymmetric", "row and column", "ab"),
    7: ("no wiring", "images", "abcd"),
    8: ("image outside 1..n, or first and last the same", None, ""),
    9: ("stored bytes end early", None, ""),
    10: ("row count outside n..2n-3", "count", "a"),
    11: ("fill bits not zero", None, ""),
    12: ("bad far side or bad row", "row", "a"),
    13: ("an own link is missing", "image", "a"),
    14: ("neither table includes the other", None, ""),
    15: ("stored tables of different n", None, ""),
    16: ("no tables or more than sixteen", None, ""),
    17: ("number above the old limits", "row and column", "ab"),
    18: ("outside the Newick profile", "byte", "a"),
    19: ("more than 1,024 far sides in one report", None, ""),
    20: ("zero off the diagonal", "row and column", "ab"),
    21: ("no levels", "images", "abc"),
    22: ("siblings out of order", "byte", "a"),
}
TEXT_BYTES = 192


def answer_text(number, table, a, b, c, d):
    """What an answer says: the table, if a refusal is about one, the phrase, and the places."""
    if number not in SAYINGS:
        words = "no such refusal: number %d" % number
    else:
        phrase, label, letters = SAYINGS[number]
        places = [{"a": a, "b": b, "c": c, "d": d}[letter] for letter in letters]
        if number == 12 and a == 0:
            places = []
        if number == 17 and b == 0:
            label, places = "row", [a]
        words = phrase + (": " + " ".join([label] + [str(place) for place in places]) if places else "")
    return ("table %d: " % table if number and table else "") + words


@call
def refusal_text(number, table, a, b, c, d, out):
    check_room(out, TEXT_BYTES)
    text = list(answer_text(number, table, a, b, c, d).encode("ascii")) + [0]
    assert len(text) <= TEXT_BYTES and 0 not in text[:-1]
    out[:len(text)] = text
    return 0, len(text)


@call
def read_field(stored, position, width):
    """The number in the width bits from the position on: 9 where so many are not there,
    3 where a number of 64 bits has no room for them."""
    if 8 * len(stored) < position + width:
        refuse(9)
    if width > 64:
        refuse(3)
    return 0, int("0" + bits_of_bytes(stored)[position:position + width], 2)


class Reader:
    """Holds the lent bytes and its bit position, at first bit 0."""

    def __init__(self, stored):
        self.stored = stored
        self.position = 0

    def take_costs(self, out):
        return self.moved_by(read_costs(self.stored, self.position, out))

    def take_links(self, fars, costs):
        return self.moved_by(read_links(self.stored, self.position, fars, costs))

    def take_field(self, width):
        answer = read_field(self.stored, self.position, width)
        if answer[0] == 0:
            self.position += width
        return answer

    def moved_by(self, answer):
        """The answer. After an accepted table, whose bytes used stand last in it,
        the reader stands at the byte behind it, after a refusal where it stood."""
        if answer[0] == 0:
            self.position += 8 * answer[-1]
        return answer


def standing_at(stored, position):
    """A reader that has come to this position, or was put there."""
    reader = Reader(stored)
    reader.position = position
    return reader


def first_two(stored, position, first, second):
    """One reader takes two cost tables from the position on. Both answers, each with
    where the reader then stands. After a refusal the second is read where the first was."""
    reader = standing_at(stored, position)
    one = reader.take_costs(first) + (reader.position,)
    return one + reader.take_costs(second) + (reader.position,)


def first_links(stored, position, fars, costs):
    """One reader takes a link table at the position."""
    reader = standing_at(stored, position)
    return reader.take_links(fars, costs) + (reader.position,)


def two_fields(stored, position, first, second):
    """One reader takes two fields from the position on, each answer with where it then
    stands."""
    reader = standing_at(stored, position)
    one = reader.take_field(first) + (reader.position,)
    return one + reader.take_field(second) + (reader.position,)


@call
def two_costs(stored, first, second):
    """Two cost tables, the second read from the byte where the first ended. Both
    are judged before either is written. Answers n of each and the bytes of both."""
    n, t, used = numbered(1, cost_table_in, stored, len(first))
    n2, t2, used2 = numbered(2, cost_table_in, stored[used:], len(second))
    first[:n * n] = t
    second[:n2 * n2] = t2
    return 0, n, n2, used + used2


def one_of_batch(form, n, count, fars, costs, room):
    """The link writer's checks for the next table of a batch, its rows being the
    first of what is left of the joined slices. Answers its stored bytes."""
    check_n(n)
    check_count(n, count)
    if len(fars) < count or len(costs) < count:
        refuse(2)
    check_rows(n, fars[:count], costs[:count])
    check_costs_fit(costs[:count], form)
    stored = stored_links(n, fars[:count], costs[:count], form)
    if room < len(stored):
        refuse(3)
    return stored


@call
def write_batch(form, ns, counts, fars, costs, out):
    if len(ns) != len(counts):
        raise Refusal(2, table=0)
    stored, at = [], 0
    for table, (n, count) in enumerate(zip(ns, counts), 1):
        stored += numbered(table, one_of_batch, form_named(form), n, count, fars[at:], costs[at:],
                           len(out) - len(stored))
        at += count
    if len(fars) > at or len(costs) > at:
        raise Refusal(2, table=len(ns))
    out[:len(stored)] = stored
    return 0, len(stored)


@call
def choice(first, second):
    """The chosen table's number and its used bytes."""
    n, fars, _, used = numbered(1, link_table_in, first, [])
    n2, fars2, _, used2 = numbered(2, link_table_in, second, [])
    if n != n2:
        raise Refusal(15, table=0)
    inner = {far for far in fars if is_inner(n, far)}
    inner2 = {far for far in fars2 if is_inner(n, far)}
    if inner >= inner2:
        return 0, 1, used
    if inner2 >= inner:
        return 0, 2, used2
    raise Refusal(14, table=0)


def choose(first, second):
    """The chosen table's used bytes; empty where the choice is refused."""
    answer = choice(first, second)
    if answer[0] != 0:
        return []
    return (first if answer[1] == 1 else second)[:answer[2]]


def listing(stored):
    """What the listing program prints for these bytes on standard input."""
    return listing_with(stored, far_end)


def listing_last_n(stored):
    """What the listing program for the ring scripts prints: the order has last n."""
    return listing_with(stored, lambda n, d: n)


def newick_line(stored):
    """What the program newick prints for these bytes: the Newick text of the exact reading."""
    return program_text(stored, lambda n, t: newick_text(*zip(*wired_rows(n, t))) + "\n")


def levels_listing(stored):
    """What the program that lists levels prints for these bytes: the groups, each with its height and images."""
    return program_text(stored, lambda n, t: levels_text(n, leveled_groups(n, t)))


def program_text(stored, text_of):
    """The text of the stored table; or one line with the refusal."""
    try:
        n, t, _ = cost_table_in(stored, None)
        return text_of(n, tuple(t))
    except Refusal as refusal:
        return "refused %d %d %d %d %d\n" % refusal.answer()


def listing_with(stored, last_of):
    """The listing whose order from 1 has the last image that is chosen by n and the costs."""
    return program_text(stored, lambda n, t: listing_text(n, t, wired_rows(n, t), last_of))


def listing_text(n, t, rows, last_of):
    uppers = upper_rows_of([far for far, cost in rows])
    lines = ["images %d rows %d" % (n, len(rows))]
    lines += ["%d %d %d" % (far, cost, upper) for (far, cost), upper in zip(rows, uppers)]
    d = square(n, t)
    lines.append("order " + " ".join(map(str, order_of(n, d, 1, last_of(n, d)))))
    return "".join(line + "\n" for line in lines)


def levels_text(n, groups_found):
    lines = ["images %d groups %d" % (n, len(groups_found))]
    lines += [" ".join(map(str, [members, height] + members_of(n, members))) for members, height in groups_found]
    return "".join(line + "\n" for line in lines)


def term_text(stored):
    """What the program term prints for these bytes: the figures, a line for each far side seen, and where a
    table was refused its number and its refusal."""
    fars, trees, sums = ([0] * MOST_SIDES for _ in range(3))
    answer = report(stored, fars, trees, sums)
    figures = Figures(*answer[-len(Figures._fields):])
    lines = ["images %d tables %d accepted %d apart %d bytes %d"
             % (figures.images, figures.tables, figures.accepted, figures.apart, figures.used),
             "pairs %d counts %d largest %d" % (figures.pairs, figures.count_sum, figures.largest_count),
             "sides %d" % figures.sides]
    lines += ["%d %d %d" % entry for entry in zip(fars[:figures.sides], trees, sums)]
    if answer[0] != 0:
        number, table, *places = answer[:6]
        lines.append("table %d refused %d %d %d %d %d" % (table, number, *places))
    return "".join(line + "\n" for line in lines)


# The term report in a second way

class RunningReport:
    """What a report stands at behind some tables. It has no list of them: each one more brings it up
    to date."""

    def __init__(self):
        self.figures = dict.fromkeys(Figures._fields, 0)
        self.entries = {}
        self.last = None

    def take(self, n, t, used):
        """One table more, of which the second engine says whether it is wired. The number of its refusal, or
        0; a refused one changes nothing."""
        if self.figures["tables"] > 0 and n != self.figures["images"]:
            return 15
        rows = grafted_rows(n, tuple(t))
        if rows is None:
            self.figures["apart"] += 1
        elif not self.take_tree({far: cost for far, cost in rows if is_inner(n, far)}):
            return 19
        self.figures["images"] = n
        self.figures["tables"] += 1
        self.figures["used"] += used
        return 0

    def take_tree(self, tree):
        """One tree more; false, and nothing is changed, where its new far sides would be too many."""
        fresh = sum(1 for far in tree if far not in self.entries)
        if len(self.entries) + fresh > MOST_SIDES:
            return False
        for far, cost in tree.items():
            trees, total = self.entries.get(far, (0, 0))
            self.entries[far] = trees + 1, total + cost
        if self.last is not None:
            common = sum(1 for far in tree if far in self.last)
            count = len(tree) + len(self.last) - 2 * common
            self.figures["pairs"] += 1
            self.figures["count_sum"] += count
            self.figures["largest_count"] = max(self.figures["largest_count"], count)
        self.last = tree
        self.figures["accepted"] += 1
        self.figures["sides"] += fresh
        return True


def report_by_steps(stored):
    """The answer of a report with enough room, and its entries (far side, trees, sum): one reader takes
    table after table, and what stands is brought up to date by each."""
    reader, running, stop = Reader(stored), RunningReport(), (0,)
    while stop[0] == 0 and running.figures["tables"] < MOST_READ and reader.position < 8 * len(stored):
        out = [0] * 64 * 64
        read = reader.take_costs(out)
        if read[0] != 0:
            stop = read
        else:
            _, n, used = read
            number = running.take(n, out[:n * n], used)
            stop = (number, 0, 0, 0, 0) if number else (0,)
    if stop[0] != 0:
        stop = stop[:1] + (running.figures["tables"] + 1,) + stop[1:]
    entries = [(far, *running.entries[far]) for far in sorted(running.entries)]
    return stop + tuple(running.figures.values()), entries


# Numbers from a fixed seed, the same with every Python

class Dice:
    """A sequence of 64-bit numbers decided by its seed (splitmix64)."""

    def __init__(self, seed):
        self.state = seed

    def next(self):
        most = 2 ** 64 - 1
        self.state = (self.state + 0x9E3779B97F4A7C15) & most
        x = self.state
        x = ((x ^ (x >> 30)) * 0xBF58476D1CE4E5B9) & most
        x = ((x ^ (x >> 27)) * 0x94D049BB133111EB) & most
        return x ^ (x >> 31)

    def below(self, bound):
        return self.next() % bound

    def between(self, least, most):
        return least + self.below(most - least + 1)

    def one_of(self, things):
        return things[self.below(len(things))]

    def chance(self, part, whole):
        return self.below(whole) < part

    def mixed(self, things):
        things = list(things)
        for at in range(len(things) - 1, 0, -1):
            other = self.below(at + 1)
            things[at], things[other] = things[other], things[at]
        return things


# Tables to try

def table_from(n, upper):
    """The n*n entries from the upper triangle in stored order."""
    t = [0] * (n * n)
    for (i, j), entry in zip(pairs(n), upper):
        t[(i - 1) * n + j - 1] = t[(j - 1) * n + i - 1] = entry
    return t


def tree_table(n, rows):
    """The table whose doubled entries are the path costs of these rows."""
    return table_from(n, [path_of(rows, i, j) // 2 for i, j in pairs(n)])


def tree_far_sides(dice, n, shape):
    """Far sides of a tree over n images: a star, a caterpillar, or uneven."""
    fars = set()

    def divide(images):
        fars.add(sum(2 ** (i - 1) for i in images))
        if len(images) == 1:
            return
        if shape == "star":
            parts = [[i] for i in images]
        elif shape == "caterpillar":
            parts = [images[:1], images[1:]]
        else:
            count = 2 if dice.chance(3, 4) else dice.between(2, min(5, len(images)))
            cuts = sorted(dice.mixed(range(1, len(images)))[:count - 1])
            parts = [images[a:b] for a, b in zip([0] + cuts, cuts + [len(images)])]
        for part in parts:
            divide(part)

    divide(dice.mixed(range(2, n + 1)))
    return sorted(fars)


def tree_rows(dice, n, shape="uneven", most=40, even=True):
    """Rows of a link table of this shape. With `even`, every path cost is even and
    above 0, so that half of it is an entry: a mark on each switch, and the cost of a
    link is odd exactly where the marks of its two ends differ; images are unmarked."""
    fars = tree_far_sides(dice, n, shape)
    # A row's far end: an image, or the switch below it. The last row joins image
    # 1 to the switch of all the others.
    mark = {far: 0 if ones(far) == 1 else dice.below(2) for far in fars}
    uppers = upper_rows_of(fars)
    rows = []
    for far, upper in zip(fars, uppers):
        inner = is_inner(n, far)
        cost = dice.between(1 if inner else 0, most)
        if even:
            above = mark[fars[upper - 1]] if upper else 0
            if cost % 2 != mark[far] ^ above:
                cost += 1
        rows.append((far, cost))
    return held_apart(n, rows) if even else rows


def held_apart(n, rows):
    """The rows in which no two images cost nothing: of the own links of 0 that end at one switch
    the first stays, and each other one gets 2. The last row, image 1's own link, ends at the
    switch of the rows whose upper row it is."""
    apart, bare = [], set()
    for (far, cost), upper in zip(rows, upper_rows_of([far for far, _ in rows])):
        switch = upper or len(rows)
        if cost == 0 and not is_inner(n, far):
            cost = 2 if switch in bare else 0
            bare.add(switch)
        apart.append((far, cost))
    return apart


def bare_rows(dice, n, rows):
    """The rows with some own links of cost 0, where their cost is even, and one at most at each switch."""
    return held_apart(n, [(far, 0) if not is_inner(n, far) and cost % 2 == 0 and dice.chance(1, 2) else (far, cost)
                          for far, cost in rows])


def noisy(dice, n, t, most):
    """The table with every entry moved by at most `most`, still one that a call takes."""
    moved = []
    for i, j in pairs(n):
        entry = t[(i - 1) * n + j - 1] + dice.between(0, 2 * most) - most
        moved.append(min(max(entry, 1), MOST_ENTRY))
    return table_from(n, moved)


def random_table(dice, n, most):
    return table_from(n, [dice.between(1, most) for _ in pairs(n)])


def zeros_in(n, t):
    """The pairs of two images that cost nothing, in stored order."""
    return [(i, j) for i, j in pairs(n) if t[(i - 1) * n + j - 1] == 0]


def timed_line(n):
    """Two tables over n images. In the first, which a wiring gives, images 1 to n-2 stand at the places 1 to
    n-2 of a line, image n-1 stands at the place 1 and image n at the place n-2; two images cost 2, and 2 for
    each step between their places. In the second an entry is one more where exactly one of its two images is
    among the first n-2, and else one less."""
    place = list(range(1, n - 1)) + [1, n - 2]
    wired = [2 + 2 * abs(place[i - 1] - place[j - 1]) for i, j in pairs(n)]
    timed = [entry + (1 if i <= n - 2 < j else -1) for entry, (i, j) in zip(wired, pairs(n))]
    return table_from(n, wired), table_from(n, timed)


# How a table with levels comes apart: all images at once; one after another; into halves again and again; into
# two groups, or into three, of images that are equally far; anyhow.
LEVEL_SHAPES = ("equal", "caterpillar", "balanced", "two", "three", "uneven")


def parts_of_level(dice, n, images, shape):
    """The parts into which a group of this shape comes apart."""
    count = {"caterpillar": 2, "balanced": 2, "uneven": 2}.get(shape, len(images))
    if shape == "uneven" and dice.chance(1, 4):
        count = dice.between(2, min(5, len(images)))
    if shape in ("two", "three") and len(images) == n:
        count = 2 if shape == "two" else 3
    if shape == "caterpillar":
        cuts = [1]
    elif shape == "balanced":
        cuts = [len(images) // 2]
    else:
        cuts = sorted(dice.mixed(range(1, len(images)))[:count - 1])
    return [images[a:b] for a, b in zip([0] + cuts, cuts + [len(images)])]


def level_rows(dice, n, shape="uneven", most=9, images=None):
    """Groups and heights over n images, in this order or in one of chance. A group is higher than the groups inside
    it, by at most so much."""
    rows = []

    def height_of(some):
        if len(some) == 1:
            return 0
        height = max([height_of(part) for part in parts_of_level(dice, n, some, shape)]) + dice.between(1, most)
        rows.append((member_sum(some), height))
        return height

    height_of(images or dice.mixed(range(1, n + 1)))
    return sorted(rows)


def level_table(n, rows):
    """The table in which the entry of two images is the height of the smallest group that holds both."""
    return table_from(n, [smallest_holding(rows, i, j)[1] for i, j in pairs(n)])


def random_shape(dice):
    return dice.one_of(["star", "caterpillar", "uneven", "uneven"])


def bent(n, t):
    """A table of the same n without a wiring: the last two images are farther from each other than
    the way over image 1."""
    t = list(t)
    t[-2] = t[-n - 1] = t[n - 2] + t[n - 1] + 1
    return t


def trees_with_sides(dice, n, wanted):
    """Rows of trees over n images that have so many inner far sides in all: again and again that of sixty
    caterpillars which has the most new ones. Of the last one no more new ones are left than are wanted."""
    seen, trees = set(), []

    def fresh(fars):
        return [far for far in fars if is_inner(n, far) and far not in seen]

    while len(seen) < wanted:
        fars = max([tree_far_sides(dice, n, "caterpillar") for _ in range(60)], key=lambda fars: len(fresh(fars)))
        surplus = fresh(fars)[wanted - len(seen):]
        seen |= set(fars) - set(surplus)
        seen = {far for far in seen if is_inner(n, far)}
        trees.append([(far, 2 * dice.between(1, 2)) for far in fars if far not in surplus])
    return trees


# The settled examples

EXAMPLES = {
    "A": (3, [1, 1, 1]),
    "B": (3, [0, 0, 0]),
    "C": (3, [1, 1, 3]),
    "D": (3, [1, 1, 2]),
    "E": (4, [2, 4, 4, 4, 4, 2]),
    "F": (4, [2, 3, 4, 4, 4, 2]),
    "G": (4, [2, 2, 2, 2, 2, 2]),
    "H": (7, [28, 5, 48, 54, 59, 41, 25, 56, 62, 67, 49, 45, 51, 56, 38, 8, 55, 37, 61, 43, 30]),
}

MEASURED = {
    "A": [(2, 1), (4, 1), (6, 1)],
    "B": [(2, 0), (4, 0), (6, 0)],
    "C": [(2, 2), (4, 2), (6, 0)],
    "D": [(2, 2), (4, 2), (6, 0)],
    "E": [(2, 2), (4, 2), (8, 2), (12, 4), (14, 2)],
    "F": [(2, 2), (4, 1), (8, 2), (12, 3), (14, 1)],
    "G": [(2, 2), (4, 2), (8, 2), (14, 2)],
    "H": [(2, 36), (4, 2), (8, 2), (16, 14), (24, 42), (32, 48), (64, 12), (96, 18),
          (120, 32), (122, 12), (126, 8)],
}

# The rows of B are a link table as before, but no table is read as it: two images may not cost nothing.
NOT_MEASURED = {"B": (20, 1, 2, 0, 0)}
NOT_EXACT = {"B": (20, 1, 2, 0, 0), "C": (7, 1, 1, 2, 3), "F": (7, 1, 2, 3, 4)}

STORED_A_COSTS = [0x06, 0x00, 0x00, 0x20, 0x00, 0x02, 0x00, 0x00, 0x20]
STORED_A_LINKS = [0x06, 0x0D, 0x00, 0x00, 0x0C, 0x00, 0x00, 0x1C, 0x00, 0x00, 0x20]

# The same behind seven ones, with 23 bits for an entry and 24 for a cost.
STORED_A_COSTS_NEW = [0xFE, 0x0C, 0x00, 0x00, 0x08, 0x00, 0x00, 0x10, 0x00, 0x00, 0x20]
STORED_A_LINKS_NEW = [0xFE, 0x0C, 0x1A, 0x00, 0x00, 0x03, 0x00, 0x00, 0x00, 0xE0, 0x00, 0x00, 0x20]

# Numbers that a writer may be told for the form.
FORM_NUMBERS = (0, 1, 2, 127, 2 ** 63, 2 ** 64 - 1)

NEWICK = {
    "A": "(1:1,2:1,3:1);",
    "B": "(1:0,2:0,3:0);",
    "E": "(1:2,2:2,(3:2,4:2):4);",
    "G": "(1:2,2:2,3:2,4:2);",
    "H": "(1:8,3:2,(2:36,((4:2,5:14):42,(6:48,7:12):18):32):12);",
}

# The rows of trees E and H when one image has left. Where 1 leaves E, image 2 is the new image 1: its own
# link of 2 and the link of 4 between the switches both have 3 and 4, now 2 and 3, on their far side.
LEFT = {
    ("E", 1): [(2, 2), (4, 2), (6, 6)],
    ("E", 2): [(2, 2), (4, 2), (6, 6)],
    ("E", 3): [(2, 2), (4, 6), (6, 2)],
    ("E", 4): [(2, 2), (4, 6), (6, 2)],
    ("H", 1): [(2, 14), (4, 2), (8, 14), (12, 42), (16, 48), (32, 12), (48, 18), (60, 32), (62, 36)],
    ("H", 2): [(2, 2), (4, 2), (8, 14), (12, 42), (16, 48), (32, 12), (48, 18), (60, 44), (62, 8)],
    ("H", 3): [(2, 36), (4, 2), (8, 14), (12, 42), (16, 48), (32, 12), (48, 18), (60, 32), (62, 20)],
    ("H", 6): [(2, 36), (4, 2), (8, 2), (16, 14), (24, 42), (32, 30), (56, 32), (58, 12), (62, 8)],
    ("H", 7): [(2, 36), (4, 2), (8, 2), (16, 14), (24, 42), (32, 66), (56, 32), (58, 12), (62, 8)],
}

LISTING_A = "images 3 rows 3\n2 1 3\n4 1 3\n6 1 0\norder 1 3 2\n"
LISTING_A_LAST_N = "images 3 rows 3\n2 1 3\n4 1 3\n6 1 0\norder 1 2 3\n"
LISTING_C = "refused 7 1 1 2 3\n"

LEVELS = {
    "A": [(7, 1)],
    "E": [(3, 2), (12, 2), (15, 4)],
    "G": [(15, 2)],
}
NOT_LEVELS = {"B": (20, 1, 2, 0, 0), "C": (21, 1, 2, 3, 0), "D": (21, 1, 2, 3, 0), "F": (21, 1, 2, 3, 0),
              "H": (21, 1, 2, 3, 0)}
LEVELS_LISTING_E = "images 4 groups 3\n3 2 1 2\n12 2 3 4\n15 4 1 2 3 4\n"
LEVELS_LISTING_C = "refused 21 1 2 3 0\n"


def example(name):
    n, upper = EXAMPLES[name]
    return n, table_from(n, upper)


# Self-test

def read_rows(reader, n, t):
    """Rows that a reading answers, or its refusal. Longer outputs keep their ends."""
    room = 2 * n
    fars, costs = [5] * room, [6] * room
    answer = reader(n, t, fars, costs)
    count = answer[1] if answer[0] == 0 else 0
    assert fars[count:] == [5] * (room - count) and costs[count:] == [6] * (room - count)
    return list(zip(fars[:count], costs[:count])) if answer[0] == 0 else answer


def read_groups(n, t, more=2):
    """Groups and heights that the levels call answers, or its refusal. Places behind them stay."""
    room = n - 1 + more
    members, heights = [5] * room, [6] * room
    answer = levels(n, t, members, heights)
    count = answer[1] if answer[0] == 0 else 0
    assert members[count:] == [5] * (room - count) and heights[count:] == [6] * (room - count)
    return list(zip(members[:count], heights[:count])) if answer[0] == 0 else answer


def shared_rows(n, tables):
    """Rows that these tables share, or the refusal."""
    def reader(n, joined, fars, costs):
        return consensus(n, len(tables), joined, fars, costs)
    return read_rows(reader, n, sum(tables, []))


def is_link_table(n, rows):
    fars, costs = [far for far, _ in rows], [cost for _, cost in rows]
    return path(n, len(rows), fars, costs, 1, 1) == (0, 0)


def closed_sum(n, t, order_found):
    d = square(n, t)
    return sum(d[i][j] for i, j in zip(order_found, order_found[1:] + order_found[:1]))


def test_settled_examples():
    for name in EXAMPLES:
        n, t = example(name)
        assert read_rows(measured, n, t) == NOT_MEASURED.get(name, MEASURED[name]), name
        assert read_rows(exact, n, t) == NOT_EXACT.get(name, MEASURED[name]), name
        assert read_rows(exact_grafted, n, t) == NOT_EXACT.get(name, MEASURED[name]), name
        assert rows_by_definition(n, t) == MEASURED[name], name
    n, e = example("E")
    _, g = example("G")
    assert compare(n, e, g) == (0, 1, 0, 0, 1, 1)
    assert compare(n, e, e) == (0, 1, 1, 1, 0, 2)
    assert compare(n, g, g) == (0, 0, 0, 0, 0, 1)
    assert compare(3, example("A")[1], example("D")[1]) == (0, 0, 0, 0, 0, 1)
    n, h = example("H")
    out = [9] * 8
    assert order(n, h, 1, 2, out) == (0, 7)
    assert out == [1, 3, 7, 6, 5, 4, 2, 9]
    assert closed_sum(n, h, out[:7]) == 226 == sum(cost for _, cost in MEASURED["H"])
    # Leaving repeats out of the index would give C's image 2 the cost 3.
    assert index(3, example("C")[1], 2) == (0, 2)
    # C's image 1: 1 + 1 - 0 - 3. In E images 2 and 4 against 1 and 3: 2 + 2 - 4 - 4. In G 2 + 2 - 2 - 2.
    assert index(3, example("C")[1], 6) == (0, -1)
    assert index(4, e, 10) == (0, -4)
    assert index(4, g, 12) == (0, 0)


# How far an index goes, of an own link and of an inner division. The bounds of document 02, twice the limit
# and minus that, stay true; without zeros none is reached.
OWN_ENDS = 2 - MOST_ENTRY, 2 * MOST_ENTRY - 1
INNER_ENDS = 2 - 2 * MOST_ENTRY, 2 * MOST_ENTRY - 2


def test_ends_of_the_index():
    """The ends are reached, and over all tables of ones and 8,000,000s with three and four images, where each
    value is as small or as large as it can be, no index goes beyond them."""
    most = MOST_ENTRY
    assert index(3, table_from(3, [1, 1, most]), 6) == (0, OWN_ENDS[0]) == (0, -7999998)
    assert index(3, table_from(3, [most, most, 1]), 6) == (0, OWN_ENDS[1]) == (0, 15999999)
    assert index(4, table_from(4, [most, 1, 1, 1, 1, most]), 12) == (0, INNER_ENDS[0]) == (0, -15999998)
    assert index(4, table_from(4, [1, most, most, most, most, 1]), 12) == (0, INNER_ENDS[1]) == (0, 15999998)
    for n in (3, 4):
        found = {own: [index(n, table_from(n, upper), far)[1]
                       for upper in itertools.product((1, most), repeat=len(pairs(n)))
                       for far in range(2, 2 ** n, 2) if is_inner(n, far) != own]
                 for own in (True, False)}
        assert (min(found[True]), max(found[True])) == OWN_ENDS
        assert n == 3 or (min(found[False]), max(found[False])) == INNER_ENDS


def test_settled_limits():
    for n in (2, 65):
        t = [0] * (n * n)
        refused = (1, n, 0, 0, 0)
        assert index(n, t, 2) == refused
        assert order(n, t, 1, 2, [0] * 70) == refused
        assert measured(n, t, [0] * 130, [0] * 130) == refused
        assert exact(n, t, [0] * 130, [0] * 130) == refused
        assert exact_grafted(n, t, [0] * 130, [0] * 130) == refused
        assert levels(n, t, [0] * 64, [0] * 64) == refused
        assert path(n, n, [0] * n, [0] * n, 1, 2) == refused
        assert upper_rows(n, n, [0] * n, [0] * n, [0] * 130) == refused
        assert route(n, n, [0] * n, [0] * n, 1, [0] * 130) == refused
        assert compare(n, t, t) == (1, 0, n, 0, 0, 0)
        for form in FORM_NUMBERS:
            assert write_costs(form, n, t, [0] * 6000) == refused
            assert write_links(form, n, n, [0] * n, [0] * n, [0] * 6000) == refused
            assert write_batch(form, [n], [n], [0] * n, [0] * n, [0] * 6000) == (1, 1, n, 0, 0, 0)
            stored = bytes_of_bits(form_named(form).mark + field(7, n) + field(7, n)) + [0] * 6000
            assert read_costs(stored, 0, [0] * 5000) == refused
            assert read_links(stored, 0, [0] * 130, [0] * 130) == refused
            assert two_costs(stored, [0] * 5000, []) == (1, 1, n, 0, 0, 0)
            assert choice(stored, stored) == (1, 1, n, 0, 0, 0)
            assert convert_costs(form, stored, []) == convert_links(form, stored, []) == refused
            assert listing(stored) == listing_last_n(stored) == levels_listing(stored) == "refused 1 %d 0 0 0\n" % n
    for n in (3, 4, 9):
        t = table_from(n, [MOST_ENTRY] * (n * n))
        rows = [(2 ** i, MOST_ENTRY) for i in range(1, n)] + [(2 ** n - 2, MOST_ENTRY)]
        assert read_rows(exact, n, t) == rows == read_rows(exact_grafted, n, t)
        assert read_groups(n, t) == [(2 ** n - 1, MOST_ENTRY)]
        t[1] += 1
        assert read_rows(exact, n, t) == (4, 1, 2, 0, 0) == read_rows(exact_grafted, n, t) == read_groups(n, t)
        for number in FORM_NUMBERS:
            form = form_named(number)
            assert write_costs(number, n, t, []) == (4, 1, 2, 0, 0)
            for entry in (form.most_entry, form.most_entry + 1):
                stored = stored_costs(n, table_from(n, [entry] + [1] * (n * n)), form)
                good = entry == form.most_entry
                refused = (4, 1, 2, 0, 0)
                assert read_costs(stored, 0, [0] * (n * n)) == ((0, n, len(stored)) if good else refused)
                assert convert_costs(number, stored, stored[:]) == ((0, len(stored)) if good else refused)
            for cost in (form.most_cost, form.most_cost + 1):
                fars = [own_link(n, image) for image in list(range(2, n + 1)) + [1]]
                stored = stored_links(n, fars, [0] * (n - 1) + [cost], form)
                good, refused = cost == form.most_cost, (12, n, 0, 0, 0)
                assert convert_links(number, stored, stored[:]) == ((0, len(stored)) if good else refused)
                assert choice(stored, stored) == ((0, 1, len(stored)) if good else (12, 1, n, 0, 0, 0))


def test_stored_a():
    n, t = example("A")
    fars, costs = [2, 4, 6], [1, 1, 1]
    for form in FORM_NUMBERS:
        stored = STORED_A_COSTS if form == 0 else STORED_A_COSTS_NEW
        used, out = len(stored), [0xFF] * 16
        assert write_costs(form, n, t, out) == (0, used) and out == stored + [0xFF] * (16 - used)
        out = [7] * 10
        assert read_costs(stored, 0, out) == (0, 3, used) and out == t + [7]
        stored = STORED_A_LINKS if form == 0 else STORED_A_LINKS_NEW
        used, out = len(stored), [0xFF] * 16
        assert write_links(form, n, 3, fars, costs, out) == (0, used)
        assert out == stored + [0xFF] * (16 - used)
        found, found_costs = [8] * 4, [8] * 4
        assert read_links([255] + stored, 8, found, found_costs) == (0, 3, 3, used)
        assert found == fars + [8] and found_costs == costs + [8]
        assert choose(stored + [1], stored) == stored and choice(stored + [1], stored) == (0, 1, used)
    # Of two tables with the same inner far sides the first is chosen, whatever their forms are.
    for first, second in ((STORED_A_LINKS, STORED_A_LINKS_NEW), (STORED_A_LINKS_NEW, STORED_A_LINKS)):
        assert choose(first + [1], second) == first


def test_first_seven_bits():
    """127 in front is the new form, and needs its whole header; a second 127 is an n."""
    refused, early = (1, 127, 0, 0, 0), (9, 0, 0, 0, 0)
    for stored, costs, links in (
            ([], early, early), ([0xFE], early, early), ([0xFF], early, early),
            ([0xFE, 0x0C], early, early), ([0xFF, 0xFF], refused, early),
            ([0xFF, 0xFF, 0xFF], refused, refused), ([0xFF, 0xFC, 0], refused, refused),
            ([0xFE, 0x01, 0], (1, 0, 0, 0, 0), (1, 0, 0, 0, 0)), ([0xFC], (1, 126, 0, 0, 0), early),
            ([0xFC, 0xFF], (1, 126, 0, 0, 0), (1, 126, 0, 0, 0)), ([6], early, early),
            ([6, 0], early, (10, 0, 0, 0, 0)), ([0xFE, 0x0C, 0x18], early, early),
            ([0xFE, 0x0C, 0x10], early, (10, 2, 0, 0, 0))):
        for form in FORM_NUMBERS:
            assert convert_costs(form, stored, []) == costs == read_costs(stored, 0, [0] * 9)
            assert convert_links(form, stored, []) == links == read_links(stored, 0, [0] * 3, [0] * 3)
        assert choice(stored, STORED_A_LINKS) == links[:1] + (1,) + links[1:]
        assert choice(STORED_A_LINKS_NEW, stored) == links[:1] + (2,) + links[1:]
        refused_line = "refused %d %d %d %d %d\n" % costs
        assert listing(stored) == listing_last_n(stored) == levels_listing(stored) == refused_line


def test_listing():
    n, c = example("C")
    for program, text in ((listing, LISTING_A), (listing_last_n, LISTING_A_LAST_N)):
        assert program(STORED_A_COSTS) == program(STORED_A_COSTS + [1, 2, 3]) == text
        assert program(STORED_A_COSTS_NEW) == program(STORED_A_COSTS_NEW + [1, 2, 3]) == text
        for form in (OLD, NEW):
            assert program(stored_costs(n, c, form)) == LISTING_C
        assert program([]) == "refused 9 0 0 0 0\n"


def test_far_end(dice):
    """The last image of each listing, and that nothing but the order line differs. On a star of
    equal links the far end is 2."""
    for n in (3, 4, 9, 33, 64):
        even = table_from(n, [2] * (n * n))
        assert far_end(n, square(n, even)) == 2
        for shape in ("star", "caterpillar", "uneven", "uneven"):
            t = tree_table(n, tree_rows(dice, n, shape, dice.one_of([2, 9, 300])))
            d, stored = square(n, t), stored_costs(n, t)
            lines, old = listing(stored).splitlines(), listing_last_n(stored).splitlines()
            last = int(lines[-1].split()[-1])
            assert 2 <= last <= n and all(d[1][i] < d[1][last] for i in range(2, last))
            assert all(d[1][i] <= d[1][last] for i in range(last, n + 1))
            assert lines[:-1] == old[:-1] and int(old[-1].split()[-1]) == n
            assert (lines == old) == (last == n)
            for line in (lines[-1], old[-1]):
                assert sorted(map(int, line.split()[1:])) == list(range(1, n + 1))


def tables_to_try(dice, n, count):
    """Tree tables, noisy ones, random ones, and ones of ones and 8,000,000s."""
    for turn in range(count):
        kind = turn % 6
        rows = tree_rows(dice, n, random_shape(dice), dice.one_of([2, 6, 40]))
        if kind < 2:
            yield tree_table(n, rows)
        elif kind == 2:
            yield noisy(dice, n, tree_table(n, rows), dice.one_of([1, 2, 5]))
        elif kind == 3:
            yield random_table(dice, n, dice.one_of([1, 2, 3, 10]))
        elif kind == 4:
            yield random_table(dice, n, MOST_ENTRY)
        else:
            yield table_from(n, [dice.one_of([1, MOST_ENTRY]) for _ in pairs(n)])


def test_readings_agree_with_definitions(dice):
    """The grown reading against all divisions, the index against its definition,
    the sorted scan against all fours and against fours with image 1 in front."""
    for n, count in ((3, 60), (4, 120), (5, 120), (6, 60), (7, 24), (8, 12), (9, 12)):
        for t in tables_to_try(dice, n, count):
            assert measured_rows(n, tuple(t)) == rows_by_definition(n, t)
            d = square(n, t)
            far = 2 * dice.between(1, 2 ** (n - 1) - 1)
            least = index_by_definition(n, d, far)
            assert index_of(n, d, far) == least
            assert index(n, t, far) == (0, least)
            lowest, highest = INNER_ENDS if is_inner(n, far) else OWN_ENDS
            assert lowest <= least <= highest
            fours = itertools.product(range(1, n + 1), repeat=4)
            failing = sorted(tuple(sorted(four)) for four in fours
                             if not four_point_holds(d, *four))
            assert first_failing_four(n, tuple(t)) == (failing[0] if failing else None)
            assert not failing or failing[0][0] == 1


def test_all_small_tables():
    """Four images, entries 0 to 3: exactly those with a zero get 20, at the first of them, from either
    reading; others are accepted exactly where the measured reading's path costs are twice the entries."""
    n = 4
    for upper in itertools.product(range(4), repeat=6):
        t = table_from(n, upper)
        zeros = [pair for pair, entry in zip(pairs(n), upper) if entry == 0]
        if zeros:
            assert read_rows(measured, n, t) == read_rows(exact, n, t) == (20, *zeros[0], 0, 0)
            continue
        rows = read_rows(measured, n, t)
        meets = all(path_of(rows, i, j) == 2 * entry
                    for (i, j), entry in zip(pairs(n), upper))
        assert read_rows(exact, n, t) == (rows if meets else (7, *first_failing_four(n, tuple(t))))


def test_only_one_table():
    """Four images, costs 0 to 3: a link table with even path costs is the exact
    reading of the halves, if no path costs nothing; if one does, that pair gets 20."""
    n = 4
    for own in itertools.product(range(4), repeat=4):
        for inner in [None] + [(far, cost) for far in (6, 10, 12) for cost in (1, 2, 3)]:
            rows = list(zip((2, 4, 8, 14), own)) + ([inner] if inner else [])
            rows.sort()
            if all(path_of(rows, i, j) % 2 == 0 for i, j in pairs(n)):
                zeros = [(i, j) for i, j in pairs(n) if path_of(rows, i, j) == 0]
                expected = (20, *zeros[0], 0, 0) if zeros else rows
                assert read_rows(exact, n, tree_table(n, rows)) == expected


def test_demand_2(dice):
    """On tree tables the exact reading gives the tree back, path costs are twice
    the entries, and every order's closed sum is the sum of all doubled costs."""
    for n in (3, 4, 5, 6, 9, 12, 20, 33):
        for _ in range(20 if n < 10 else 3):
            rows = tree_rows(dice, n, random_shape(dice), dice.one_of([2, 10, 500]))
            t = tree_table(n, rows)
            assert is_link_table(n, rows)
            assert read_rows(exact, n, t) == rows == read_rows(measured, n, t)
            fars, costs = [far for far, _ in rows], [cost for _, cost in rows]
            for i, j in itertools.product(range(1, n + 1), repeat=2):
                if n < 10 or j < 4:
                    twice = 2 * t[(i - 1) * n + j - 1]
                    assert path(n, len(rows), fars, costs, i, j) == (0, twice)
            for first, last in itertools.permutations(range(1, n + 1), 2):
                if n < 10 or (first < 3 and last < 6):
                    out = [0] * n
                    assert order(n, t, first, last, out) == (0, n)
                    assert sorted(out) == list(range(1, n + 1))
                    assert (out[0], out[-1]) == (first, last)
                    assert closed_sum(n, t, out) == sum(costs)


def least_closed_sum(n, t):
    """The least closed sum of all orders of the images: for each set of them that holds image 1, and each image
    in it, what it costs at least to begin with image 1, pass all others of the set once, and end there."""
    d = square(n, t)
    ways = {(1, 1): 0}
    for _ in range(n - 1):
        longer = {}
        for (passed, last), cost in ways.items():
            for i in range(2, n + 1):
                if not holds(passed, i):
                    place = passed + 2 ** (i - 1), i
                    longer[place] = min(cost + d[last][i], longer.get(place, cost + d[last][i]))
        ways = longer
    return min(cost + d[last][1] for (_, last), cost in ways.items())


def is_one_run(far, ring):
    """Are the images of the far side neighbours on the closed ring, without a gap?"""
    return sum(holds(far, i) != holds(far, j) for i, j in zip(ring, ring[1:] + ring[:1])) == 2


def fails_by(n, t):
    """By how much the largest of the three sums of four images is above the second, at most."""
    d = square(n, t)
    images, most = range(1, n + 1), 0
    for i, j, k, l in itertools.combinations_with_replacement(images, 4):
        sums = sorted([d[i][j] + d[k][l], d[i][k] + d[j][l], d[i][l] + d[j][k]])
        most = max(most, sums[2] - sums[1])
    return most


def ring_of(n, t, first, last):
    out = [0] * n
    assert order(n, t, first, last, out) == (0, n)
    return out


def test_no_ring_is_shorter(dice):
    """On tree tables no order of the images has a smaller closed sum, whatever first and last are, and every far
    side of the tree is one run. The least of all is reckoned for up to nine images; beyond that the order is
    held to rings of chance, to itself with two neighbours exchanged, and to the one that goes to the nearest."""
    n, h = example("H")
    assert least_closed_sum(n, h) == 226 and closed_sum(n, h, [1, 7, 3, 6, 5, 4, 2]) == 288
    for n in (3, 4, 5, 6, 7, 8, 9):
        for _ in range(12 if n < 9 else 2):
            rows = tree_rows(dice, n, random_shape(dice), dice.one_of([2, 10, 500]))
            t = tree_table(n, rows)
            least = least_closed_sum(n, t)
            for first, last in itertools.permutations(range(1, n + 1), 2):
                ring = ring_of(n, t, first, last)
                assert closed_sum(n, t, ring) == least
                assert all(is_one_run(far, ring) for far, _ in rows)
    for n in (12, 33, 64):
        rows = tree_rows(dice, n, random_shape(dice), 500)
        t = tree_table(n, rows)
        d = square(n, t)
        first, last = dice.mixed(range(1, n + 1))[:2]
        ring = ring_of(n, t, first, last)
        others = [dice.mixed(ring) for _ in range(200)] + [sorted(ring)]
        others += [ring[:i] + [ring[i + 1], ring[i]] + ring[i + 2:] for i in range(n - 1)]
        for start in range(1, n + 1):
            nearest, waiting = [start], set(range(1, n + 1)) - {start}
            while waiting:
                nearest.append(min(waiting, key=lambda i: (d[nearest[-1]][i], i)))
                waiting.remove(nearest[-1])
            others.append(nearest)
        assert all(closed_sum(n, t, ring) <= closed_sum(n, t, other) for other in others)
        assert all(is_one_run(far, ring) for far, _ in rows)


def test_ring_of_timings(dice):
    """Where no entry is more than D away from one of a tree table, no ring is shorter by more than 4(n-3)D, by
    the timings or by the tree table, nor, by the timings, by more than n-3 times what four images fail by; and
    each far side of the tree with a doubled cost above 4D is one run. By the timings no ring is shorter than the
    tree table's own by more than 2nD, and the ring costs what the shortest costs by the tree table, less nD or
    more by (3n-8)D at most, 3D for three images. The timed line reaches both bounds, for every n."""
    for n in (3, 4, 5, 6, 7, 8):
        for _ in range(30):
            rows = tree_rows(dice, n, random_shape(dice), dice.one_of([2, 6, 20, 100]))
            t = tree_table(n, rows)
            moved = noisy(dice, n, t, dice.one_of([1, 2, 5, 30]))
            distance = max(abs(a - b) for a, b in zip(t, moved))
            least, least_wired, off = least_closed_sum(n, moved), least_closed_sum(n, t), fails_by(n, moved)
            assert fails_by(n, t) == 0 and off <= 4 * distance
            for first, last in itertools.permutations(range(1, n + 1), 2):
                ring, own = ring_of(n, moved, first, last), ring_of(n, t, first, last)
                assert closed_sum(n, moved, ring) <= least + (n - 3) * off
                assert closed_sum(n, t, ring) <= least_wired + (n - 3) * 4 * distance
                assert closed_sum(n, moved, own) <= least + 2 * n * distance
                told = closed_sum(n, moved, ring) - least_wired
                assert -n * distance <= told <= max(n, 3 * n - 8) * distance
                assert all(is_one_run(far, ring) for far, cost in rows if cost > 4 * distance)
    for n in range(3, 65):
        wired, timed = timed_line(n)
        ring = ring_of(n, timed, n, 1)
        exchanged = [ring[1], ring[0]] + ring[2:]
        assert ring == list(range(n, 0, -1)) and first_failing_four(n, tuple(wired)) is None
        assert all(abs(a - b) == 1 for (i, a), b in zip(enumerate(wired), timed) if i % (n + 1))
        for t in (wired, timed):
            assert closed_sum(n, t, ring) - closed_sum(n, t, exchanged) == 4 * (n - 3)
        assert closed_sum(n, timed, ring) - closed_sum(n, wired, exchanged) == 3 * n - 8
        if n < 9:
            assert closed_sum(n, wired, exchanged) == least_closed_sum(n, wired)


def test_demand_3(dice):
    """The drawn rows form a link table, no path cost is above twice the entry, and
    the doubled costs stay within 4D of an accepted table's."""
    for n in (3, 4, 5, 6, 9, 12, 20):
        for _ in range(30 if n < 10 else 4):
            rows = tree_rows(dice, n, random_shape(dice), dice.one_of([4, 20, 500]))
            t = tree_table(n, rows)
            most = dice.one_of([1, 2, 5, 30])
            moved = noisy(dice, n, t, most)
            distance = max(abs(a - b) for a, b in zip(t, moved))
            before, after = dict(rows), dict(measured_rows(n, tuple(moved)))
            for far in set(before) | set(after):
                assert abs(before.get(far, 0) - after.get(far, 0)) <= 4 * distance
            others = [moved, random_table(dice, n, dice.one_of([3, 50, MOST_ENTRY]))]
            for other in others:
                drawn = measured_rows(n, tuple(other))
                assert is_link_table(n, drawn)
                for i, j in pairs(n):
                    assert path_of(drawn, i, j) <= 2 * other[(i - 1) * n + j - 1]


def test_moved_index(dice):
    """The index of no division, a negative one neither, moves by more than 4D."""
    for n in (3, 4, 5, 6, 9, 12):
        for _ in range(30):
            t = random_table(dice, n, dice.one_of([3, 50, MOST_ENTRY]))
            moved = noisy(dice, n, t, dice.one_of([1, 2, 30]))
            distance = max(abs(a - b) for a, b in zip(t, moved))
            for _ in range(4):
                far = 2 * dice.between(1, 2 ** (n - 1) - 1)
                before, after = index(n, t, far)[1], index(n, moved, far)[1]
                assert abs(before - after) <= 4 * distance


def test_comparison(dice):
    """The count is the inner far sides in exactly one table, and not always 2n-6
    less twice the common ones. Over the inner far sides of both it is never above 1,
    and 1 where none is common and one exists."""
    for n in (3, 4, 5, 6, 9):
        for _ in range(20):
            one = tree_rows(dice, n, random_shape(dice))
            two = tree_rows(dice, n, random_shape(dice))
            inner1 = [far for far, _ in one if is_inner(n, far)]
            inner2 = [far for far, _ in two if is_inner(n, far)]
            common = [far for far in inner1 if far in inner2]
            count = len(inner1) + len(inner2) - 2 * len(common)
            over = max(len(inner1) + len(inner2), 1)
            assert compare(n, tree_table(n, one), tree_table(n, two)) == (
                0, len(inner1), len(inner2), len(common), count, over)
            assert count <= over
            assert (count == over) == (not common and bool(inner1 or inner2))
            assert (count == 0) == (inner1 == inner2)


def test_consensus_examples():
    """The settled examples alone and together, and the refusals that are no table's."""
    for name in EXAMPLES:
        n, t = example(name)
        if name in NOT_EXACT:
            number, *four = NOT_EXACT[name]
            good = example({3: "A", 4: "E"}[n])[1]
            for before in range(16):
                tables = [good] * before + [t] * (16 - before)
                assert shared_rows(n, tables) == (number, before + 1, *four)
        else:
            for number in (1, 2, 16):
                assert shared_rows(n, [t] * number) == MEASURED[name]
    a, b, d = [example(name)[1] for name in "ABD"]
    assert shared_rows(3, [a, d]) == [(2, 1), (4, 1), (6, 0)] == shared_rows(3, [d, a])
    assert shared_rows(3, [a, b, d]) == (20, 2, 1, 2, 0, 0)
    # In each of three tables another image stands between the two others: own links of 0 remain, and are shared.
    between = [table_from(3, upper) for upper in ([1, 1, 2], [1, 2, 1], [2, 1, 1])]
    assert shared_rows(3, between) == MEASURED["B"] == shared_rows(3, [a] + between)
    n, e = example("E")
    g = example("G")[1]
    # The inner row 12:4 of E is not in G.
    assert shared_rows(n, [e, g]) == [(2, 2), (4, 2), (8, 2), (14, 2)] == shared_rows(n, [g, e, e])
    bad = [2 * MOST_ENTRY] * 9
    for number in (0, 17, 2 ** 60, 2 ** 64 - 1):
        assert consensus(2, number, [], [], []) == (1, 0, 2, 0, 0, 0)
        assert consensus(65, number, bad, [], []) == (1, 0, 65, 0, 0, 0)
        assert consensus(4, number, [], [], []) == (16, 0, 0, 0, 0, 0)
        assert consensus(4, number, e, [0] * 5, [0] * 5) == (16, 0, 0, 0, 0, 0)
    assert consensus(3, 17, a * 17, [0] * 3, [0] * 3) == (16, 0, 0, 0, 0, 0)
    for number, tables in ((2, bad), (1, bad * 2), (1, bad[:-1]), (16, [])):
        assert consensus(3, number, tables, [], []) == (2, 0, 0, 0, 0, 0)
    for room1, room2 in ((2, 3), (3, 2), (0, 0)):
        assert consensus(3, 1, bad, [0] * room1, [0] * room2) == (3, 0, 0, 0, 0, 0)
    assert consensus(4, 2, g + g, [0] * 4, [0] * 5) == (3, 0, 0, 0, 0, 0)
    assert consensus(3, 2, a + bad, [0] * 3, [0] * 3) == (4, 2, 1, 1, 0, 0)


def spoilt(n, t, fault):
    """The table with one fault in its last row, and the refusal that it gets."""
    t = list(t)
    if fault == 4:
        t[-2] = MOST_ENTRY + 1
        return t, (4, n, n - 1, 0, 0)
    if fault == 5:
        t[-1] = 1
        return t, (5, n, 0, 0, 0)
    if fault == 6:
        t[-2] += 1
        return t, (6, n - 1, n, 0, 0)
    if fault == 20:
        t[-2] = t[-n - 1] = 0
        return t, (20, n - 1, n, 0, 0)
    t = bent(n, t)
    return t, (7, *first_failing_four(n, tuple(t)))


def test_consensus_refusals(dice):
    """Of two tables that are refused the earlier counts, whatever its refusal is, and
    the refusal is that of its exact reading."""
    for n in (3, 4, 6):
        good = tree_table(n, tree_rows(dice, n, "uneven", 20))
        for fault, later in itertools.product((4, 5, 6, 20, 7), repeat=2):
            t, refused = spoilt(n, good, fault)
            assert read_rows(exact, n, t) == refused
            for place in range(4):
                tables = [good] * place + [t, good, spoilt(n, good, later)[0]]
                assert shared_rows(n, tables) == (refused[0], place + 1) + refused[1:]


def test_consensus(dice):
    """A far side is in it exactly when it is in every tree, with the smallest cost; the
    order of tables plays no part; one table gives its exact reading; one table more only
    takes rows away and lowers costs. The rows go through upper rows and storage."""
    for n in (3, 4, 5, 6, 9, 20, 33):
        for number in (1, 2, 3, 5, 16):
            base = tree_rows(dice, n, random_shape(dice), 20)
            trees = []
            for _ in range(number):
                kept = [row for row in base if not is_inner(n, row[0]) or dice.chance(5, 6)]
                trees.append(held_apart(n, [(far, 2 * cost + 2 * dice.below(5)) for far, cost in kept]))
            tables = [tree_table(n, rows) for rows in trees]
            found = shared_rows(n, tables)
            assert [far for far, _ in found] == [
                far for far, _ in base if all(far in dict(rows) for rows in trees)]
            for far, cost in found:
                costs = [dict(rows)[far] for rows in trees]
                assert cost in costs and cost <= min(costs)
            assert found == shared_rows(n, tables[::-1]) == shared_rows(n, dice.mixed(tables))
            assert is_link_table(n, found)
            assert shared_rows(n, tables[:1]) == read_rows(exact, n, tables[0])
            before = dict(trees[0])
            for more in range(2, number + 1):
                after = dict(shared_rows(n, tables[:more]))
                assert all(far in before and cost <= before[far] for far, cost in after.items())
                before = after
            fars, costs = [far for far, _ in found], [cost for _, cost in found]
            uppers = [0] * (2 * n - 3)
            assert upper_rows(n, len(found), fars, costs, uppers) == (0, len(found))
            for form in (0, 1):
                room = len(stored_links(n, fars, costs, form_named(form)))
                assert write_links(form, n, len(found), fars, costs, [0] * room) == (0, room)


def test_routes(dice):
    for n in (3, 4, 5, 9, 33, 64):
        for shape in ("star", "caterpillar", "uneven"):
            rows = tree_rows(dice, n, shape, 9, even=False)
            fars, costs = [far for far, _ in rows], [cost for _, cost in rows]
            for image in range(1, n + 1):
                out = [0] * (2 * n - 3)
                answer = route(n, len(rows), fars, costs, image, out)
                climbed = out[:answer[1]]
                own = own_link(n, image)
                expected = [r + 1 for r, far in enumerate(fars) if far & own == own]
                assert climbed == expected and climbed[-1] == len(rows)


def test_stored_forms(dice):
    """In each form reading undoes writing, writing gives the used bytes again, a second
    table is read where the first ended, and a batch is its tables one after another."""
    for n, number in itertools.product((3, 4, 5, 8, 9, 33, 64), FORM_NUMBERS[:3]):
        form = form_named(number)
        t = random_table(dice, n, form.most_entry)
        out = [255] * (len(stored_costs(n, t, form)) + 2)
        used = write_costs(number, n, t, out)[1]
        assert out[used:] == [255, 255]
        found = [0] * (n * n)
        assert read_costs([9] + out, 8, found) == (0, n, used) and found == t
        tables = [tree_rows(dice, n, random_shape(dice), form.most_cost - 1, even=False)
                  for _ in range(3)]
        fars = [far for rows in tables for far, _ in rows]
        costs = [cost for rows in tables for _, cost in rows]
        out = [255] * 6000
        answer = write_batch(number, [n] * 3, [len(rows) for rows in tables], fars, costs, out)
        assert answer[0] == 0
        at = 0
        for rows in tables:
            room = 2 * n - 3
            found, found_costs = [0] * room, [0] * room
            answer2 = read_links(out, 8 * at, found, found_costs)
            count, used = answer2[2], answer2[3]
            assert answer2[:2] == (0, n) and count == len(rows)
            assert list(zip(found, found_costs))[:count] == rows
            again = [0] * used
            assert write_links(number, n, count, found[:count], found_costs[:count], again) == (0, used)
            assert again == out[at:at + used]
            at += used
        assert at == answer[1] and out[at:] == [255] * (6000 - at)
    for form in FORM_NUMBERS:
        assert write_batch(form, [], [], [], [], []) == (0, 0)
        assert write_batch(form, [], [], [2], [], []) == (2, 0, 0, 0, 0, 0)
        assert write_batch(form, [3], [], [], [], []) == (2, 0, 0, 0, 0, 0)


def test_longest_stored_tables():
    """The bytes of the longest tables, by document 02's words: 7 bits for the mark, 7 for each
    number of the header, then the entries or the rows."""
    n = 64
    rows = [2 ** (i - 1) for i in range(2, n + 1)] + [2 ** i - 2 for i in range(3, n + 1)]
    rows.sort()
    for form, costs, links in ((OLD, 5041, 1315), (NEW, 5798, 1362)):
        assert len(stored_costs(n, [0] * (n * n), form)) == costs
        assert len(rows) == 2 * n - 3 and len(stored_links(n, rows, [1] * len(rows), form)) == links


def widened(stored, header, count, before, width):
    """An old stored table as a new one, by its bits alone: seven ones in front of the header,
    and three zeros in front of each of so many numbers of this width, which stand each behind
    `before` other bits."""
    bits, each = bits_of_bytes(stored), before + width
    parts = [bits[at:at + each] for at in range(header, header + count * each, each)]
    parts = [part[:before] + "000" + part[before:] for part in parts]
    return bytes_of_bits("1" * 7 + bits[:header] + "".join(parts))


def converted(convert, form, stored):
    """What a conversion writes into just enough room; or its refusal. One byte less is 3, what
    stands behind the table plays no part, and more room is left as it was."""
    out = [77] * 6000
    answer = convert(form, stored, out)
    used = answer[1] if answer[0] == 0 else 0
    assert out[used:] == [77] * (6000 - used)
    again = [78] * used
    assert convert(form, stored + [255, 6, 0], again) == answer
    if answer[0] != 0:
        return answer
    assert again == out[:used] and convert(form, stored, again[1:]) == (3, 0, 0, 0, 0)
    return again


def test_conversions(dice):
    """Old to new always works where no two images cost nothing, and gives the same rows or entries; to
    its own form a table is left as it is; old to new to old gives the same bytes; new to old works exactly
    when all numbers fit, and else says the first that does not, before it asks for room. A zero between
    two images is said before all that, to either form."""
    for n, shape in itertools.product((3, 4, 5, 8, 9, 33, 64), ("star", "caterpillar", "uneven")):
        t = random_table(dice, n, dice.one_of([9, OLD.most_entry]))
        old = stored_costs(n, t)
        new = converted(convert_costs, 1, old)
        assert new == stored_costs(n, t, NEW) == widened(old, 7, len(pairs(n)), 0, 20)
        rows = tree_rows(dice, n, shape, dice.one_of([9, OLD.most_cost - 1]), even=False)
        fars, costs = [far for far, _ in rows], [cost for _, cost in rows]
        old_links = stored_links(n, fars, costs)
        new_links = converted(convert_links, 1, old_links)
        assert new_links == stored_links(n, fars, costs, NEW)
        assert new_links == widened(old_links, 14, len(rows), n - 1, 21)
        for number in FORM_NUMBERS:
            for stored in (old, new):
                assert converted(convert_costs, number, stored) == (new if number else old)
            for stored in (old_links, new_links):
                assert converted(convert_links, number, stored) == (new_links if number else old_links)
        # Some numbers above the old limits, the lowest of them with the least that does not fit.
        for high in (0, 1, 3):
            moved = dice.mixed(range(len(pairs(n))))[:high]
            upper = [OLD.most_entry + 1 + dice.below(7000000) if place in moved else dice.between(1, OLD.most_entry)
                     for place in range(len(pairs(n)))]
            if moved:
                upper[min(moved)] = OLD.most_entry + 1
            stored = stored_costs(n, table_from(n, upper), NEW)
            found = converted(convert_costs, 0, stored)
            if moved:
                assert found == (17,) + pairs(n)[min(moved)] + (0, 0) == convert_costs(0, stored, [])
            else:
                assert converted(convert_costs, 1, found) == stored
            assert converted(convert_costs, 1, stored) == stored
            timed = dice.between(0, len(upper) - 1)
            upper[timed:] = [0] * (len(upper) - timed)
            for form, number in itertools.product((OLD, NEW) if not moved else (NEW,), (0, 1)):
                assert converted(convert_costs, number, stored_costs(n, table_from(n, upper), form)) == (
                    (20,) + pairs(n)[timed] + (0, 0))
            moved = dice.mixed(range(len(rows)))[:high]
            raised = [OLD.most_cost + 1 + dice.below(14000000) if row in moved else cost
                      for row, cost in enumerate(costs)]
            if moved:
                raised[min(moved)] = OLD.most_cost + 1
            stored = stored_links(n, fars, raised, NEW)
            found = converted(convert_links, 0, stored)
            if moved:
                assert found == (17, min(moved) + 1, 0, 0, 0) == convert_links(0, stored, [])
                assert write_links(0, n, len(rows), fars, raised, []) == found
                assert write_batch(0, [n], [len(rows)], fars, raised, []) == (17, 1) + found[1:]
            else:
                assert converted(convert_links, 1, found) == stored
            assert converted(convert_links, 1, stored) == stored


def test_old_limits():
    """17 in the writers: behind all faults of the table, before room, in the old form alone."""
    n, low, high = 3, OLD.most_entry, OLD.most_entry + 1
    t = table_from(n, [low, high, MOST_ENTRY])
    assert write_costs(0, n, t, []) == (17, 1, 3, 0, 0) and write_costs(1, n, t, []) == (3, 0, 0, 0, 0)
    assert write_costs(0, n, table_from(n, [low, low, high]), []) == (17, 2, 3, 0, 0)
    assert write_costs(0, n, table_from(n, [low] * 3), []) == (3, 0, 0, 0, 0)
    for place, entry, refused in ((8, 1, (5, 3, 0, 0, 0)), (7, 0, (6, 2, 3, 0, 0)),
                                  (5, MOST_ENTRY + 1, (4, 2, 3, 0, 0))):
        bad = list(t)
        bad[place] = entry
        assert write_costs(0, n, bad, []) == refused == write_costs(1, n, bad, [])
    assert write_costs(0, n, table_from(n, [high, 0, 0]), []) == (20, 1, 3, 0, 0)
    fars, low, high = [2, 4, 6], OLD.most_cost, OLD.most_cost + 1
    for costs, refused in (([low, high, MOST_COST], (17, 2, 0, 0, 0)), ([low] * 3, (3, 0, 0, 0, 0)),
                           ([high, 0, MOST_COST + 1], (12, 3, 0, 0, 0))):
        assert write_links(0, n, 3, fars, costs, []) == refused
        two = [3, 3], [3, 3], fars * 2, [low] * 3 + costs, [0] * 11
        assert write_batch(0, *two) == refused[:1] + (2,) + refused[1:]
    # The first of two tables has no room for its bytes, the second a number too large.
    assert write_batch(0, [3, 3], [3, 3], fars * 2, [low] * 3 + [high] * 3, []) == (3, 1, 0, 0, 0, 0)
    assert write_links(0, n, 3, [2, 4, 5], [high] * 3, []) == (12, 3, 0, 0, 0)
    assert write_links(0, 4, 4, [2, 4, 12, 14], [high] * 4, []) == (13, 4, 0, 0, 0)


def test_reader_on_new_a():
    """Example A's tables of both forms one after another: each is told by its own first bits."""
    t = example("A")[1]
    reader = Reader(STORED_A_COSTS + STORED_A_COSTS_NEW + STORED_A_LINKS_NEW + STORED_A_LINKS)
    for used, stands in ((9, 72), (11, 160)):
        out = [7] * 9
        assert reader.take_costs(out) == (0, 3, used) and out == t and reader.position == stands
    for used, stands in ((13, 264), (11, 352)):
        fars, costs = [8] * 3, [8] * 3
        assert reader.take_links(fars, costs) == (0, 3, 3, used) and reader.position == stands
        assert fars == [2, 4, 6] and costs == [1, 1, 1]
    for first, second in ((STORED_A_COSTS, STORED_A_COSTS_NEW), (STORED_A_COSTS_NEW, STORED_A_COSTS)):
        assert two_costs(first + second, [7] * 9, [8] * 9) == (0, 3, 3, 20)
        assert two_costs(first + second[:-1], [7] * 9, [8] * 9) == (9, 2, 0, 0, 0, 0)
    assert two_fields(STORED_A_COSTS_NEW, 0, 7, 7) == (0, 127, 7, 0, 3, 14)
    assert two_fields(STORED_A_LINKS_NEW, 21, 2, 24) == (0, 1, 23, 0, 1, 47)


def test_reader_on_a():
    """Example A's stored forms one after another, of one kind and of both."""
    t, stored = example("A")[1], STORED_A_COSTS + STORED_A_COSTS
    reader, out = Reader(stored), [7] * 9
    for stands in (72, 144):
        assert reader.take_costs(out) == (0, 3, 9) and out == t
        assert reader.position == stands
    assert reader.take_costs(out) == (9, 0, 0, 0, 0) and reader.position == 144
    first, second = [7] * 10, [8] * 9
    assert two_costs(stored + [1], first, second) == (0, 3, 3, 18)
    assert first == t + [7] and second == t
    reader, fars, costs = Reader(STORED_A_COSTS + STORED_A_LINKS), [8] * 4, [8] * 3
    assert reader.take_links(fars, costs) == (10, 0, 0, 0, 0) and reader.position == 0
    assert reader.take_costs([]) == (3, 0, 0, 0, 0) and reader.position == 0
    assert reader.take_costs(out) == (0, 3, 9) and reader.position == 72
    assert reader.take_links(fars, costs) == (0, 3, 3, 11) and reader.position == 160
    assert fars == [2, 4, 6, 8] and costs == [1, 1, 1]
    for position in (1, 71, 73, 145, 152, 2 ** 64 - 8, 2 ** 64 - 1):
        refused = (9, 0, 0, 0, 0, position)
        assert first_two(stored, position, out, out) == refused + refused
        assert first_links(stored, position, fars, costs) == refused
    assert two_fields(STORED_A_COSTS, 0, 7, 20) == (0, 3, 7, 0, 1, 27)
    assert two_fields(STORED_A_LINKS, 14, 2, 21) == (0, 1, 16, 0, 1, 37)
    assert two_fields(STORED_A_COSTS, 8, 65, 64) == (9, 0, 0, 0, 0, 8, 0, 0x0000200002000020, 72)
    assert two_fields(STORED_A_COSTS, 73, 0, 1) == (9, 0, 0, 0, 0, 73) * 2
    assert two_fields(STORED_A_COSTS, 72, 0, 1) == (0, 0, 72, 9, 0, 0, 0, 0, 72)
    assert two_fields(STORED_A_COSTS + [1], 8, 65, 80) == (3, 0, 0, 0, 0, 8, 9, 0, 0, 0, 0, 8)


def test_reader(dice):
    """A reader takes written tables of both kinds in turn and stands at the end.
    Two cost tables are what it takes twice, or a refusal that writes nothing."""
    for n, form in itertools.product((3, 4, 5, 9, 33), (OLD, NEW)):
        t, t2 = random_table(dice, n, form.most_entry), random_table(dice, 4, 9)
        rows = tree_rows(dice, n, random_shape(dice), 9, even=False)
        fars, costs = [far for far, _ in rows], [cost for _, cost in rows]
        parts = [stored_costs(n, t, form), stored_links(n, fars, costs, dice.one_of([OLD, NEW])),
                 stored_costs(4, t2, dice.one_of([OLD, NEW]))]
        reader = Reader(sum(parts, []))
        out, found, found_costs = [0] * (n * n), [0] * (2 * n), [0] * (2 * n)
        assert reader.take_costs(out) == (0, n, len(parts[0])) and out == t
        assert reader.take_links(found, found_costs) == (0, n, len(rows), len(parts[1]))
        assert list(zip(found, found_costs))[:len(rows)] == rows
        out = [0] * 16
        assert reader.take_costs(out) == (0, 4, len(parts[2])) and out == t2
        assert reader.position == 8 * len(reader.stored)
        reader = Reader(parts[0])
        if form == NEW:
            assert reader.take_field(7) == (0, 127)
        assert reader.take_field(7) == (0, n)
        for i, j in pairs(n):
            assert reader.take_field(form.entry_bits) == (0, t[(i - 1) * n + j - 1])
        both, out = parts[0] + parts[2], [0] * (n * n)
        assert two_costs(both, out, [0] * 16) == (0, n, 4, len(both)) and out == t
        for short, table in (([], 1), (parts[0], 2), (both[:-1], 2), (parts[0][:-1], 1)):
            first, second = [7] * (n * n), [7] * 16
            assert two_costs(short, first, second) == (9, table, 0, 0, 0, 0)
            assert first == [7] * (n * n) and second == [7] * 16
        assert two_costs(both, [7] * (n * n - 1), []) == (3, 1, 0, 0, 0, 0)
        assert two_costs(both, [7] * (n * n), [7] * 15) == (3, 2, 0, 0, 0, 0)


def test_choice(dice):
    """A tree against itself with inner rows left out, in both orders and all forms."""
    for n, form, form2 in itertools.product((4, 5, 9, 33, 64), (OLD, NEW), (OLD, NEW)):
        rows = tree_rows(dice, n, "caterpillar", 9, even=False)
        inner = [far for far, _ in rows if is_inner(n, far)]
        left_out = dice.one_of(inner)
        fewer = [row for row in rows if row[0] != left_out]
        more = stored_links(n, [far for far, _ in rows], [cost for _, cost in rows], form)
        less = stored_links(n, [far for far, _ in fewer], [cost for _, cost in fewer], form2)
        assert choose(more + [3], less) == more and choice(more + [3], less) == (0, 1, len(more))
        assert choose(less, more + [3]) == more and choice(less, more + [3]) == (0, 2, len(more))
        assert choice(more, STORED_A_LINKS) == (15, 0, 0, 0, 0, 0)
    for form in (OLD, NEW):
        crossing = [stored_links(4, sorted([2, 4, 8, 14, far]), [1] * 5, form) for far in (6, 12)]
        assert choice(*crossing) == (14, 0, 0, 0, 0, 0) and choose(*crossing) == []


def test_sixty_four(dice):
    n = 64
    rows = tree_rows(dice, n, "uneven", 300)
    t = tree_table(n, rows)
    assert read_rows(exact, n, t) == rows and rows[-1][0] == 2 ** 64 - 2
    moved = noisy(dice, n, t, 2)
    drawn = read_rows(measured, n, moved)
    assert is_link_table(n, drawn)
    for i, j in pairs(n):
        assert path_of(drawn, i, j) <= 2 * moved[(i - 1) * n + j - 1]


def engines_agree(n, t):
    """Do both engines answer the same? With it, whether the table is accepted."""
    answer = read_rows(exact, n, t)
    assert read_rows(exact_grafted, n, t) == answer, (n, t)
    return isinstance(answer, list)


def moved_entries(dice, n, t, count):
    """The table with so many entries 1 more or less."""
    t = list(t)
    for _ in range(count):
        i, j = sorted(dice.mixed(range(n))[:2])
        entry = t[i * n + j] + dice.one_of([1, -1] if t[i * n + j] > 1 else [1])
        t[i * n + j] = t[j * n + i] = entry
    return t


def test_engines_on_all_small_tables():
    for n, most in ((3, 5), (4, 3)):
        agreed = [engines_agree(n, table_from(n, upper))
                  for upper in itertools.product(range(most + 1), repeat=len(pairs(n)))]
        assert any(agreed) and not all(agreed)


def test_engines(dice):
    """The second engine against the first: trees of every shape with own links of 0, the same
    with one or two entries moved, and tables that are no trees; then trees of many images, and
    those with one entry moved."""
    accepted = refused = 0
    for n in (3, 4, 5, 6, 7, 8, 9):
        tables = list(tables_to_try(dice, n, 60))
        for shape in ("star", "caterpillar", "uneven") * 8:
            rows = bare_rows(dice, n, tree_rows(dice, n, shape, dice.one_of([1, 2, 3, 12, 500])))
            t = tree_table(n, rows)
            assert read_rows(exact_grafted, n, t) == rows
            tables += [t] + [moved_entries(dice, n, t, count) for count in (1, 1, 2)]
        for t in tables:
            good = engines_agree(n, t)
            accepted, refused = accepted + good, refused + (not good)
    assert accepted > 200 and refused > 200, (accepted, refused)
    for n in (12, 20, 33, 64):
        for shape in ("star", "caterpillar", "uneven"):
            rows = bare_rows(dice, n, tree_rows(dice, n, shape, dice.one_of([2, 40, 9000])))
            t = tree_table(n, rows)
            assert read_rows(exact_grafted, n, t) == rows
            assert engines_agree(n, t)
            engines_agree(n, moved_entries(dice, n, t, 1))


def newick_rows(text):
    """Rows that the reader of Newick text answers, or its refusal; the text is a string. Just
    enough room gives the same as more, which keeps its ends; one place less in either output is 3,
    which comes behind 18 and 1 and before all else."""
    text = list(text.encode("latin-1"))
    fars, costs = [5] * 126, [6] * 126
    answer = read_newick(text, fars, costs)
    count = answer[2] if answer[0] == 0 else 0
    assert fars[count:] == [5] * (126 - count) and costs[count:] == [6] * (126 - count)
    if answer[0] != 0:
        assert read_newick(text, [], []) == (answer if answer[0] in (1, 18) else (3, 0, 0, 0, 0))
        return answer
    room = 2 * answer[1] - 3
    assert read_newick(text, [0] * room, [0] * room) == answer
    for short, shorter in ((room - 1, room), (room, room - 1), (0, 0)):
        assert read_newick(text, [0] * short, [0] * shorter) == (3, 0, 0, 0, 0)
    return list(zip(fars[:count], costs[:count]))


def newick_of(n, rows):
    """The text that the writer gives, as a string. Just enough room gives the same as more, which
    keeps its end; one byte less is 3."""
    fars, costs, out = [far for far, _ in rows], [cost for _, cost in rows], [77] * 1500
    refused, used = write_newick(n, len(rows), fars, costs, out)
    assert refused == 0 and out[used:] == [77] * (1500 - used)
    again = [78] * used
    assert write_newick(n, len(rows), fars, costs, again) == (0, used) and again == out[:used]
    assert write_newick(n, len(rows), fars, costs, again[1:]) == (3, 0, 0, 0, 0)
    return bytes(again).decode("ascii")


def test_newick_examples():
    for name, text in NEWICK.items():
        n, rows = EXAMPLES[name][0], MEASURED[name]
        assert newick_of(n, rows) == text and newick_rows(text) == rows
    fars, costs = [2, 4, 6], [1, 1, 1]
    for n in (0, 2, 65, 2 ** 64 - 1):
        assert write_newick(n, 2, [], [1], []) == (1, n, 0, 0, 0)
    for count in (0, 2, 4, 2 ** 64 - 1):
        assert write_newick(3, count, fars, [], []) == (10, count, 0, 0, 0)
    assert write_newick(3, 3, [2, 4, 7], [1, 1], []) == (2, 0, 0, 0, 0)
    assert write_newick(3, 3, [2, 4, 7], costs, []) == (12, 3, 0, 0, 0)
    assert write_newick(4, 4, [2, 4, 12, 14], [1, MOST_COST, 1, 1], []) == (13, 4, 0, 0, 0)
    assert write_newick(4, 4, [2, 4, 12, 14], [1, MOST_COST, 0, 1], []) == (12, 3, 0, 0, 0)
    assert write_newick(3, 3, fars, [1, MOST_COST + 1, 1], []) == (12, 2, 0, 0, 0)
    assert write_newick(3, 3, fars, costs, [0] * 13) == (3, 0, 0, 0, 0)
    # Four images: every table that there is has a text of its own.
    texts = set()
    for chosen in range(128):
        rows = [(2 * far, 1) for far in range(1, 8) if chosen >> (far - 1) & 1]
        if is_link_table(4, rows):
            texts.add(newick_of(4, rows))
            assert newick_rows(newick_of(4, rows)) == rows
    assert len(texts) == 4


def test_newick_refusals():
    """What is said of single texts in the documents and the decisions on them."""
    deep = "".join("(%d:0," % image for image in range(1, 63))
    wide = ",".join("2:0" for _ in range(63))
    for text, refused in (
            ("", (18, 1)), ("(", (18, 2)), ("(2:0", (18, 2)), ("((1:0", (18, 2)), ("(10:", (18, 3)),
            ("(1,", (18, 3)), ("(1:00", (18, 5)), ("(1:01", (18, 5)), ("(1:0,0", (18, 6)), ("(1:0,02", (18, 6)),
            ("(1:0,100:", (18, 8)), ("(1:0,65:123456789", (18, 17)), ("(1:0,(2:0)", (18, 10)),
            ("(1:0,2:0)", (18, 9)), ("(1:0,)", (18, 6)), ("(1:0,2:0,3:0):0;", (18, 14)),
            ("(1:0,2:0,3:0)", (18, 14)), ("(1:0,2:0,3:0);\n", (18, 15)), ("(1:0,2:0,3:0);(", (18, 15)),
            ("(1:0, 2:0,3:0);", (18, 6)), ("(1:0,2:0,(3:0,4:0));", (18, 19)), ("(1:+1", (18, 4)),
            (deep + "(", (18, len(deep) + 1)), (deep + "63:0,64:0", (18, len(deep) + 10)),
            ("(1:0,%s,3:00);" % wide, (18, 261)), ("(1:0,%s,3:0);" % wide, (1, 65)),
            ("(1:0,%s,%s);" % (wide, wide), (1, 127)),
            ("(1:0,1:0,2:0);", (13, 3)), ("(1:0,99:0,2:99999999);", (13, 3)), ("(1:0,3:0,3:0,5:0);", (13, 2)),
            ("(1:0,2:0,4:0);", (13, 3)), ("(1:0,3:16000001,2:16000001);", (12, 1)),
            ("(1:16000001,3:0,2:0);", (12, 3)), ("(1:0,(4:0,3:0):0,2:0);", (12, 4)),
            ("(1:0,(4:0,3:0):1,2:0);", (22, 11)), ("(1:0,3:0,2:0);", (22, 10)),
            ("(1:0,6:0,((5:0,4:0):1,3:0):1,2:0);", (22, 10)), ("(1:0,2:0,((5:0,4:0):1,3:0):1,6:0);", (22, 16))):
        assert newick_rows(text) == refused + (0,) * (5 - len(refused)), text
    assert newick_rows("(1:16000000,2:0,3:0);") == [(2, 0), (4, 0), (6, 16000000)]


def test_longest_newick_text(dice):
    """64 images one behind another, 62 brackets in each other, with the largest costs; an image more
    is a bracket too many where it stands deepest, and else an image too many."""
    text = newick_of(64, [(far, MOST_COST) for far in tree_far_sides(dice, 64, "caterpillar")])
    assert len(text) == 1432 and text.count("(") == 62 and len(newick_rows(text)) == 125
    deepest = re.search("[0-9]+:[0-9]+(?=,[0-9]+:[0-9]+[)])", text)
    more = text[:deepest.start()] + "(64:1,65:1):1" + text[deepest.end():]
    assert newick_rows(more) == (18, deepest.start() + 1, 0, 0, 0)
    more = text[:deepest.start()] + "65:1," + text[deepest.start():]
    assert newick_rows(more) == (1, 65, 0, 0, 0)


def is_newick(text):
    """Is it a text of the profile? Innermost brackets are taken for an image until none but the
    outermost is left."""
    most_open = max(itertools.accumulate([0] + [(byte == "(") - (byte == ")") for byte in text]))
    vertex = "([1-9][0-9]?|x):(0|[1-9][0-9]{0,7})"
    text, before = ("" if "x" in text else text), None
    while text != before:
        text, before = re.sub(r"\(%s(,%s)+\)(?=:)" % (vertex, vertex), "x", text), text
    root = r"\(1:(0|[1-9][0-9]{0,7})(,%s){2,}\);" % vertex
    return most_open <= MOST_OPEN and re.fullmatch(root, text) is not None


@functools.lru_cache(maxsize=None)
def begins_newick(text):
    """Does a text of the profile begin so? A vertex that has begun is ended, and every bracket that
    is open gets two vertices more and is closed."""
    for end in ("", "(1:0", "1:0", ":0", "0"):
        now_open = (text + end).count("(") - (text + end).count(")")
        closed = ",2:0,2:0):0" * (now_open - 1) + ",2:0,2:0);" if now_open > 0 else ";"
        if is_newick(text + end) or is_newick(text + end + closed):
            return True
    return False


def place_outside(text):
    """The place of the first byte that no text of the profile has there, or None."""
    if is_newick(text):
        return None
    return next((end for end in range(1, len(text) + 1) if not begins_newick(text[:end])), len(text) + 1)


def test_newick_places(dice):
    """The place of 18 is where the beginning of the text is no longer that of a text that could be
    completed, for every byte of some texts changed, left out, or put in, and for texts that end
    there; what is accepted is what the writer gives."""
    texts = list(NEWICK.values()) + ["(1:0,(10:99999999,2:10):16000001,9:0,(3:0,(4:1,(5:0,63:0,6:1):8):0):9);"]
    texts += [newick_of(n, tree_rows(dice, n, random_shape(dice), 99, even=False)) for n in (5, 9, 12)]
    changed = set()
    for text in texts:
        for at in range(len(text) + 1):
            changed.add(text[:at])
            for put in dice.mixed("(),:; 0189x")[:3]:
                changed |= {text[:at] + put + text[at + 1:], text[:at] + put + text[at:]}
            changed.add(text[:at] + text[at + 1:])
        for _ in range(20):
            one, other = sorted(dice.below(len(text)) for _ in range(2))
            changed |= {text[:one] + text[other:], text[:other] + text[one:]}
    accepted = refused = 0
    for text in sorted(changed) + texts:
        place, answer = place_outside(text), newick_rows(text)
        if place is not None:
            assert answer == (18, place, 0, 0, 0), text
            refused += 1
        elif isinstance(answer, list):
            assert newick_of(text.count(",") + 1, answer) == text
            accepted += 1
        else:
            assert answer[0] in (12, 13, 22), text
    assert accepted > 50 and refused > 1000, (accepted, refused)
    # 62 brackets, and what stands behind them.
    deep = "(1:0," + "(2:0," * 61
    for text in (deep + "3:0)", deep + "(", deep + "(3:0,4:0)", deep[:-5] + "3:0,4:0):0);",
                 deep + "3:0" + "):0" * 61 + ")", deep + "3:0" + "):0" * 60 + "," + "(2:0," * 2):
        assert newick_rows(text) == (18, place_outside(text), 0, 0, 0), text


def mixed_newick(dice, fars, costs, row=0):
    """The vertices at the far end of a row, all of them for the last, as nested lists in an order
    of chance: the far side, the cost, and what its bracket has."""
    uppers = upper_rows_of(fars)
    return [[fars[at], costs[at], mixed_newick(dice, fars, costs, at + 1)]
            for at in dice.mixed(at for at, upper in enumerate(uppers) if upper == (row or len(fars)))]


def spelled(vertices):
    """The text of nested lists, without the brackets around them, and the places in it, from 0, of
    all siblings that are below the one before, in the order of the text."""
    text, places, before = "", [], 0
    for far, cost, inside in vertices:
        text += "," if text else ""
        if far < before:
            places.append(len(text))
        before = far
        inner, inner_places = spelled(inside)
        places += [len(text) + 1 + place for place in inner_places]
        text += ("(%s):%d" % (inner, cost)) if inside else "%d:%d" % (far.bit_length(), cost)
    return text, places


def test_newick(dice):
    """Reading undoes writing, for trees of every shape and size; siblings in another order are
    refused at the first that is below the one before, and a bad cost is found before them, at the
    lowest row whatever the order."""
    ordered = 0
    for n in list(range(3, 14)) + [20, 33, 47, 63, 64]:
        for shape in ("star", "caterpillar", "uneven", "uneven"):
            rows = tree_rows(dice, n, shape, dice.one_of([1, 9, 300, MOST_COST - 1]), even=False)
            text = newick_of(n, rows)
            assert newick_rows(text) == rows and newick_of(n, newick_rows(text)) == text
            fars, costs = [far for far, _ in rows], [cost for _, cost in rows]
            for _ in range(2 if n > 9 else 6):
                inner, places = spelled(mixed_newick(dice, fars, costs))
                front = "(1:%d," % costs[-1]
                found = newick_rows(front + inner + ");")
                if places:
                    assert found == (22, len(front) + 1 + places[0], 0, 0, 0)
                else:
                    assert found == rows and front + inner + ");" == text
                    ordered += 1
            worse = list(costs)
            for row in dice.mixed(range(len(rows)))[:2]:
                worse[row] = MOST_COST + 1 if dice.chance(1, 2) or not is_inner(n, fars[row]) else 0
            lowest = min(row for row in range(len(rows)) if worse[row] != costs[row])
            inner, _ = spelled(mixed_newick(dice, fars, worse))
            assert newick_rows("(1:%d,%s);" % (worse[-1], inner)) == (12, lowest + 1, 0, 0, 0)
    assert ordered > 10, ordered


def replayed(n, t, events):
    """What a replay answers, and the rows that it leaves. Just enough room gives the same as more,
    which keeps its ends; one place less in either output is 3, however few images are left."""
    room = 2 * n
    fars, costs = [5] * room, [6] * room
    answer = replay(n, t, events, fars, costs)
    count, needed = answer[-2], 2 * n - 3
    assert fars[count:] == [5] * (room - count) and costs[count:] == [6] * (room - count)
    rows = list(zip(fars, costs))[:count]
    fars, costs = [5] * needed, [6] * needed
    assert replay(n, t, events, fars, costs) == answer and list(zip(fars, costs))[:count] == rows
    if count > 0:
        for short, shorter in ((needed - 1, needed), (needed, needed - 1)):
            assert replay(n, t, events, [0] * short, [0] * shorter) == (3, 0, 0, 0, 0, 0, 0, 0)
    return answer, rows


def left_of(n, events):
    """The images, by their first numbers, that are left after these events."""
    left = list(range(1, n + 1))
    for image in events:
        del left[image - 1]
    return left


def test_replay_examples():
    for name in EXAMPLES:
        n, t = example(name)
        for events in ([], [0], [n + 1], [2] * 70):
            answer, rows = replayed(n, t, events)
            if name in NOT_EXACT:
                assert (answer, rows) == (NOT_EXACT[name] + (0, 0, 0), [])
            elif not events:
                assert (answer, rows) == ((0, n, len(rows), 0), MEASURED[name])
            elif events[0] != 2:
                assert (answer, rows) == ((8, 0, 0, 0, 0, n, len(rows), 1), MEASURED[name])
            else:
                assert answer == (1, 2, 0, 0, 0, 3, 3, n - 2)
    for (name, image), rows in LEFT.items():
        n, t = example(name)
        assert replayed(n, t, [image]) == ((0, n - 1, len(rows), 0), rows)
        assert mended(n, MEASURED[name], image) == rows
    # The second event would leave two; an image that is not there is found before that, and what
    # stands behind a refused event plays no part.
    n, e = example("E")
    for more in ([], [1], [0, 255], [3] * 70):
        assert replayed(n, e, [1, 1] + more) == ((1, 2, 0, 0, 0, 3, 3, 2), LEFT["E", 1])
        for unknown in (0, 4, 5, 64, 128, 255):
            assert replayed(n, e, [4, unknown] + more) == ((8, 0, 0, 0, 0, 3, 3, 2), LEFT["E", 4])
    # Image 7 leaves and is then unknown. Each time image 1 leaves, 2 becomes 1: of H are left 5, 6 and 7,
    # and 5 is reached over its own link, that of 4 and 5, and that of 6 and 7.
    n, h = example("H")
    assert replayed(n, h, [7, 7]) == ((8, 0, 0, 0, 0, 6, 9, 2), LEFT["H", 7])
    three = [(2, 48), (4, 12), (6, 14 + 42 + 18)]
    assert replayed(n, h, [1] * 4) == ((0, 3, 3, 0), three)
    assert replayed(n, h, [1] * 5) == ((1, 2, 0, 0, 0, 3, 3, 5), three)


def test_replay_start(dice):
    """The start is refused as the exact reading refuses it, whatever the events are; room is that of
    the start, also where the rows that are left have enough."""
    for events in ([], [1], [0], [1, 1, 0], [255] * 70):
        for n in (0, 2, 65, 2 ** 64 - 1):
            assert replay(n, [], events, [], []) == (1, n, 0, 0, 0, 0, 0, 0)
        for n in (3, 4, 6, 9):
            good = tree_table(n, tree_rows(dice, n, random_shape(dice), 20))
            bad, room = [MOST_ENTRY + 1] * (n * n), 2 * n - 3
            for t in (bad[1:], bad + bad[:1], []):
                assert replay(n, t, events, [], []) == (2, 0, 0, 0, 0, 0, 0, 0)
            for t, short, shorter in ((bad, 0, room), (good, room - 1, room), (good, room, room - 1)):
                assert replay(n, t, events, [0] * short, [0] * shorter) == (3, 0, 0, 0, 0, 0, 0, 0)
            for fault in (4, 5, 6, 20, 7):
                t, refused = spoilt(n, good, fault)
                assert replayed(n, t, events) == (refused + (0, 0, 0), [])


def test_replay(dice):
    """After every event the table read anew has the rows that mending gives from the old ones, for trees
    of every shape; then an event is refused. The order in which images leave plays no part, and of
    the last three each own link is what their three entries say."""
    joined = unsorted = 0
    for n in list(range(4, 13)) + [20, 33, 64]:
        for shape in ("star", "caterpillar", "uneven", "uneven") * (3 if n < 10 else 1):
            rows = bare_rows(dice, n, tree_rows(dice, n, shape, dice.one_of([1, 2, 3, 12, 500, 60000])))
            t, start, events = tree_table(n, rows), rows, []
            while n - len(events) > 3:
                left = n - len(events)
                image = dice.one_of([1, left, dice.between(1, left), dice.between(1, left)])
                kept = [far % 2 ** (image - 1) + far // 2 ** image * 2 ** (image - 1) for far, _ in rows]
                before, rows = rows, mended(left, rows, image)
                joined, unsorted = joined + (len(before) - len(rows) > 1), unsorted + (kept != sorted(kept))
                events.append(image)
                if n < 13 or len(events) in (1, 2, n // 2, n - 4, n - 3):
                    assert is_link_table(left - 1, rows)
                    assert replayed(n, t, events) == ((0, left - 1, len(rows), 0), rows)
                    unknown = dice.one_of([0, left, 255])
                    assert replayed(n, t, events + [unknown, 1]) == (
                        (8, 0, 0, 0, 0, left - 1, len(rows), len(events) + 1), rows)
            for image in (1, 2, 3):
                assert replayed(n, t, events + [image]) == ((1, 2, 0, 0, 0, 3, 3, n - 2), rows)
            assert replayed(n, t, []) == ((0, n, len(start), 0), start)
            # The same images in another order: each by its number among those that are still there.
            gone = dice.mixed(sorted(set(range(1, n + 1)) - set(left_of(n, events))))
            again = [image - sum(other < image for other in gone[:at]) for at, image in enumerate(gone)]
            assert replayed(n, t, again) == ((0, 3, 3, 0), rows)
            d, (i, j, k) = square(n, t), left_of(n, events)
            assert rows == [(2, d[i][j] + d[j][k] - d[i][k]), (4, d[i][k] + d[j][k] - d[i][j]),
                            (6, d[i][j] + d[i][k] - d[j][k])]
    assert joined > 100 and unsorted > 100, (joined, unsorted)


def reported(stored):
    """What a report answers, and its entries, held to the second way. Just enough room gives the same as
    more; places behind the entries stay, and one place less in any slice is 3 and alters none."""
    answer, entries = report_by_steps(stored)
    for more, more2, more3 in ((0, 0, 0), (3, 0, 70)):
        lent = [[5] * (MOST_SIDES + more), [6] * (MOST_SIDES + more2), [7] * (MOST_SIDES + more3)]
        before = [list(places) for places in lent]
        assert report(stored, *lent) == answer
        assert list(zip(*[places[:len(entries)] for places in lent])) == entries
        assert all(places[len(entries):] == old[len(entries):] for places, old in zip(lent, before))
    for short in range(3):
        lent = [[8] * (MOST_SIDES - (place == short)) for place in range(3)]
        before = [list(places) for places in lent]
        assert report(stored, *lent) == (3,) + (0,) * 14 and lent == before
    return answer, entries


def stored_stream(tables, form=OLD):
    """Stored tables of one form, one after another."""
    return [byte for n, t in tables for byte in stored_costs(n, t, form)]


def test_report_examples():
    """E and G are accepted, F gets 7: far side 12 is in both trees E, with cost 4 in each, and the pairs are
    E and G, G and E, for F does not part E and G."""
    tables = [example(name) for name in "EFGE"]
    for form, used in ((OLD, 64), (NEW, 76)):
        stored = stored_stream(tables, form)
        assert reported(stored) == ((0, 4, 4, 3, 1, 1, 2, 2, 1, used), [(12, 2, 8)])
        assert reported(stored + [6])[0] == (9, 5, 0, 0, 0, 0, 4, 4, 3, 1, 1, 2, 2, 1, used)
    assert reported([]) == ((0,) * 10, [])
    for name in EXAMPLES:
        n, t = example(name)
        stored = stored_costs(n, t)
        inner = [(far, cost) for far, cost in MEASURED[name] if is_inner(n, far)]
        if name in NOT_MEASURED:
            number, *pair = NOT_MEASURED[name]
            assert reported(stored * 2) == ((number, 1, *pair) + (0,) * 9, [])
        elif name in NOT_EXACT:
            assert reported(stored * 2) == ((0, n, 2, 0, 2, 0, 0, 0, 0, 2 * len(stored)), [])
        else:
            assert reported(stored) == ((0, n, 1, 1, 0, len(inner), 0, 0, 0, len(stored)),
                                        [(far, 1, cost) for far, cost in inner])
            assert reported(stored * 3) == ((0, n, 3, 3, 0, len(inner), 2, 0, 0, 3 * len(stored)),
                                            [(far, 3, 3 * cost) for far, cost in inner])
    # An n other than the first table's, also of a first or a later table that gets 7; but 9 comes before it,
    # and so does a zero between two images.
    e, f, a, c = [stored_costs(*example(name)) for name in "EFAC"]
    for first, used, kept in ((e, 16, 1), (f, 16, 0), (a, 9, 1), (c, 9, 0)):
        n = 4 if used == 16 else 3
        figures = (n, 1, kept, 1 - kept, int(first == e), 0, 0, 0, used)
        for other in (a, c) if n == 4 else (e, f):
            assert reported(first + other)[0] == (15, 2, 0, 0, 0, 0) + figures
            assert reported(first + other[:-1])[0] == (9, 2, 0, 0, 0, 0) + figures
        for images in (3, 4):
            zeros = stored_costs(images, table_from(images, [2, 0, 0, 0, 0, 0]))
            assert reported(first + zeros)[0] == (20, 2, 1, 3, 0, 0) + figures


def test_term_text():
    e, f, g, a = [stored_costs(*example(name)) for name in "EFGA"]
    assert term_text([]) == ("images 0 tables 0 accepted 0 apart 0 bytes 0\n"
                             "pairs 0 counts 0 largest 0\n"
                             "sides 0\n")
    assert term_text(e + f + g + e) == ("images 4 tables 4 accepted 3 apart 1 bytes 64\n"
                                        "pairs 2 counts 2 largest 1\n"
                                        "sides 1\n"
                                        "12 2 8\n")
    assert term_text(e + a) == ("images 4 tables 1 accepted 1 apart 0 bytes 16\n"
                                "pairs 0 counts 0 largest 0\n"
                                "sides 1\n"
                                "12 1 4\n"
                                "table 2 refused 15 0 0 0 0\n")
    assert term_text([4, 0, 0, 32]).splitlines()[-1] == "table 1 refused 1 2 0 0 0"
    assert term_text(a + stored_costs(*example("B"))).splitlines()[-1] == "table 2 refused 20 1 2 0 0"


def spoilt_stored(n, number, form):
    """Bytes of a table of n images that gets this refusal, and its places. 15 is that of another n."""
    bits = form.mark + field(7, {1: 2, 15: n - 1}.get(number, n))
    images = n - 1 if number == 15 else n
    bits += field(form.entry_bits, 2) * (len(pairs(images)) - 1)
    bits += field(form.entry_bits, {4: form.most_entry + 1, 20: 0}.get(number, 2))
    stored = bytes_of_bits(bits)
    if number == 11:
        stored[-1] += 1
    return stored[:-1] if number == 9 else stored, {1: (2,), 4: (n - 1, n), 20: (n - 1, n)}.get(number, ())


def test_report_refusals(dice):
    """A refused table ends the report wherever it stands, and the figures are those of the tables before,
    whatever stands behind; but after table 500 nothing is looked at."""
    for n in (5, 6, 9):
        for number in (9, 1, 11, 4, 20, 15):
            for form in (OLD, NEW):
                tables = [(n, tree_table(n, tree_rows(dice, n, random_shape(dice), 9))) for _ in range(5)]
                tables[dice.below(5)] = n, bent(n, tables[0][1])
                bad, places = spoilt_stored(n, number, form)
                for before in range(0 if number != 15 else 1, 6):
                    front = stored_stream(tables[:before])
                    behind = [] if number == 9 else stored_stream(tables[before:])
                    figures, entries = reported(front)
                    refused = Refusal(number, places, before + 1).answer() + figures[1:]
                    assert reported(front + bad + behind) == (refused, entries)
    for n, form in ((3, OLD), (4, NEW)):
        one = stored_costs(n, table_from(n, [2] * 6), form)
        full = reported(one * 500)
        assert full == ((0, n, 500, 500, 0, 0, 499, 0, 0, 500 * len(one)), [])
        for behind in ([0], one, one[:-1], [255] * 30):
            assert reported(one * 500 + behind) == full
            assert reported(one * 499 + behind)[0][:2] == ((9, 500) if behind == one[:-1] else
                                                           (0, n) if behind == one else (1, 500))


def test_report_limits(dice):
    """1,024 far sides are kept. A tree with one more gets 19, whatever stands behind it, and counts in
    nothing; tables with 7 and trees with old far sides go on. A sum needs more than 32 bits."""
    n = 13
    trees = trees_with_sides(dice, n, MOST_SIDES)
    tables = [(n, tree_table(n, rows)) for rows in trees]
    stored, seen = stored_stream(tables), {far for rows in trees for far, _ in rows}
    figures, entries = reported(stored)
    assert figures[:6] == (0, n, len(trees), len(trees), 0, MOST_SIDES)
    assert [far for far, _, _ in entries] == sorted(far for far in seen if is_inner(n, far))
    fresh = next(far for far in range(6, 2 ** n, 2) if is_inner(n, far) and far not in seen)
    own = [(own_link(n, image), 2) for image in range(1, n + 1)]
    one_more = stored_costs(n, tree_table(n, sorted(own + [(fresh, 2)])))
    assert reported(stored + one_more + stored[:200]) == (
        (19, len(trees) + 1, 0, 0, 0, 0) + figures[1:], entries)
    again = stored_stream([(n, bent(n, tables[0][1])), tables[3]])
    answer, entries_again = reported(stored + again + one_more)
    assert answer[:11] == (19, len(trees) + 3, 0, 0, 0, 0, n, len(trees) + 2, len(trees) + 1, 1, MOST_SIDES)
    assert sum(trees for _, trees, _ in entries_again) == sum(trees for _, trees, _ in entries) + n - 3
    assert reported(one_more + stored)[0][:2] == (19, len(trees) + 1)
    most = stored_costs(4, table_from(4, [1, MOST_ENTRY, MOST_ENTRY, MOST_ENTRY, MOST_ENTRY, 1]), NEW)
    assert reported(most * 500)[1] == [(12, 500, 500 * (MOST_COST - 2))] and 500 * (MOST_COST - 2) > 2 ** 32


def stream_to_try(dice, n):
    """Some tables of n images, a few of them the same and a few without a wiring."""
    tables = []
    for _ in range(dice.between(1, 8)):
        rows = tree_rows(dice, n, random_shape(dice), dice.one_of([2, 9, 300]))
        t = dice.one_of([t for _, t in tables] + [tree_table(n, rows)] * 4)
        tables.append((n, bent(n, t) if dice.chance(1, 4) else t))
    return tables


def test_report(dice):
    """On streams of chance: each far side's number and sum over all trees, and the counts as the comparison
    gives them; in another order the same far sides have the same figures."""
    for n in [3, 4, 4, 5, 5, 6, 7, 8, 9, 9, 12, 20] * 2:
        tables = stream_to_try(dice, n)
        answer, entries = reported(stored_stream(tables))
        accepted = [t for _, t in tables if isinstance(read_rows(exact_grafted, n, t), list)]
        trees = [dict(read_rows(exact_grafted, n, t)) for t in accepted]
        sides = {far for tree in trees for far in tree if is_inner(n, far)}
        assert entries == [(far, sum(far in tree for tree in trees), sum(tree.get(far, 0) for tree in trees))
                           for far in sorted(sides)]
        counts = [compare(n, t, after)[4] for t, after in zip(accepted, accepted[1:])]
        assert answer == (0, n, len(tables), len(accepted), len(tables) - len(accepted), len(sides), len(counts),
                          sum(counts), max(counts, default=0), len(stored_stream(tables)))
        other, other_entries = reported(stored_stream(dice.mixed(tables)))
        assert other_entries == entries and other[:7] + other[9:] == answer[:7] + answer[9:]


def test_cut_report(dice):
    """A stream that ends with a table has the figures of the tables up to there, and so has one that ends
    inside the next; the forms change nothing but the bytes used."""
    for n in [3, 4, 5, 5, 6, 9, 9, 12]:
        tables = stream_to_try(dice, n)
        parts = [stored_costs(*table, dice.one_of([OLD, NEW])) for table in tables]
        whole = sum(parts, [])
        answer, entries = reported(stored_stream(tables))
        assert reported(whole) == (answer[:-1] + (len(whole),), entries)
        for end in range(len(tables) + 1):
            front, behind = sum(parts[:end], []), sum(parts[end:], [])
            answer, entries = reported(front)
            assert answer == (0,) + figures_of(tables_read(whole)[0][:end])
            if behind:
                cut = behind[:dice.between(1, len(parts[end]) - 1)]
                assert reported(front + cut) == ((9, end + 1, 0, 0, 0, 0) + answer[1:], entries)


def of_table(answer, table):
    """An answer without the table's number, which must be this one where it is a refusal."""
    assert answer[0] == 0 or answer[1] == table, (answer, table)
    return answer[:1] + answer[2:6]


def of_text(text):
    """The refusal that the text of a listing is; (0,) for a listing."""
    words = text.split()
    return tuple(map(int, words[1:])) if words[0] == "refused" else (0,)


def by_every_table_call(n, t, good):
    """What each call that takes a cost table says of this one, as the number and the places. Where a call takes
    several, it stands in front of a good one and behind it, and its own number must be said."""
    fars, costs = [0] * 2 * n, [0] * 2 * n
    answers = [index(n, t, 2), order(n, t, n, 1, [0] * n), replay(n, t, [], fars, costs)[:5]]
    answers += [reading_call(n, t, fars, costs) for reading_call in (measured, exact, exact_grafted, levels)]
    answers += [write_costs(form, n, t, [0] * 6000) for form in FORM_NUMBERS]
    for table, both in ((1, (t, good)), (2, (good, t))):
        answers.append(of_table(compare(n, *both), table))
        answers.append(of_table(consensus(n, 3, sum(both, []) + good, fars, costs), table))
    return answers


def by_every_stored_call(n, t, good, form):
    """The same of the calls and programs that read a stored one, which this is in this form."""
    stored, before, out = stored_costs(n, t, form), stored_costs(n, good), [0] * (n * n)
    answers = [read_costs(stored, 0, out), read_costs(before + stored, 8 * len(before), out)]
    answers += [convert_costs(number, stored, [0] * 6000) for number in FORM_NUMBERS]
    answers += [of_text(program(stored)) for program in (listing, listing_last_n, newick_line, levels_listing)]
    answers += [of_table(two_costs(stored + before, out, out), 1), of_table(two_costs(before + stored, out, out), 2)]
    answers += [first_two(stored, 0, out, out)[:5], first_two(before + stored, 0, out, out)[4:9]]
    places = [0] * MOST_SIDES
    answers += [of_table(report(stored + before, places, places, places), 1),
                of_table(report(before + stored, places, places, places), 2)]
    return answers


def says_of_zeros(n, t, good):
    """Exactly where two images cost nothing does each call give 20, at the first such pair."""
    refused = [(20, i, j, 0, 0) for i, j in zeros_in(n, t)[:1]]
    answers = by_every_table_call(n, t, good)
    for form in (OLD, NEW):
        answers += by_every_stored_call(n, t, good, form)
    for answer in answers:
        assert answer == refused[0] if refused else answer[0] != 20, (n, t, answer)
    return answers


def test_zeros(dice):
    """Every table of three images with entries to 2; tables of more images with zeros first, last, between, and
    several, of which the lowest row counts, and in it the lowest column. B is refused by every call, D by none but
    for having no levels: its own link of 0 stays."""
    good = {n: tree_table(n, tree_rows(dice, n, "uneven")) for n in (3, 4, 5, 9, 33)}
    for upper in itertools.product(range(3), repeat=3):
        says_of_zeros(3, table_from(3, upper), good[3])
    assert set(says_of_zeros(*example("B"), good[3])) == {(20, 1, 2, 0, 0)}
    assert {answer[0] for answer in says_of_zeros(*example("D"), good[3])} == {0, 21}
    for n in (4, 5, 9, 33):
        middle = dice.one_of(pairs(n)[1:-1])
        for zeros in ([(1, 2)], [(n - 1, n)], [middle], [(1, n), (2, 3)], [(1, 4), (2, 3), (n - 1, n)], [(2, 3), (2, 4)]):
            t = good[n]
            for i, j in zeros:
                t = table_from(n, [0 if pair == (i, j) else t[(pair[0] - 1) * n + pair[1] - 1] for pair in pairs(n)])
            assert zeros_in(n, t) == zeros
            assert set(says_of_zeros(n, t, good[n])) == {(20, *zeros[0], 0, 0)}


def test_zeros_among_faults():
    """20 stands behind 4, 5 and 6, and before 7, 8, 12 and 17, and before a writer's room; in what is stored behind
    9, 11 and 4. Room that is asked before the entries comes before it too."""
    n, room = 4, 5
    t = table_from(n, [1000001, 0, 9, 0, 1, 1])
    refused, short = (20, 1, 3, 0, 0), (3, 0, 0, 0, 0)
    assert first_failing_four(n, tuple(t)) is not None
    assert order(n, t, 1, 1, [0] * n) == order(n, t, 0, 5, [0] * n) == refused and order(n, t, 1, 2, [0] * 3) == short
    assert index(n, t, 0) == index(n, t, 3) == index(n, t, 16) == refused
    assert write_costs(0, n, t, []) == write_costs(1, n, t, []) == refused
    for reading_call in (measured, exact, exact_grafted):
        assert reading_call(n, t, [0] * room, [0] * room) == refused
        assert reading_call(n, t, [0] * (room - 1), [0] * room) == short
    assert levels(n, t, [0] * 3, [0] * 3) == refused and levels(n, t, [0] * 3, [0] * 2) == short
    assert replay(n, t, [0], [0] * room, [0] * room)[:5] == refused and replay(n, t, [], [], [])[:5] == short
    for place, entry, earlier in ((15, 1, (5, 4, 0, 0, 0)), (14, 2, (6, 3, 4, 0, 0)), (14, 8000001, (4, 4, 3, 0, 0)),
                                  (2, 1, (6, 1, 3, 0, 0))):
        bad = list(t)
        bad[place] = entry
        assert set(by_every_table_call(n, bad, example("E")[1])) == {earlier}
    new = stored_costs(n, t, NEW)
    assert convert_costs(0, new, []) == refused == of_text(newick_line(new))
    n = 5
    for form in (OLD, NEW):
        upper = [7, 0, 9, 0, form.most_entry, 0, 5, 5, 5]
        stored, too_large = [stored_costs(n, table_from(n, upper + [last]), form) for last in (0, form.most_entry + 1)]
        for found, answer in ((stored, refused), (too_large, (4, 4, 5, 0, 0)), (stored[:-1], (9, 0, 0, 0, 0)),
                              (stored[:-1] + [1], (11, 0, 0, 0, 0))):
            assert read_costs(found, 0, [0] * 25) == answer and read_costs(found, 0, [0] * 24) == short
            assert convert_costs(0, found, []) == convert_costs(1, found, []) == of_text(listing(found)) == answer


def cut_by(n, members):
    """The far side of the division between a group and the other images."""
    return 2 ** n - 1 - members if holds(members, 1) else members


def rows_of_groups(n, groups_found):
    """The rows of the tree that groups make: each of them but the full one, and each image, hangs on the smallest group
    that contains it and more, by a link whose doubled cost is what that one is higher. Where the full group has two
    parts alone, their links are one."""
    rows = {}
    for part, height in [(2 ** i, 0) for i in range(n)] + groups_found:
        above = [group for group in groups_found if group[0] & part == part != group[0]]
        if above:
            far = cut_by(n, part)
            rows[far] = rows.get(far, 0) + min(above, key=lambda group: ones(group[0]))[1] - height
    return sorted(rows.items())


def hold_groups(n, t, found):
    """Groups that the levels call answers, held to document 02 and to the exact reading: the full set is the last of
    them, two of them are nested or disjoint, the entry of two images is the height of the smallest that holds both,
    the groups but the full one are sides of the exact tree, its inner far sides are cut off by groups, and its rows
    are those of the tree that the groups make."""
    d, full = square(n, t), 2 ** n - 1
    assert 1 <= len(found) <= n - 1 and found[-1] == (full, max(t)) and found == sorted(found)
    assert not any(crosses(one, other) for one, _ in found for other, _ in found)
    for members, height in found:
        assert ones(members) >= 2 and height == largest_inside(d, members_of(n, members))
    for i, j in pairs(n):
        assert smallest_holding(found, i, j)[1] == d[i][j]
    if n <= 8:
        assert found == groups_by_definition(n, t)
    rows = read_rows(exact, n, t)
    assert isinstance(rows, list), (n, t, rows)
    cuts = {cut_by(n, members) for members, _ in found if members != full}
    assert cuts <= {far for far, _ in rows} and {far for far, _ in rows if is_inner(n, far)} <= cuts
    assert rows == rows_of_groups(n, found)


def levels_hold(n, t):
    """What the levels call answers for a table of few images without zeros. It is refused exactly where some three
    images fail, at the first of them, and these are three different ones."""
    d, answer = square(n, t), read_groups(n, t)
    failing = {tuple(sorted(three)) for three in itertools.product(range(1, n + 1), repeat=3)
               if not three_point_holds(d, *three)}
    assert all(i < j < k for i, j, k in failing)
    if failing:
        assert answer == (21, *min(failing), 0), (n, t, answer)
    else:
        hold_groups(n, t, answer)
    return answer


def test_levels_examples():
    for name in EXAMPLES:
        n, t = example(name)
        found = NOT_LEVELS.get(name) or LEVELS[name]
        assert read_groups(n, t) == read_groups(n, t, 0) == found, name
        for form in (OLD, NEW):
            lines = levels_listing(stored_costs(n, t, form) + [1, 2, 3]).splitlines()
            assert (lines == ["refused %d %d %d %d %d" % found] if name in NOT_LEVELS
                    else lines[0] == "images %d groups %d" % (n, len(found)) and len(lines) == 1 + len(found))
    for form in (OLD, NEW):
        assert levels_listing(stored_costs(*example("E"), form)) == LEVELS_LISTING_E
        assert levels_listing(stored_costs(*example("C"), form)) == LEVELS_LISTING_C
    assert levels_listing(STORED_A_COSTS_NEW) == "images 3 groups 1\n7 1 1 2 3\n"
    assert levels_listing([]) == "refused 9 0 0 0 0\n"
    assert answer_text(21, 0, 1, 2, 3, 0) == "no levels: images 1 2 3"


def test_levels_on_all_small_tables():
    """Three images with entries to 5, four with entries to 3: those with a zero get 20, at the lowest pair, and of
    the others the definitions decide."""
    for n, most in ((3, 5), (4, 3)):
        kinds = set()
        for upper in itertools.product(range(most + 1), repeat=len(pairs(n))):
            t = table_from(n, upper)
            if 0 in upper:
                assert read_groups(n, t) == (20, *zeros_in(n, t)[0], 0, 0)
            else:
                answer = levels_hold(n, t)
                kinds.add(len(answer) if isinstance(answer, list) else answer[:4])
        # Each number of groups, and each three images as the first that fail.
        assert kinds == set(range(1, n)) | {(21, *three) for three in itertools.combinations(range(1, n + 1), 3)}


def with_failing_three(n, i, j, k, entries=(1, 2, 3), other=5):
    """A table in which these three images, and no others, fail: all others are equally far."""
    inside = dict(zip([(i, j), (i, k), (j, k)], entries))
    return table_from(n, [inside.get(pair, other) for pair in pairs(n)])


def test_levels(dice):
    """Tables that are made of groups give these groups; with an entry moved, and any other tables, the definitions
    decide. Of many images each three that alone fail are found, and the last three behind all others."""
    for n in (3, 4, 5, 6, 7, 8, 9):
        for shape in LEVEL_SHAPES * 3:
            rows = level_rows(dice, n, shape, dice.one_of([1, 3, 1000000]))
            t = level_table(n, rows)
            assert levels_hold(n, t) == rows
            for _ in range(3):
                levels_hold(n, moved_entries(dice, n, t, dice.between(1, 2)))
        for t in tables_to_try(dice, n, 24):
            levels_hold(n, t)
        for _ in range(20):
            levels_hold(n, random_table(dice, n, 2))
    for n in (4, 5, 6):
        for three in itertools.combinations(range(1, n + 1), 3):
            assert levels_hold(n, with_failing_three(n, *three)) == (21, *three, 0)
    for n in (12, 20, 33, 64):
        for shape in LEVEL_SHAPES if n < 64 else ("caterpillar", "uneven"):
            rows = level_rows(dice, n, shape, dice.one_of([1, 3, 100000]))
            t = level_table(n, rows)
            assert read_groups(n, t) == rows
            hold_groups(n, t, rows)
        for three in ((1, 2, 3), (1, 2, n), (1, n - 1, n), (2, 3, 4), (n - 2, n - 1, n)):
            assert read_groups(n, with_failing_three(n, *three)) == (21, *three, 0)
    rows = level_rows(dice, 64, "caterpillar", 1, list(range(1, 65)))
    assert rows[-1] == (2 ** 64 - 1, 63) and len(rows) == 63 and rows[0] == (2 ** 63 + 2 ** 62, 1)


def test_levels_checks():
    """Of two faults in one call the first in the order 1, 2, 3, 4, 5, 6, 20, 21 is told; 3 asks n-1 places of both
    outputs, however few groups there are."""
    n = 4
    t = with_failing_three(n, 2, 3, 4)
    assert read_groups(n, t) == (21, 2, 3, 4, 0)
    zero = list(t)
    zero[7] = zero[13] = 0
    assert read_groups(n, zero) == (20, 2, 4, 0, 0)
    uneven = list(zero)
    uneven[14] += 1
    assert read_groups(n, uneven) == (6, 3, 4, 0, 0)
    diagonal = list(uneven)
    diagonal[15] = 1
    assert read_groups(n, diagonal) == (5, 4, 0, 0, 0)
    entry = list(diagonal)
    entry[14] = MOST_ENTRY + 1
    assert read_groups(n, entry) == (4, 4, 3, 0, 0)
    for bad in (table_from(n, [2] * 6), t, zero, uneven, diagonal, entry):
        for members, heights in ((2, 3), (3, 2), (2, 2), (0, 0), (0, 9)):
            assert levels(n, bad, [0] * members, [0] * heights) == (3, 0, 0, 0, 0)
            assert levels(n, bad + [0], [0] * members, [0] * heights) == (2, 0, 0, 0, 0)
            assert levels(65, bad, [0] * members, [0] * heights) == (1, 65, 0, 0, 0)
    assert levels(n, table_from(n, [2] * 6), [0] * 3, [0] * 3) == (0, 1)


def longest_levels_listing():
    """The stored table of 64 images with the longest listing of levels: as many groups as can be, as large as can be,
    image 64 in all of them, and heights of seven digits."""
    rows = level_rows(Dice(0), 64, "caterpillar", 1, list(range(1, 65)))
    return stored_costs(64, level_table(64, [(members, MOST_ENTRY - 63 + height) for members, height in rows]), NEW)


def test_levels_listing(dice):
    """The numbers of a listing are the groups that the call answers, and the images of each add up to its member
    sum. The longest text is that of images that come one after another from the last one on."""
    for n in (3, 4, 5, 9, 20, 33):
        for shape in LEVEL_SHAPES:
            t = level_table(n, level_rows(dice, n, shape, 90))
            for form in (OLD, NEW):
                header, *lines = levels_listing(stored_costs(n, t, form)).splitlines()
                numbers = [list(map(int, line.split(" "))) for line in lines]
                assert header == "images %d groups %d" % (n, len(lines))
                assert [tuple(line[:2]) for line in numbers] == read_groups(n, t)
                assert all(line[0] == member_sum(line[2:]) and line[2:] == sorted(line[2:]) for line in numbers)
    assert len(levels_listing(longest_levels_listing())) == 8039


def self_test():
    dice = Dice(1)
    tests = [
        (test_settled_examples, ()), (test_settled_limits, ()), (test_stored_a, ()),
        (test_listing, ()), (test_readings_agree_with_definitions, (dice,)),
        (test_all_small_tables, ()), (test_only_one_table, ()), (test_demand_2, (dice,)),
        (test_demand_3, (dice,)), (test_comparison, (dice,)), (test_routes, (dice,)),
        (test_stored_forms, (dice,)), (test_choice, (dice,)), (test_sixty_four, (dice,)),
        (test_first_seven_bits, ()), (test_longest_stored_tables, ()), (test_conversions, (dice,)),
        (test_old_limits, ()), (test_reader_on_new_a, ()),
        (test_reader_on_a, ()), (test_reader, (dice,)), (test_consensus_examples, ()),
        (test_consensus_refusals, (dice,)), (test_consensus, (dice,)), (test_far_end, (dice,)),
        (test_ends_of_the_index, ()), (test_moved_index, (dice,)),
        (test_engines_on_all_small_tables, ()), (test_engines, (dice,)),
        (test_newick_examples, ()), (test_newick_refusals, ()), (test_longest_newick_text, (dice,)),
        (test_newick_places, (dice,)), (test_newick, (dice,)),
        (test_replay_examples, ()), (test_replay_start, (dice,)), (test_replay, (dice,)),
        (test_report_examples, ()), (test_term_text, ()), (test_report_refusals, (dice,)),
        (test_report_limits, (dice,)),
        (test_report, (dice,)), (test_cut_report, (dice,)), (test_zeros, (dice,)), (test_zeros_among_faults, ()),
        (test_no_ring_is_shorter, (dice,)), (test_ring_of_timings, (dice,)),
        (test_levels_examples, ()), (test_levels_on_all_small_tables, ()), (test_levels, (dice,)),
        (test_levels_checks, ()), (test_levels_listing, (dice,)),
    ]
    for test, arguments in tests:
        test(*arguments)
        print("passed", test.__name__[5:].replace("_", " "))
    print("%d passed, 0 failed" % len(tests))


if __name__ == "__main__":
    if sys.argv[1:] != ["--self-test"]:
        sys.exit("usage: independent.py --self-test")
    self_test()
