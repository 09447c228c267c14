#!/usr/bin/env python3
"""Draws the tree of a listing as SVG.

    bash scripts/listing.sh table | python3 scripts/draw.py > tree.svg
    python3 scripts/draw.py [LISTING] > tree.svg    the listing in a file, or on standard input: without LISTING, or where it is -

The images stand on a ring in the listing's order, clockwise from the top. Every far side is a run of neighbours there, so the
tree fits inside. Each link is labelled with its doubled cost; a link of cost 0 is dotted.

A switch stands at a weighted mean of its neighbours. By W. T. Tutte's theorem no two links cross then, whatever the weights, if
they are above 0. Here a link weighs more the more images it parts from the others, less the more steps it bridges, and less if
its label lacks room.

Places are whole tenths, and all is computed in whole numbers and fractions from the places on the ring, so that every machine
draws the same. Status 0; 1 where the text is no listing of a tree or cannot be read, with a message on standard error and
nothing on standard output; 2 where the arguments are wrong.
"""
import math
import re
import sys
from fractions import Fraction

# In tenths of a pixel: the radius of an image and of a switch, the width of a digit, and the margin around the ring.
IMAGE, SWITCH, DIGIT, MARGIN = 120, 30, 65, 200
# How often the weights are put right.
ROUNDS = 20

LISTING = re.compile(r"images (N) rows (N)\n((?:N N N\n)*)order((?: N)+)".replace("N", "[0-9]{1,20}"))

HEAD = """\
<svg xmlns="http://www.w3.org/2000/svg" viewBox="{corner} {corner} {size} {size}" width="{size}" height="{size}" role="img" \
font-family="sans-serif" text-anchor="middle">
<title>Relay tree of {n} images</title>
<desc>{count} links with their doubled costs; the images on a ring in the order {order}.</desc>
<marker id="arrow" markerUnits="userSpaceOnUse" markerWidth="12" markerHeight="12" refX="6" refY="6" orient="auto">
<path d="M 4 2.5 L 9 6 L 4 9.5" fill="none" stroke="#9aa5b1" stroke-width="1.2"/>
</marker>
<rect x="{corner}" y="{corner}" width="{size}" height="{size}" rx="12" fill="#ffffff"/>
<path d="{ring}" fill="none" stroke="#c3ccd5" stroke-dasharray="4 4" marker-mid="url(#arrow)"/>"""
LINKS = '<g id="links" stroke="#33475b" stroke-width="2" stroke-linecap="round">'
SWITCHES = '</g>\n<g id="switches" fill="#33475b">'
COSTS = """\
</g>
<g id="costs" font-size="12" fill="#9c3d10" stroke="#ffffff" stroke-width="4" stroke-linejoin="round" paint-order="stroke">"""
IMAGES = '</g>\n<g id="images" font-size="13" font-weight="bold" fill="#ffffff">'


class Refused(Exception):
    """Why the text is no listing of a tree."""


def parsed(text):
    """n, the rows as far side, doubled cost and upper row, and the order."""
    text = text.replace("\r\n", "\n").strip()
    if text.startswith("refused "):
        raise Refused(f"there is no tree, the table was refused: {text.splitlines()[0]}")
    listing = LISTING.fullmatch(text)
    if not listing:
        raise Refused("this is no listing, which is a line images N rows R, then R rows of three numbers, then a line order ..")
    n, count, rows, order = listing.groups()
    rows = [tuple(map(int, line.split())) for line in rows.splitlines()]
    if len(rows) != int(count):
        raise Refused(f"there are {len(rows)} rows, and the first line says {count}")
    return int(n), rows, [int(image) for image in order.split()]


def check(n, rows, order):
    """Refuses rows that are no tree over n images, and an order in which a far side is no run of neighbours."""
    if not 3 <= n <= 64:
        raise Refused(f"{n} images, and it must be 3 to 64")
    if sorted(order) != list(range(1, n + 1)):
        raise Refused(f"the order does not have each of the images 1 to {n} once")
    if not rows or (rows[-1][0], rows[-1][2]) != (2 ** n - 2, 0):
        raise Refused("the last row is not image 1's own link with upper row 0")
    for row, ((far, _, upper), (before, _, _)) in enumerate(zip(rows, [(0, 0, 0)] + rows), 1):
        below = [other for other, _, above in rows if above == row]
        parted = sum(far >> one - 1 & 1 != far >> other - 1 & 1 for one, other in zip(order, order[1:] + order[:1]))
        wrong = ("is not above the one before it" if far <= before else
                 f"has upper row {upper}, which is no later row" if row < len(rows) and not row < upper <= len(rows) else
                 "is not what the rows with this upper row make up" if below and sum(below) != far else
                 "is no single image, and no row has it as its upper row" if not below and far & (far - 1) else
                 "is no run of neighbours in the order" if parted != 2 else None)
        if wrong:
            raise Refused(f"row {row}: far side {far} {wrong}")


def links_of(n, rows):
    """The two ends of each row's link. An image is its number, and the switch at the far end of row k is n + k."""
    ends = [n + row if far & (far - 1) else far.bit_length() for row, (far, _, _) in enumerate(rows, 1)]
    return [(ends[upper - 1] if upper else 1, end) for end, (_, _, upper) in zip(ends, rows)]


def walk(root, links):
    """All nodes, each with the one before it on the way from the root."""
    beside = {node: [] for link in links for node in link}
    for one, other in links:
        beside[one].append(other)
        beside[other].append(one)
    steps = [(root, None)]
    for node, before in steps:
        steps += [(other, node) for other in beside[node] if other != before]
    return steps


def heights(steps):
    """How many links each node is away from the most distant image behind it."""
    high = {node: 0 for node, _ in steps}
    for node, before in reversed(steps[1:]):
        high[before] = max(high[before], high[node] + 1)
    return high


def on_ring(radius, part):
    """The place so much of a turn clockwise from the top."""
    return round(radius * math.sin(2 * math.pi * part)), round(-radius * math.cos(2 * math.pi * part))


def distance(one, other):
    """How far two places are apart."""
    return math.isqrt((one[0] - other[0]) ** 2 + (one[1] - other[1]) ** 2)


def balanced(steps, ring, weight):
    """Each node's place with these weights: from the images inwards as a share of the place before and a rest, then outwards."""
    share, rest = dict.fromkeys(ring, 0), dict(ring)
    for node, before in reversed(steps):
        if node not in ring:
            behind = [other for other, via in steps if via == node]
            whole = weight.get(node, 0) + sum(weight[other] * (1 - share[other]) for other in behind)
            share[node] = Fraction(weight.get(node, 0), whole)
            rest[node] = [sum(weight[other] * rest[other][axis] for other in behind) / whole for axis in (0, 1)]
    places = {None: (0, 0)}
    for node, before in steps:
        places[node] = [share[node] * places[before][axis] + rest[node][axis] for axis in (0, 1)]
    return {node: (round(x), round(y)) for node, (x, y) in places.items()}


def placed(steps, ring, room):
    """Each node's place. Where a link comes out too short for its label, it and those beside it weigh less in the next round."""
    high, images = heights(steps), {node: int(node in ring) for node, _ in steps}
    # Two switches may be in the middle. The other one is then as high as the root is without it.
    high[steps[0][0]] = sorted(high[node] + 1 for node, before in steps if before == steps[0][0])[-2]
    for node, before in reversed(steps[1:]):
        images[before] += images[node]
    weight = {node: 10 ** 6 * min(images[node], len(ring) - images[node]) // max(1, high[before] - high[node])
              for node, before in steps[1:]}
    for _ in range(ROUNDS):
        places = balanced(steps, ring, weight)
        lengths = {node: distance(places[node], places[before]) for node, before in steps[1:]}
        for node, before in steps[1:]:
            length = min(lengths[other] for other, via in steps[1:] if via == before and (other in ring) == (node in ring))
            wanted = room + IMAGE * (node in ring)
            if length < wanted:
                weight[node] = weight[node] * length // wanted + 1
    return places


def px(*tenths):
    """Tenths as they are written in SVG."""
    return " ".join(f"{'-' * (value < 0)}{abs(value) // 10}.{abs(value) % 10}" for value in tenths)


def label(switch, end, image, upright, cost):
    """The text of a cost in the middle of what is seen of a link, of which the image at its end covers a part."""
    across, down, length = end[0] - switch[0], end[1] - switch[1], distance(switch, end) or 1
    part = max(Fraction(length - IMAGE * image, 2 * length), Fraction(1, 4))
    x, y = px(round(switch[0] + part * across)), px(round(switch[1] + part * down))
    turn = 0 if upright else (round(math.degrees(math.atan2(down, across))) + 90) % 180 - 90
    return f'<text x="{x}" y="{y}" dy="4.2"' + f' transform="rotate({turn} {x} {y})"' * (turn != 0) + f">{cost}</text>"


def layout(n, links, order, digits):
    """The ring's radius, and each node's place. The walk begins in the middle, at a switch with no image very far from it."""
    walks = [walk(n + row, links) for row, link in enumerate(links, 1) if link[1] == n + row]
    high, steps = min((max(heights(steps).values()), steps) for steps in walks)
    room = DIGIT * digits + 240
    radius = max(900, 70 * n, min(n * room // 5 + 800, high * (room + 60))) // 10 * 10
    return radius, placed(steps, {image: on_ring(radius, place / n) for place, image in enumerate(order)}, room)


def drawing(n, rows, order):
    """The lines of the SVG."""
    links, digits = links_of(n, rows), max(len(str(cost)) for _, cost, _ in rows)
    radius, at = layout(n, links, order, digits)
    arcs = [f"A {px(radius, radius)} 0 0 1 {px(*on_ring(radius, half / (2 * n)))}" for half in range(1, 2 * n + 1)]
    yield HEAD.format(corner=px(-radius - MARGIN), size=px(2 * (radius + MARGIN)), n=n, count=len(rows),
                      order=" ".join(map(str, order)), ring=" ".join([f"M {px(0, -radius)}"] + arcs))
    yield LINKS
    for row, ((one, other), (far, cost, upper)) in enumerate(zip(links, rows), 1):
        x1, y1, x2, y2 = map(px, at[one] + at[other])
        yield (f'<line x1="{x1}" y1="{y1}" x2="{x2}" y2="{y2}"' + ' stroke-dasharray="0.1 5"' * (cost == 0) +
               f"><title>row {row}: far side {far}, doubled cost {cost}, upper row {upper}</title></line>")
    yield SWITCHES
    for x, y in [map(px, at[end]) for _, end in links if end > n]:
        yield f'<circle cx="{x}" cy="{y}" r="{px(SWITCH)}"/>'
    yield COSTS
    for link, (_, cost, _) in zip(links, rows):
        yield label(at[max(link)], at[min(link)], min(link) <= n, n * digits <= 48, cost)
    yield IMAGES
    for image in order:
        x, y = map(px, at[image])
        yield f'<circle cx="{x}" cy="{y}" r="{px(IMAGE)}" fill="#1f5f8b"/><text x="{x}" y="{y}" dy="4.6">{image}</text>'
    yield "</g>\n</svg>\n"


def main(arguments):
    """Prints the drawing, or says why there is none."""
    name, *more = arguments or ["-"]
    if more or name.startswith("-") and name != "-":
        print(__doc__.strip(), file=sys.stderr)
        return 2
    try:
        with sys.stdin.buffer if name == "-" else open(name, "rb") as file:
            tree = parsed(file.read().decode("ascii", "replace"))
        check(*tree)
    except OSError as error:
        print(f"draw.py: {name} cannot be read: {error.strerror}", file=sys.stderr)
        return 1
    except Refused as refused:
        print(f"draw.py: {refused} ({'standard input' if name == '-' else name})", file=sys.stderr)
        return 1
    sys.stdout.write("\n".join(drawing(*tree)))
    return 0


if __name__ == "__main__":
    sys.exit(main(sys.argv[1:]))
