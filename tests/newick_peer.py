#!/usr/bin/env python3
"""Holds Newick texts to the reader of DendroPy, which knows nothing of this project.

    /usr/bin/python3 tests/newick_peer.py TEXTS LISTINGS CASES    compares
    /usr/bin/python3 tests/newick_peer.py --time TEXT             prints how long the peer takes to read the text in this file

TEXTS has a file NAME.newick for each table, what the program newick printed; LISTINGS has NAME.stdout, the listing of the same table.
CASES has data/read_newick.txt, data/write_newick.txt and stdout, in the format of tests/README.md.

The peer's tree is taken as unrooted over the images 1 to n. Each of its edges is a split, as a number with a bit for each image, image 1
on the side of the zeros: that is our far side. The edge's length is our doubled cost. Both must be the rows, all of them and no other.

Prints a line for each text that differs, and one with the numbers. Status 0 where none differs, 1 otherwise.
"""
import glob
import os
import sys
import time

import dendropy

failures = 0


def fail(what):
    """Counts one failure, and says what is wrong."""
    global failures
    failures += 1
    print(f"newick_peer: {what}")


def peer_tree(text, names):
    """The peer's tree of this text. A label that is not in names is refused."""
    return dendropy.Tree.get(data=text, schema="newick", rooting="force-unrooted", edge_length_type=int, taxon_namespace=names,
                             suppress_internal_node_taxa=True)


def peer_rows(text, n):
    """Far side and doubled cost of every edge of the peer's tree, ascending."""
    names = dendropy.TaxonNamespace([str(image) for image in range(1, n + 1)])
    names.is_mutable = False
    tree = peer_tree(text, names)
    tree.encode_bipartitions(suppress_unifurcations=False, collapse_unrooted_basal_bifurcation=False)
    return sorted((edge.bipartition.split_bitmask, edge.length) for edge in tree.postorder_edge_iter() if edge.tail_node is not None)


def compare(what, text, n, rows):
    """One text; the rows are pairs of far side and doubled cost."""
    try:
        found = peer_rows(text, n)
    except Exception as reason:  # whatever the peer finds wrong with it
        fail(f"{what}: the peer does not read it: {reason}")
        return
    if found != rows:
        fail(f"{what}: far side and cost in the peer's tree alone {sorted(set(found) - set(rows))[:4]}, in our rows alone "
             f"{sorted(set(rows) - set(found))[:4]}")


def kept(path):
    """A file as text, a byte a character."""
    with open(path, encoding="latin-1", newline="") as file:
        return file.read()


def compare_tables(texts, listings):
    """Each table's text with the rows of its listing; where the listing is a refusal, both are the same line. The texts compared."""
    compared = 0
    paths = sorted(glob.glob(os.path.join(texts, "*.newick")))
    for path in paths:
        name = os.path.basename(path)[:-len(".newick")]
        text, lines = kept(path), kept(os.path.join(listings, name + ".stdout")).splitlines()
        if lines[0].startswith("refused "):
            if text != lines[0] + "\n":
                fail(f"{name}: {text.strip()[:80]}, and the listing says {lines[0]}")
            continue
        _, n, _, count = lines[0].split()
        rows = [tuple(map(int, line.split()[:2])) for line in lines[1:int(count) + 1]]
        if not text.endswith(";\n"):
            fail(f"{name}: not a text and a newline: {text[-40:]!r}")
        compare(name, text, int(n), rows)
        compared += 1
    if not compared or compared == len(paths):
        fail("there is no table that is accepted, or none that is refused")
    return compared


def slices(numbers, singles, count):
    """The first numbers of a line, and the slices behind them, each with its length in front."""
    found, at = [], singles
    for _ in range(count):
        length = numbers[at]
        found.append(numbers[at + 1:at + 1 + length])
        at += 1 + length
    return numbers[:singles], found


def cases(folder, call):
    """The numbers of each case of this call, and those of its answer."""
    answers, on = [], False
    for line in kept(os.path.join(folder, "stdout")).splitlines():
        if line[:1].isalpha():
            on = line == call
        elif on:
            answers.append(line)
    lines = kept(os.path.join(folder, "data", call + ".txt")).splitlines()
    assert len(lines) == len(answers) > 0, call
    return [([int(word) for word in line.split()], [int(word) for word in answer.split()]) for line, answer in zip(lines, answers)]


def compare_cases(folder):
    """The texts that the cases of the reader and of the writer accept; how many."""
    compared = 0
    for number, (case, answer) in enumerate(cases(folder, "read_newick"), 1):
        if answer[0] == 0:
            _, (text, _, _) = slices(case, 0, 3)
            (_, n, count), (fars, costs) = slices(answer, 3, 2)
            compare(f"case {number} of read_newick", bytes(text).decode("latin-1"), n, list(zip(fars, costs))[:count])
            compared += 1
    for number, (case, answer) in enumerate(cases(folder, "write_newick"), 1):
        if answer[0] == 0:
            (n, _), (fars, costs, _) = slices(case, 2, 3)
            (_, used), (text,) = slices(answer, 2, 1)
            compare(f"case {number} of write_newick", bytes(text[:used]).decode("latin-1"), n, list(zip(fars, costs)))
            compared += 1
    return compared


def measure(path):
    """The least time of 20 readings, in milliseconds, without the start of the peer and without its splits."""
    text = kept(path)
    n = text.count(",") + 1
    least = None
    for _ in range(20):
        names = dendropy.TaxonNamespace([str(image) for image in range(1, n + 1)])
        began = time.perf_counter()
        peer_tree(text, names)
        took = 1000 * (time.perf_counter() - began)
        least = took if least is None else min(least, took)
    print(f"newick_peer: DendroPy {dendropy.__version__} reads the {len(text.strip())} bytes of {n} images in {least:.2f} ms")


def main():
    if len(sys.argv) == 3 and sys.argv[1] == "--time":
        measure(sys.argv[2])
        return 0
    if len(sys.argv) != 4:
        print("usage: newick_peer.py TEXTS LISTINGS CASES | newick_peer.py --time TEXT", file=sys.stderr)
        return 2
    tables, texts = compare_tables(sys.argv[1], sys.argv[2]), compare_cases(sys.argv[3])
    print(f"newick_peer: the texts of {tables} tables and {texts} of the cases, read by DendroPy {dendropy.__version__}; {failures} differ")
    return 1 if failures else 0


if __name__ == "__main__":
    sys.exit(main())
