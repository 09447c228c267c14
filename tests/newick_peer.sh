#!/usr/bin/env bash
# Holds our Newick text to the reader of another program, DendroPy: the program newick prints the text of every table of tests/listing,
# and the peer's splits and branch lengths must be the rows of its listing, the committed tests/listing/NAME.stdout; so must those of all
# texts that the cases of the reader and of the writer accept. A table that the listing refuses must be refused by the same line. The
# peer is Debian's python3-dendropy, run by Debian's Python; it is installed where that may be done. Status 1 on a difference, 0 if all is
# the same or nothing could be run, which is said. With --time it prints how long the peer takes to read the text of 64 images.
set -euo pipefail
cd "$(dirname "$0")/.."
. scripts/cross.sh

python=/usr/bin/python3
has_peer() { [ -x $python ] && $python -c 'import dendropy' 2>/dev/null; }
has_peer || install_packages python3 python3-dendropy
why=$(missing emulator)
has_peer || why="no python3-dendropy${why:+, $why}"
if [ -n "$why" ]; then
    not_run "the Newick texts read by a peer" "$why"
    exit 0
fi
work=$(mktemp -d)
trap 'rm -rf "$work"' EXIT
for table in tests/listing/*.stdin; do
    name=$(basename "$table" .stdin)
    bash scripts/newick.sh "$table" >"$work/$name.newick" || { echo "newick_peer: $name: the program did not end well"; exit 1; }
done
if [ "${1:-}" = --time ]; then
    $python -B tests/newick_peer.py --time "$work/tree64.newick"
else
    $python -B tests/newick_peer.py "$work" tests/listing crates/cases
fi
