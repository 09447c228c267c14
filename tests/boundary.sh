#!/usr/bin/env bash
# Runs the cases of crates/cases/data through the archive and compares with crates/cases/stdout, but for the calls of the reader
# and the listings, which are not exported; then null pointers, large numbers, the longest stored tables, Newick text, replays, term
# reports and levels, images that cost nothing, Newick texts, replays, term reports and levels by hand, and the text of every answer; then
# the header in every language that it is for.
# Status 1 on a difference, 0 if all is the same or nothing could be run, which is said.
set -euo pipefail
cd "$(dirname "$0")/.."
. scripts/cross.sh

why=$(missing C emulator)
if [ -n "$why" ]; then
    not_run "the boundary" "$why"
    exit 0
fi
need_archive || { echo "boundary: the archive was not made"; exit 1; }
work=$(mktemp -d)
trap 'rm -rf "$work"' EXIT
status=0

"$CC" -std=c11 -O1 -Wall -Wextra -Werror -Iinclude tests/boundary.c "$archive" -o "$work/boundary"
$RUN "$work/boundary" crates/cases/data >"$work/got" || { echo "boundary: a fault in the cases"; status=1; }
grep '^[a-z]' "$work/got" >"$work/names"
awk 'NR == FNR { run[$1] = 1; next } /^[a-z]/ { on = $1 in run } on' "$work/names" crates/cases/stdout >"$work/want"
if cmp -s "$work/got" "$work/want"; then
    echo "boundary: $(grep -c '^[0-9]' "$work/got") cases of $(grep -c . "$work/names") calls, as expected"
else
    echo "boundary: DIFFERENT"
    diff "$work/want" "$work/got" | cut -c1-200 | head -6 || true
    status=1
fi
left_out=$(grep '^[a-z]' crates/cases/stdout | grep -vxFf "$work/names" | paste -sd ' ' || true)
if [ "$left_out" = "first_two first_links two_costs two_fields listing levels_listing" ]; then
    echo "boundary: not exported, so not run: $left_out"
else
    echo "boundary: DIFFERENT, the calls that were not run: $left_out"
    status=1
fi
if $RUN "$work/boundary" --edges; then
    echo "boundary: null pointers, large numbers, the longest stored tables, images that cost nothing, Newick texts, replays," \
        "term reports, levels and the text of every answer, as expected"
else
    status=1
fi

# The header is C from C89 on and C++ from C++98 on, without a warning; in each the sizes of the structs are asserted.
printf '#include "kemotuiki.h"\nint main(void) { return KEMOTUIKI_ACCEPTED; }\n' >"$work/header.c"
header() { # STANDARD COMPILER..
    "${@:2}" -std="$1" -pedantic -Wall -Wextra -Werror -Iinclude -fsyntax-only "$work/header.c" || { echo "boundary: the header is not $1"; status=1; }
}
languages=(c89 c99 c11 c17)
for standard in "${languages[@]}"; do header "$standard" "$CC"; done
if [ -n "$CXX" ]; then
    for standard in c++98 c++11 c++14 c++17; do
        header "$standard" "$CXX" -x c++
        languages+=("$standard")
    done
else
    not_run "the header as C++" "no C++ compiler for x86-64"
fi
[ $status != 0 ] || echo "boundary: the header as ${languages[*]}, without a warning"
exit $status
