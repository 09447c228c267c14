#!/usr/bin/env bash
# Runs the cases of crates/cases/data through the Fortran module and compares with crates/cases/stdout: those of the exported calls
# that can be said in Fortran. Then the version, the texts of the refusals, and what only Fortran can say. Status 1 on a difference,
# 0 if all is the same or nothing could be run, which is said.
set -euo pipefail
cd "$(dirname "$0")/.."
. scripts/cross.sh

why=$(missing Fortran emulator)
if [ -n "$why" ]; then
    not_run "the Fortran module" "$why"
    exit 0
fi
need_archive || { echo "fortran: the archive was not made"; exit 1; }
work=$(mktemp -d)
trap 'rm -rf "$work"' EXIT
status=0

# The module also with default integers of 64 bits. In the test gfortran takes arrays that are allocated by their assignment for
# uninitialised, and the sections that it lends are meant to be copied.
flags=(-std=f2018 -O1 -Wall -Wextra -Wconversion -Werror)
mkdir "$work/wide"
"$FC" "${flags[@]}" -fdefault-integer-8 -J "$work/wide" -c fortran/kemotuiki.f90 -o "$work/wide/kemotuiki.o"
"$FC" "${flags[@]}" -fcheck=all -J "$work" -c fortran/kemotuiki.f90 -o "$work/kemotuiki.o"
"$FC" "${flags[@]}" -fcheck=all,no-array-temps -Wno-maybe-uninitialized -J "$work" tests/fortran.f90 "$work/kemotuiki.o" "$archive" \
    -o "$work/fortran"

$RUN "$work/fortran" crates/cases/data "$work/got" || { echo "fortran: a fault in the cases"; status=1; }
awk 'NR == FNR { got[NR] = $0; if (/^[a-z]/) run[$1] = 1; next }
     /^[a-z]/ { on = $1 in run }
     on { print got[++at] == "-" ? "-" : $0 }' "$work/got" crates/cases/stdout >"$work/want"
if cmp -s "$work/got" "$work/want"; then
    echo "fortran: $(grep -c '^[0-9]' "$work/got") cases of $(grep -c '^[a-z]' "$work/got") calls, as expected;" \
        "$(grep -c '^-' "$work/got") more cannot be said in Fortran"
else
    echo "fortran: DIFFERENT"
    diff "$work/want" "$work/got" | cut -c1-200 | head -6 || true
    status=1
fi

# The calls of the header are those that were run, and the one behind r%text().
sed -n 's/^Kemotuiki[A-Za-z]* kemotuiki_\([a-z_]*\)(.*/\1/p' include/kemotuiki.h | sort >"$work/exported"
{ grep '^[a-z]' "$work/got"; echo refusal_text; } | sort >"$work/run"
diff "$work/exported" "$work/run" || { echo "fortran: DIFFERENT, the calls of the header and those that were run"; status=1; }

if $RUN "$work/fortran" --by-hand "$(cat VERSION)"; then
    echo "fortran: the version, the texts, tables by rows, with zeros and of another shape, Newick texts, replays, term reports," \
        "levels, sections, as expected"
else
    status=1
fi
exit $status
