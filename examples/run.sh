#!/usr/bin/env bash
# Builds the examples in C and in Fortran against the archive, runs them, and compares what they print: the first programs with
# first.txt, the rows of the README's worked example, the divisions with division.txt, the rings with ring.txt, the levels with
# levels.txt, the two engines with engines.txt, the conversions of a stored table with convert.txt, the Newick texts with newick.txt,
# the images that leave with leave.txt, the term reports with term.txt, and the teams with expected.txt. The archive is made if it is
# not there.
# Status 1 on a difference, 0 if all is the same or something could not be run, which is said.
set -euo pipefail
cd "$(dirname "$0")/.."
. scripts/cross.sh
if [ "$RUN" = none ]; then
    not_run "the examples" "no emulator of x86-64"
    exit 0
fi
need_archive
work=$(mktemp -d)
trap 'rm -rf "$work"' EXIT
status=0

run() { # NAME EXPECTED
    $RUN "$work/$1" >"$work/$1.out" || { echo "examples: $1 ended with status $?"; status=1; }
    if diff "examples/$2" "$work/$1.out"; then echo "examples: $1, as expected"; else status=1; fi
}

if [ -n "$CC" ]; then
    "$CC" -std=c11 -O2 -Wall -Wextra -Iinclude examples/c/first.c "$archive" -o "$work/c-first"
    "$CC" -std=c11 -O2 -Wall -Wextra -Iinclude examples/c/division.c "$archive" -o "$work/c-division"
    "$CC" -std=c11 -O2 -Wall -Wextra -Iinclude examples/c/ring.c "$archive" -o "$work/c-ring"
    "$CC" -std=c11 -O2 -Wall -Wextra -Iinclude examples/c/levels.c "$archive" -o "$work/c-levels"
    "$CC" -std=c11 -O2 -Wall -Wextra -Iinclude examples/c/engines.c "$archive" -o "$work/c-engines"
    "$CC" -std=c11 -O2 -Wall -Wextra -Iinclude examples/c/convert.c "$archive" -o "$work/c-convert"
    "$CC" -std=c11 -O2 -Wall -Wextra -Iinclude examples/c/newick.c "$archive" -o "$work/c-newick"
    "$CC" -std=c11 -O2 -Wall -Wextra -Iinclude examples/c/leave.c "$archive" -o "$work/c-leave"
    "$CC" -std=c11 -O2 -Wall -Wextra -Iinclude examples/c/term.c "$archive" -o "$work/c-term"
    "$CC" -std=c11 -O2 -Wall -Wextra -Iinclude examples/c/team.c "$archive" -o "$work/c-team"
    run c-first first.txt
    run c-division division.txt
    run c-ring ring.txt
    run c-levels levels.txt
    run c-engines engines.txt
    run c-convert convert.txt
    run c-newick newick.txt
    run c-leave leave.txt
    run c-term term.txt
    run c-team expected.txt
else
    not_run "the C example" "no C compiler for x86-64"
fi
if [ -n "$FC" ]; then
    "$FC" -std=f2018 -O2 -Wall -Wextra -J "$work" -c fortran/kemotuiki.f90 -o "$work/kemotuiki.o"
    "$FC" -std=f2018 -O2 -Wall -Wextra -J "$work" examples/fortran/first.f90 "$work/kemotuiki.o" "$archive" -o "$work/fortran-first"
    "$FC" -std=f2018 -O2 -Wall -Wextra -J "$work" examples/fortran/division.f90 "$work/kemotuiki.o" "$archive" \
        -o "$work/fortran-division"
    "$FC" -std=f2018 -O2 -Wall -Wextra -J "$work" examples/fortran/ring.f90 "$work/kemotuiki.o" "$archive" -o "$work/fortran-ring"
    "$FC" -std=f2018 -O2 -Wall -Wextra -J "$work" examples/fortran/levels.f90 "$work/kemotuiki.o" "$archive" \
        -o "$work/fortran-levels"
    "$FC" -std=f2018 -O2 -Wall -Wextra -J "$work" examples/fortran/engines.f90 "$work/kemotuiki.o" "$archive" \
        -o "$work/fortran-engines"
    "$FC" -std=f2018 -O2 -Wall -Wextra -J "$work" examples/fortran/convert.f90 "$work/kemotuiki.o" "$archive" \
        -o "$work/fortran-convert"
    "$FC" -std=f2018 -O2 -Wall -Wextra -J "$work" examples/fortran/newick.f90 "$work/kemotuiki.o" "$archive" \
        -o "$work/fortran-newick"
    "$FC" -std=f2018 -O2 -Wall -Wextra -J "$work" examples/fortran/leave.f90 "$work/kemotuiki.o" "$archive" -o "$work/fortran-leave"
    "$FC" -std=f2018 -O2 -Wall -Wextra -J "$work" examples/fortran/term.f90 "$work/kemotuiki.o" "$archive" -o "$work/fortran-term"
    "$FC" -std=f2018 -O2 -Wall -Wextra -J "$work" examples/fortran/{network,team}.f90 "$work/kemotuiki.o" "$archive" \
        -o "$work/fortran-team"
    run fortran-first first.txt
    run fortran-division division.txt
    run fortran-ring ring.txt
    run fortran-levels levels.txt
    run fortran-engines engines.txt
    run fortran-convert convert.txt
    run fortran-newick newick.txt
    run fortran-leave leave.txt
    run fortran-term term.txt
    run fortran-team expected.txt
else
    not_run "the Fortran example" "no Fortran compiler for x86-64"
fi
exit $status
