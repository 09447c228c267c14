#!/usr/bin/env bash
# Runs both listing programs, the one that prints Newick text and the one that lists levels on every tests/listing/NAME.stdin and compares
# what each prints with tests/PROGRAM/NAME.stdout. Status 0 where all agree, 1 where one differs or did not run.
set -u
cd "$(dirname "$0")/.."
wrote=$(mktemp)
trap 'rm -f "$wrote"' EXIT
run=0 failed=0
for program in listing listing_last_n newick listing_levels; do
    for input in tests/listing/*.stdin; do
        name=$(basename "$input" .stdin)
        run=$((run + 1))
        if ! bash "scripts/$program.sh" "$input" >"$wrote"; then
            echo "$program: $name: the program did not end well"
            failed=$((failed + 1))
        elif ! diff "tests/$program/$name.stdout" "$wrote"; then
            echo "$program: $name: printed something else"
            failed=$((failed + 1))
        fi
    done
done
echo "listing: $run examples run, $failed differ"
[ "$failed" -eq 0 ]
