#!/usr/bin/env bash
# Runs the program that prints the term report on every tests/term/NAME.stdin and compares what it prints with tests/term/NAME.stdout.
# Status 0 where all agree, 1 where one differs or did not run.
set -u
cd "$(dirname "$0")/.."
wrote=$(mktemp)
trap 'rm -f "$wrote"' EXIT
run=0 failed=0
for input in tests/term/*.stdin; do
    name=$(basename "$input" .stdin)
    run=$((run + 1))
    if ! bash scripts/term.sh "$input" >"$wrote"; then
        echo "term: $name: the program did not end well"
        failed=$((failed + 1))
    elif ! diff "tests/term/$name.stdout" "$wrote"; then
        echo "term: $name: printed something else"
        failed=$((failed + 1))
    fi
done
echo "term: $run examples run, $failed differ"
[ "$failed" -eq 0 ]
