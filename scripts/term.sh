#!/usr/bin/env bash
# term.sh [FILE]: prints the term report over the stored cost tables, one behind another, in FILE, or on standard input: the figures, a
# line for each far side seen, and where a table was refused its number and the line of its refusal. How it runs, and its status:
# run_listing.sh.
exec bash "$(dirname "$0")/run_listing.sh" term "$@"
