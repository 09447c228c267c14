#!/usr/bin/env bash
# newick.sh [FILE]: prints the tree of the stored cost table in FILE, or on standard input, as Newick text and a newline; or the line of
# its refusal, as the listing does. How it runs, and its status: run_listing.sh.
exec bash "$(dirname "$0")/run_listing.sh" newick "$@"
