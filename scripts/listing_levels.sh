#!/usr/bin/env bash
# listing_levels.sh [FILE]: prints the groups of the stored cost table in FILE, or on standard input, each with its member sum, its height
# and its images; or the line of its refusal, as the listing does. How it runs, and its status: run_listing.sh.
exec bash "$(dirname "$0")/run_listing.sh" listing_levels "$@"
