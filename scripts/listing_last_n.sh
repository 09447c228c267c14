#!/usr/bin/env bash
# listing_last_n.sh [FILE]: prints what listing.sh prints, but that the order ends with image n, for ring scripts that were built on it.
# How it runs, and its status: run_listing.sh.
exec bash "$(dirname "$0")/run_listing.sh" listing_last_n "$@"
