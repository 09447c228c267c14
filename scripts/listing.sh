#!/usr/bin/env bash
# listing.sh [FILE]: prints the tree of the stored cost table in FILE, or on standard input, and an order around it that ends at the far
# end, the image with the greatest cost from image 1. How it runs, and its status: run_listing.sh.
exec bash "$(dirname "$0")/run_listing.sh" listing "$@"
