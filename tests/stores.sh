#!/usr/bin/env bash
# Counts through the archive how often a lent byte is stored and loaded while stored tables are written and converted, 3 to 64 images
# in both forms: one store for each used byte, no load, and no touch of any other byte or by a refused call. Status 1 where it is
# otherwise, 0 if all is so or nothing could be run, which is said.
set -euo pipefail
cd "$(dirname "$0")/.."
. scripts/cross.sh

why=$(missing C emulator)
if [ -n "$why" ]; then
    not_run "the count of stores" "$why"
    exit 0
fi
need_archive || { echo "stores: the archive was not made"; exit 1; }
work=$(mktemp -d)
trap 'rm -rf "$work"' EXIT

"$CC" -std=gnu11 -O1 -Wall -Wextra -Werror -Iinclude tests/stores.c "$archive" -o "$work/stores"
if ! timeout 60 $RUN "$work/stores" --counting; then
    not_run "the count of stores" "known touches of a page are not counted right on this machine"
    exit 0
fi
if timeout 300 $RUN "$work/stores" >"$work/got"; then
    accepted=$(grep -c ' number 0,' "$work/got")
    refused=$(grep -vc ' number 0,' "$work/got")
    echo "stores: $accepted calls stored each used byte once and loaded none, $refused refused ones touched none"
else
    grep WRONG "$work/got" | head -n 6 || true
    echo "stores: DIFFERENT"
    exit 1
fi
