#!/usr/bin/env bash
# Builds the benchmark against the archive and prints its tables. The C is built with -O3 for the target of the archive. With the
# archive of an earlier state as argument, its measured reading is raced too. All code begins at multiples of 64 bytes: elsewhere a
# loop may take a sixth more, as the linker happens to put it.
set -euo pipefail
earlier=${1:+$(realpath "$1")}
cd "$(dirname "$0")/.."
. scripts/cross.sh
why=$(missing C emulator)
if [ -n "$why" ]; then
    not_run "the benchmark" "$why"
    exit 0
fi
need_archive
work=$(mktemp -d)
trap 'rm -rf "$work"' EXIT
align() { "${CC%gcc}objcopy" --set-section-alignment '.text*=64' "$@"; }
align "$archive" "$work/today.a"
archives=("$work/today.a")
if [ -n "$earlier" ]; then
    # Both archives export the same calls: of the earlier one only the measured reading stays in sight, under another name.
    align --redefine-sym kemotuiki_measured=earlier_measured --keep-global-symbol=earlier_measured "$earlier" "$work/earlier.a"
    archives+=(-DEARLIER "$work/earlier.a")
fi
"$CC" -std=gnu11 -O3 -march=x86-64 -falign-functions=64 -Wall -Wextra -Iinclude bench/*.c "${archives[@]}" -o "$work/bench"
$RUN "$work/bench"
