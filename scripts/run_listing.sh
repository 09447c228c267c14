#!/usr/bin/env bash
# run_listing.sh PROGRAM [FILE]: what listing.sh, listing_last_n.sh, newick.sh, listing_levels.sh and term.sh share. Runs the program
# PROGRAM on the stored cost table or tables in FILE, or on standard input. The program is proved and built first if it is not there, which
# takes minutes and says on standard error how far it is. It is x86-64 code: elsewhere it runs under an emulator. Status 0 if the program
# ran, 1 if it was not proved, 2 if the file, the kit or the emulator is missing.
set -euo pipefail
[ $# = 1 ] || [ $# = 2 ] || { echo "usage: run_listing.sh PROGRAM [FILE]" >&2; exit 2; }
name=$1
said_by=$name.sh
table=${2:-/dev/stdin}
case $table in /*) ;; *) table=$PWD/$table ;; esac
[ -r "$table" ] && [ ! -d "$table" ] || { echo "$said_by: cannot read $table" >&2; exit 2; }
cd "$(dirname "$0")/.."
. scripts/common.sh
program=crates/$name/out/$name
if [ ! -x "$program" ]; then
    need_kit
    echo "$said_by: proving and building the program, once: $(crates_of "$name" | wc -l) crates, some minutes" >&2
    # rt runs it at once, here on no bytes, and what it prints then is not shown.
    prove "$name" rt run || exit 1
fi
machine=$(uname -m)
command=()
if [ "$machine" != x86_64 ]; then
    need_kit
    emulator=$(emulator)
    [ -n "$emulator" ] || { echo "$said_by: this machine is $machine and there is no qemu-x86_64" >&2; exit 2; }
    lib=$kit/toolchain/lib
    command=("$emulator" "$lib/ld-linux-x86-64.so.2" --library-path "$lib")
fi
exec "${command[@]}" "$program" <"$table"
