#!/usr/bin/env bash
# install.sh [--no-fortran] PREFIX: proves and makes the archive, and puts it under PREFIX with what C and Fortran need to use it:
#
#   lib/libkemotuiki.a            the archive, x86-64 code
#   include/kemotuiki.h           the header, for C and C++
#   share/kemotuiki/kemotuiki.f90 the Fortran module's source
#   lib/pkgconfig/kemotuiki.pc    for pkg-config; it finds the other files from where it stands, so PREFIX may be moved
#   include/kemotuiki.mod         the module, if gfortran is there: a .mod file fits that compiler alone, and for another one
#   lib/libkemotuiki_fortran.a    kemotuiki.f90 is compiled with the program
#
# Nothing else of this machine is altered, and no package installed. Status 0 if all of it is there, 1 if something failed, 2 for
# wrong arguments or a missing kit.
set -euo pipefail
fortran=yes
if [ "${1:-}" = --no-fortran ]; then
    fortran=no
    shift
fi
{ [ $# = 1 ] && [ -n "$1" ] && [ "${1#-}" = "$1" ]; } || { echo "usage: install.sh [--no-fortran] PREFIX" >&2; exit 2; }
case $1 in /*) prefix=$1 ;; *) prefix=$PWD/$1 ;; esac
cd "$(dirname "$0")/.."
may_install=no
. scripts/cross.sh
[ $fortran = yes ] || FC=
mkdir -p "$prefix"/{lib/pkgconfig,include,share/kemotuiki}

work=$(mktemp -d)
trap 'rm -rf "$work"' EXIT
need_archive || { echo "install.sh: the archive was not made" >&2; exit 1; }

installed=()
put() { # FILE FOLDER
    cp "$1" "$prefix/$2/"
    chmod 644 "$prefix/$2/${1##*/}"
    installed+=("$prefix/$2/${1##*/}")
}

put "$archive" lib
put include/kemotuiki.h include
put fortran/kemotuiki.f90 share/kemotuiki
fortran_archive=
if [ -n "$FC" ]; then
    "$FC" -O2 -c fortran/kemotuiki.f90 -J "$work" -o "$work/kemotuiki.o"
    "$AR" rcs "$work/libkemotuiki_fortran.a" "$work/kemotuiki.o"
    put "$work/kemotuiki.mod" include
    put "$work/libkemotuiki_fortran.a" lib
    # Before the archive, whose calls it makes. A C program takes nothing from it.
    fortran_archive='-lkemotuiki_fortran '
else
    # Those of an earlier version would not fit this archive.
    rm -f "$prefix/lib/libkemotuiki_fortran.a" "$prefix/include/kemotuiki.mod"
fi
sed -e "s|@VERSION@|$(cat VERSION)|" -e "s|@FORTRAN_ARCHIVE@|$fortran_archive|" kemotuiki.pc.in >"$work/kemotuiki.pc"
put "$work/kemotuiki.pc" lib/pkgconfig

printf 'installed %s\n' "${installed[@]}"
[ -n "$FC" ] || echo "of the Fortran module only the source: no gfortran for x86-64, or --no-fortran was given"
echo "for pkg-config: PKG_CONFIG_PATH=$prefix/lib/pkgconfig"
