#!/usr/bin/env bash
# Installs to a temporary prefix, moves it, asks pkg-config, and builds the C and Fortran examples in a folder of their own with
# nothing but what pkg-config answers; what they print must be first.txt, newick.txt, leave.txt, term.txt and expected.txt of examples.
# Then once more without Fortran. Last the version: pkg-config, the header and the module have that of the file VERSION. Status 1 on a
# difference, 0 if all is right or something could not be run, which is said.
set -euo pipefail
cd "$(dirname "$0")/.."
. scripts/cross.sh
why=$(missing C pkg-config emulator)
if [ -n "$why" ]; then
    not_run "the examples from an installed prefix" "$why"
    exit 0
fi
root=$PWD
version=$(cat VERSION)
work=$(mktemp -d)
trap 'rm -rf "$work"' EXIT
mkdir "$work/build"
cp examples/c/{first,newick,leave,term,team}.c examples/fortran/{first,newick,leave,term,network,team}.f90 "$work/build/"
status=0

same() { # WHAT WANTED FOUND
    if [ "$2" = "$3" ]; then echo "install: $1, as expected"; else echo "install: $1: $3, and it must be $2"; status=1; fi
}

# Calls install.sh from another folder, with a prefix relative to it. What it says is shown if it fails.
install_to() { # PREFIX [--no-fortran]
    (cd "$work" && bash "$root/scripts/install.sh" ${2:+"$2"} "$1") >"$work/log" || { cat "$work/log"; echo "install: FAILED"; exit 1; }
}

# Builds in the folder of copies, with the answers of pkg-config behind the sources, runs, and compares with the file.
builds() { # NAME EXPECTED COMPILER WORD..
    local name=$1 expected=$2 flags
    shift 2
    flags=$("$PKG_CONFIG" --cflags --libs kemotuiki)
    # The flags are words apart, as in a shell's $(pkg-config ..).
    # shellcheck disable=SC2086
    if (cd "$work/build" && "$@" $flags -o "$work/program") && $RUN "$work/program" | diff "$expected" -; then
        echo "install: $name, as expected"
    else
        echo "install: $name FAILED"
        status=1
    fi
}

install_to first
mv "$work/first" "$work/moved"
export PKG_CONFIG_PATH=$work/moved/lib/pkgconfig
"$PKG_CONFIG" --exists --print-errors kemotuiki || { echo "install: pkg-config does not find kemotuiki"; exit 1; }
same "the version that pkg-config has" "$version" "$("$PKG_CONFIG" --modversion kemotuiki)"
builds "the first C program from the prefix" examples/first.txt "$CC" first.c
builds "the C example of Newick text from the prefix" examples/newick.txt "$CC" -std=c11 -O2 -Wall -Wextra newick.c
builds "the C example of images that leave from the prefix" examples/leave.txt "$CC" -std=c11 -O2 -Wall -Wextra leave.c
builds "the C example of a term report from the prefix" examples/term.txt "$CC" -std=c11 -O2 -Wall -Wextra term.c
builds "the C example from the prefix" examples/expected.txt "$CC" -std=c11 -O2 -Wall -Wextra team.c
if [ -n "$FC" ]; then
    builds "the first Fortran program from the prefix" examples/first.txt "$FC" first.f90
    builds "the Fortran example of Newick text from the prefix" examples/newick.txt "$FC" -std=f2018 -O2 -Wall newick.f90
    builds "the Fortran example of images that leave from the prefix" examples/leave.txt "$FC" -std=f2018 -O2 -Wall leave.f90
    builds "the Fortran example of a term report from the prefix" examples/term.txt "$FC" -std=f2018 -O2 -Wall term.f90
    builds "the Fortran example from the prefix" examples/expected.txt "$FC" -std=f2018 -O2 -Wall network.f90 team.f90
    # As for a compiler that cannot read the installed module.
    source=$("$PKG_CONFIG" --variable=fortran_source kemotuiki)
    builds "the Fortran example with the module's source" examples/expected.txt "$FC" -std=f2018 -O2 "$source" network.f90 team.f90
    rm -f "$work/build"/*.mod
else
    not_run "the Fortran example from an installed prefix" "no Fortran compiler for x86-64"
fi

# The README shows the first programs as they are.
shown() { sed -n "/^\`\`\`$1\$/,/^\`\`\`\$/p" README.md | sed '1d; $d'; } # LANGUAGE
same "the C program of the README" "$(cat examples/c/first.c)" "$(shown c)"
same "the Fortran program of the README" "$(cat examples/fortran/first.f90)" "$(shown fortran)"

# Over the same prefix without Fortran: nothing of the module stays, and C still links.
install_to moved --no-fortran
same "files of the Fortran module without Fortran" "" "$(cd "$work/moved" && ls lib/libkemotuiki_fortran.a include/*.mod 2>/dev/null)"
builds "the C example without Fortran" examples/expected.txt "$CC" -std=c11 -O2 team.c

# The version, once more with all: as text and as its three numbers.
install_to moved
printf '%s\n%s\n' "$version" "$version" >"$work/version"
cat >"$work/build/version.c" <<'END'
#include <kemotuiki.h>
#include <stdio.h>
int main(void) {
    printf("%s\n%d.%d.%d\n", KEMOTUIKI_VERSION, KEMOTUIKI_VERSION_MAJOR, KEMOTUIKI_VERSION_MINOR, KEMOTUIKI_VERSION_PATCH);
    return 0;
}
END
builds "the header's version" "$work/version" "$CC" -std=c11 -Wall -Wextra version.c
if [ -n "$FC" ]; then
    cat >"$work/build/version.f90" <<'END'
program version
    use kemotuiki, only: kemotuiki_version, kemotuiki_version_major, kemotuiki_version_minor, kemotuiki_version_patch
    print '(a)', kemotuiki_version
    print '(i0, 2(".", i0))', kemotuiki_version_major, kemotuiki_version_minor, kemotuiki_version_patch
end program
END
    builds "the module's version" "$work/version" "$FC" -std=f2018 -Wall version.f90
fi
exit $status
