# For the scripts that use the archive, which is x86-64 code; to be sourced at the top of the repository. Has the calls that make
# the archive, and sets CC, CXX, FC, AR, PKG_CONFIG and RUN. On x86-64 those are the machine's own compilers and nothing in front
# of a program; elsewhere Debian's cross compilers, and an emulator with their C library. What is missing is installed from Debian
# if this runs as root, unless the script has set may_install=no. What cannot be had is empty, or none for RUN.
. scripts/common.sh
need_kit
archive=crates/kemotuiki/out/libkemotuiki.a
# The archive is for every processor of x86-64, where rt's own default is one with SSE 4.2.
for_cpu=(--cpu x86-64)

# One line for the archive, the kit and every file that the archive is made from.
archive_sum() {
    {
        rt version
        find crates.txt crates -path 'crates/*/out' -prune -o -type f \( -name crates.txt -o -name '*.rt' -o -name '*.antt' \) \
            -exec sha256sum {} + | LC_ALL=C sort
        sha256sum "$archive"
    } | sha256sum
}

# Proves kemotuiki, and each library below it of which rt keeps no proof, and makes the archive.
make_archive() {
    prove kemotuiki rt lib "${for_cpu[@]}" || return
    archive_sum >"$archive.sum"
}

# The same over the libraries that `rt ci` left, in the time of one crate: for rt lib those do not count, and it would prove them all once
# more. Status 1, and no archive, where one of them is not newer than the file BEGAN, from before that run: `rt ci` puts back over its own
# what stood there before. So they are removed once they have served.
archive_over_ci() { # BEGAN
    local crate at words=()
    for crate in $(crates_of kemotuiki | grep -vx kemotuiki); do
        [ "crates/$crate/out/rlib/$crate.rlib" -nt "$1" ] || return 1
        words+=(-L "dependency=../$crate/out/rlib")
    done
    for crate in std $(named_by kemotuiki); do
        if [ -d "crates/$crate" ]; then at=../$crate/out/rlib; else at=$kit/rlibs; fi
        words+=(--extern "$crate=$at/$crate.rlib")
    done
    (cd crates/kemotuiki && "$kit/bin/rattle" build --crate-name kemotuiki src/lib.rt --crate-type staticlib "${for_cpu[@]}" "${words[@]}" \
        -L "dependency=$kit/rlibs" --antt-project "$kit/rattle/logic/antt-project.json" --logic-built "$kit/logic_built" \
        --toolchain "$kit/toolchain" --jobs 2 -o "out/${archive##*/}") || return 1
    archive_sum >"$archive.sum"
    for crate in $(crates_of kemotuiki); do
        [ -e "crates/$crate/out/rlib/stamp" ] || rm -rf "crates/$crate/out/rlib"
    done
}

# The same, unless the archive is there and was made from these very files.
need_archive() { { [ -f "$archive" ] && [ -f "$archive.sum" ] && [ "$(archive_sum)" = "$(cat "$archive.sum")" ]; } || make_archive; }

want() { # PROGRAM PACKAGE..
    have "$1" || install_packages "${@:2}"
}

# Installs from Debian where that may be done. The lists of packages are only fetched if it does not work with those that are there.
install_packages() { # PACKAGE..
    { [ "${may_install:-yes}" = yes ] && [ "$(id -u)" = 0 ] && have apt-get; } || return 0
    echo "$said_by: installing $*" >&2
    packages install --no-install-recommends "$@" || { packages update && packages install --no-install-recommends "$@"; } || true
}

# It gives up by itself where nothing answers; to end it while it unpacks would leave the machine's packages half installed.
packages() {
    DEBIAN_FRONTEND=noninteractive timeout 900 apt-get -y -qq -o Acquire::http::Timeout=30 -o Acquire::Retries=1 "$@" \
        </dev/null >/dev/null 2>&1
}

want python3 python3
want pkg-config pkg-config
if [ "$(uname -m)" = x86_64 ]; then
    want gcc gcc libc6-dev
    want g++ g++ libc6-dev
    want gfortran gfortran libc6-dev
    CC=gcc CXX=g++ FC=gfortran AR=ar RUN=
else
    want x86_64-linux-gnu-gcc gcc-x86-64-linux-gnu libc6-dev-amd64-cross
    want x86_64-linux-gnu-g++ g++-x86-64-linux-gnu libc6-dev-amd64-cross
    want x86_64-linux-gnu-gfortran gfortran-x86-64-linux-gnu libc6-dev-amd64-cross
    CC=x86_64-linux-gnu-gcc CXX=x86_64-linux-gnu-g++ FC=x86_64-linux-gnu-gfortran AR=x86_64-linux-gnu-ar
    [ -n "$(emulator)" ] || want qemu-x86_64 qemu-user
    RUN=$(emulator)
    RUN=${RUN:+$RUN -L /usr/x86_64-linux-gnu}
    RUN=${RUN:-none}
fi
have "$CC" || CC=
have "$CXX" || CXX=
have "$FC" || FC=
PKG_CONFIG=$(command -v pkg-config || command -v pkgconf || true)

# Prints which of these could not be had, as the reason for not_run; nothing where all are there.
missing() { # C | C++ | Fortran | pkg-config | emulator ..
    local thing all=
    for thing in "$@"; do
        case $thing in
        C) [ -n "$CC" ] || all+=", no C compiler for x86-64" ;;
        C++) [ -n "$CXX" ] || all+=", no C++ compiler for x86-64" ;;
        Fortran) [ -n "$FC" ] || all+=", no Fortran compiler for x86-64" ;;
        pkg-config) [ -n "$PKG_CONFIG" ] || all+=", no pkg-config" ;;
        emulator) [ "$RUN" != none ] || all+=", no emulator of x86-64" ;;
        esac
    done
    echo "${all#, }"
}
