#!/usr/bin/env bash
# Builds team.f90 against the archive, runs it with nine images and compares its lines, sorted, with expected.txt. On x86-64 this
# takes caf of OpenCoarrays, Debian's over MPICH before another; where this runs as root it is installed if it is missing.
# Elsewhere MPICH of this machine starts nine emulators, and the x86-64 libraries of OpenCoarrays and MPICH are unpacked from
# Debian's packages into a folder that is removed at the end. Status 1 on a difference or if the images do not end in five minutes,
# 0 if all is the same or nothing could be run, which is said.
set -euo pipefail
cd "$(dirname "$0")/../.."
. scripts/cross.sh
skip() { not_run "the coarray example" "$1"; exit 0; }
work=$(mktemp -d)
trap 'rm -rf "$work"' EXIT
sources=(fortran/kemotuiki.f90 examples/fortran/network.f90 examples/coarray/team.f90)

# apt-get for x86-64 with its own state, so that nothing is installed and no package of this machine is replaced
foreign() {
    timeout 120 apt-get -qq -o APT::Architecture=amd64 -o APT::Architectures=amd64 -o APT::Install-Recommends=0 \
        -o APT::Sandbox::User=root -o Dir::State="$work" -o Dir::State::status="$work/status" -o Dir::Cache="$work" "$@" \
        </dev/null >/dev/null 2>&1
}

# Sets build and start. What is taken has to build a program, since Debian's OpenCoarrays does not bring all that this needs. Debian's
# cafrun.mpich would start whatever mpiexec the machine has, which may be that of Open MPI, so MPICH's own is called.
find_caf() {
    echo end >"$work/nothing.f90"
    build=caf.mpich start=(mpiexec.mpich -n 9)
    if builds_and_starts; then return 0; fi
    build=caf start=(cafrun -n 9)
    builds_and_starts
}

builds_and_starts() { have "$build" && have "${start[0]}" && "$build" "$work/nothing.f90" -o "$work/nothing" >/dev/null 2>&1; }

if [ "$(uname -m)" = x86_64 ]; then
    find_caf || install_packages libcoarrays-mpich-dev libmpich-dev
    find_caf || skip "no caf of OpenCoarrays that builds a program"
    need_archive
    "$build" -std=f2018 -O2 -Wall -J "$work" "${sources[@]}" "$archive" -o "$work/team"
    # Open MPI starts no more images than there are cores, and none as root, unless it is told to.
    export OMPI_MCA_rmaps_base_oversubscribe=1 OMPI_ALLOW_RUN_AS_ROOT=1 OMPI_ALLOW_RUN_AS_ROOT_CONFIRM=1
else
    want mpiexec.hydra mpich
    why=$(missing Fortran emulator)
    [ -z "$why" ] || skip "$why"
    have mpiexec.hydra || skip "no MPICH"
    mkdir -p "$work"/{lists,archives}/partial
    : >"$work/status"
    foreign update && foreign -y --download-only install libcaf-mpich-3 || skip "no x86-64 packages of OpenCoarrays"
    for package in "$work"/archives/*.deb; do dpkg -x "$package" "$work/root"; done
    # The packaged link is an absolute one, which the emulator would follow out of the folder.
    ln -sfn ../lib/x86_64-linux-gnu/ld-linux-x86-64.so.2 "$work/root/lib64/ld-linux-x86-64.so.2"
    libraries=$work/root/usr/lib/x86_64-linux-gnu
    need_archive
    "$FC" -fcoarray=lib -std=f2018 -O2 -Wall -J "$work" "${sources[@]}" "$archive" "$libraries/libcaf_mpich.so.3" \
        -Wl,-rpath-link,"$libraries:$work/root/lib/x86_64-linux-gnu" -o "$work/team"
    start=(mpiexec.hydra -n 9 "$(emulator)" -L "$work/root")
fi
# All images are on one machine, so MPICH needs shared memory alone. With the transports that it chooses itself it does not come to
# an end under the emulator. Its warnings about OpenCoarrays' last messages would stand between the lines.
export UCX_TLS=posix,self UCX_LOG_LEVEL=error UCX_LOG_FILE=stderr
timeout -k 10 300 "${start[@]}" "$work/team" </dev/null >"$work/out" || { echo "coarray: the images ended with status $?"; exit 1; }
LC_ALL=C sort "$work/out" | diff examples/coarray/expected.txt - || exit 1
echo "coarray: nine images, as expected"
