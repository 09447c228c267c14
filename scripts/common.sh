# For the other scripts, to be sourced at the top of the repository: what they say and ask in the same way.

# The name in front of what is said on standard error.
said_by=${said_by:-${0##*/}}

have() { command -v "$1" >/dev/null 2>&1; }

# What could not be run, in the form that the gate looks for.
not_run() { echo "NOT RUN: $1, $2"; } # WHAT WHY

need_kit() {
    have rt || { echo "$said_by: rt, the command of the Rattle kit, is not on the path" >&2; exit 2; }
    kit=$(dirname "$(rt doc)")
}

# Prints the emulator of x86-64 of the path, for another machine; nothing where there is none.
emulator() { command -v qemu-x86_64 || true; }

# Prints what a crate's line of crates.txt names behind the colon. In front of it stand the crate and, where it is no plain library or
# program, words of what it is: NAME staticlib: LIBRARY ..
named_by() { # NAME
    sed -n -e 's/#.*//' -e "s/^$1\( [^:]*\)\?://p" crates.txt
}

# Prints this crate and all crates of the repository that it stands on, a line each.
crates_of() { # NAME
    local names=("$1") at=0 below
    while [ $at -lt ${#names[@]} ]; do
        for below in $(named_by "${names[at]}"); do
            case " ${names[*]} " in *" $below "*) ;; *) [ ! -d "crates/$below" ] || names+=("$below") ;; esac
        done
        at=$((at + 1))
    done
    printf '%s\n' "${names[@]}"
}

# Runs a command of rt in the folder of a crate, which proves the crate and those below it, and takes minutes where little is proved yet:
# says on standard error how far it is. The status is that of rt, whose last lines are shown if it is not 0.
prove() { # NAME COMMAND..
    local log status=0
    log=$(mktemp)
    (cd "crates/$1" && "${@:2}") </dev/null 2>&1 | tee "$log" | progress "$(crates_of "$1" | wc -l)" || status=$?
    [ $status = 0 ] || tail -n 5 "$log" >&2
    rm -f "$log"
    return $status
}

# Reads what rt prints and says which crate is begun, and the seconds so far; also where nothing came for a while. A library that is there
# already is passed over, so that they may be fewer.
progress() { # CRATES
    local count=0 began=$SECONDS line name='' status
    while true; do
        status=0
        IFS= read -r -t 20 line || status=$?
        if [ $status -gt 128 ]; then
            echo "$said_by: proving, still at ${name:-the files}, $((SECONDS - began)) s" >&2
            continue
        fi
        [ $status = 0 ] || return 0
        case $line in "rt: chose --jobs "*" for "*) ;; *) continue ;; esac
        name=${line##* } count=$((count + 1))
        echo "$said_by: proving $name, crate $count of at most $1, $((SECONDS - began)) s" >&2
    done
}
