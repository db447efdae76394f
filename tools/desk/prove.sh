#!/bin/sh
# A part of ./desk, run as a job of its own: proves crates one after the other, each of which stands below all that use it, and builds the
# last one, which is a program. target/log/CRATE.out is there as soon as a crate is begun, has what rt said of it, and last the verdict.
#
# What a program of the desk is stored with beside its sources is tried too, as 'rt ci' does: on its stdin, args and data it has to print its
# stdout and to end well.
set -u

root=$1 rt=$2
shift 2
room=$(mktemp -d) || exit 1
trap 'rm -rf "$room"' EXIT
trap 'exit 1' HUP INT TERM

# 'rt run' runs the program as well, here on nothing.
prove() { # CRATE lib|run
    cd "$root/crates/$1" && "$rt" "$2" </dev/null
}

# The program in the folder of its crate, with the words of the file args, one a line.
run_as_stored() { # CRATE
    program=$PWD/out/$1
    shift
    if [ -f args ]; then
        while IFS= read -r word || [ -n "$word" ]; do set -- "$@" "$word"; done <args
    fi
    mkdir "$room/data"
    [ ! -d data ] || cp -R data/. "$room/data"
    stdin=/dev/null
    [ ! -f stdin ] || stdin=$PWD/stdin
    (cd "$room/data" && exec "$root/tools/program" "$program" "$@") <"$stdin" >"$room/stdout"
}

prints_what_is_stored() { # CRATE
    [ -f stdout ] || return 0
    run_as_stored "$1" && cmp "$room/stdout" stdout && return
    echo "$1 is proved, but on what is stored for it, it does not print what its file stdout has, or does not end well."
    return 1
}

mkdir -p "$root/target/log" || exit 1
while [ $# -gt 0 ]; do
    log=$root/target/log/$1.out
    if [ $# -gt 1 ]; then
        prove "$1" lib >"$log" 2>&1
    else
        prove "$1" run >"$log" 2>&1 && prints_what_is_stored "$1" >>"$log" 2>&1
    fi || {
        echo "rt: $1 NOT PROVED" >>"$log"
        tail -n 5 "$log"
        exit 1
    }
    echo "rt: $1 proved" >>"$log"
    shift
done
