# shellcheck shell=sh disable=SC2154
# A part of ./desk: its programs, each proved and built before it is first run, and never run unless its whole check has passed.
#
# A program that has passed stands as target/desk/NAME.SUM, where SUM is taken over all that it is made of. So a program made of anything
# else is another file, and a new one is put in its place by one move. The kit's own crates/NAME/out/NAME may be left from what the
# sources were before; it is never run from here.

made=$root/target/desk
proving=

# Puts into $program the path of a program that has passed its whole check.
ready() { # NAME
    home=$("$root/tools/kit") || give_up "The Rattle kit was not found. Put its command rt on the PATH."
    sum=$(sum_of "$1")
    program=$made/$1.$sum
    [ -f "$program" ] || build "$1"
}

# The crates that a program is made of, in the order of crates.txt: there a crate stands below all that it uses.
crates_of() { # NAME
    awk -v name="$1" '
        { sub(/#.*/, "") }
        /:/ { crate[++count] = $1; sub(/:$/, "", crate[count]); uses[count] = substr($0, index($0, ":") + 1) }
        END {
            needed[name] = 1
            for (i = count; i >= 1; i--)
                if (crate[i] in needed) {
                    last = split(uses[i], used, " ")
                    for (j = 1; j <= last; j++) needed[used[j]] = 1
                }
            for (i = 1; i <= count; i++) if (crate[i] in needed) print crate[i]
        }' "$root/crates.txt"
}

# A sum over all that a program is made of: the kit, and for each of its crates the line in crates.txt and the files that a check reads.
# Not over their dates, nor over other crates.
sum_of() { # NAME
    {
        cat "$home/KIT-ID" 2>/dev/null
        for crate in $(crates_of "$1"); do
            grep -E "^$crate( [^:#]*)?:" "$root/crates.txt"
            cd "$root/crates/$crate" || exit
            find src specs proofs stdin stdout args status data -type f -exec sha256sum {} + 2>/dev/null | LC_ALL=C sort
        done
    } | sha256sum | cut -c 1-16
}

# Proves and builds a program under a lock. The lock goes to all that is started for it, so it is held until the last of them has ended.
build() { # NAME
    rt=$(command -v rt || command -v "$home/bin/rt") || give_up "The program has to be built, and the kit at $home has no command rt."
    { command -v flock && command -v setsid; } >/dev/null ||
        give_up "The program has to be built, and that needs flock and setsid of util-linux."
    { mkdir -p "$made" && touch "$made/lock"; } 2>/dev/null ||
        give_up "$made can't be written. Copy the repository to a folder of your own."
    exec 9>"$made/lock"
    if ! flock -n 9; then
        tell "Another ./desk is proving and building the program. Waiting for it." >&2
        flock 9
    fi
    if [ ! -f "$program" ]; then
        check "$1"
        put_in_place "$1"
    fi
    exec 9>&-
}

# Runs the whole check as a job of its own, which an interrupt can end with all that it started, and says how it goes on.
check() { # NAME
    tell "The program has to be proved and built first, once. This can take some minutes." >&2
    for crate in $(crates_of "$1"); do rm -f "$root/target/log/$crate.out"; done
    # shellcheck disable=SC2046
    setsid sh "$tools/prove.sh" "$root" "$rt" $(crates_of "$1") >"$scratch/build" 2>&1 </dev/null &
    proving=$!
    said=
    waited=0
    while kill -0 "$proving" 2>/dev/null; do
        follow "$1"
        for _ in 1 2 3 4 5; do kill -0 "$proving" 2>/dev/null && sleep 0.2; done
        waited=$((waited + 1))
    done
    wait "$proving" || {
        proving=
        cat "$scratch/build" >&2
        give_up "The check failed, so nothing was built and no table was tried. How it ended stands above; target/log/ has all."
    }
    proving=
}

# Says which crate is being proved and how many are left, when that changes and again after every half minute. target/log/CRATE.out is
# there as soon as a crate is begun, and has its verdict as the last line.
follow() { # NAME
    left=0 now=
    for crate in $(crates_of "$1"); do
        tail -n 1 "$root/target/log/$crate.out" 2>/dev/null | grep -q "^rt: $crate proved" && continue
        left=$((left + 1))
        [ ! -f "$root/target/log/$crate.out" ] || now="$now${now:+, }$crate"
    done
    [ -n "$now" ] || return 0
    now="proving $now; left to prove: $left"
    if [ "$now" != "$said" ]; then
        said=$now
        waited=0
        tell "  $now" >&2
    elif [ "$waited" -ge 30 ]; then
        waited=0
        tell "  still $now" >&2
    fi
}

put_in_place() { # NAME
    [ "$(sum_of "$1")" = "$sum" ] || give_up "What the program is made of was changed while it was being proved. Call ./desk again."
    built=$root/crates/$1/out/$1
    [ -f "$built" ] || give_up "The check passed, but crates/$1/out/$1 is gone. Remove the folder crates/$1/out and call ./desk again."
    rm -f "$made/$1".*
    { cp "$built" "$made/$1.new" && mv "$made/$1.new" "$program"; } || give_up "$program can't be written. Is the disk full?"
}

# An interrupt: ends a check that is under way, with all that it started.
break_off() {
    [ -z "$proving" ] || {
        kill -- "-$proving" 2>/dev/null
        tell "Broken off: the program was not built. Call ./desk again; what has been proved stays proved." >&2
    }
    exit 4
}
