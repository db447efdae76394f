#!/bin/sh
# tests/readme.sh: what README.md shows is so: the table and the answer of its example, the check of a maker's rows, two positions that are
# compared, and the programs in C and Rust, which compile, run and print what it says by its own commands; and every file it names is
# there. Needs target/staticlib/libcalls.a, which tools/archive makes. Prints last 'N passed, M failed'.
set -u
cd "$(dirname "$0")/.." || exit 2
# shellcheck disable=SC1091
. tests/holds.sh

# The lines of README.md that are set in by four blanks and match one of some patterns, without the blanks.
set_in() { # PATTERN..
    sed -n 's/^    //p' README.md >"$scratch/set"
    for pattern; do
        set -- "$@" -e "^$pattern\$"
        shift
    done
    grep "$@" "$scratch/set"
}

# The program text in README.md in a language.
text_in() { sed -n "/^\`\`\`$1\$/,/^\`\`\`\$/{/^\`\`\`/!p;}" README.md; }

in_order() { # SHOWN FILE: every line shown is one of the file, in the same order
    [ -s "$1" ] && awk -v file="$2" '
        { while ((got = (getline line <file)) > 0 && line != $0); if (got <= 0) { print "not there: " $0; missing = 1; exit } }
        END { exit missing }' "$1"
}

prints() { # COMMAND: one that README.md gives; it prints what README.md says, which is in $scratch/answer
    rm -f target/example target/bin/example
    set_in "$1" >"$scratch/command"
    [ -s "$scratch/command" ] && sh -eu "$scratch/command" >"$scratch/printed" && diff "$scratch/printed" "$scratch/answer"
}

set_in '[1-4] [0-9] [0-9] [0-9] .*' >"$scratch/records"
grep '^[1-4]' tables/owed.table >"$scratch/owed"
holds "the table is tables/owed.table" diff "$scratch/records" "$scratch/owed"
set_in 'k [0-9].*' '[0-9] [0-9] [0-9] [0-9]' 'A controller was made.*' | sed '/^A controller/q' >"$scratch/said"
holds "the answer is what ./desk --plain says" diff "$scratch/said" tests/expected/owed.said

set_in 'k [0-9] code [0-9] place [0-9]' 'Yes: .*' 'Pass the rows .*' >"$scratch/answer"
holds "what checking rows prints is shown" test "$(wc -l <"$scratch/answer")" -eq 3
holds "./desk --check" prints '\./desk --check .*'

set_in 'below [0-7].*' 'The first is below .*' 'If the rules .*' 'State [0-7]: .*' >"$scratch/answer"
holds "what comparing positions prints is shown" test "$(wc -l <"$scratch/answer")" -eq 5
holds "./desk --compare" prints '\./desk --compare .*'

text_in c >"$scratch/c"
holds "the C text is of tests/c/example.c" in_order "$scratch/c" tests/c/example.c
text_in rust >"$scratch/rust"
holds "the Rust text is of tests/rust/example.rs" in_order "$scratch/rust" tests/rust/example.rs

printf '%s\n' 'code 0' '0 1 0 0' '0 1 1 0' >"$scratch/answer"
set_in 'code [0-9]' '[0-9] [0-9] [0-9] [0-9]' | sed -n '/^code/,$p' >"$scratch/shown"
holds "what the programs print is shown" diff "$scratch/shown" "$scratch/answer"
holds "the C program, built by the kit" prints 'tests/c/build .*'
holds "the C program, built by cc" prints 'cc .*'
holds "the Rust program" prints 'rustc .*'

# The paths that a text gives in backquotes.
paths() {
    awk '{
        while (match($0, /`[^` ]*\/[^` ]*`/)) {
            print substr($0, RSTART + 1, RLENGTH - 2)
            $0 = substr($0, RSTART + RLENGTH)
        }
    }' "$@"
}

paths README.md docs/CARD.md | grep -v '^target/' | sort -u >"$scratch/paths"
holds "README.md names paths" test -s "$scratch/paths"
while IFS= read -r path; do
    holds "README.md or docs/CARD.md names $path" test -e "$path"
done <"$scratch/paths"

echo "$passed passed, $failed failed"
[ "$failed" -eq 0 ]
