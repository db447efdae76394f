#!/bin/sh
# tests/declarations.sh: include/feshamiru.h compiles as C and as C++ without a warning, alone and twice in a file; and include/feshamiru.rs
# declares the same numbers and the same calls, with the same names and kinds of what they take, in the same order. Prints last
# 'N passed, M failed'.
set -u
cd "$(dirname "$0")/.." || exit 2
# shellcheck disable=SC1091
. tests/holds.sh

# The header alone, by a compiler with every warning an error.
compiles() { # COMPILER LANGUAGE STANDARD
    "$1" -fsyntax-only -x "$2" "-std=$3" -Wall -Wextra -Wpedantic -Werror -I include "$scratch/twice.h"
}

# What a C text says without its comments, on one line.
without_comments() {
    awk '{ text = text " " $0 }
        END {
            while ((from = index(text, "/*")) > 0) {
                rest = substr(text, from + 2)
                text = substr(text, 1, from - 1) " " substr(rest, index(rest, "*/") + 2)
            }
            print text
        }' "$1"
}

# Each number, 'NAME VALUE'.
numbers_in_c() { without_comments include/feshamiru.h | tr ',{}' '[\n*]' | sed -n 's/^ *\(DESK_[A-Z_]*\) = \([0-9]*\) *$/\1 \2/p'; }
numbers_in_rust() { sed -n 's/^pub const \(DESK_[A-Z_]*\): u32 = \([0-9_]*\);$/\1 \2/p' include/feshamiru.rs; }

# Each call, a line 'NAME RESULT' and a line 'NAME KIND' for each thing that it takes, the kinds as Rust has them.
calls_in_c() {
    without_comments include/feshamiru.h | tr ';{}' '[\n*]' | sed -n 's/^ *uint32_t \(desk_[a-z_]*\)(\(.*\)) *$/call \1 u32,\2/p' | tr ',' '\n' |
        sed -e 's/^ *//' -e 's/const uint8_t \*\([a-z_]*\)/\1 *const u8/' -e 's/^uint8_t \*\([a-z_]*\)/\1 *mut u8/' \
            -e 's/^size_t \([a-z_]*\)/\1 usize/' -e 's/^uint32_t \([a-z_]*\)/\1 u32/' -e 's/ *$//'
}
calls_in_rust() {
    sed -e 's,//.*,,' include/feshamiru.rs | tr '\n' ' ' | tr ';{}' '[\n*]' |
        sed -n 's/^ *pub fn \(desk_[a-z_]*\)(\(.*\)) -> \([a-z0-9]*\) *$/call \1 \3,\2/p' | tr ',' '\n' |
        sed -e 's/^ *//' -e 's/: / /' -e 's/ *$//' -e '/^$/d'
}

printf '%s\n' '#include "feshamiru.h"' '#include "feshamiru.h"' >"$scratch/twice.h"
for standard in c99 c11 c17; do
    holds "the header as $standard" compiles "${CC:-cc}" c "$standard"
done
if command -v "${CXX:-c++}" >/dev/null; then
    for standard in c++11 c++17; do
        holds "the header as $standard" compiles "${CXX:-c++}" c++ "$standard"
    done
else
    echo "skipped: the header as C++: there is no ${CXX:-c++}"
fi

numbers_in_c >"$scratch/c"
numbers_in_rust >"$scratch/rust"
holds "the header has numbers" test "$(wc -l <"$scratch/c")" -ge 20
holds "both declare the same numbers" diff "$scratch/c" "$scratch/rust"
calls_in_c >"$scratch/c"
calls_in_rust >"$scratch/rust"
holds "the header has calls" test "$(grep -c '^call' "$scratch/c")" -ge 4
holds "both declare the same calls" diff "$scratch/c" "$scratch/rust"

echo "$passed passed, $failed failed"
[ "$failed" -eq 0 ]
