#!/bin/sh
# tests/copies.sh: the tables and rows that the programs read in their stored runs are those of tables/. There a table is a file of bytes,
# or a text of the same name, and rows are a text. Prints last 'N passed, M failed'.
set -u
cd "$(dirname "$0")/.." || exit 2
# shellcheck disable=SC1091
. tests/holds.sh

# A table of tables/ as bytes.
original() { # NAME
    if [ -f "tables/$1.tab" ]; then
        cat "tables/$1.tab"
    else
        printf %b "$(sed 's/#.*//; s/ //g; s/./\\00&/g' "tables/$1.table" | tr -d '\n')"
    fi
}

# Rows of tables/ as bytes.
original_rows() { # NAME
    printf %b "$(sed 's/#.*//' "tables/$1.rows" | awk 'NF { printf "\\0%o\\0%o\\0%o\\0%o", $1, $2, $3, $4 }')"
}

for copy in crates/*/data/*; do
    case $copy in
    *.tab) original "$(basename "$copy" .tab)" ;;
    *.rows) original_rows "$(basename "$copy" .rows)" ;;
    esac >"$scratch/original"
    holds "$copy has what stands under that name in tables/" cmp "$scratch/original" "$copy"
done
echo "$passed passed, $failed failed"
[ "$failed" -eq 0 ] && [ "$passed" -gt 0 ]
