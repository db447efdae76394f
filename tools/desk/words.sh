# shellcheck shell=sh disable=SC2154
# A part of ./desk: what came of it in plain words, most of them the card's.

# A column of a code's row on the card, so that the card and this program can't differ: 3 the name, 4 what it means, 5 what to do.
card() { awk -F ' *[|] *' -v code="$code" -v column="$1" '$2 == code { print $column; exit }' "$root/docs/CARD.md"; }

number_of() { # COUNT NOUN
    if [ "$1" -eq 1 ]; then echo "1 $2"; else echo "$1 $2s"; fi
}

patience_to() { # LAST
    if [ "$1" -eq 0 ]; then echo "patience 0"; else echo "patience 0 to $1"; fi
}

# A record and where it stands. Records are counted from 0, as the program counts them.
record() { # TABLE NUMBER
    awk -v number="$2" '
        NR == number + 1 && $1 == "-" { print $2, $3, $4, $5 ", bytes " 4 * number " to " 4 * number + 3 }
        NR == number + 1 && $1 != "-" { print $2 $3 $4 $5 ", line " $1 }' "$scratch/$1.records"
}

say() {
    case $code in
    0) say_made ;;
    1) say_none ;;
    *)
        [ "$k" -eq 0 ] || tell "Tried with $(patience_to $((k - 1))): no controller. With patience $k the answer is another:"
        at=$which
        [ "$tables" -eq 2 ] || at=1
        say_refused
        ;;
    esac
}

say_made() {
    less=
    [ "$k" -eq 0 ] || less=' With less patience none can be made.'
    if [ "$k" -eq 1 ] && starts_marked; then less="${less%.}: a start state is marked, and to begin there is a visit."; fi
    tell "A controller was made: with patience $k it has $(number_of "$winners" state) of its own.$less"
}

say_none() {
    tell "Tried with $(patience_to "$k"): no controller. $(card 4)"
    card 5
    further
}

# Whether a start state of a table is marked. Then one visit is counted before the cradle has done anything, and patience 0 is never enough.
starts_marked() {
    set -- "$scratch/1.records"
    [ "$tables" -eq 1 ] || set -- "$@" "$scratch/2.records"
    awk '$2 == 1 && $4 == 3 { found = 1 } END { exit !found }' "$@"
}

# What the rule writer can ask when no controller can be made. The command for the question of document 02, R-14, how long a position
# holds out, is named here when it comes.
further() { tell "./desk --picture-table draws a table, to see how a run comes to its marked states."; }

# $at is the file at fault, 0 for both together or for none.
say_refused() {
    tell "Refused with code $code, $(card 3): $(card 4)"
    look
    card 5
    for number in 1 2; do
        [ "$at" -eq "$number" ] && is_bytes "$number" || continue
        tell "$(name_of "$number") was taken as plain bytes. If it is meant as text, save it as plain text (UTF-8) and try again."
    done
}

# Where to look: the record, or what was found in its place where a code comes without one.
look() {
    case $code in
    5 | 9) tell "The record is $(record "$at" "$place") of $(name_of "$at") (record $place, counted from 0)." ;;
    6)
        tell "The record is $(record "$at" "$place") of $(name_of "$at") (record $place, counted from 0)."
        tell "Before it stands $(record "$at" $((place - 1)))."
        ;;
    4 | 7 | 8 | 10) tell "In $(name_of "$at"): $(awk -v code="$code" -f "$tools/look.awk" "$scratch/$at.records")" ;;
    11) [ "$tables" -eq 1 ] || tell_full ;;
    13 | 14) if [ "$task" = check ]; then look_at_rows; else look_at_pair; fi ;;
    15) look_at_rows ;;
    esac
}

look_at_pair() {
    first=$first second=$second awk -v code="$code" -f "$tools/pair.awk" "$scratch/1.records" "$scratch/2.records"
}

tell_full() {
    case $at in
    0) tell "The room ran out while the two were solved together." ;;
    *) tell "The room ran out while $(name_of "$at") was solved alone." ;;
    esac
}

# The joined table as text: each record with the table, the line and the states that it comes from.
write_joined() {
    first=$first second=$second awk -f "$tools/joined.awk" "$scratch/1.records" "$scratch/2.records" "$scratch/answer" >"$scratch/joined" ||
        give_up "The joined table has a record that comes from neither table. This is a fault of the program; please report it."
    show "$scratch/joined"
}
