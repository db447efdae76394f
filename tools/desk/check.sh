# shellcheck shell=sh disable=SC2154
# A part of ./desk: a controller from elsewhere, checked against a table. The table is read as table 1, and the rows as its second file.

# The patience asked for. The program takes no more than nine digits, and refuses what is over 7 with code 2.
take_patience() {
    case $patience in
    '' | *[!0-9]* | ??????????*) stop "The patience is a number from 0 to 7: ./desk --check TABLE ROWS K. ./desk --help tells more." ;;
    esac
    # shellcheck disable=SC2034
    least=$patience most=$patience
}

say_checked() {
    case $code in
    0)
        tell "Yes: whoever follows these rows keeps the rules of $first within patience $k, whatever happens."
        card 5
        ;;
    1)
        tell "No: for some inputs, following these rows breaks the rules of $first more often than patience $k allows."
        if [ "$k" -eq 0 ] && starts_marked; then
            tell "Don't put these rows into a cradle. No rows can do with patience 0: a start state of the table is marked."
            tell "To begin there is a visit. Ask for a patience from 1 to 7, or ask the rule writer whether that mark is meant."
        else
            tell "Don't put these rows into a cradle. Send them back to their maker, with the table and the patience."
        fi
        ;;
    *)
        at=1
        case $code in
        2) at=0 ;;
        13 | 15) at=2 ;;
        esac
        say_refused
        ;;
    esac
}

# Which row is at fault, and why: the program gives no place for it.
look_at_rows() {
    second=$second awk -v code="$code" -v bytes="$(wc -c <"$scratch/2.bytes")" -f "$tools/look_rows.awk" \
        "$scratch/1.records" "$scratch/2.records"
}
