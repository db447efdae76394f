# shellcheck shell=sh disable=SC2154
# A part of ./desk: two positions of one side, compared.

take_positions() {
    take_position first "$first"
    take_position second "$second"
}

take_position() { # WHICH WORD
    case $2 in
    [0-9][0-9][0-9][0-9][0-9][0-9][0-9][0-9]) ;;
    *) stop "The $1 position is not eight digits. It has one for each state: the count + 1, or 0 where no run is." \
        "./desk --help tells more." ;;
    esac
}

compare_positions() {
    run_program compare "$first" "$second" </dev/null
    read_answer -v first="$first" -v second="$second" -f "$tools/compared.awk"
    show "$scratch/answer" "$(cat "$scratch/read")"
}
