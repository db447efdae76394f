# shellcheck shell=sh disable=SC2154
# A part of ./desk: pictures of a table and of a controller, beside the file of the table.

# Puts the drawing beside the table, as DOT and, where Graphviz is installed, as SVG.
draw() { # KIND
    place_beside "$1.dot"
    if ! command -v dot >/dev/null; then
        tell "Drawn as $first.$1.dot. Graphviz is not installed here; where it is, 'dot -Tsvg' makes a picture of that file."
    elif dot -Tsvg "$scratch/$1.dot" >"$scratch/$1.svg"; then
        place_beside "$1.svg"
        tell "Drawn as $first.$1.svg, and for Graphviz as $first.$1.dot."
    else
        give_up "Drawn as $first.$1.dot, but Graphviz could not make a picture of it."
    fi
}

place_beside() { # NAME
    { cat "$scratch/$1" >"$first.$1"; } 2>/dev/null || give_up "$first.$1 can't be written. Copy the table to a folder of your own."
}

draw_controller() {
    say
    [ "$code" -eq 0 ] || return
    awk -f "$tools/controller.awk" "$scratch/answer" >"$scratch/controller.dot"
    draw controller
}

draw_table() {
    [ -s "$scratch/1.records" ] || stop "$first has no record, so there is nothing to draw."
    strange=$(awk '$2 < 1 || $2 > 4 { print NR - 1; exit }' "$scratch/1.records")
    [ -z "$strange" ] || stop "The table can't be drawn: the record $(record 1 "$strange"), is neither a state nor an edge."
    awk -f "$tools/table.awk" "$scratch/1.records" >"$scratch/table.dot"
    draw table
}
