# Reads the records of two tables and what the program printed of their join, and writes the joined table as text. Each record gets a
# comment: the table and the line that it comes from, its state or states there, and the comment it has there. The second table's states
# stand above the first's, each side for itself; where a record is found in neither table the exit status is 1.

FNR == 1 { part++ }

part < 3 {
    text = $2 " " $3 " " $4 " " $5
    place = $1 == "-" ? "bytes " 4 * (FNR - 1) " to " 4 * FNR - 1 : "line " $1
    comment = $0
    sub(/^[^ ]+ [0-9]+ [0-9]+ [0-9]+ [0-9]+ ?/, "", comment)
    stands[part, text] = place
    says[part, text] = comment
    if ($2 <= 2) states[part, $2]++
    next
}

FNR == 1 { head(); next }

function name(table,    text) {
    text = ENVIRON[table == 1 ? "first" : "second"]
    gsub(/[\001-\037\177]/, "?", text)
    return text
}
function side(kind) { return kind == 1 ? "controller-turn" : "world-turn" }
function span(from, count) { return count == 1 ? from : from " to " from + count - 1 }

function head(    kind) {
    print "# " name(1) " joined with " name(2) "."
    for (kind = 1; kind <= 2; kind++)
        print "# The " side(kind) " states " span(0, states[1, kind]) " are those of " name(1) ", and " \
            span(states[1, kind], states[2, kind]) " are " span(0, states[2, kind]) " of " name(2) "."
    print ""
}

# The table that a state of the joined table comes from, and its number there.
function table_of(kind, state) { return state < states[1, kind] ? 1 : 2 }
function number_in(table, kind, state) { return table == 1 ? state : state - states[1, kind] }

{
    from_kind = $1 <= 2 ? $1 : $1 - 2
    table = table_of(from_kind, $2)
    from = number_in(table, from_kind, $2)
    to = $1 <= 2 ? $4 : number_in(table, 3 - from_kind, $4)
    text = $1 " " from " " $3 " " to
    if (!((table, text) in stands)) exit 1
    comment = says[table, text]
    states_there = "state " from ($1 <= 2 ? "" : " to " to)
    print $1, $2, $3, $4 "   # " name(table) ", " stands[table, text] ", " states_there (comment == "" ? "" : ": " comment)
}
