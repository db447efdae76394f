# Reads the records of a table that was refused with a code that names no record (-v code=), and says what to look at. Each check comes
# after those of the smaller codes, so where 7 failed the records are in order, and where 8 or 10 failed the states are rightly numbered.

function side(kind) { return kind == 1 ? "controller-turn" : "world-turn" }
function where() { return $1 == "-" ? "" : " (line " $1 ")" }
function wrong(text) { if (misnumbered == "") misnumbered = text }

$2 == 1 || $2 == 2 {
    if (states[$2] > $3) wrong("the " side($2) " state " $3 " has a second record, " $2 $3 $4 $5 where() ".")
    else if (states[$2] < $3)
        wrong("the " side($2) " state " $3 " stands where state " states[$2] + 0 " should be: " $2 $3 $4 $5 where() ".")
    states[$2]++
    if ($2 == 1) found = found (found == "" ? "" : ", ") $2 $3 $4 $5 where()
}
$2 == 3 || $2 == 4 {
    edge[$2, $3, $4] = 1
    if ($4 + 1 > letters[$2]) letters[$2] = $4 + 1
}

# The first gap of a side, or nothing.
function gap(kind, letter_name,    state, letter) {
    if (!letters[kind]) return sprintf("there is no edge on an %s at all (no record begins with %d).", letter_name, kind)
    for (state = 0; state < states[kind - 2]; state++)
        for (letter = 0; letter < letters[kind]; letter++)
            if (!((kind, state, letter) in edge))
                return sprintf("the first gap: the %s state %d has no edge for %s %d (no record begins with %d%d%d).", \
                    side(kind - 2), state, letter_name, letter, kind, state, letter)
    return ""
}

END {
    if (code == 4) print "records found: " NR + 0 "."
    if (code == 7) {
        for (kind = 1; kind <= 2; kind++)
            if (!states[kind]) wrong("there is no " side(kind) " state (no record begins with " kind ").")
        print misnumbered
    }
    if (code == 8) print "the controller-turn states are " found "; none has 2 or 3 in its third place."
    if (code == 10) {
        found = gap(3, "output")
        print found == "" ? gap(4, "input") : found
    }
}
