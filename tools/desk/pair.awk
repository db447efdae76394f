# Reads the records of two good tables that don't go together (-v code=13 or 14) and shows what differs: the letters of each, or the
# states on each side.

FNR == 1 { part++ }
$2 <= 2 { states[part, $2]++ }
$2 >= 3 { if ($4 + 1 > letters[part, $2]) letters[part, $2] = $4 + 1 }

function name(table) { return ENVIRON[table == 1 ? "first" : "second"] }
function letters_of(table, kind) { return letters[table, kind] == 1 ? "0" : "0 to " letters[table, kind] - 1 }

END {
    for (table = 1; table <= 2; table++)
        if (code == 13) print name(table) " has the outputs " letters_of(table, 3) " and the inputs " letters_of(table, 4) "."
        else print name(table) " has " states[table, 1] " controller-turn and " states[table, 2] " world-turn states."
    if (code == 14)
        print "Together that is " states[1, 1] + states[2, 1] " controller-turn and " states[1, 2] + states[2, 2] " world-turn states."
}
