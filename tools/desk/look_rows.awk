# Reads the records of a good table, and then rows that were refused with it (-v code=15 or 13), and says where the first fault is and what
# it is. -v bytes= is how many bytes the rows are. What is looked for is document 02's, R-1: the rows for themselves (15), or
# whether their letters are the table's (13).

NR == FNR {
    if ($2 >= 3 && $4 + 1 > letters[$2]) letters[$2] = $4 + 1
    next
}
{
    count++
    stands[count] = $1
    state[count] = $2
    output[count] = $3
    input[count] = $4
    onward[count] = $5
    named[$2] = 1
}

function in_all(why) { return "In " ENVIRON["second"] ": " why }
function at(i, why,    place) {
    place = stands[i] == "-" ? "row " i - 1 " counted from 0, bytes " 4 * i - 4 " to " 4 * i - 1 : "line " stands[i]
    return "In " ENVIRON["second"] ", " place " (" state[i] " " output[i] " " input[i] " " onward[i] "): " why
}
function letters_of(kind) { return letters[kind] == 1 ? "0" : "0 to " letters[kind] - 1 }

# The input with which the inputs of the first state end. Those of every state must.
function last_input(    i) {
    for (i = 1; i < count && state[i + 1] == state[1]; i++);
    return input[i]
}

# What is wrong with a row's own numbers.
function alone(i) {
    if (output[i] > 7) return "its output is " output[i] ", and the largest is 7."
    if (input[i] > 7) return "its input is " input[i] ", and the largest is 7."
    return ""
}

# What is wrong with a row after one of the same state.
function goes_on(i) {
    if (input[i] != input[i - 1] + 1)
        return "after input " input[i - 1] " of state " state[i] " comes input " input[i] ". Each input stands once, in order."
    if (output[i] != output[i - 1])
        return "state " state[i] " gives output " output[i] " here and output " output[i - 1] " in the row before. A state has one output."
    return ""
}

# What is wrong with a row that begins a state.
function begins(i) {
    if (i > 1 && state[i] == state[1])
        return "state " state[i] ", the first, comes again. All rows of a state stand together."
    if (i > 1 && state[i - 1] != state[1] && state[i] < state[i - 1])
        return "state " state[i] " comes after state " state[i - 1] ". The states after the first one ascend."
    if (input[i] != 0) return "the inputs of state " state[i] " begin with " input[i] ", and not with 0."
    return ""
}

# What is wrong with a row that ends a state.
function ends(i) {
    if ((i == count || state[i + 1] != state[i]) && input[i] != last)
        return "the inputs of state " state[i] " end with " input[i] ", and those of state " state[1] ", the first, with " last "."
    return ""
}

# The first of three findings that is one.
function first_of(a, b, c) { return a != "" ? a : b != "" ? b : c }

# 15: the first fault of the rows for themselves.
function misshapen(    i, found) {
    if (bytes % 4) return in_all(bytes " bytes are no whole number of rows. A row is four bytes.")
    if (!count) return in_all("there is no row.")
    if (count > 2048) return at(2049, "there are at most 2,048 rows, and this is one more.")
    last = last_input()
    for (i = 1; i <= count; i++) {
        found = first_of(alone(i), i > 1 && state[i] == state[i - 1] ? goes_on(i) : begins(i), ends(i))
        if (found != "") return at(i, found)
    }
    for (i = 1; i <= count; i++) if (!(onward[i] in named)) return at(i, "its next state " onward[i] " has no rows.")
    return ""
}

# 13: the first row with a letter that the table doesn't have, or where inputs of the table are left out.
function foreign(    i) {
    for (i = 1; i <= count; i++) {
        if (output[i] >= letters[3]) return at(i, "its output is " output[i] ", and the outputs of the table are " letters_of(3) ".")
        if (input[i] >= letters[4]) return at(i, "its input is " input[i] ", and the inputs of the table are " letters_of(4) ".")
    }
    last = last_input()
    return at(last + 1, "the inputs end with " last ", and the inputs of the table are " letters_of(4) ".")
}

END { print code == 15 ? misshapen() : foreign() }
