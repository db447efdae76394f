# Reads what the desk program printed and draws the controller as a DOT graph: a node for each of its own states, with its output, and
# an arrow for the inputs that lead from it to the same next state. The first row names the start. A controller has a state for each
# winner, so some may never be met from the start; those are dotted.

$1 == "k" { next }
{
    if (!($1 in output)) {
        output[$1] = $2
        state[++states] = $1
    }
    arrow = $1 " " $4
    if (!(arrow in inputs)) arrows[++count] = arrow
    inputs[arrow] = inputs[arrow] (inputs[arrow] == "" ? "" : ", ") $3
}

# Marks every state that the start leads to, and counts them.
function follow(    before, i, ends) {
    met[state[1]] = 1
    met_count = 1
    do {
        before = met_count
        for (i = 1; i <= count; i++) {
            split(arrows[i], ends, " ")
            if ((ends[1] in met) && !(ends[2] in met)) {
                met[ends[2]] = 1
                met_count++
            }
        }
    } while (met_count > before)
}

function style(number) { return (number in met) ? "" : ", style=dotted" }

END {
    follow()
    print "digraph controller {"
    print "    rankdir=LR; nodesep=0.4"
    printf "    label=\"The controller's own states.%s\"\n", met_count < states ? " Dotted: never met from the start." : ""
    print "    start [shape=plaintext]"
    for (i = 1; i <= states; i++)
        printf "    s%d [label=\"state %d\\noutput %d\"%s]\n", state[i], state[i], output[state[i]], style(state[i])
    print "    start -> s" state[1]
    for (i = 1; i <= count; i++) {
        split(arrows[i], ends, " ")
        printf "    s%d -> s%d [label=\"input %s\"%s]\n", ends[1], ends[2], inputs[arrows[i]], style(ends[1])
    }
    print "}"
}
