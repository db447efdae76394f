# Reads the records of a table and draws it as a DOT graph, good or not, so that a fault can be seen: the controller-turn states as
# ovals, the world-turn states as boxes, marked ones double, an arrow from "start" to each start state, and one arrow from state to
# state with all its letters. A state that has no record is dotted.

# The node of a state: c and its number for a controller-turn state, w and its number for a world-turn state.
function node(side, number) { return (side == 1 ? "c" : "w") number }

function meet(side, number) {
    if ((side, number) in met) return
    met[side, number] = 1
    nodes[++node_count] = side " " number
}

function declare(side, number, flags) {
    meet(side, number)
    declared[side, number] = 1
    if (flags % 2) marked[side, number] = 1
    if (side == 1 && int(flags / 2) % 2) starts[++start_count] = number
}

# Kind 3 leads from side 1 to side 2, kind 4 from side 2 to side 1.
function lead(kind, from, letter, to,    arrow) {
    meet(kind - 2, from)
    meet(5 - kind, to)
    arrow = kind " " from " " to
    if ((arrow, letter) in seen) return
    seen[arrow, letter] = 1
    if (!(arrow in letters)) arrows[++arrow_count] = arrow
    letters[arrow] = letters[arrow] (letters[arrow] == "" ? "" : ", ") letter
}

$2 == 1 || $2 == 2 { declare($2, $3, $4) }
$2 == 3 || $2 == 4 { lead($2, $3, $4, $5) }

function lacks_record(    state) {
    for (state in met) if (!(state in declared)) return 1
    return 0
}

function draw_state(side, number) {
    printf "    %s [label=\"%s %d\"", node(side, number), side == 1 ? "controller-turn" : "world-turn", number
    if (side == 2) printf ", shape=box"
    if ((side, number) in marked) printf ", peripheries=2"
    if (!((side, number) in declared)) printf ", style=dotted"
    print "]"
}

function draw_arrow(kind, from, to) {
    printf "    %s -> %s [label=\"%s %s\"", node(kind - 2, from), node(5 - kind, to), kind == 3 ? "output" : "input", \
        letters[kind " " from " " to]
    if (kind == 4) printf ", style=dashed"
    print "]"
}

END {
    print "digraph table {"
    print "    rankdir=LR; nodesep=0.4"
    printf "    label=\"Oval: controller-turn states. Box: world-turn states. Double line: marked.%s\"\n", \
        lacks_record() ? " Dotted: no record." : ""
    if (start_count) print "    start [shape=plaintext]"
    for (i = 1; i <= node_count; i++) {
        split(nodes[i], part, " ")
        draw_state(part[1], part[2])
    }
    for (i = 1; i <= start_count; i++) print "    start -> " node(1, starts[i])
    for (i = 1; i <= arrow_count; i++) {
        split(arrows[i], part, " ")
        draw_arrow(part[1], part[2], part[3])
    }
    print "}"
}
