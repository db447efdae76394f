//! By the most visits of any run: pairs of a controller state and a table state that lead to each other
//! are one part of the graph. Where a step inside such a part enters a marked state, runs go round and
//! visit it without end. Else marked states are visited at the start and on the way from part to part
//! alone, and that way is finite.

use crate::rules::rows::Controller;
use crate::rules::table::Table;

/// For each pair, the pairs that a round leads to and the most visits on the way. The last place is
/// that of no pair: it leads to the start pairs, each with its first visit.
type Graph = Vec<Vec<(usize, u32)>>;

const PAIRS: usize = 256 * 8;

/// The mark of a state, if it is one of those led to.
fn edge(targets: u8, marks: &[i8; 8], to: usize) -> Option<u32> {
    (targets >> to & 1 == 1).then_some(marks[to] as u32)
}

/// The most visits by which a round leads from one controller-turn state to another.
fn most_by_round(table: &Table, letters: (usize, usize), from: usize, to: usize) -> Option<u32> {
    let (output, input) = letters;
    let by = |middle: usize| {
        let first = edge(table.controller.targets[from][output], &table.world.marks, middle)?;
        let second = edge(table.world.targets[middle][input], &table.controller.marks, to)?;
        Some(first + second)
    };
    (0..table.world.states).filter_map(by).max()
}

/// The first visit of a start state counts as `first` has it.
fn graph(table: &Table, controller: &Controller, first: &[i8; 8]) -> Graph {
    let mut graph = vec![Vec::new(); PAIRS + 1];
    let steps = controller.states.iter().flat_map(|(number, state)| {
        let inputs = state.next.iter().enumerate();
        inputs.map(move |(input, next)| (*number as usize, (state.output, input), *next as usize))
    });
    let states = table.controller.states;
    for (number, letters, next) in steps {
        for (from, to) in (0..states * states).map(|both| (both / states, both % states)) {
            if let Some(visits) = most_by_round(table, letters, from, to) {
                graph[8 * number + from].push((8 * next + to, visits));
            }
        }
    }
    let start = 8 * controller.start as usize;
    let begin = |state| Some((start + state, edge(table.starts, first, state)?));
    graph[PAIRS] = (0..8).filter_map(begin).collect();
    graph
}

/// The pairs that runs reach, each after all that it leads to and that doesn't lead back to it.
fn finished(graph: &Graph) -> Vec<usize> {
    let mut seen = vec![false; graph.len()];
    let mut order = Vec::new();
    let mut open = vec![(PAIRS, 0)];
    while let Some((pair, edge)) = open.pop() {
        let Some((to, _)) = graph[pair].get(edge) else {
            order.push(pair);
            continue;
        };
        open.push((pair, edge + 1));
        if !std::mem::replace(&mut seen[*to], true) {
            open.push((*to, 0));
        }
    }
    order
}

/// The number of the part of each pair, smaller for a part from which another is reached.
fn parts(graph: &Graph, order: &[usize]) -> Vec<usize> {
    let mut back = vec![Vec::new(); graph.len()];
    for from in order {
        graph[*from].iter().for_each(|(to, _)| back[*to].push(*from));
    }
    let mut parts = vec![usize::MAX; graph.len()];
    for (number, pair) in order.iter().rev().enumerate() {
        let mut waiting = vec![*pair];
        while let Some(pair) = waiting.pop() {
            if parts[pair] == usize::MAX {
                parts[pair] = number;
                waiting.extend(&back[pair]);
            }
        }
    }
    parts
}

/// The most visits on any way from no pair; empty if there is no most.
fn most(graph: &Graph) -> Option<u32> {
    let mut order = finished(graph);
    let parts = parts(graph, &order);
    order.sort_by_key(|pair| parts[*pair]);
    let mut most = vec![0; graph.len()];
    for pair in order {
        for (to, visits) in &graph[pair] {
            let (here, there) = (parts[pair], parts[*to]);
            if here == there && *visits > 0 {
                return None;
            }
            most[there] = most[there].max(most[here] + visits);
        }
    }
    most.into_iter().max()
}

/// The most visits to marked states that a run makes; empty if there is no most.
pub fn most_visits(table: &Table, controller: &Controller) -> Option<u32> {
    most(&graph(table, controller, &table.controller.marks))
}

/// The same if the first visit went free: only what is entered later counts.
pub fn most_entries(table: &Table, controller: &Controller) -> Option<u32> {
    most(&graph(table, controller, &[0; 8]))
}
