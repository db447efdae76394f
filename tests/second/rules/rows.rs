//! Rows from elsewhere: when they are well formed, clause by clause as R-1 of document 02 has them, and the
//! controller that they are.

use super::record::{records, Record};
use std::collections::{BTreeMap, BTreeSet};

pub const MOST_ROW_BYTES: usize = 8192;
pub const MOST_INPUT: u8 = 7;
pub const MOST_OUTPUT: u8 = 7;

/// What a controller does in a state: its output, and its next state for each input.
pub struct State {
    pub output: usize,
    pub next: Vec<u8>,
}

/// Well-formed rows.
pub struct Controller {
    pub start: u8,
    pub inputs: usize,
    pub states: BTreeMap<u8, State>,
}

/// The rows of each state, as they come.
type Groups = BTreeMap<u8, Vec<Record>>;

/// "The length is a positive multiple of 4 up to 8,192."
fn length_fits(bytes: &[u8]) -> bool {
    (1..=MOST_ROW_BYTES).contains(&bytes.len()) && bytes.len() % 4 == 0
}

fn grouped(bytes: &[u8]) -> Groups {
    let mut groups = Groups::new();
    for row in records(bytes) {
        groups.entry(row[0]).or_default().push(row);
    }
    groups
}

/// "The first state's rows come first and the others ascend": so laid down once more, state by state,
/// they are the same bytes.
fn states_ascend(bytes: &[u8], groups: &Groups) -> bool {
    let rows = records(bytes);
    let Some(first) = rows.first().map(|row| row[0]) else { return true };
    let others = groups.iter().filter(|(state, _)| **state != first).map(|(_, rows)| rows);
    [&groups[&first]].into_iter().chain(others).flatten().eq(&rows)
}

/// "Each state has the inputs 0 up to the same last one, at most 7, once each in order."
fn inputs_fit(groups: &Groups) -> bool {
    let lists: BTreeSet<Vec<u8>> =
        groups.values().map(|rows| rows.iter().map(|row| row[2]).collect()).collect();
    let up_to = |last: u8| -> Vec<u8> { (0..=last).collect() };
    lists.len() <= 1 && lists.iter().all(|list| (0..=MOST_INPUT).any(|last| *list == up_to(last)))
}

/// "Every next state has rows."
fn next_states_have_rows(groups: &Groups) -> bool {
    groups.values().flatten().all(|row| groups.contains_key(&row[3]))
}

/// "A state has one output, at most 7."
fn outputs_fit(groups: &Groups) -> bool {
    let one = |rows: &Vec<Record>| {
        let outputs: BTreeSet<u8> = rows.iter().map(|row| row[1]).collect();
        outputs.len() == 1 && outputs.iter().all(|output| *output <= MOST_OUTPUT)
    };
    groups.values().all(one)
}

/// How many of the clauses are broken.
pub fn clauses_broken(bytes: &[u8]) -> usize {
    let groups = grouped(bytes);
    let clauses = [
        length_fits(bytes),
        states_ascend(bytes, &groups),
        inputs_fit(&groups),
        next_states_have_rows(&groups),
        outputs_fit(&groups),
    ];
    clauses.iter().filter(|holds| !**holds).count()
}

/// Empty if the rows aren't well formed.
pub fn read_rows(bytes: &[u8]) -> Option<Controller> {
    if clauses_broken(bytes) > 0 {
        return None;
    }
    let state = |rows: Vec<Record>| State {
        output: rows[0][1] as usize,
        next: rows.iter().map(|row| row[3]).collect(),
    };
    let groups = grouped(bytes);
    let start = bytes[0];
    let inputs = groups[&start].len();
    let states = groups.into_iter().map(|(number, rows)| (number, state(rows))).collect();
    Some(Controller { start, inputs, states })
}

impl Controller {
    /// The states that some inputs lead to from the start.
    pub fn reached(&self) -> BTreeSet<u8> {
        let mut reached = BTreeSet::new();
        let mut waiting = vec![self.start];
        while let Some(state) = waiting.pop() {
            if reached.insert(state) {
                waiting.extend(&self.states[&state].next);
            }
        }
        reached
    }
}
