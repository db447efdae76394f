//! Sets of runs under the same letters.

use crate::rules::table::{Position, Side, Table};

/// In the byte pair of each state, bit e is set if a run ends there that has visited e marked
/// states. K is at most 7, and a round adds at most two marks: nothing is ever cut off.
pub type Runs = [u16; 8];

fn bits(targets: u8) -> impl Iterator<Item = usize> {
    (0..8).filter(move |state| targets >> state & 1 == 1)
}

/// "In the papers a run visits its first state too": the runs before any round, one in each start state.
pub fn at_start(table: &Table) -> Runs {
    let mut runs = [0; 8];
    for state in bits(table.starts) {
        runs[state] = 1 << table.controller.marks[state];
    }
    runs
}

/// "Several edges may share a state and a letter: all of them are followed."
fn follow(runs: &Runs, letter: usize, from: &Side, to: &Side) -> Runs {
    let mut after = [0; 8];
    for state in 0..from.states {
        for entered in bits(from.targets[state][letter]) {
            after[entered] |= runs[state] << to.marks[entered];
        }
    }
    after
}

pub fn by_output(table: &Table, runs: &Runs, output: usize) -> Runs {
    follow(runs, output, &table.controller, &table.world)
}

pub fn by_input(table: &Table, halfway: &Runs, input: usize) -> Runs {
    follow(halfway, input, &table.world, &table.controller)
}

pub fn keep_to(runs: &Runs, patience: i8) -> bool {
    runs.iter().all(|visits| visits >> (patience + 1) == 0)
}

/// The runs after a round; empty if one of them passes K, halfway or at the end.
pub fn after_round(
    table: &Table,
    runs: &Runs,
    (output, input): (usize, usize),
    patience: i8,
) -> Option<Runs> {
    let halfway = by_output(table, runs, output);
    let after = by_input(table, &halfway, input);
    (keep_to(&halfway, patience) && keep_to(&after, patience)).then_some(after)
}

/// A run in each state that has a count, which has spent it.
pub fn spent(position: &Position) -> Runs {
    position.map(|count| if count < 0 { 0 } else { 1 << count })
}

/// The most that a run in each state has spent; -1 where there is none.
pub fn most_spent(runs: &Runs) -> Position {
    runs.map(|visits| 15 - visits.leading_zeros() as i8)
}
