//! Run by run: every controller state, table state and number of visits that some run has after a round.

use crate::rules::rows::Controller;
use crate::rules::table::Table;

/// What a run has come to: the controller's state, the table's, and the visits to marked states.
#[derive(Clone, Copy)]
struct Run {
    state: u8,
    at: usize,
    visits: usize,
}

/// Table states go from 0 to 7, and so do the visits of a run that has not passed K.
const PLACES: usize = 256 * 8 * 8;

fn place(run: &Run) -> usize {
    (run.state as usize * 8 + run.at) * 8 + run.visits
}

fn bits(targets: u8) -> impl Iterator<Item = usize> {
    (0..8).filter(move |state| targets >> state & 1 == 1)
}

/// What the run may come to by a round: every edge on the state's output, every input, every edge on it.
fn after_round<'a>(
    table: &'a Table,
    controller: &'a Controller,
    run: Run,
) -> impl Iterator<Item = Run> + 'a {
    let state = &controller.states[&run.state];
    let (controllers, worlds) = (&table.controller, &table.world);
    let halfway = bits(controllers.targets[run.at][state.output]);
    halfway.flat_map(move |middle| {
        let visits = run.visits + worlds.marks[middle] as usize;
        state.next.iter().enumerate().flat_map(move |(input, next)| {
            bits(worlds.targets[middle][input]).map(move |at| Run {
                state: *next,
                at,
                visits: visits + controllers.marks[at] as usize,
            })
        })
    })
}

/// A run in each start state, which it has visited: that may be over K already.
fn first_runs(table: &Table, patience: usize, controller: &Controller) -> Vec<Run> {
    let start = table.start_position(patience as i8);
    let run = |at: usize| Run { state: controller.start, at, visits: start[at] as usize };
    (0..8).filter(|at| start[*at] >= 0).map(run).collect()
}

/// Those of the runs that haven't been seen; empty if one of them has passed K. Only one that hasn't has a
/// place.
fn unseen(
    runs: impl IntoIterator<Item = Run>,
    patience: usize,
    seen: &mut [bool],
) -> Option<Vec<Run>> {
    let mut unseen = Vec::new();
    for run in runs {
        if run.visits > patience {
            return None;
        }
        if !std::mem::replace(&mut seen[place(&run)], true) {
            unseen.push(run);
        }
    }
    Some(unseen)
}

/// The smallest number of rounds after which a run has passed K, 0 if it has in its first state; empty if
/// none ever does. A run that has passed it halfway has passed it at the end, as each state has an edge for
/// each letter.
pub fn overrun(table: &Table, patience: usize, controller: &Controller) -> Option<u32> {
    let mut seen = vec![false; PLACES];
    let mut rounds = 0;
    let mut last = unseen(first_runs(table, patience, controller), patience, &mut seen);
    while let Some(runs) = last {
        if runs.is_empty() {
            return None;
        }
        rounds += 1;
        let all = runs.iter().flat_map(|run| after_round(table, controller, *run));
        last = unseen(all, patience, &mut seen);
    }
    Some(rounds)
}
