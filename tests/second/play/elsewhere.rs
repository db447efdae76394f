//! Rows from elsewhere are played against every input from the start, in every pair of a controller's state
//! and a set of runs that this leads to.

use super::runs::{after_round, at_start, keep_to, Runs};
use super::Explored;
use crate::rules::rows::Controller;
use crate::rules::table::Table;
use std::collections::HashSet;

/// The check of what is said of rows.
pub const CHECK: &str = "the rows played";

/// The most pairs that are looked at for one controller.
const MOST_PAIRS: usize = 10_000;

/// What a round leads to with each input; empty if a run passes K with one of them.
fn led_to(
    table: &Table,
    patience: i8,
    controller: &Controller,
    (state, runs): &(u8, Runs),
) -> Option<Vec<(u8, Runs)>> {
    let here = &controller.states[state];
    let by = |(input, next): (usize, &u8)| {
        Some((*next, after_round(table, runs, (here.output, input), patience)?))
    };
    here.next.iter().enumerate().map(by).collect()
}

/// Whether every run keeps to K; empty if the play was broken off as too long.
pub fn keeps(table: &Table, patience: i8, controller: &Controller) -> Option<bool> {
    let begin = at_start(table);
    if !keep_to(&begin, patience) {
        return Some(false);
    }
    let mut waiting = vec![(controller.start, begin)];
    let mut seen: HashSet<(u8, Runs)> = waiting.iter().copied().collect();
    while let Some(pair) = waiting.pop() {
        let Some(after) = led_to(table, patience, controller, &pair) else { return Some(false) };
        waiting.extend(after.into_iter().filter(|pair| seen.insert(*pair)));
        if seen.len() > MOST_PAIRS {
            return None;
        }
    }
    Some(true)
}

/// What is wrong with saying that every run keeps to K, or that one doesn't.
pub fn fault(played: Option<bool>, said: bool, explored: &mut Explored) -> Option<String> {
    match played {
        None => explored.broken_off += 1,
        Some(true) => explored.kept += 1,
        Some(false) => explored.overrun += 1,
    }
    match played {
        Some(true) if !said => Some("no run passes K, whatever the inputs".to_string()),
        Some(false) if said => Some("a run passes K".to_string()),
        _ => None,
    }
}
