//! The world plays: from a position that no winner covers it has an answer to every output, until a
//! run passes K.
//!
//! Which input it gives is drawn from the rounds: one after which the position fell in an earlier
//! round. Whether that wins is seen by the runs alone.

use super::runs::{at_start, by_input, by_output, keep_to, most_spent, spent, Runs};
use super::Claim;
use crate::engines::Rounds;
use crate::rules::table::{Position, Table};
use std::collections::HashSet;

/// The most sets of runs that are looked at for one claim.
const MOST_SETS: usize = 2_000;

pub struct World<'a> {
    table: &'a Table,
    patience: i8,
    rounds: &'a dyn Rounds,
    /// Sets of runs from which it has won already.
    won: HashSet<Runs>,
    left: usize,
}

impl<'a> World<'a> {
    pub fn new(claim: &'a Claim, rounds: &'a dyn Rounds) -> World<'a> {
        let (table, patience) = (claim.table, claim.patience);
        World { table, patience, rounds, won: HashSet::new(), left: MOST_SETS }
    }

    /// Whether it wins from runs that have spent these counts; empty if the play was broken off.
    pub fn wins_from(&mut self, position: &Position) -> Option<bool> {
        self.wins_from_runs(&spent(position))
    }

    /// Whether it wins from the start: at once where a first visit is over K.
    pub fn wins_from_start(&mut self) -> Option<bool> {
        self.wins_from_runs(&at_start(self.table))
    }

    fn wins_from_runs(&mut self, runs: &Runs) -> Option<bool> {
        let Some(fell) = self.rounds.fell(&most_spent(runs)) else { return Some(false) };
        self.wins(runs, fell)
    }

    /// The earliest round in which what an input leads to fell, and the runs there.
    fn best_input(&self, halfway: &Runs) -> (u32, Runs) {
        let led = |input: usize| {
            let after = by_input(self.table, halfway, input);
            (self.rounds.fell(&most_spent(&after)).unwrap_or(u32::MAX), after)
        };
        let inputs = 0..self.table.world.letters;
        inputs.map(led).min_by_key(|(fell, _)| *fell).expect("a table has an input")
    }

    /// The position of these runs fell in that round, so each output has an answer that fell earlier.
    fn wins(&mut self, runs: &Runs, fell: u32) -> Option<bool> {
        if !keep_to(runs, self.patience) || self.won.contains(runs) {
            return Some(true);
        }
        self.left = self.left.checked_sub(1)?;
        for output in 0..self.table.controller.letters {
            let halfway = by_output(self.table, runs, output);
            if !keep_to(&halfway, self.patience) {
                continue;
            }
            let (earlier, after) = self.best_input(&halfway);
            if earlier >= fell || !self.wins(&after, earlier)? {
                return Some(false);
            }
        }
        self.won.insert(*runs);
        Some(true)
    }
}
