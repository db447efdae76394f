//! Two engines, and the form in which both hand over what they found. They share no code that
//! decides anything, so that a fault of one is not a fault of both.

pub mod antichain;
pub mod plain;

use crate::rules::table::{Position, Table};

/// A solved table. `start` is empty where the start position doesn't win; `largest` is the number
/// of maximal members of the largest named set, the least room that isn't FULL.
pub struct Settled {
    pub rounds: u32,
    pub winners: Vec<Position>,
    pub start: Option<usize>,
    pub rows: Vec<[u8; 4]>,
    pub largest: usize,
}

/// Where a call stopped: "FULL applies to each of the three stages in turn, and to that first list
/// of pairs."
#[derive(Clone, Copy, Debug, PartialEq, Eq)]
pub enum Stage {
    Only,
    FirstAlone,
    SecondAlone,
    Pairs,
    Last,
}

/// FULL or NOTHING at one stage of a call.
#[derive(Clone, Copy)]
pub struct Stop {
    pub code: u32,
    pub stage: Stage,
}

impl Stop {
    /// "1 or 2 ... for FULL while it is solved alone; otherwise 0."
    pub fn which(&self) -> u32 {
        match (self.code, self.stage) {
            (crate::rules::codes::FULL, Stage::FirstAlone) => 1,
            (crate::rules::codes::FULL, Stage::SecondAlone) => 2,
            _ => 0,
        }
    }
}

#[derive(Clone, Copy, Debug, PartialEq, Eq)]
pub enum Engine {
    /// Every position one yes or no.
    Plain,
    /// Maximal members only.
    Antichain,
}

impl Engine {
    pub fn name(self) -> &'static str {
        match self {
            Engine::Plain => "plain",
            Engine::Antichain => "antichain",
        }
    }

    pub fn solve(self, table: &Table, patience: i8, room: usize) -> Result<Settled, Stop> {
        match self {
            Engine::Plain => plain::solve(table, patience, room),
            Engine::Antichain => antichain::solve(table, patience, room),
        }
    }

    pub fn parts(
        self,
        tables: [&Table; 2],
        joined: &Table,
        patience: i8,
        room: usize,
    ) -> Result<Settled, Stop> {
        match self {
            Engine::Plain => plain::parts(tables, joined, patience, room),
            Engine::Antichain => antichain::parts(tables, joined, patience, room),
        }
    }

    /// Every W(r) of a table; empty if a set is too large to be followed.
    pub fn rounds(self, table: &Table, patience: i8) -> Option<Box<dyn Rounds>> {
        match self {
            Engine::Plain => Some(Box::new(plain::rounds(table, patience))),
            Engine::Antichain => {
                antichain::rounds(table, patience).map(|rounds| Box::new(rounds) as Box<dyn Rounds>)
            }
        }
    }
}

/// W(0), W(1) and so on, up to the one that settles.
pub trait Rounds {
    /// The smallest r whose W(r) doesn't hold this position; empty if each of them does. 0 is that
    /// of a position that isn't safe.
    fn fell(&self, position: &Position) -> Option<u32>;
}

/// Above this the plain engine would have too many positions on a side. It has those of 8 states at K 1.
const PLAIN_POSITIONS: u64 = 7_000;

/// The engines that can solve a table, the plain one first.
pub fn fit_for(table: &Table, patience: u32) -> &'static [Engine] {
    if table.positions(patience) <= PLAIN_POSITIONS {
        &[Engine::Plain, Engine::Antichain]
    } else {
        &[Engine::Antichain]
    }
}
