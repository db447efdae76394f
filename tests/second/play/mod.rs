//! Demand 2 by exploration, both ways. Runs are followed one by one and their visits are counted, that of
//! the first state too, without a cap, so that the counting of the engines plays no part: what the winners
//! allow is kept, and what they don't allow is lost.

pub mod controller;
pub mod elsewhere;
pub mod rows;
pub mod runs;
pub mod winners;
pub mod world;

use crate::call::Found;
use crate::engines::Rounds;
use crate::rules::table::{Position, Table};
use world::World;

/// A call's answer that a table was solved, as its bytes say it.
pub struct Claim<'a> {
    pub table: &'a Table,
    pub patience: i8,
    pub winners: Vec<Position>,
    /// Empty for "unrealizable".
    pub rows: Option<&'a [u8]>,
    pub start: usize,
}

/// How much was explored.
#[derive(Clone, Copy, Debug, Default)]
pub struct Explored {
    /// Winners from which a controller was played to the end.
    pub played: u64,
    /// Positions that the winners don't cover, from which the world won against every output.
    pub lost: u64,
    /// The start positions among these.
    pub lost_starts: u64,
    /// Tables of which every position was tried.
    pub whole: u64,
    /// Rows from elsewhere that were played to the end, every run kept to K.
    pub kept: u64,
    /// Rows from elsewhere that were played until a run passed K.
    pub overrun: u64,
    /// Plays that were broken off as too long.
    pub broken_off: u64,
}

/// The checks of a claim.
pub const CHECKS: [&str; 4] =
    ["the list", "the rows", "the controller played", "the world playing"];

/// What is wrong with a claim, by each check. The others look at nothing but a list of the right form.
pub fn faults(claim: &Claim, rounds: Option<&dyn Rounds>, explored: &mut Explored) -> Vec<Found> {
    let [list, rows, controller, world] = CHECKS;
    if let Some(reason) = winners::fault(claim) {
        return vec![(list, reason)];
    }
    let found = [
        (rows, rows::fault(claim)),
        (controller, controller::fault(claim, explored)),
        (world, rounds.and_then(|rounds| world_fault(claim, rounds, explored))),
    ];
    found.into_iter().filter_map(|(check, reason)| Some((check, reason?))).collect()
}

/// The most positions of a table that is tried as a whole.
pub const WHOLE: u64 = 300;

/// The world has to win from each winner raised by one in one count, from the start of an
/// unrealizable table, and, where they are few, from every position that no winner covers.
fn world_fault(claim: &Claim, rounds: &dyn Rounds, explored: &mut Explored) -> Option<String> {
    let mut world = World::new(claim, rounds);
    if claim.rows.is_none() {
        match world.wins_from_start() {
            Some(true) => explored.lost_starts += 1,
            Some(false) => return Some("the world doesn't win from the start".to_string()),
            None => explored.broken_off += 1,
        }
    }
    let whole = claim.table.positions(claim.patience as u32) <= WHOLE;
    let tried = if whole { winners::uncovered(claim) } else { winners::raised(claim) };
    explored.whole += u64::from(whole);
    for position in tried {
        match world.wins_from(&position) {
            Some(true) => explored.lost += 1,
            Some(false) => return Some(format!("the world doesn't win from {position:?}")),
            None => explored.broken_off += 1,
        }
    }
    None
}
