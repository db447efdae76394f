//! How tables/long.tab was found: from the best of some random tables, small changes are tried one
//! after the other, and one is kept if the rounds don't become fewer.
//!
//! The same seed and number of changes give the same table; a larger number goes on from there.

use crate::engines::antichain;
use crate::make::{good, letters, Dice};
use crate::rules::read::read;
use crate::rules::record::{records, Record, MARKED};
use crate::{PATIENCE, ROOM};
use std::collections::BTreeSet;

/// The random tables from which the first one is taken, and the most states that they have on a
/// side: rounds are many only where states are.
const DRAWN: usize = 200;
const MOST_STATES: usize = 8;

/// A table, its rounds, and the maximal members of its largest named set.
pub struct Found {
    pub table: Vec<u8>,
    pub rounds: u32,
    pub largest: usize,
}

/// Empty if the table isn't good or one of its named sets doesn't fit in the room.
fn solved(table: Vec<u8>) -> Option<Found> {
    let settled = antichain::solve(&read(&table).ok()?, PATIENCE as i8, ROOM as usize).ok()?;
    Some(Found { table, rounds: settled.rounds, largest: settled.largest })
}

fn drawn(dice: &mut Dice) -> Option<Found> {
    let letters = letters(dice);
    solved(good(dice, letters, MOST_STATES))
}

/// Turns a state's mark, or leads an edge elsewhere, adds one beside it or takes it away.
fn change(dice: &mut Dice, table: &mut BTreeSet<Record>) {
    let all: Vec<Record> = table.iter().copied().collect();
    let states = |kind: u8| all.iter().filter(|record| record[0] == kind).count();
    let record = all[dice.below(all.len())];
    let [kind, from, middle, _] = record;
    if kind < 3 {
        table.remove(&record);
        table.insert([kind, from, middle ^ MARKED, 0]);
        return;
    }
    let other_side = if kind == 3 { states(2) } else { states(1) };
    let elsewhere = [kind, from, middle, dice.below(other_side) as u8];
    if dice.chance(67) {
        table.insert(elsewhere);
    }
    if dice.chance(67) {
        table.remove(&record);
    }
}

/// One to three changes. A state that has lost its last edge for a letter makes the table bad.
fn changed(dice: &mut Dice, table: &[u8]) -> Vec<u8> {
    let mut set: BTreeSet<Record> = records(table).into_iter().collect();
    for _ in 0..dice.between(1, 3) {
        change(dice, &mut set);
    }
    set.into_iter().collect::<Vec<_>>().concat()
}

/// The table with the most rounds that so many changes lead to.
pub fn climb(seed: u64, changes: u32) -> Option<Found> {
    let mut dice = Dice::new(seed);
    let tables: Vec<Found> = (0..DRAWN).filter_map(|_| drawn(&mut dice)).collect();
    let mut best = tables.into_iter().max_by_key(|found| found.rounds)?;
    for _ in 0..changes {
        let next = solved(changed(&mut dice, &best.table));
        best = next.filter(|next| next.rounds >= best.rounds).unwrap_or(best);
    }
    Some(best)
}
