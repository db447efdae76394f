//! Random tables, and rows for them. Tables without a plan hardly ever need a K over 0 or a second
//! controller state, so most good ones here have one: requests that must be served in turn, or ranks that
//! runs fall through. Noise is added to half of them. Rows are strategies with memory, or have one clause
//! broken.

mod damage;
mod dense;
mod dice;
mod draft;
mod falling;
mod loose;
mod misshapen;
mod ranked;
mod requests;
mod strategies;
mod winding;

pub use damage::{damaged, two_faults};
pub use dense::{dense, two_sparse};
pub use dice::Dice;
pub use falling::{falling, falling_from_mark};
pub use misshapen::BREAKS;
pub use strategies::{bent, copied, foreign, strategy, strategy_of};
pub use winding::{overwound_rows, winding_rows, winding_table, MOST_VISITS};

use crate::rules::record::{records, Record, FIRST, MARKED};
use loose::without_plan;
use ranked::ranked;
use requests::requests;
use std::collections::BTreeSet;

#[derive(Clone, Copy)]
pub struct Letters {
    pub outputs: usize,
    pub inputs: usize,
}

pub fn letters(dice: &mut Dice) -> Letters {
    let number =
        |dice: &mut Dice| if dice.chance(15) { dice.between(1, 8) } else { dice.between(2, 4) };
    Letters { outputs: number(dice), inputs: number(dice) }
}

/// A good table with these letters and at most so many states (three or more) on a side.
pub fn good(dice: &mut Dice, letters: Letters, most: usize) -> Vec<u8> {
    let mut draft = match dice.below(10) {
        0..=4 => requests(dice, letters, most),
        5..=7 => ranked(dice, letters, most),
        _ => without_plan(dice, letters, most),
    };
    if dice.chance(50) {
        for _ in 0..dice.between(1, 3) {
            draft.noise(dice);
        }
    }
    draft.bytes()
}

/// A good table of any letters and size, small ones more often.
pub fn any_good(dice: &mut Dice) -> Vec<u8> {
    let letters = letters(dice);
    let most = [3, 3, 4, 4, 4, 5, 5, 6, 7, 8][dice.below(10)];
    good(dice, letters, most)
}

/// The same table with some edges led elsewhere: no state loses a letter.
pub fn changed(dice: &mut Dice, good: &[u8]) -> Vec<u8> {
    let mut set: BTreeSet<Record> = records(good).into_iter().collect();
    let edges: Vec<Record> = set.iter().filter(|record| record[0] > 2).copied().collect();
    let states = |kind: u8| set.iter().filter(|record| record[0] == kind).count();
    let sides = [states(2), states(1)];
    for _ in 0..dice.between(1, 3) {
        let [kind, from, letter, to] = edges[dice.below(edges.len())];
        set.remove(&[kind, from, letter, to]);
        set.insert([kind, from, letter, dice.below(sides[kind as usize - 3]) as u8]);
    }
    set.into_iter().collect::<Vec<_>>().concat()
}

/// The same table with one of its start states marked.
pub fn with_marked_start(dice: &mut Dice, good: &[u8]) -> Vec<u8> {
    let mut all = records(good);
    let is_start = |record: &&mut Record| record[0] == 1 && record[2] & FIRST != 0;
    let mut starts: Vec<&mut Record> = all.iter_mut().filter(is_start).collect();
    let chosen = dice.below(starts.len());
    starts[chosen][2] |= MARKED;
    all.concat()
}

/// The same table with other start states: any, one at least.
pub fn with_other_starts(dice: &mut Dice, good: &[u8]) -> Vec<u8> {
    let mut all = records(good);
    let states = all.iter().filter(|record| record[0] == 1).count();
    let (chosen, others) = (dice.below(states), dice.below(1 << states));
    for (state, record) in all[..states].iter_mut().enumerate() {
        let is_start = state == chosen || others >> state & 1 == 1;
        record[2] = record[2] & MARKED | if is_start { FIRST } else { 0 };
    }
    all.concat()
}
