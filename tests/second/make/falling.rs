//! Tables through which every run falls, whatever the letters: so any rows keep to some K, and which one
//! depends on what they do.

use super::draft::{grid, Draft};
use super::{Dice, Letters};
use crate::rules::record::{FIRST, MARKED};

/// A state's number is its rank, and no letter leads to a higher one. A marked state is left at once; an
/// unmarked one may be stayed in.
pub fn falling(dice: &mut Dice, letters: Letters, states: usize) -> Vec<u8> {
    let draft = marked(dice, letters, states);
    led(dice, draft)
}

/// The same from a marked start of the highest rank, of two states or more: K may hang on its mark.
pub fn falling_from_mark(dice: &mut Dice, letters: Letters, states: usize) -> Vec<u8> {
    let mut draft = marked(dice, letters, states);
    draft.controllers[states - 1] |= MARKED;
    led(dice, draft)
}

/// The states with their marks and starts. State 0 has no mark.
fn marked(dice: &mut Dice, letters: Letters, states: usize) -> Draft {
    let mut draft = Draft::new(letters, states, states);
    let marks = dice.between(20, 90);
    for state in 1..states {
        draft.controllers[state] = if dice.chance(marks) { MARKED } else { 0 };
        draft.worlds[state] = if dice.chance(marks) { MARKED } else { 0 };
    }
    draft.controllers[states - 1] |= FIRST;
    draft.controllers[dice.below(states)] |= FIRST;
    draft
}

fn led(dice: &mut Dice, mut draft: Draft) -> Vec<u8> {
    let (states, letters) = (draft.controllers.len(), draft.letters);
    let (far, several) = (dice.between(1, 3), dice.between(0, 50));
    for (from, letter) in grid(states, letters.outputs) {
        let to = fall(dice, from, far, draft.worlds[from] & MARKED != 0);
        draft.output(from, letter, to);
        if dice.chance(several) {
            draft.output(from, letter, dice.below(to + 1));
        }
    }
    for (from, letter) in grid(states, letters.inputs) {
        let marked = (draft.controllers[from] | draft.worlds[from]) & MARKED != 0;
        let to = fall(dice, from, far, marked);
        draft.input(from, letter, to);
        if dice.chance(several) {
            draft.input(from, letter, dice.below(to + 1));
        }
    }
    draft.bytes()
}

/// A rank not above this one, mostly near; below it where that is asked. State 0 stays.
fn fall(dice: &mut Dice, rank: usize, far: usize, below: bool) -> usize {
    let least = usize::from(below && rank > 0);
    rank - dice.between(least, far.min(rank).max(least))
}
