//! Tables without a plan.

use super::draft::{grid, Draft};
use super::{Dice, Letters};
use crate::rules::record::{FIRST, MARKED};

pub fn without_plan(dice: &mut Dice, letters: Letters, most: usize) -> Draft {
    let mut draft = Draft::new(letters, dice.between(1, most), dice.between(1, most));
    let marks = dice.between(5, 40);
    for state in 0..draft.controllers.len() {
        draft.controllers[state] = if dice.chance(marks) { MARKED } else { 0 };
    }
    for state in 0..draft.worlds.len() {
        draft.worlds[state] = if dice.chance(marks) { MARKED } else { 0 };
    }
    let start = dice.below(draft.controllers.len());
    draft.controllers[start] |= FIRST;
    let second = dice.between(0, 30);
    for (from, letter) in grid(draft.controllers.len(), letters.outputs) {
        draft.random_output(dice, from, letter);
        if dice.chance(second) {
            draft.random_output(dice, from, letter);
        }
    }
    for (from, letter) in grid(draft.worlds.len(), letters.inputs) {
        draft.random_input(dice, from, letter);
        if dice.chance(second) {
            draft.random_input(dice, from, letter);
        }
    }
    draft
}
