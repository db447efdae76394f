//! Ranks that runs fall through.

use super::draft::Draft;
use super::{Dice, Letters};
use crate::rules::record::{FIRST, MARKED};

/// A state's number is its rank. Ranks fall along the good letter of each state, and marked states
/// are entered only by falling: a run that follows the good letters meets few marks. Where all
/// states share the good letter the table is realizable for some K.
pub fn ranked(dice: &mut Dice, letters: Letters, most: usize) -> Draft {
    let (controllers, worlds) = (dice.between(1, most), dice.between(1, most));
    let mut draft = Draft::new(letters, controllers, worlds);
    for state in 1..controllers {
        draft.controllers[state] = if dice.chance(40) { MARKED } else { 0 };
    }
    for state in 1..worlds {
        draft.worlds[state] = if dice.chance(40) { MARKED } else { 0 };
    }
    draft.controllers[dice.below(controllers)] |= FIRST;
    draft.controllers[controllers - 1] |= FIRST;
    let shared = dice.chance(60).then(|| dice.below(letters.outputs));
    for from in 0..controllers {
        let good = shared.unwrap_or_else(|| dice.below(letters.outputs));
        fall_by_outputs(dice, &mut draft, from, good);
    }
    fall_by_inputs(dice, &mut draft);
    draft
}

/// The states that a state of this rank may fall to: state 0 has no mark and the least rank.
fn lower(flags: &[u8], rank: usize) -> Vec<usize> {
    let marked = |state: &usize| flags[*state] & MARKED != 0;
    (0..flags.len()).filter(|state| *state < rank || *state == rank && !marked(state)).collect()
}

fn fall_by_outputs(dice: &mut Dice, draft: &mut Draft, from: usize, good: usize) {
    let targets = lower(&draft.worlds, from);
    for letter in 0..draft.letters.outputs {
        for _ in 0..dice.between(1, 2) {
            if letter == good {
                let to = targets[targets.len() - 1 - dice.below(targets.len().min(2))];
                draft.output(from, letter, to);
            } else {
                let highest = draft.worlds.len() - 1;
                draft.output(from, letter, dice.between(from.min(highest), highest));
            }
        }
    }
}

fn fall_by_inputs(dice: &mut Dice, draft: &mut Draft) {
    for from in 0..draft.worlds.len() {
        let targets = lower(&draft.controllers, from);
        for letter in 0..draft.letters.inputs {
            let to = targets[targets.len() - 1 - dice.below(targets.len().min(2))];
            draft.input(from, letter, to);
            if dice.chance(40) {
                draft.input(from, letter, targets[dice.below(targets.len())]);
            }
        }
    }
}
