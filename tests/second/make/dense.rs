//! Tables with 8 states and 8 letters on each side, many edges and few marks, in which a controller
//! has to look for its output: at K 0 and 1 every position can still be held as one yes or no.

use super::draft::{grid, Draft};
use super::{Dice, Letters};
use crate::rules::record::{FIRST, MARKED};

const ALL: Letters = Letters { outputs: 8, inputs: 8 };

/// Marks at the last states, so that the others can be kept out of them.
fn mark_last(dice: &mut Dice, flags: &mut [u8], most: usize) {
    let marked = dice.between(0, most);
    flags.iter_mut().rev().take(marked).for_each(|flags| *flags |= MARKED);
}

/// One edge or several for each state and letter. Most lead to a few near states: where they led
/// anywhere, one mark would soon be met by every run.
fn lead(dice: &mut Dice, draft: &mut Draft, letters: Letters, more: usize) {
    let (controllers, worlds) = (draft.controllers.len(), draft.worlds.len());
    for (from, letter) in grid(controllers, letters.outputs) {
        let near = |dice: &mut Dice| (from + dice.below(3) + letter % 2) % worlds;
        let to = near(dice);
        draft.output(from, letter, to);
        if dice.chance(more) {
            draft.random_output(dice, from, letter);
        }
    }
    for (from, letter) in grid(worlds, letters.inputs) {
        let stay = dice.chance(60);
        let to = if stay { from % controllers } else { dice.below(controllers) };
        draft.input(from, letter, to);
        if dice.chance(more) {
            draft.random_input(dice, from, letter);
        }
    }
}

fn drawn(dice: &mut Dice, letters: Letters, states: usize, more: usize) -> Vec<u8> {
    let mut draft = Draft::new(letters, states, states);
    mark_last(dice, &mut draft.controllers, states / 3);
    mark_last(dice, &mut draft.worlds, states / 2);
    for _ in 0..dice.between(1, 2) {
        draft.controllers[dice.below(states)] |= FIRST;
    }
    lead(dice, &mut draft, letters, more);
    draft.bytes()
}

pub fn dense(dice: &mut Dice) -> Vec<u8> {
    let more = [0, 3, 10, 60][dice.below(4)];
    drawn(dice, ALL, 8, more)
}

/// Two tables that have 8 states on each side when they are joined.
pub fn two_sparse(dice: &mut Dice, letters: Letters) -> [Vec<u8>; 2] {
    let states = dice.between(2, 6);
    [states, 8 - states].map(|states| drawn(dice, letters, states, 5))
}
