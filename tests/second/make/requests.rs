//! Requests that must be served in turn.

use super::draft::Draft;
use super::{Dice, Letters};
use crate::rules::record::{FIRST, MARKED};

/// Where the runs of served requests stay for good, and the state that requests come from. The
/// states after these are the owed ones.
const DONE: usize = 0;
const IDLE: usize = 1;

/// Each request is owed, a mark a turn, until an output serves it. As one output seldom serves
/// them all, K must allow for waiting, and the controller must take turns. Without the idle state
/// every request is there from the start.
pub fn requests(dice: &mut Dice, letters: Letters, most: usize) -> Draft {
    let idle = most > 3 && dice.chance(75);
    let first_owed = if idle { 2 } else { 1 };
    let states = dice.between(first_owed + 2, most.min(first_owed + letters.outputs.max(2)));
    let mut draft = Draft::new(letters, states, states);
    for state in first_owed..states {
        let side = if dice.chance(70) { &mut draft.worlds } else { &mut draft.controllers };
        side[state] |= MARKED;
    }
    let starts = if idle { IDLE..first_owed } else { first_owed..states };
    draft.controllers[starts].iter_mut().for_each(|flags| *flags |= FIRST);
    serve(dice, &mut draft, first_owed);
    come_in(dice, &mut draft, first_owed);
    draft
}

/// The outputs of `requests`. Now and then what is served comes back.
fn serve(dice: &mut Dice, draft: &mut Draft, first_owed: usize) {
    let states = draft.controllers.len();
    let served_to = if dice.chance(85) { DONE } else { dice.below(first_owed) };
    for letter in 0..draft.letters.outputs {
        let chosen = first_owed + letter % (states - first_owed);
        (0..first_owed).for_each(|state| draft.output(state, letter, state));
        for state in first_owed..states {
            let serves = state == chosen && dice.chance(95) || dice.chance(4);
            draft.output(state, letter, if serves { served_to } else { state });
        }
    }
}

/// The inputs of `requests`: each brings some of them from the idle state; those owed stay so.
fn come_in(dice: &mut Dice, draft: &mut Draft, first_owed: usize) {
    let states = draft.controllers.len();
    for letter in 0..draft.letters.inputs {
        (0..states).for_each(|state| draft.input(state, letter, state));
        for state in first_owed..states {
            if first_owed > IDLE && dice.chance(55) {
                draft.input(IDLE, letter, state);
            }
        }
    }
}
