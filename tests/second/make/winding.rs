//! Rows of 256 states in which counts rise one at a time, again and again: the longest work that was found
//! for whoever raises the largest counts of each controller state until nothing changes.
//!
//! Seven states, one after the other, let a run enter a marked state once more each. From each of them an
//! input leads into a ring of the other 249 states, and which input it was decides the place in the ring
//! and the table state in which the run then goes round, without a further mark. So in each state of the
//! ring seven counts rise from 1 to 7, each at its own time.

use super::draft::{grid, Draft};
use super::Letters;
use crate::rules::record::{FIRST, MARKED};

/// The table state by which a run climbs, and on the world's side the marked one.
const CLIMBING: usize = 7;
/// The states of the ring, numbered against the way round it; those of the climb come after them.
const RING: usize = 249;
/// The ring's states between two places where runs come in.
const APART: usize = 35;

/// The outputs of the climb and of the ring, and one by which a run in state 6 climbs again.
const CLIMB: usize = 0;
const STAY: [usize; 6] = [1, 3, 4, 5, 6, 7];
const AGAIN: usize = 2;

/// Every run keeps to so many visits to marked states.
pub const MOST_VISITS: u32 = 7;

pub fn winding_table() -> Vec<u8> {
    let mut draft = Draft::new(Letters { outputs: 8, inputs: 8 }, 8, 8);
    draft.controllers[CLIMBING] |= FIRST;
    draft.worlds[CLIMBING] |= MARKED;
    for (state, letter) in grid(8, 8) {
        let to = match (state, letter) {
            (CLIMBING, CLIMB) | (6, AGAIN) => CLIMBING,
            (CLIMBING, _) => 0,
            _ => state,
        };
        draft.output(state, letter, to);
        let to = if state == CLIMBING { (letter + CLIMBING) % 8 } else { state };
        draft.input(state, letter, to);
    }
    draft.bytes()
}

/// The number of the ring's state at a place on the way round.
fn in_ring(place: usize) -> usize {
    RING - 1 - place % RING
}

fn next_of_climb(state: usize, input: usize) -> usize {
    match input {
        0 if state > RING => state - 1,
        0 => in_ring(0),
        _ => in_ring(APART * (input - 1)),
    }
}

/// The output and the next state in a state.
fn step(state: usize, input: usize) -> (usize, usize) {
    if state >= RING {
        return (CLIMB, next_of_climb(state, input));
    }
    let place = RING - 1 - state;
    (STAY[place % STAY.len()], in_ring(place + 1))
}

pub fn winding_rows() -> Vec<u8> {
    let states = [255].into_iter().chain(0..255);
    let row = |(state, input): (usize, usize)| {
        let (output, next) = step(state, input);
        [state, output, input, next].map(|byte| byte as u8)
    };
    let all = states.flat_map(|state| (0..8).map(move |input| (state, input)));
    all.flat_map(row).collect()
}

/// The same rows, but that the last of the ring's states that runs in state 6 come to lets them climb
/// again: nearly all the work is done when one of them passes 7.
pub fn overwound_rows() -> Vec<u8> {
    let last = in_ring(APART * 6 + RING - 1) as u8;
    let mut rows = winding_rows();
    rows.chunks_mut(4).filter(|row| row[0] == last).for_each(|row| row[1] = AGAIN as u8);
    rows
}
