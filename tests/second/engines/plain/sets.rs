//! The named sets A, B and W of the plain engine, round by round.

use super::ground::LOST;
use super::{Game, Held};

/// The round of a position that stays.
pub const NEVER: u32 = u32::MAX;

/// A settled winning set, before its list and rows are drawn up. `fell` is for each number the
/// smallest r whose W(r) doesn't hold it.
pub struct Winning {
    pub set: Vec<bool>,
    pub rounds: u32,
    pub fell: Vec<u32>,
}

pub fn inside(set: &[bool], number: usize) -> bool {
    number != LOST && set[number]
}

fn note_fallen(fell: &mut [u32], set: &[bool], round: u32) {
    for (number, member) in set.iter().enumerate() {
        if !member && fell[number] == NEVER {
            fell[number] = round;
        }
    }
}

impl Game {
    /// "A(r, j) holds the safe world-turn positions from which each of the first j inputs leads
    /// into W(r)." Every prefix is held against the room, A(r, 0) too (reading 4).
    fn each_input(&self, winning: &[bool], held: &mut Held) -> Option<Vec<bool>> {
        let mut set = vec![true; self.world.positions.len()];
        held.hold(&self.world, &set)?;
        for steps in &self.inputs {
            for (number, member) in set.iter_mut().enumerate() {
                *member = *member && inside(winning, steps[number]);
            }
            held.hold(&self.world, &set)?;
        }
        Some(set)
    }

    /// "B(r, k) holds the safe controller-turn positions from which some one of the first k
    /// outputs leads into A(r, all inputs)." B(r, 0) has no member at all.
    fn some_output(&self, world: &[bool], held: &mut Held) -> Option<Vec<bool>> {
        let mut set = vec![false; self.controller.positions.len()];
        for steps in &self.outputs {
            for (number, member) in set.iter_mut().enumerate() {
                *member = *member || inside(world, steps[number]);
            }
            held.hold(&self.controller, &set)?;
        }
        Some(set)
    }

    /// "The reported rounds is the smallest r with W(r) = W(r + 1)."
    pub fn settle(&self, first: Vec<bool>, held: &mut Held) -> Option<Winning> {
        held.hold(&self.controller, &first)?;
        let mut fell = vec![NEVER; first.len()];
        let mut set = first;
        let mut rounds = 0;
        loop {
            note_fallen(&mut fell, &set, rounds);
            let world = self.each_input(&set, held)?;
            let next = self.some_output(&world, held)?;
            if next == set {
                return Some(Winning { set, rounds, fell });
            }
            set = next;
            rounds += 1;
        }
    }
}
