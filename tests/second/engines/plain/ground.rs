//! All safe positions of one side, by number.

use crate::rules::table::Position;

/// The number of a position that isn't safe.
pub const LOST: usize = usize::MAX;

/// The safe positions of one side in the order of their numbers. In base K + 2, digit q of the
/// number is the count of state q plus 1.
pub struct Ground {
    pub patience: i8,
    states: usize,
    powers: [usize; 8],
    pub positions: Vec<Position>,
}

impl Ground {
    pub fn new(states: usize, patience: i8) -> Ground {
        let base = patience as usize + 2;
        let powers = std::array::from_fn(|state| base.pow(state as u32));
        let size = base.pow(states as u32);
        let count = |number: usize, state: usize| {
            if state < states {
                (number / powers[state] % base) as i8 - 1
            } else {
                -1
            }
        };
        let position = |number: usize| std::array::from_fn(|state| count(number, state));
        Ground { patience, states, powers, positions: (0..size).map(position).collect() }
    }

    pub fn number(&self, position: &Position) -> usize {
        let digits = position.iter().zip(&self.powers).take(self.states);
        if position.iter().any(|count| *count > self.patience) {
            return LOST;
        }
        digits.map(|(count, power)| (count + 1) as usize * power).sum()
    }

    /// "Each set contains everything below its members", so a member is maximal if raising any
    /// one of its counts by 1 leaves the set.
    fn is_maximal(&self, set: &[bool], number: usize) -> bool {
        if !set[number] {
            return false;
        }
        let position = &self.positions[number];
        let rises =
            |state: usize| position[state] < self.patience && set[number + self.powers[state]];
        !(0..self.states).any(rises)
    }

    pub fn maximal<'a>(&'a self, set: &'a [bool]) -> impl Iterator<Item = usize> + 'a {
        (0..set.len()).filter(|number| self.is_maximal(set, *number))
    }
}
