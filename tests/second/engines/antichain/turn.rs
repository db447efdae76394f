//! One side's turn, made ready for stepping both ways.

use super::lists::thin;
use crate::rules::table::{Position, Side};

/// One side's turn for one patience count, made ready for stepping both ways.
pub struct Turn {
    patience: i8,
    pub letters: usize,
    /// The marks of the states entered: "It belongs to the state entered."
    marks: Position,
    /// For each letter and each state entered: -1 at the states with an edge to it, 127 at the
    /// others, so that a greater-of leaves the first and shuts out the second.
    shut: Vec<[Position; 8]>,
    /// K for the states of this side and -1 for those that aren't in the table.
    pub most: Position,
}

impl Turn {
    pub fn new(from: &Side, to: &Side, patience: i8) -> Turn {
        let bar = |left: usize, letter: usize, entered: usize| {
            if from.targets[left][letter] >> entered & 1 == 1 {
                -1
            } else {
                i8::MAX
            }
        };
        let bars =
            |letter: usize, entered: usize| std::array::from_fn(|left| bar(left, letter, entered));
        let shut = |letter: usize| std::array::from_fn(|entered| bars(letter, entered));
        Turn {
            patience,
            letters: from.letters,
            marks: to.marks,
            shut: (0..from.letters).map(shut).collect(),
            most: std::array::from_fn(|state| if state < from.states { patience } else { -1 }),
        }
    }

    /// "Gives p the smallest of max(-1, count of q - mark of q) over the targets q of p on that
    /// letter."
    fn back(&self, position: &Position, letter: usize) -> Position {
        let mut before = self.most;
        for entered in 0..8 {
            let count = (position[entered] - self.marks[entered]).max(-1);
            let bars = &self.shut[letter][entered];
            for left in 0..8 {
                before[left] = before[left].min(bars[left].max(count));
            }
        }
        before
    }

    pub fn forward(&self, position: &Position, letter: usize) -> Position {
        let mut after = [-1; 8];
        for entered in 0..8 {
            let bars = &self.shut[letter][entered];
            let here = (0..8).filter(|left| bars[*left] == -1 && position[*left] != -1);
            let count = here.map(|left| position[left] + self.marks[entered]).max();
            after[entered] = count.unwrap_or(-1).min(self.patience + 1);
        }
        after
    }

    pub fn all_back(&self, list: &[Position], letter: usize) -> Vec<Position> {
        let stepped: Vec<Position> = list.iter().map(|member| self.back(member, letter)).collect();
        thin(&stepped)
    }
}
