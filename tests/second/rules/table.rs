//! The table that good records make: targets, marks and starts.

use super::record::{of_kind, Record, FIRST, MARKED};

/// The counts of the states of one side; -1 also at the places of states that aren't in the table.
pub type Position = [i8; 8];

/// The states that move on one kind of letter; their targets are states of the other side.
#[derive(Clone, Debug, Default, PartialEq, Eq)]
pub struct Side {
    pub states: usize,
    pub letters: usize,
    pub marks: [i8; 8],
    /// "The targets of one state on one letter are kept as eight bits."
    pub targets: [[u8; 8]; 8],
}

#[derive(Clone, Debug, Default, PartialEq, Eq)]
pub struct Table {
    pub controller: Side,
    pub world: Side,
    pub starts: u8,
}

fn build_side(records: &[Record], state_kind: u8, edge_kind: u8) -> Side {
    let mut side = Side { states: of_kind(records, state_kind).count(), ..Side::default() };
    for record in of_kind(records, state_kind) {
        side.marks[record[1] as usize] = mark(record);
    }
    for record in of_kind(records, edge_kind) {
        let letter = record[2] as usize;
        side.letters = side.letters.max(letter + 1);
        side.targets[record[1] as usize][letter] |= 1 << record[3];
    }
    side
}

/// "The mark is 1 for a marked state and 0 otherwise."
fn mark(state: &Record) -> i8 {
    (state[2] & MARKED) as i8
}

/// Records that are within their limits, in any order.
pub fn build(records: &[Record]) -> Table {
    let starts = of_kind(records, 1)
        .filter(|record| record[2] & FIRST != 0)
        .fold(0, |starts, record| starts | 1 << record[1]);
    Table { controller: build_side(records, 1, 3), world: build_side(records, 2, 4), starts }
}

impl Table {
    /// "The start position gives 1 to a marked start state and 0 to the others": its mark to each start
    /// state, at most K + 1 as every count (reading 22), and -1 to a state that is none (reading 12).
    pub fn start_position(&self, patience: i8) -> Position {
        let count = |state: usize| self.controller.marks[state].min(patience + 1);
        std::array::from_fn(|state| if self.starts >> state & 1 == 1 { count(state) } else { -1 })
    }

    /// How many safe positions the larger side has: (K + 2) to the power of its states.
    pub fn positions(&self, patience: u32) -> u64 {
        let states = self.controller.states.max(self.world.states);
        (patience as u64 + 2).pow(states as u32)
    }
}
