//! Document 02, R-3: whether one position is the same as another, below it, above it or neither.

use super::table::Position;

#[derive(Clone, Copy, Debug, PartialEq, Eq, PartialOrd, Ord)]
pub enum Comparison {
    Same,
    Below,
    Above,
    Neither,
}

/// The states whose counts differ, ascending.
pub fn differing(first: &Position, second: &Position) -> Vec<usize> {
    (0..first.len()).filter(|state| first[*state] != second[*state]).collect()
}

/// "One position is below another if each of its counts is at most the other's", and "equal given only
/// for equal counts": so each count that differs speaks against one of the two.
pub fn compared(first: &Position, second: &Position) -> Comparison {
    let (mut below, mut above) = (true, true);
    for state in differing(first, second) {
        if first[state] < second[state] {
            above = false;
        } else {
            below = false;
        }
    }
    match (below, above) {
        (true, true) => Comparison::Same,
        (true, false) => Comparison::Below,
        (false, true) => Comparison::Above,
        (false, false) => Comparison::Neither,
    }
}
