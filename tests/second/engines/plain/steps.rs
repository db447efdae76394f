//! Every step forward, worked out beforehand.

use super::ground::Ground;
use crate::rules::table::{Position, Side};

/// "The count of q is the largest of min(K + 1, count of p + mark of q) over all p with an edge
/// to q on that letter and a count other than -1; -1 if there is none."
fn forward(position: &Position, letter: usize, from: &Side, to: &Side, patience: i8) -> Position {
    let mut after = [-1; 8];
    for left in (0..from.states).filter(|left| position[*left] != -1) {
        let mut targets = from.targets[left][letter];
        while targets != 0 {
            let entered = targets.trailing_zeros() as usize;
            let count = (position[left] + to.marks[entered]).min(patience + 1);
            after[entered] = count.max(after[entered]);
            targets &= targets - 1;
        }
    }
    after
}

/// For each letter, the number after the step for each number before it.
pub type Steps = Vec<Vec<usize>>;

pub fn all_steps(from: &Side, here: &Ground, to: &Side, there: &Ground) -> Steps {
    let step = |position: &Position, letter: usize| {
        there.number(&forward(position, letter, from, to, here.patience))
    };
    (0..from.letters)
        .map(|letter| here.positions.iter().map(|position| step(position, letter)).collect())
        .collect()
}
