//! The list of winners: its form, what it covers, and what lies just outside.

use super::Claim;
use crate::rules::table::Position;

pub fn below(lesser: &Position, greater: &Position) -> bool {
    lesser.iter().zip(greater).all(|(lesser, greater)| lesser <= greater)
}

/// The first winner that the position is below.
pub fn first_above(winners: &[Position], position: &Position) -> Option<usize> {
    winners.iter().position(|winner| below(position, winner))
}

fn fits_table(claim: &Claim, winner: &Position) -> bool {
    let states = claim.table.controller.states;
    winner.iter().all(|count| *count >= -1 && *count <= claim.patience)
        && winner[states..].iter().all(|count| *count == -1)
}

/// "Maximal members only, ascending as byte strings."
pub fn fault(claim: &Claim) -> Option<String> {
    let winners = &claim.winners;
    if !winners.iter().all(|winner| fits_table(claim, winner)) {
        return Some("a winner isn't a safe position of the table".to_string());
    }
    if !winners.windows(2).all(|pair| pair[0] < pair[1]) {
        return Some("the winners don't ascend".to_string());
    }
    let doubled = |(place, winner): (usize, &Position)| {
        winners.iter().enumerate().any(|(other, above)| other != place && below(winner, above))
    };
    let found = winners.iter().enumerate().any(doubled);
    found.then(|| "a winner isn't maximal".to_string())
}

/// Each winner raised by one in one count, where that stays safe.
pub fn raised(claim: &Claim) -> Vec<Position> {
    let mut raised = Vec::new();
    for winner in &claim.winners {
        for state in 0..claim.table.controller.states {
            let mut position = *winner;
            position[state] += 1;
            if position[state] <= claim.patience {
                raised.push(position);
            }
        }
    }
    raised
}

/// Every safe position that no winner covers.
pub fn uncovered(claim: &Claim) -> Vec<Position> {
    let mut all = vec![[-1; 8]];
    for state in 0..claim.table.controller.states {
        let with_count = |position: &Position, count: i8| {
            let mut position = *position;
            position[state] = count;
            position
        };
        let counts = |position: &Position| {
            let position = *position;
            (-1..=claim.patience).map(move |count| with_count(&position, count))
        };
        all = all.iter().flat_map(counts).collect();
    }
    all.retain(|position| first_above(&claim.winners, position).is_none());
    all
}
