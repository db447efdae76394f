//! The rows as document 01 says them, from the list of winners and the runs that have spent their
//! counts. Where no rows are written the winners have to be closed all the same.

use super::runs::{after_round, at_start, most_spent, spent};
use super::winners::first_above;
use super::Claim;
use crate::rules::table::Position;

/// For each input the first winner that the runs after the round are below; empty if a run passes K
/// or there is no such winner.
fn led_back(claim: &Claim, winner: &Position, output: usize) -> Option<Vec<usize>> {
    let next = |input: usize| {
        let after = after_round(claim.table, &spent(winner), (output, input), claim.patience)?;
        first_above(&claim.winners, &most_spent(&after))
    };
    (0..claim.table.world.letters).map(next).collect()
}

/// "A state's output is the smallest letter from which every input leads back into the winning set.
/// Its next state for an input is the first winner in the list that the position after the round is
/// below."
fn rows_of(claim: &Claim, place: usize) -> Option<Vec<u8>> {
    let winner = &claim.winners[place];
    let outputs = 0..claim.table.controller.letters;
    let (output, next) =
        outputs.into_iter().find_map(|output| Some((output, led_back(claim, winner, output)?)))?;
    let row =
        |(input, next): (usize, &usize)| [place as u8, output as u8, input as u8, *next as u8];
    Some(next.iter().enumerate().flat_map(row).collect())
}

/// "The start state is the first winner that the start position is below. The start state's rows come
/// first, then the others by state, inputs ascending."
fn start_fault(claim: &Claim) -> Option<String> {
    let start = first_above(&claim.winners, &most_spent(&at_start(claim.table)));
    match (claim.rows, start) {
        (Some(_), Some(start)) if start == claim.start => None,
        (None, None) => None,
        _ => Some(format!("the first winner that the start is below: {start:?}")),
    }
}

/// The rows of all winners, those of the claim's start first; or why there are none.
pub fn all(claim: &Claim) -> Result<Vec<u8>, String> {
    let mut all = Vec::new();
    for place in 0..claim.winners.len() {
        let Some(rows) = rows_of(claim, place) else {
            return Err(format!("winner {place} has no output that leads back to the winners"));
        };
        let at = if place == claim.start { 0 } else { all.len() };
        all.splice(at..at, rows);
    }
    Ok(all)
}

pub fn fault(claim: &Claim) -> Option<String> {
    if let Some(reason) = start_fault(claim) {
        return Some(reason);
    }
    match all(claim) {
        Err(reason) => Some(reason),
        Ok(all) => {
            let differ = claim.rows.is_some_and(|rows| rows != all);
            differ.then(|| "the rows aren't those of the winners".to_string())
        }
    }
}
