//! A written controller is played against every input, from every winner with that winner's counts
//! spent: in every pair of a controller's state and a set of runs that this leads to.

use super::runs::{after_round, spent, Runs};
use super::{Claim, Explored};
use std::collections::HashSet;

/// The most pairs that are looked at for one controller.
const MOST_PAIRS: usize = 30_000;

/// Each place has exactly one row for each input, all with one output of the table.
fn is_complete(claim: &Claim, rows: &[u8]) -> bool {
    let (places, inputs) = (claim.winners.len(), claim.table.world.letters);
    let mut seen = vec![0; places * inputs];
    let mut outputs = vec![None; places];
    for row in rows.chunks_exact(4) {
        let [place, output, input, next] = [row[0], row[1], row[2], row[3]].map(usize::from);
        let known = place < places && next < places && input < inputs;
        if !known || output >= claim.table.controller.letters {
            return false;
        }
        if *outputs[place].get_or_insert(output) != output {
            return false;
        }
        seen[place * inputs + input] += 1;
    }
    seen.iter().all(|rows| *rows == 1)
}

/// The rows of each place.
fn by_place<'a>(claim: &Claim, rows: &'a [u8]) -> Vec<Vec<&'a [u8]>> {
    let mut sorted = vec![Vec::new(); claim.winners.len()];
    rows.chunks_exact(4).for_each(|row| sorted[row[0] as usize].push(row));
    sorted
}

/// What is wrong with the controller, if there is one and anything is.
pub fn fault(claim: &Claim, explored: &mut Explored) -> Option<String> {
    let rows = claim.rows?;
    if !is_complete(claim, rows) {
        return Some("the rows aren't one for each state and input".to_string());
    }
    let rows = by_place(claim, rows);
    let begin = |(place, winner)| (place, spent(winner));
    let mut waiting: Vec<(usize, Runs)> = claim.winners.iter().enumerate().map(begin).collect();
    let mut seen: HashSet<(usize, Runs)> = waiting.iter().copied().collect();
    while let Some((place, runs)) = waiting.pop() {
        for row in &rows[place] {
            let letters = (row[1] as usize, row[2] as usize);
            let Some(after) = after_round(claim.table, &runs, letters, claim.patience) else {
                return Some(format!("a run passes K from controller state {place}"));
            };
            if seen.insert((row[3] as usize, after)) {
                waiting.push((row[3] as usize, after));
            }
        }
        if seen.len() > MOST_PAIRS {
            explored.broken_off += 1;
            return None;
        }
    }
    explored.played += claim.winners.len() as u64;
    None
}
