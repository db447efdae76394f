//! The method of the proved check in plain Rust: the largest counts of the runs that can be in each
//! controller state are raised until nothing changes. Here the states whose counts have risen wait in a
//! list. It reads rows in one go over them, as fast as may be.

use crate::rules::codes::{LETTERS, REALIZABLE, ROWS, UNREALIZABLE};
use crate::rules::read::read;
use crate::rules::rows::{MOST_INPUT, MOST_OUTPUT, MOST_ROW_BYTES};
use crate::rules::table::{Position, Side, Table};
use std::collections::VecDeque;

/// No row has this number.
const NONE: usize = usize::MAX;

/// Where each state's rows begin; empty if the rows aren't well formed.
fn places(rows: &[u8]) -> Option<Box<[usize; 256]>> {
    if rows.is_empty() || rows.len() % 4 != 0 || rows.len() > MOST_ROW_BYTES {
        return None;
    }
    let (first, last) = (rows[0], rows[rows.len() - 2]);
    let mut places = Box::new([NONE; 256]);
    let mut before: Option<&[u8]> = None;
    for (number, row) in rows.chunks_exact(4).enumerate() {
        let goes_on = match before {
            Some(before) if before[0] == row[0] => row[2] == before[2] + 1 && row[1] == before[1],
            Some(before) => {
                let ascends = before[0] == first || before[0] < row[0];
                row[0] != first && ascends && before[2] == last && row[2] == 0
            }
            None => row[2] == 0,
        };
        if !goes_on || row[1] > MOST_OUTPUT || row[2] > MOST_INPUT {
            return None;
        }
        if row[2] == 0 {
            places[row[0] as usize] = number;
        }
        before = Some(row);
    }
    rows.chunks_exact(4).all(|row| places[row[3] as usize] != NONE).then_some(places)
}

fn forward(position: &Position, letter: usize, from: &Side, to: &Side, limit: i8) -> Position {
    let mut after = [-1; 8];
    for left in (0..from.states).filter(|left| position[*left] >= 0) {
        let mut targets = from.targets[left][letter];
        while targets != 0 {
            let entered = targets.trailing_zeros() as usize;
            let count = (position[left] + to.marks[entered]).min(limit);
            after[entered] = count.max(after[entered]);
            targets &= targets - 1;
        }
    }
    after
}

/// Raises the first to the second where that is larger, and tells whether it was somewhere.
fn raise(most: &mut Position, after: &Position) -> bool {
    let before = *most;
    most.iter_mut().zip(after).for_each(|(most, after)| *most = (*most).max(*after));
    before != *most
}

fn keeps(table: &Table, patience: i8, rows: &[u8], places: &[usize; 256]) -> bool {
    let (controllers, worlds) = (&table.controller, &table.world);
    let mut most = [[-1; 8]; 256];
    let mut waits = [false; 256];
    let start = table.start_position(patience);
    if start.iter().any(|count| *count > patience) {
        return false;
    }
    most[rows[0] as usize] = start;
    let mut waiting = VecDeque::from([rows[0] as usize]);
    while let Some(state) = waiting.pop_front() {
        waits[state] = false;
        let own = &rows[4 * places[state]..];
        let halfway = forward(&most[state], own[1] as usize, controllers, worlds, patience + 1);
        for (input, row) in own.chunks_exact(4).take(worlds.letters).enumerate() {
            let after = forward(&halfway, input, worlds, controllers, patience + 1);
            if after.iter().any(|count| *count > patience) {
                return false;
            }
            let next = row[3] as usize;
            if raise(&mut most[next], &after) && !std::mem::replace(&mut waits[next], true) {
                waiting.push_back(next);
            }
        }
    }
    true
}

/// The code for a K of at most 7.
pub fn check(table: &[u8], patience: i8, rows: &[u8]) -> u32 {
    let table = match read(table) {
        Ok(table) => table,
        Err(fault) => return fault.code,
    };
    let Some(places) = places(rows) else { return ROWS };
    let letter = |row: &[u8]| (row[1] as usize) < table.controller.letters;
    let inputs = rows[rows.len() - 2] as usize + 1;
    if !rows.chunks_exact(4).all(letter) || inputs != table.world.letters {
        return LETTERS;
    }
    match keeps(&table, patience, rows, &places) {
        true => REALIZABLE,
        false => UNREALIZABLE,
    }
}
