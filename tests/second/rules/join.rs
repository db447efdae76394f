//! The join of two good tables, as bytes and as numbers of states.

use super::codes::{LETTERS, SIZE};
use super::record::{records, Record};
use super::table::Table;

pub fn check(first: &Table, second: &Table) -> Option<u32> {
    if first.controller.letters != second.controller.letters
        || first.world.letters != second.world.letters
    {
        return Some(LETTERS);
    }
    let too_many = first.controller.states + second.controller.states > 8
        || first.world.states + second.world.states > 8;
    too_many.then_some(SIZE)
}

/// "The second table's states are renumbered upward by the first's counts, each side for
/// itself; letters stay."
fn renumber(record: &Record, controllers: u8, worlds: u8) -> Record {
    let [kind, state, middle, last] = *record;
    match kind {
        1 => [kind, state + controllers, middle, last],
        2 => [kind, state + worlds, middle, last],
        3 => [kind, state + controllers, middle, last + worlds],
        _ => [kind, state + worlds, middle, last + controllers],
    }
}

/// Kind by kind, the first table's records before the second's (reading 9).
pub fn join(first: &[u8], first_table: &Table, second: &[u8]) -> Vec<u8> {
    let controllers = first_table.controller.states as u8;
    let worlds = first_table.world.states as u8;
    let (first, second) = (records(first), records(second));
    let mut joined: Vec<Record> = Vec::new();
    for kind in 1..=4 {
        let own = first.iter().filter(|record| record[0] == kind);
        let moved = second.iter().filter(|record| record[0] == kind);
        joined.extend(own);
        joined.extend(moved.map(|record| renumber(record, controllers, worlds)));
    }
    joined.concat()
}
