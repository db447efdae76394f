//! Checks 4 to 10 with their places: from bytes to a table, or to the first thing that is wrong.

use super::codes::{EDGE, GAP, LENGTH, ORDER, RECORD, START, STATES};
use super::record::{fits_limits, of_kind, records, Record, FIRST, MOST_BYTES};
use super::table::{build, Side, Table};

#[derive(Clone, Copy, Debug, PartialEq, Eq)]
pub struct Fault {
    pub code: u32,
    pub place: u32,
}

fn fault(code: u32, place: usize) -> Option<Fault> {
    Some(Fault { code, place: place as u32 })
}

fn check_records(records: &[Record]) -> Option<Fault> {
    let place = records.iter().position(|record| !fits_limits(record))?;
    fault(RECORD, place)
}

/// "The later of the first bad pair."
fn check_order(records: &[Record]) -> Option<Fault> {
    let earlier = records.windows(2).position(|pair| pair[0] >= pair[1])?;
    fault(ORDER, earlier + 1)
}

fn check_states(records: &[Record]) -> Option<Fault> {
    let numbered = |kind: u8| {
        let mut rising = of_kind(records, kind).enumerate();
        of_kind(records, kind).count() > 0
            && rising.all(|(number, record)| record[1] as usize == number)
    };
    if numbered(1) && numbered(2) {
        return None;
    }
    fault(STATES, 0)
}

fn check_start(records: &[Record]) -> Option<Fault> {
    if of_kind(records, 1).any(|record| record[2] & FIRST != 0) {
        return None;
    }
    fault(START, 0)
}

fn check_edges(records: &[Record]) -> Option<Fault> {
    let controllers = of_kind(records, 1).count();
    let worlds = of_kind(records, 2).count();
    let named = |record: &Record| match record[0] {
        3 => (record[1] as usize) < controllers && (record[3] as usize) < worlds,
        4 => (record[1] as usize) < worlds && (record[3] as usize) < controllers,
        _ => true,
    };
    let place = records.iter().position(|record| !named(record))?;
    fault(EDGE, place)
}

fn has_gap(side: &Side) -> bool {
    let missing = |state: usize| (0..side.letters).any(|letter| side.targets[state][letter] == 0);
    side.letters == 0 || (0..side.states).any(missing)
}

fn check_gaps(records: &[Record]) -> Option<Fault> {
    let table = build(records);
    if has_gap(&table.controller) || has_gap(&table.world) {
        return fault(GAP, 0);
    }
    None
}

/// Each check looks at the whole table before the next one starts (reading 1).
const CHECKS: [fn(&[Record]) -> Option<Fault>; 6] =
    [check_records, check_order, check_states, check_start, check_edges, check_gaps];

pub fn read(bytes: &[u8]) -> Result<Table, Fault> {
    if bytes.is_empty() || bytes.len() % 4 != 0 || bytes.len() > MOST_BYTES {
        return Err(Fault { code: LENGTH, place: 0 });
    }
    let records = records(bytes);
    match CHECKS.iter().find_map(|check| check(&records)) {
        Some(found) => Err(found),
        None => Ok(build(&records)),
    }
}
