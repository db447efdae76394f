//! Tables with one fault or two, and bytes that never were a table.

use super::Dice;
use crate::rules::record::{records, Record, MARKED};
use std::collections::BTreeSet;

fn any_bytes(dice: &mut Dice, length: usize) -> Vec<u8> {
    (0..length).map(|_| dice.next() as u8).collect()
}

/// Ascending records within the limits of each kind, with no other sense.
fn any_records(dice: &mut Dice) -> Vec<u8> {
    let number = dice.between(1, 40);
    let mut set = BTreeSet::new();
    for _ in 0..number {
        let kind = dice.between(1, 4) as u8;
        let small = |dice: &mut Dice, limit: usize| dice.below(limit) as u8;
        set.insert(match kind {
            1 => [1, small(dice, 3), small(dice, 4), 0],
            2 => [2, small(dice, 3), small(dice, 2), 0],
            _ => [kind, small(dice, 8), small(dice, 8), small(dice, 8)],
        });
    }
    set.into_iter().collect::<Vec<_>>().concat()
}

fn spoil_length(dice: &mut Dice, bytes: &mut Vec<u8>) {
    match dice.below(3) {
        0 => bytes.truncate(bytes.len() - dice.between(1, 3)),
        1 => bytes.resize(dice.between(4157, 4170), 1),
        _ => bytes.clear(),
    }
}

fn spoil_byte(dice: &mut Dice, bytes: &mut [u8]) {
    let place = dice.below(bytes.len());
    bytes[place] = if dice.chance(50) { dice.below(10) as u8 } else { dice.next() as u8 };
}

fn spoil_order(dice: &mut Dice, records: &mut Vec<Record>) {
    let (first, second) = (dice.below(records.len()), dice.below(records.len()));
    if dice.chance(50) {
        records.swap(first, second);
    } else {
        records.insert(first, records[first]);
    }
}

fn spoil_states(dice: &mut Dice, records: &mut Vec<Record>) {
    let kind = dice.between(1, 2) as u8;
    match dice.below(3) {
        0 => records.retain(|record| record[0] != kind || record[1] != 0),
        1 => records.retain(|record| record[0] != kind),
        _ => records.push([kind, 7, 0, 0]),
    }
    records.sort_unstable();
    records.dedup();
}

fn spoil_start(records: &mut [Record]) {
    for record in records.iter_mut().filter(|record| record[0] == 1) {
        record[2] &= MARKED;
    }
}

fn spoil_edge(dice: &mut Dice, records: &mut Vec<Record>) {
    let kind = dice.between(3, 4) as u8;
    let far = |dice: &mut Dice| dice.between(5, 7) as u8;
    let edge = [kind, dice.below(2) as u8, 0, far(dice)];
    let other = [kind, far(dice), 0, dice.below(2) as u8];
    records.push(if dice.chance(50) { edge } else { other });
    records.sort_unstable();
    records.dedup();
}

fn spoil_gap(dice: &mut Dice, records: &mut Vec<Record>) {
    let last = records.len() - 1;
    let edge = records[last - dice.below(records.len() / 3 + 1).min(last)];
    let kind = dice.between(3, 4) as u8;
    match dice.below(3) {
        0 => records.retain(|record| record[0] != kind),
        1 => records.retain(|record| record[0] != edge[0] || record[2] != edge[2]),
        _ => records.retain(|record| record[..3] != edge[..3]),
    }
}

/// A kind of fault. They are put in from the last to the first, so that none mends another.
#[derive(Clone, Copy, PartialEq, Eq, PartialOrd, Ord)]
enum Fault {
    Length,
    Byte,
    Order,
    States,
    Start,
    Edge,
    Gap,
}

const FAULTS: [Fault; 7] = [
    Fault::Length,
    Fault::Byte,
    Fault::Order,
    Fault::States,
    Fault::Start,
    Fault::Edge,
    Fault::Gap,
];

fn spoilt(dice: &mut Dice, good: &[u8], faults: &[Fault]) -> Vec<u8> {
    let mut table = records(good);
    for fault in FAULTS.iter().rev().filter(|fault| faults.contains(fault)) {
        match fault {
            Fault::Gap => spoil_gap(dice, &mut table),
            Fault::Edge => spoil_edge(dice, &mut table),
            Fault::Start => spoil_start(&mut table),
            Fault::States => spoil_states(dice, &mut table),
            Fault::Order => spoil_order(dice, &mut table),
            Fault::Byte | Fault::Length => {}
        }
    }
    let mut bytes = table.concat();
    if faults.contains(&Fault::Byte) {
        spoil_byte(dice, &mut bytes);
    }
    if faults.contains(&Fault::Length) {
        spoil_length(dice, &mut bytes);
    }
    bytes
}

/// A good table with one thing spoilt, or bytes that never were a table.
pub fn damaged(dice: &mut Dice, good: &[u8]) -> Vec<u8> {
    match dice.below(10) {
        0 => {
            let length = dice.between(0, 4170);
            any_bytes(dice, length)
        }
        1 => any_records(dice),
        2 => spoilt(dice, good, &[Fault::Byte]),
        kind => spoilt(dice, good, &[FAULTS[kind - 3]]),
    }
}

/// A good table with two different things spoilt.
pub fn two_faults(dice: &mut Dice, good: &[u8]) -> Vec<u8> {
    let first = dice.below(FAULTS.len());
    let second = (first + dice.between(1, FAULTS.len() - 1)) % FAULTS.len();
    spoilt(dice, good, &[FAULTS[first], FAULTS[second]])
}
