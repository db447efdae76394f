//! Well-formed rows that no engine made: strategies with memory.

use super::{Dice, Letters};
use crate::rules::record::{records, Record};
use std::collections::BTreeSet;

/// So many different bytes, the first anything and the others ascending; now and then 0, 1, 2 and so on.
fn numbers(dice: &mut Dice, many: usize) -> Vec<u8> {
    let mut all: Vec<u8> = (0..=255).collect();
    if dice.chance(80) {
        shuffle(dice, &mut all);
    }
    all.truncate(many);
    all[1..].sort_unstable();
    all
}

fn shuffle<Thing>(dice: &mut Dice, things: &mut [Thing]) {
    for place in (1..things.len()).rev() {
        things.swap(place, dice.below(place + 1));
    }
}

/// How many states: one, few or up to 256.
fn any_number(dice: &mut Dice) -> usize {
    match dice.below(20) {
        0..=2 => 1,
        3..=9 => dice.between(2, 5),
        10..=16 => dice.between(4, 20),
        17 | 18 => dice.between(20, 100),
        _ => [dice.between(101, 256), 256][dice.below(2)],
    }
}

/// Which state comes after another, by their places in the way through them.
#[derive(Clone, Copy)]
enum Way {
    Anywhere,
    RoundAgain,
    ToTheLast,
    Onward,
}

const WAYS: [Way; 4] = [Way::Anywhere, Way::RoundAgain, Way::ToTheLast, Way::Onward];

fn step(dice: &mut Dice, way: Way, place: usize, many: usize) -> usize {
    match way {
        Way::Anywhere => dice.below(many),
        Way::RoundAgain => (place + 1) % many,
        Way::ToTheLast => (place + 1).min(many - 1),
        Way::Onward => (place + dice.below(4)).min(many - 1),
    }
}

/// Rows with these letters. The way leads through the states in any order from the start, so that it goes
/// now with their numbers and now against them.
pub fn strategy_of(dice: &mut Dice, letters: Letters, many: usize) -> Vec<u8> {
    let numbers = numbers(dice, many);
    let mut way_through: Vec<usize> = (0..many).collect();
    match dice.below(3) {
        0 => {}
        1 => way_through[1..].reverse(),
        _ => shuffle(dice, &mut way_through[1..]),
    }
    let way = WAYS[dice.below(WAYS.len())];
    let (liked, often) = (dice.below(letters.outputs), dice.between(0, 100));
    let mut rows = Vec::new();
    for (place, state) in way_through.iter().enumerate() {
        let output = if dice.chance(often) { liked } else { dice.below(letters.outputs) };
        for input in 0..letters.inputs {
            let next = way_through[step(dice, way, place, many)];
            rows.push([numbers[*state], output as u8, input as u8, numbers[next]]);
        }
    }
    in_order(rows, numbers[0])
}

pub fn strategy(dice: &mut Dice, letters: Letters) -> Vec<u8> {
    let many = any_number(dice);
    strategy_of(dice, letters, many)
}

fn in_order(mut rows: Vec<Record>, start: u8) -> Vec<u8> {
    rows.sort_by_key(|row| (row[0] != start, row[0], row[2]));
    rows.concat()
}

/// The states of well-formed rows, in their order.
fn states(rows: &[Record]) -> Vec<u8> {
    rows.iter().filter(|row| row[2] == 0).map(|row| row[0]).collect()
}

/// Which state each of so many new ones copies, by its place in the old rows: every old one once at least,
/// the start first. Empty for a state that nothing leads to.
fn copies(dice: &mut Dice, old: usize, many: usize) -> Vec<Option<usize>> {
    let strangers = dice.below(60);
    let mut copies: Vec<Option<usize>> = (0..old).map(Some).collect();
    while copies.len() < many {
        let copied = !dice.chance(strangers);
        copies.push(copied.then(|| dice.below(old)));
    }
    copies
}

/// Rows that do the same from the start: each state may have copies, any of which may come next, all have
/// new numbers, and there are states that are never reached.
pub fn copied(dice: &mut Dice, rows: &[u8], letters: Letters) -> Vec<u8> {
    let rows = records(rows);
    let old = states(&rows);
    let most = [old.len() + 3, 40, 256][dice.below(3)].clamp(old.len(), 256);
    let many = dice.between(old.len(), most);
    let (numbers, copies) = (numbers(dice, many), copies(dice, old.len(), many));
    let mut made = Vec::new();
    for (place, copied) in copies.iter().enumerate() {
        let any_output = dice.below(letters.outputs) as u8;
        for input in 0..letters.inputs {
            let row = copied.map(|copied| rows[copied * letters.inputs + input]);
            let next = match row {
                Some(row) => any_copy(dice, &copies, old.iter().position(|state| *state == row[3])),
                None => dice.below(many),
            };
            let output = row.map_or(any_output, |row| row[1]);
            made.push([numbers[place], output, input as u8, numbers[next]]);
        }
    }
    in_order(made, numbers[0])
}

fn any_copy(dice: &mut Dice, copies: &[Option<usize>], state: Option<usize>) -> usize {
    let places: Vec<usize> = (0..copies.len()).filter(|place| copies[*place] == state).collect();
    places[dice.below(places.len())]
}

/// Well-formed rows bent in one place: another output of a state, or another next state.
pub fn bent(dice: &mut Dice, rows: &[u8], letters: Letters) -> Vec<u8> {
    let mut rows = records(rows);
    let place = dice.below(rows.len());
    if dice.chance(50) {
        rows[place][3] = rows[dice.below(rows.len())][0];
    } else {
        let (state, output) = (rows[place][0], dice.below(letters.outputs) as u8);
        rows.iter_mut().filter(|row| row[0] == state).for_each(|row| row[1] = output);
    }
    rows.concat()
}

/// Well-formed rows in which one of these states has an output that is no letter.
pub fn foreign(dice: &mut Dice, rows: &[u8], among: &BTreeSet<u8>, outputs: usize) -> Vec<u8> {
    let state = *among.iter().nth(dice.below(among.len())).expect("there is a state");
    let output = dice.between(outputs, 7) as u8;
    let mut rows = records(rows);
    rows.iter_mut().filter(|row| row[0] == state).for_each(|row| row[1] = output);
    rows.concat()
}
