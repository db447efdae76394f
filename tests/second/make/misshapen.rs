//! Rows that aren't well formed: well-formed ones of several states and inputs, with one clause broken.

use super::Dice;
use crate::call::Feature;
use crate::rules::record::{records, Record};
use crate::rules::rows::{MOST_INPUT, MOST_OUTPUT, MOST_ROW_BYTES};

type Rows = Vec<Record>;

/// What is broken, and how. The rows have at least three states and two inputs.
pub struct Break {
    pub name: Feature,
    how: fn(&mut Dice, Rows) -> Vec<u8>,
}

pub static BREAKS: [Break; 15] = [
    Break { name: "rows of 0 bytes", how: |_, _| Vec::new() },
    Break { name: "a length that is no multiple of 4", how: |dice, rows| more_bytes(dice, &rows) },
    Break { name: "over 8,192 bytes", how: |dice, rows| too_long(dice, &rows) },
    Break {
        name: "the first state's rows again later",
        how: |dice, rows| first_again(dice, &rows),
    },
    Break { name: "the others don't ascend", how: |dice, rows| descending(dice, &rows) },
    Break { name: "the rows of two states mixed", how: |_, rows| mixed(&rows) },
    Break { name: "an input left out in every state", how: |dice, rows| left_out(dice, rows) },
    Break { name: "an input twice", how: |dice, rows| doubled(dice, rows) },
    Break { name: "inputs out of order", how: |dice, rows| exchanged(dice, rows) },
    Break { name: "a state with fewer inputs", how: |dice, rows| fewer(dice, rows) },
    Break { name: "a state with more inputs", how: |dice, rows| more_inputs(dice, rows) },
    Break { name: "an input over 7", how: |dice, rows| input_over(dice, &rows) },
    Break { name: "a next state without rows", how: |dice, rows| led_nowhere(dice, rows) },
    Break { name: "two outputs of a state", how: |dice, rows| two_outputs(dice, rows) },
    Break { name: "an output over 7", how: |dice, rows| output_over(dice, rows) },
];

impl Break {
    pub fn of(&self, dice: &mut Dice, rows: &[u8]) -> Vec<u8> {
        (self.how)(dice, records(rows))
    }
}

fn inputs(rows: &[Record]) -> usize {
    rows.iter().filter(|row| row[0] == rows[0][0]).count()
}

/// The rows of each state.
fn groups(rows: &[Record]) -> Vec<Rows> {
    rows.chunks(inputs(rows)).map(<[Record]>::to_vec).collect()
}

fn more_bytes(dice: &mut Dice, rows: &[Record]) -> Vec<u8> {
    let mut bytes = rows.concat();
    (0..dice.between(1, 3)).for_each(|_| bytes.push(dice.below(2) as u8));
    bytes
}

/// Of 256 states with 8 inputs and something more; or the rows again and again.
fn too_long(dice: &mut Dice, rows: &[Record]) -> Vec<u8> {
    let more = dice.between(1, 9);
    let row = |number: usize| [(number / 8) as u8, 0, (number % 8) as u8, (number % 8) as u8];
    let fullest = (0..MOST_ROW_BYTES / 4).flat_map(row);
    if dice.chance(70) {
        return fullest
            .chain([255, 0, 7, 0].into_iter().cycle())
            .take(MOST_ROW_BYTES + more)
            .collect();
    }
    rows.concat().into_iter().cycle().take(MOST_ROW_BYTES + 4 * more).collect()
}

/// All of them a second time, or those after input 0 only there.
fn first_again(dice: &mut Dice, rows: &[Record]) -> Vec<u8> {
    let first = &groups(rows)[0];
    let at = first.len() * dice.between(2, rows.len() / first.len());
    let (kept, again) = if dice.chance(50) { (first.len(), 0) } else { (1, 1) };
    let parts = [&rows[..kept], &rows[first.len()..at], &first[again..], &rows[at..]];
    parts.concat().concat()
}

fn descending(dice: &mut Dice, rows: &[Record]) -> Vec<u8> {
    let mut groups = groups(rows);
    let later = dice.between(2, groups.len() - 1);
    groups.swap(dice.between(1, later - 1), later);
    groups.concat().concat()
}

/// The second and third states' rows by input.
fn mixed(rows: &[Record]) -> Vec<u8> {
    let inputs = inputs(rows);
    let mut rows = rows.to_vec();
    rows[inputs..3 * inputs].sort_by_key(|row| (row[2], row[0]));
    rows.concat()
}

fn left_out(dice: &mut Dice, mut rows: Rows) -> Vec<u8> {
    let input = dice.below(inputs(&rows) - 1) as u8;
    rows.retain(|row| row[2] != input);
    rows.concat()
}

fn doubled(dice: &mut Dice, mut rows: Rows) -> Vec<u8> {
    let place = dice.below(rows.len());
    rows.insert(place, rows[place]);
    rows.concat()
}

/// Two neighbours of one state.
fn exchanged(dice: &mut Dice, mut rows: Rows) -> Vec<u8> {
    let inputs = inputs(&rows);
    let place = dice.below(rows.len() / inputs) * inputs + dice.below(inputs - 1);
    rows.swap(place, place + 1);
    rows.concat()
}

fn fewer(dice: &mut Dice, mut rows: Rows) -> Vec<u8> {
    let inputs = inputs(&rows);
    let last = dice.between(1, rows.len() / inputs) * inputs - 1;
    rows.remove(last);
    rows.concat()
}

fn more_inputs(dice: &mut Dice, mut rows: Rows) -> Vec<u8> {
    let inputs = inputs(&rows);
    let after = dice.between(1, rows.len() / inputs) * inputs;
    let [state, output, input, next] = rows[after - 1];
    rows.insert(after, [state, output, input + 1, next]);
    rows.concat()
}

/// In every state one input after the other up to 8 or more; or the last one is called otherwise.
fn input_over(dice: &mut Dice, rows: &[Record]) -> Vec<u8> {
    let mut groups = groups(rows);
    let last = dice.between(MOST_INPUT as usize + 1, 12) as u8;
    let far = dice.chance(30);
    for group in &mut groups {
        let [state, output, input, next] = group[group.len() - 1];
        group.extend((input + 1..=last).map(|input| [state, output, input, next]));
        if far {
            group.truncate(inputs(rows));
            group[inputs(rows) - 1][2] = 240 + last;
        }
    }
    groups.concat().concat()
}

fn led_nowhere(dice: &mut Dice, mut rows: Rows) -> Vec<u8> {
    let missing: Vec<u8> =
        (0..=255).filter(|state| rows.iter().all(|row| row[0] != *state)).collect();
    let place = dice.below(rows.len());
    rows[place][3] = missing[dice.below(missing.len())];
    rows.concat()
}

fn two_outputs(dice: &mut Dice, mut rows: Rows) -> Vec<u8> {
    let place = dice.below(rows.len());
    rows[place][1] ^= 1 << dice.below(2);
    rows.concat()
}

fn output_over(dice: &mut Dice, mut rows: Rows) -> Vec<u8> {
    let state = rows[dice.below(rows.len())][0];
    let over = [MOST_OUTPUT + 1, MOST_OUTPUT + 1, 128, 255][dice.below(4)];
    rows.iter_mut().filter(|row| row[0] == state).for_each(|row| row[1] = over);
    rows.concat()
}
