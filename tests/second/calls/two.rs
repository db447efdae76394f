//! What calls on two tables have in common.

use crate::call::Call;
use crate::make::{damaged, good, letters, two_faults, Dice};
use crate::rules::answer::Answer;
use crate::rules::join;
use crate::rules::read::read;
use crate::rules::table::Table;

fn read_table(bytes: &[u8], which: u32) -> Result<Table, Answer> {
    read(bytes).map_err(|fault| Answer::refusal(fault.code, fault.place, which))
}

/// "With two tables, 4 to 10 of the first, then of the second, then 13, 14."
pub fn read_both(call: &Call) -> Result<[Table; 2], Answer> {
    let first = read_table(call.bytes("first"), 1)?;
    let second = read_table(call.bytes("second"), 2)?;
    match join::check(&first, &second) {
        Some(code) => Err(Answer::refusal(code, 0, 0)),
        None => Ok([first, second]),
    }
}

/// The join of two good tables that fit together.
pub fn joined(call: &Call, first: &Table) -> Vec<u8> {
    join::join(call.bytes("first"), first, call.bytes("second"))
}

/// Two tables with the same letters, mostly small enough to be joined.
pub fn pair(dice: &mut Dice) -> [Vec<u8>; 2] {
    let letters = letters(dice);
    [0, 1].map(|_| {
        let most = [3, 3, 3, 4, 4, 5][dice.below(6)];
        good(dice, letters, most)
    })
}

/// A pair of which the first, the second or both are damaged, or which have other letters or too many
/// states.
pub fn damaged_pair(dice: &mut Dice) -> [Vec<u8>; 2] {
    let [first, second] = pair(dice);
    match dice.below(6) {
        0 => [damaged(dice, &first), second],
        1 => [first, damaged(dice, &second)],
        2 => [first, crate::make::any_good(dice)],
        3 => [two_faults(dice, &first), second],
        4 => [first, two_faults(dice, &second)],
        _ => [damaged(dice, &first), damaged(dice, &second)],
    }
}

/// What is found in the tables: a fault in each, or the same bytes twice.
pub fn notes(call: &Call) -> Vec<crate::call::Feature> {
    let [first, second] = ["first", "second"].map(|name| read(call.bytes(name)).err());
    let mut notes = Vec::new();
    if first.is_some() && second.is_some() {
        notes.push("a fault in each table");
    }
    match (first, second) {
        (Some(_), _) => notes.push("a fault in the first table"),
        (None, Some(_)) => notes.push("a fault in the second table"),
        _ => {}
    }
    notes
}
