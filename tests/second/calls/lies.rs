//! Wrong outcomes of a call that solved a table: each is one that no oracle would have to deny, so that
//! it is seen whether the exploration alone sees through it.

use super::solved::{answer, claim, free_start, patience, written};
use super::two::{joined, read_both};
use crate::call::{Call, Lie, Outcome};
use crate::make::Dice;
use crate::play::{rows as played, Claim, WHOLE};
use crate::rules::answer::Answer;
use crate::rules::codes::{REALIZABLE, UNREALIZABLE};
use crate::rules::read::read;
use crate::rules::table::Table;

pub static LIES: [Lie; 7] = [
    Lie { name: "a winner raised by one in one count", tell: raised },
    Lie { name: "a winner left out", tell: left_out },
    Lie { name: "another output in the rows of a state", tell: another_output },
    Lie { name: "another next state in a row", tell: another_next },
    Lie { name: "unrealizable though the start wins", tell: not_realizable },
    Lie { name: "realizable though the start loses", tell: not_unrealizable },
    Lie { name: "as if the first visit went free", tell: as_if_free },
];

/// The answer of an outcome that has winners.
fn solved(call: &Call, outcome: &Outcome) -> Option<Answer> {
    answer(call, outcome).filter(|answer| answer.code <= UNREALIZABLE && answer.winners > 0)
}

fn with(call: &Call, right: &Outcome, name: &str, bytes: &[u8]) -> Outcome {
    let mut outcome = right.clone();
    outcome.write(call, name, bytes);
    outcome
}

fn raised(call: &Call, right: &Outcome, dice: &mut Dice) -> Option<Outcome> {
    let number = solved(call, right)?.winners as usize;
    let mut winners = right.bytes(call, "winners")[..8 * number].to_vec();
    let place = dice.below(winners.len());
    // a count that stays safe, in a state that some winner has: else the form alone would tell
    let used = winners.chunks(8).any(|winner| winner[place % 8] > 0);
    if !used || winners[place] as u32 > patience(call) {
        return None;
    }
    winners[place] += 1;
    Some(with(call, right, "winners", &winners))
}

/// Without rows, which would tell.
fn left_out(call: &Call, right: &Outcome, dice: &mut Dice) -> Option<Outcome> {
    let right_answer = solved(call, right)?;
    let number = right_answer.winners as usize;
    if right_answer.code != UNREALIZABLE || number < 2 || !is_small(call) {
        return None;
    }
    let mut winners = right.bytes(call, "winners")[..8 * number].to_vec();
    let place = 8 * dice.below(number);
    winners.drain(place..place + 8);
    let answer = Answer { winners: number as u32 - 1, ..right_answer };
    let outcome = with(call, right, "winners", &winners);
    Some(with(call, &outcome, "answer", &answer.bytes()))
}

/// The table that was solved last, alone or joined.
fn last_table(call: &Call) -> Option<Table> {
    if call.place("table").is_some() {
        return read(call.bytes("table")).ok();
    }
    let [first, _] = read_both(call).ok()?;
    read(&joined(call, &first)).ok()
}

/// Whether every position of the table is tried.
fn is_small(call: &Call) -> bool {
    last_table(call).is_some_and(|table| table.positions(patience(call)) <= WHOLE)
}

/// The rows, and how many bytes they are: as many as the call has changed.
fn rows(call: &Call, right: &Outcome) -> Option<Vec<u8>> {
    if solved(call, right)?.code != REALIZABLE {
        return None;
    }
    let (before, after) = (call.bytes("controller"), right.bytes(call, "controller"));
    let last = (0..before.len()).rfind(|place| before[*place] != after[*place])?;
    Some(after[..(last + 4) / 4 * 4].to_vec())
}

/// Another letter in all rows of a state.
fn another_output(call: &Call, right: &Outcome, dice: &mut Dice) -> Option<Outcome> {
    let mut rows = rows(call, right)?;
    let state = rows[4 * dice.below(rows.len() / 4)];
    let letter = dice.below(8) as u8;
    let mut bent = false;
    for row in rows.chunks_mut(4).filter(|row| row[0] == state) {
        bent |= row[1] != letter;
        row[1] = letter;
    }
    bent.then(|| with(call, right, "controller", &rows))
}

fn another_next(call: &Call, right: &Outcome, dice: &mut Dice) -> Option<Outcome> {
    let number = solved(call, right)?.winners as usize;
    let mut rows = rows(call, right)?;
    let place = 4 * dice.below(rows.len() / 4) + 3;
    let next = dice.below(number) as u8;
    if rows[place] == next {
        return None;
    }
    rows[place] = next;
    Some(with(call, right, "controller", &rows))
}

fn with_verdict(call: &Call, right: &Outcome, code: u32) -> Option<Outcome> {
    let answer = Answer { code, start: 0, ..solved(call, right)? };
    let mut outcome = with(call, right, "answer", &answer.bytes());
    outcome.result = code;
    Some(outcome)
}

fn not_realizable(call: &Call, right: &Outcome, _: &mut Dice) -> Option<Outcome> {
    let length = rows(call, right)?.len();
    let outcome = with(call, right, "controller", &call.bytes("controller")[..length]);
    with_verdict(call, &outcome, UNREALIZABLE)
}

fn not_unrealizable(call: &Call, right: &Outcome, _: &mut Dice) -> Option<Outcome> {
    solved(call, right).filter(|answer| answer.code == UNREALIZABLE)?;
    with_verdict(call, right, REALIZABLE)
}

/// What an engine writes that doesn't count the mark of a start state, where it matters: the same winners,
/// and right rows for them that begin elsewhere, or begin at all.
fn as_if_free(call: &Call, right: &Outcome, _: &mut Dice) -> Option<Outcome> {
    let right_answer = solved(call, right)?;
    let table = last_table(call)?;
    let [winners, _] = written(call, &table, right);
    let start = free_start(&table, winners)?;
    let answer = Answer { code: REALIZABLE, start: start as u32, ..right_answer };
    if answer == right_answer {
        return None;
    }
    let rows = played::all(&Claim { start, ..claim(call, &table, right)? }).ok()?;
    let mut outcome = with(call, right, "controller", &rows);
    outcome.write(call, "answer", &answer.bytes());
    outcome.result = REALIZABLE;
    Some(outcome)
}
