//! `desk_join`: joins two tables.

use super::two::{damaged_pair, joined, notes, pair, read_both};
use crate::call::{
    least, lent, Buffer, Call, Feature, Found, Layout, Least, Lie, Operation, Outcome, Use, Voice,
    ANY,
};
use crate::play::Explored;
use crate::rules::answer::{Answer, ANSWER_BYTES};
use crate::rules::codes::*;
use crate::rules::read::read;
use crate::rules::record::{FIRST, MOST_BYTES};
use crate::session::{Session, EXACT};

pub static JOIN: Operation = Operation {
    name: "join",
    server: "serve",
    numbers: &[],
    buffers: &[
        ("first", Use::Read),
        ("second", Use::Read),
        ("out", Use::Written),
        ("answer", Use::Written),
    ],
    oracles,
    property,
    checks: &[CHECK],
    lies: &LIES,
    draw,
    features,
    least: &LEAST,
};

const CHECK: &str = "the joined table";

pub fn call(first: &[u8], second: &[u8]) -> Call {
    let bytes = [first.to_vec(), second.to_vec(), lent(MOST_BYTES), lent(ANSWER_BYTES)];
    let buffer = |bytes| Buffer { bytes, layout: Layout::BeforeWall };
    let buffers = bytes.into_iter().map(buffer).collect();
    Call { operation: &JOIN, numbers: Vec::new(), buffers, notes: Vec::new() }
}

/// "For a join, output under 4,160 bytes. ... Code 2 and the room for positions don't arise for a
/// plain join."
fn checked(call: &Call) -> Result<Vec<u8>, Answer> {
    if call.bytes("out").len() < MOST_BYTES || call.bytes("answer").len() < ANSWER_BYTES {
        return Err(Answer::refusal(ROOM, 0, 0));
    }
    let [first, _] = read_both(call)?;
    Ok(joined(call, &first))
}

/// "Answers 0 with the number of bytes written as its place, and its other fields are 0."
fn oracles(call: &Call) -> Vec<Voice> {
    let outcome = match checked(call) {
        Err(answer) => super::solved::refused(call, answer),
        Ok(out) => {
            let answer = Answer { place: out.len() as u32, ..Answer::default() };
            let mut outcome = Outcome::result_only(call, REALIZABLE);
            outcome.write(call, "out", &out);
            outcome.write(call, "answer", &answer.bytes());
            outcome
        }
    };
    vec![Voice { name: "document", outcome }]
}

/// The joined table, where there is one.
pub fn out<'a>(call: &Call, outcome: &'a Outcome) -> Option<&'a [u8]> {
    let place = Answer::from_bytes(outcome.bytes(call, "answer"))?.place as usize;
    (outcome.result == REALIZABLE).then(|| &outcome.bytes(call, "out")[..place])
}

/// A joined table passes 4 to 10, and has the states, marks and starts of both.
fn property(call: &Call, outcome: &Outcome, _: &mut Explored) -> Vec<Found> {
    let fault = out(call, outcome).and_then(|out| join_fault(call, out));
    fault.into_iter().map(|reason| (CHECK, reason)).collect()
}

fn join_fault(call: &Call, out: &[u8]) -> Option<String> {
    let (Ok(whole), Ok([first, second])) = (read(out), read_both(call)) else {
        return Some("the joined table isn't good".to_string());
    };
    let sums = [
        (whole.controller.states, first.controller.states + second.controller.states),
        (whole.world.states, first.world.states + second.world.states),
        (whole.controller.letters, first.controller.letters),
        (whole.world.letters, first.world.letters),
        (out.len(), call.bytes("first").len() + call.bytes("second").len()),
    ];
    let added = sums.iter().all(|(found, wanted)| found == wanted);
    let starts = first.starts | second.starts << first.controller.states;
    (!added || whole.starts != starts).then(|| "the joined table hasn't what both have".to_string())
}

static LIES: [Lie; 2] = [
    Lie { name: "a record left out", tell: |call, right, _| without_last(call, right) },
    Lie { name: "another start", tell: |call, right, _| another_start(call, right) },
];

fn without_last(call: &Call, right: &Outcome) -> Option<Outcome> {
    let place = out(call, right)?.len() - 4;
    let mut outcome = right.clone();
    let answer = Answer { place: place as u32, ..Answer::default() };
    outcome.write(call, "answer", &answer.bytes());
    Some(outcome)
}

fn another_start(call: &Call, right: &Outcome) -> Option<Outcome> {
    let mut bytes = out(call, right)?.to_vec();
    bytes[2] ^= FIRST;
    let mut outcome = right.clone();
    outcome.write(call, "out", &bytes);
    Some(outcome)
}

fn features(call: &Call, _: &Outcome) -> Vec<Feature> {
    let mut found = notes(call);
    if call.bytes("first") == call.bytes("second") {
        found.push("a table with itself");
    }
    found
}

fn draw(session: &mut Session) {
    match session.dice.below(4) {
        0 => {
            let [first, second] = pair(&mut session.dice);
            session.put(&call(&first, &second));
        }
        1 | 2 => {
            let [first, second] = damaged_pair(&mut session.dice);
            session.put(&call(&first, &second));
        }
        _ => short(session),
    }
}

/// The output or the answer too short, with good tables and bad ones.
fn short(session: &mut Session) {
    let dice = &mut session.dice;
    let damaged = dice.chance(50);
    let [first, second] = if damaged { damaged_pair(dice) } else { pair(dice) };
    let mut call = call(&first, &second).noted(EXACT);
    match dice.below(3) {
        0 => call.lend("answer", [23, 23, 0, 7][dice.below(4)]),
        1 => call.lend("out", MOST_BYTES - 1),
        _ => call.lend("out", [0, first.len() + second.len()][dice.below(2)].min(MOST_BYTES - 1)),
    }
    session.put_knowing(&call, "ROOM", |outcome| outcome.result == ROOM);
}

static LEAST: [Least; 30] = [
    least(REALIZABLE, ANY, 4_000),
    least(REALIZABLE, "a buffer after a wall", 2_000),
    least(REALIZABLE, "a buffer at any address", 3_000),
    least(REALIZABLE, "a buffer before a wall", 4_000),
    least(REALIZABLE, "two tables in the same bytes", 300),
    least(ROOM, ANY, 500),
    least(ROOM, "a fault in each table", 30),
    least(LENGTH, ANY, 200),
    least(LENGTH, "a fault in each table", 30),
    least(LENGTH, "a fault in the second table", 90),
    least(RECORD, ANY, 150),
    least(RECORD, "a fault in each table", 30),
    least(RECORD, "a fault in the second table", 50),
    least(ORDER, ANY, 150),
    least(ORDER, "a fault in each table", 20),
    least(ORDER, "a fault in the second table", 70),
    least(STATES, ANY, 150),
    least(STATES, "a fault in each table", 30),
    least(STATES, "a fault in the second table", 60),
    least(START, ANY, 90),
    least(START, "a fault in each table", 15),
    least(START, "a fault in the second table", 30),
    least(EDGE, ANY, 80),
    least(EDGE, "a fault in each table", 15),
    least(EDGE, "a fault in the second table", 30),
    least(GAP, ANY, 40),
    least(GAP, "a fault in each table", 10),
    least(GAP, "a fault in the second table", 15),
    least(LETTERS, ANY, 150),
    least(SIZE, ANY, 300),
];
