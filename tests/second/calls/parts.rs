//! `desk_parts`: solves two tables by parts.

use super::lies::LIES;
use super::solve::{ladder, refused_room, tight};
use super::solved::{self, check_room, patience, put_unsafe_start, room, MOST_ROOM};
use super::two::{damaged_pair, joined, notes, pair, read_both};
use crate::call::{least, Call, Feature, Found, Least, Operation, Outcome, Use, Voice, ANY};
use crate::engines::fit_for;
use crate::make::{falling_from_mark, good, letters, two_sparse, with_marked_start, Letters};
use crate::play::Explored;
use crate::rules::answer::Answer;
use crate::rules::codes::*;
use crate::rules::read::read;
use crate::rules::table::Table;
use crate::session::Session;

pub static PARTS: Operation = Operation {
    name: "parts",
    server: "serve",
    numbers: &["K", "N"],
    buffers: &[
        ("first", Use::Read),
        ("second", Use::Read),
        ("winners", Use::Written),
        ("controller", Use::Written),
        ("answer", Use::Written),
    ],
    oracles,
    property,
    checks: &crate::play::CHECKS,
    lies: &LIES,
    draw,
    features,
    least: &LEAST,
};

pub fn call(first: &[u8], second: &[u8], patience: u32, room: u32) -> Call {
    solved::call(&PARTS, &[first, second], patience, room)
}

/// The two tables and their join.
fn checked(call: &Call) -> Result<[Table; 3], Answer> {
    check_room(call)?;
    let [first, second] = read_both(call)?;
    let whole = read(&joined(call, &first)).expect("a join is good");
    Ok([first, second, whole])
}

fn oracles(call: &Call) -> Vec<Voice> {
    let [first, second, whole] = match checked(call) {
        Ok(tables) => tables,
        Err(answer) => {
            return vec![Voice { name: "checks", outcome: solved::refused(call, answer) }]
        }
    };
    let (patience, room) = (patience(call), room(call));
    let engines = fit_for(&whole, patience).iter();
    engines
        .map(|engine| {
            let result = engine.parts([&first, &second], &whole, patience as i8, room as usize);
            solved::voice(call, *engine, result)
        })
        .collect()
}

fn whole(call: &Call) -> Option<Table> {
    checked(call).ok().map(|[_, _, whole]| whole)
}

fn property(call: &Call, outcome: &Outcome, explored: &mut Explored) -> Vec<Found> {
    solved::property(call, whole(call), outcome, explored)
}

fn features(call: &Call, outcome: &Outcome) -> Vec<Feature> {
    let mut found = notes(call);
    if call.bytes("first") == call.bytes("second") {
        found.push("a table with itself");
    }
    found.extend(solved::features(call, whole(call), outcome));
    found
}

fn draw(session: &mut Session) {
    match session.dice.below(10) {
        0..=2 => ample(session),
        3 | 4 => any_room(session),
        5 => large(session),
        6 => faults(session),
        7 => unsafe_start(session),
        8 => from_marks(session),
        _ => short(session),
    }
}

pub fn any_patience(session: &mut Session) -> u32 {
    [0, 0, 0, 1, 1, 2, 3, 7][session.dice.below(8)]
}

fn ample(session: &mut Session) {
    let [first, second] = pair(&mut session.dice);
    let patience = any_patience(session);
    let call = call(&first, &second, patience, MOST_ROOM);
    let outcome = session.put(&call);
    tight(session, &call, &outcome);
}

/// FULL of each stage.
fn any_room(session: &mut Session) {
    let [first, second] = pair(&mut session.dice);
    let patience = any_patience(session);
    let room = session.dice.between(1, 5) as u32;
    session.put(&call(&first, &second, patience, room));
}

/// 8 states and 8 letters on each side when joined.
fn large(session: &mut Session) {
    let dice = &mut session.dice;
    let letters = Letters { outputs: 8, inputs: 8 };
    let [first, second] = match dice.chance(50) {
        true => two_sparse(dice, letters),
        false => [good(dice, letters, 4), good(dice, letters, 4)],
    };
    let call = call(&first, &second, dice.below(2) as u32, MOST_ROOM);
    let outcome = session.put(&call);
    tight(session, &call, &outcome);
}

/// Both from marked starts, for K = 0, 1 and so on until the code isn't 1.
fn from_marks(session: &mut Session) {
    let dice = &mut session.dice;
    let letters = letters(dice);
    let [first, second] = [0, 1].map(|_| {
        let states = dice.between(2, 4);
        falling_from_mark(dice, letters, states)
    });
    ladder(session, |patience| call(&first, &second, patience, MOST_ROOM));
}

/// A marked start of either table at K 0.
fn unsafe_start(session: &mut Session) {
    let dice = &mut session.dice;
    let letters = letters(dice);
    let mut tables = [0, 1].map(|_| good(dice, letters, 4));
    let which = dice.below(2);
    tables[which] = with_marked_start(dice, &tables[which]);
    put_unsafe_start(session, &call(&tables[0], &tables[1], 0, MOST_ROOM));
}

fn faults(session: &mut Session) {
    for _ in 0..6 {
        let [first, second] = damaged_pair(&mut session.dice);
        session.put(&call(&first, &second, 0, 8));
    }
}

/// K over 7 and too little room, with good tables and bad ones.
fn short(session: &mut Session) {
    let damaged = session.dice.chance(50);
    let dice = &mut session.dice;
    let [first, second] = if damaged { damaged_pair(dice) } else { pair(dice) };
    let call = call(&first, &second, 1, dice.between(1, 9) as u32);
    let (call, code) = refused_room(session, call);
    session.put_knowing(&call, "BOUND or ROOM", |outcome| outcome.result == code);
}

static LEAST: [Least; 67] = [
    least(REALIZABLE, ANY, 1_500),
    least(REALIZABLE, "8 states and 8 letters", 90),
    least(REALIZABLE, "K over 0", 1_000),
    least(REALIZABLE, "a buffer after a wall", 1_000),
    least(REALIZABLE, "a buffer at any address", 1_000),
    least(REALIZABLE, "a buffer before a wall", 1_500),
    least(REALIZABLE, "a marked start", 700),
    least(REALIZABLE, "a marked start and an unmarked one", 600),
    least(REALIZABLE, "by both engines", 1_000),
    least(REALIZABLE, "only the mark of a start decides where to begin", 70),
    least(REALIZABLE, "room tight", 200),
    least(REALIZABLE, "several edges for a letter", 1_000),
    least(REALIZABLE, "several winners", 900),
    least(REALIZABLE, "two tables in the same bytes", 150),
    least(UNREALIZABLE, ANY, 2_000),
    least(UNREALIZABLE, "8 states and 8 letters", 200),
    least(UNREALIZABLE, "K over 0", 1_000),
    least(UNREALIZABLE, "a marked start", 2_500),
    least(UNREALIZABLE, "a marked start and an unmarked one", 2_000),
    least(UNREALIZABLE, "an unsafe start", 1_200),
    least(UNREALIZABLE, "by both engines", 2_000),
    least(UNREALIZABLE, "only the mark of a safe start decides", 120),
    least(UNREALIZABLE, "only the mark of an unsafe start decides", 150),
    least(UNREALIZABLE, "room tight", 500),
    least(UNREALIZABLE, "several edges for a letter", 2_000),
    least(UNREALIZABLE, "two tables in the same bytes", 100),
    least(UNREALIZABLE, "winners beyond the bottom one", 2_000),
    least(BOUND, ANY, 100),
    least(BOUND, "K over 7 and too little room", 50),
    least(BOUND, "a fault in each table", 5),
    least(ROOM, ANY, 150),
    least(ROOM, "a fault in each table", 10),
    least(LENGTH, ANY, 300),
    least(LENGTH, "a fault in each table", 40),
    least(LENGTH, "a fault in the second table", 100),
    least(RECORD, ANY, 200),
    least(RECORD, "a fault in each table", 40),
    least(RECORD, "a fault in the second table", 80),
    least(ORDER, ANY, 200),
    least(ORDER, "a fault in each table", 30),
    least(ORDER, "a fault in the second table", 100),
    least(STATES, ANY, 200),
    least(STATES, "a fault in each table", 40),
    least(STATES, "a fault in the second table", 100),
    least(START, ANY, 100),
    least(START, "a fault in each table", 20),
    least(START, "a fault in the second table", 50),
    least(EDGE, ANY, 100),
    least(EDGE, "a fault in each table", 20),
    least(EDGE, "a fault in the second table", 40),
    least(GAP, ANY, 70),
    least(GAP, "a fault in each table", 20),
    least(GAP, "a fault in the second table", 20),
    least(FULL, ANY, 1_000),
    least(FULL, "8 states and 8 letters", 100),
    least(FULL, "K over 0", 600),
    least(FULL, "a marked start", 400),
    least(FULL, "an unsafe start", 150),
    least(FULL, "by both engines", 700),
    least(FULL, "full in the last stage", 150),
    least(FULL, "full in the list of pairs", 150),
    least(FULL, "full while the first is solved alone", 300),
    least(FULL, "full while the second is solved alone", 300),
    least(FULL, "room one less", 700),
    least(FULL, "several edges for a letter", 800),
    least(LETTERS, ANY, 200),
    least(SIZE, ANY, 40),
];
