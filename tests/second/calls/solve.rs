//! `desk_solve`: solves a table.

use super::lies::LIES;
use super::solved::{self, check_room, patience, put_unsafe_start, room, with_room, MOST_ROOM};
use crate::call::{least, Call, Feature, Found, Least, Operation, Outcome, Use, Voice, ANY};
use crate::engines::fit_for;
use crate::make::{
    any_good, changed, damaged, dense, falling_from_mark, letters, two_faults, with_marked_start,
};
use crate::play::Explored;
use crate::rules::answer::Answer;
use crate::rules::codes::*;
use crate::rules::read::read;
use crate::rules::table::Table;
use crate::session::{Session, EXACT};
use crate::stored::HARD;

pub static SOLVE: Operation = Operation {
    name: "solve",
    server: "serve",
    numbers: &["K", "N"],
    buffers: &[
        ("table", Use::Read),
        ("winners", Use::Written),
        ("controller", Use::Written),
        ("answer", Use::Written),
    ],
    oracles,
    property,
    checks: &crate::play::CHECKS,
    lies: &LIES,
    draw,
    features,
    least: &LEAST,
};

pub fn call(table: &[u8], patience: u32, room: u32) -> Call {
    solved::call(&SOLVE, &[table], patience, room)
}

fn checked(call: &Call) -> Result<Table, Answer> {
    check_room(call)?;
    read(call.bytes("table")).map_err(|fault| Answer::refusal(fault.code, fault.place, 0))
}

fn oracles(call: &Call) -> Vec<Voice> {
    let table = match checked(call) {
        Ok(table) => table,
        Err(answer) => {
            return vec![Voice { name: "checks", outcome: solved::refused(call, answer) }]
        }
    };
    let (patience, room) = (patience(call), room(call));
    let engines = fit_for(&table, patience).iter();
    engines
        .map(|engine| {
            let result = engine.solve(&table, patience as i8, room as usize);
            solved::voice(call, *engine, result)
        })
        .collect()
}

fn property(call: &Call, outcome: &Outcome, explored: &mut Explored) -> Vec<Found> {
    solved::property(call, checked(call).ok(), outcome, explored)
}

fn features(call: &Call, outcome: &Outcome) -> Vec<Feature> {
    solved::features(call, checked(call).ok(), outcome)
}

fn draw(session: &mut Session) {
    match session.dice.below(10) {
        0..=2 => any_ladder(session),
        3 => any_room(session),
        4 => dense_table(session),
        5 | 6 => faults(session),
        7 => short(session),
        8 => unsafe_start(session),
        _ => damaged_and_short(session),
    }
    if session.dice.below(200) == 0 {
        hard(session);
    }
}

/// Of any table, and now and then of one whose least K may hang on the mark of a start.
fn any_ladder(session: &mut Session) {
    let dice = &mut session.dice;
    let table = match dice.chance(75) {
        true => any_good(dice),
        false => {
            let (letters, states) = (letters(dice), dice.between(2, 8));
            falling_from_mark(dice, letters, states)
        }
    };
    ladder(session, |patience| call(&table, patience, MOST_ROOM));
}

/// As the desk program does: K = 0, 1, up to 7, stopping after the first code other than 1.
pub fn ladder(session: &mut Session, call: impl Fn(u32) -> Call) {
    for patience in 0..8 {
        let call = call(patience);
        let outcome = session.put(&call);
        if outcome.result != UNREALIZABLE || patience == 7 {
            return tight(session, &call, &outcome);
        }
    }
}

/// "FULL is given exactly if ... some W, A or B of it has more maximal members than the room."
pub fn tight(session: &mut Session, call: &Call, ample: &Outcome) {
    if ample.result > UNREALIZABLE || ample.largest < 2 {
        return;
    }
    let least = ample.largest as u32;
    let enough = with_room(call, least).noted("room tight");
    session.put_knowing(&enough, "the same answer in the least room", |outcome| {
        solved::answer(call, outcome) == solved::answer(call, ample)
    });
    let less = with_room(call, least - 1).noted("room one less");
    session.put_knowing(&less, "FULL with one less", |outcome| outcome.result == FULL);
}

/// Any K, any N: FULL now and then.
fn any_room(session: &mut Session) {
    let dice = &mut session.dice;
    let table = any_good(dice);
    let room = if dice.chance(70) { dice.between(1, 6) } else { dice.between(1, 256) };
    let patience = dice.below(8) as u32;
    session.put(&call(&table, patience, room as u32));
}

/// 8 states and 8 letters on each side, at K 0 and 1: every position is still one yes or no.
fn dense_table(session: &mut Session) {
    let table = dense(&mut session.dice);
    let first = call(&table, session.dice.below(2) as u32, MOST_ROOM);
    let ample = session.put(&first);
    tight(session, &first, &ample);
}

/// A marked start at K 0.
fn unsafe_start(session: &mut Session) {
    let table = any_good(&mut session.dice);
    let table = with_marked_start(&mut session.dice, &table);
    put_unsafe_start(session, &call(&table, 0, MOST_ROOM));
}

/// One fault, or two at once: then the order of the checks decides.
fn faults(session: &mut Session) {
    let table = any_good(&mut session.dice);
    for _ in 0..3 {
        let spoilt = damaged(&mut session.dice, &table);
        session.put(&call(&spoilt, 0, 4));
        let spoilt = two_faults(&mut session.dice, &table);
        session.put(&call(&spoilt, 0, 4).noted("two faults at once"));
    }
}

/// Buffers too short by one, no room or too much of it, K over 7.
fn short(session: &mut Session) {
    let table = any_good(&mut session.dice);
    let call = call(&table, 1, session.dice.between(1, 9) as u32);
    let (call, code) = refused_room(session, call);
    session.put_knowing(&call, "BOUND or ROOM", |outcome| outcome.result == code);
}

/// K 8, too short buffers and a damaged table, two or three of them at once.
fn damaged_and_short(session: &mut Session) {
    let table = any_good(&mut session.dice);
    let spoilt = damaged(&mut session.dice, &table);
    let call = call(&spoilt, 1, session.dice.between(1, 9) as u32);
    let (call, code) = refused_room(session, call);
    let call = call.noted("with a damaged table");
    session.put_knowing(&call, "BOUND or ROOM", |outcome| outcome.result == code);
}

/// A call that code 2 or 3 refuses: which.
pub fn refused_room(session: &mut Session, mut call: Call) -> (Call, u32) {
    let dice = &mut session.dice;
    let over = dice.chance(40);
    if over {
        call.numbers[0] = [8, 9, 255, 256, u32::MAX][dice.below(5)];
    }
    if over && dice.chance(50) {
        return (call.noted("K over 7 alone"), BOUND);
    }
    let shorter = |call: &mut Call, name: &str, by: usize| {
        let length = call.bytes(name).len();
        call.lend(name, length - by);
    };
    match dice.below(4) {
        0 => call.lend("answer", [23, 23, 0, 7][dice.below(4)]),
        1 => shorter(&mut call, "winners", 1),
        2 => shorter(&mut call, "controller", 1),
        _ => call.numbers[1] = [0, 257, 512, u32::MAX][dice.below(4)],
    }
    if over {
        return (call.noted(EXACT).noted("K over 7 and too little room"), BOUND);
    }
    (call.noted(EXACT), ROOM)
}

/// A hard table with some edges led elsewhere, at any K: long lists and many rounds.
fn hard(session: &mut Session) {
    let table = HARD[session.dice.below(HARD.len())];
    let table = changed(&mut session.dice, table);
    let call = call(&table, session.dice.below(8) as u32, MOST_ROOM).noted("a hard table");
    let outcome = session.put(&call);
    tight(session, &call, &outcome);
}

/// NOTHING isn't here: the position without any run stays without runs, so some position always wins.
static LEAST: [Least; 55] = [
    least(REALIZABLE, ANY, 2_000),
    least(REALIZABLE, "8 states and 8 letters", 150),
    least(REALIZABLE, "K over 0", 1_500),
    least(REALIZABLE, "a buffer after a wall", 1_500),
    least(REALIZABLE, "a buffer at any address", 1_500),
    least(REALIZABLE, "a buffer before a wall", 2_000),
    least(REALIZABLE, "a marked start", 800),
    least(REALIZABLE, "a marked start and an unmarked one", 600),
    least(REALIZABLE, "by both engines", 2_000),
    least(REALIZABLE, "only the mark of a start decides where to begin", 80),
    least(REALIZABLE, "room tight", 300),
    least(REALIZABLE, "several edges for a letter", 1_000),
    least(REALIZABLE, "several starts", 1_500),
    least(REALIZABLE, "several winners", 1_000),
    least(UNREALIZABLE, ANY, 4_000),
    least(UNREALIZABLE, "8 states and 8 letters", 300),
    least(UNREALIZABLE, "K over 0", 2_000),
    least(UNREALIZABLE, "a marked start", 2_500),
    least(UNREALIZABLE, "a marked start and an unmarked one", 1_500),
    least(UNREALIZABLE, "an unsafe start", 1_200),
    least(UNREALIZABLE, "by both engines", 3_000),
    least(UNREALIZABLE, "only the mark of a safe start decides", 120),
    least(UNREALIZABLE, "only the mark of an unsafe start decides", 250),
    least(UNREALIZABLE, "room tight", 200),
    least(UNREALIZABLE, "several edges for a letter", 3_000),
    least(UNREALIZABLE, "several starts", 2_000),
    least(UNREALIZABLE, "winners beyond the bottom one", 2_000),
    least(BOUND, ANY, 200),
    least(BOUND, "K over 7 and too little room", 100),
    least(BOUND, "with a damaged table", 100),
    least(ROOM, ANY, 300),
    least(ROOM, "with a damaged table", 100),
    least(LENGTH, ANY, 700),
    least(LENGTH, "two faults at once", 400),
    least(RECORD, ANY, 500),
    least(RECORD, "two faults at once", 200),
    least(ORDER, ANY, 500),
    least(ORDER, "two faults at once", 300),
    least(STATES, ANY, 500),
    least(STATES, "two faults at once", 200),
    least(START, ANY, 300),
    least(START, "two faults at once", 100),
    least(EDGE, ANY, 200),
    least(EDGE, "two faults at once", 90),
    least(GAP, ANY, 150),
    least(GAP, "two faults at once", 6),
    least(FULL, ANY, 600),
    least(FULL, "8 states and 8 letters", 200),
    least(FULL, "K over 0", 500),
    least(FULL, "a marked start", 150),
    least(FULL, "an unsafe start", 20),
    least(FULL, "by both engines", 500),
    least(FULL, "room one less", 500),
    least(FULL, "several edges for a letter", 500),
    least(FULL, "several starts", 300),
];
