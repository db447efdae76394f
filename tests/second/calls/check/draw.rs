//! Calls to check rows: what engines wrote and what else does the same, strategies with memory, starts that
//! no rows can follow, rows that are broken, bad tables and short buffers.

use super::call;
use crate::call::Feature;
use crate::engines::antichain;
use crate::follow::longest::most_visits;
use crate::make::{
    any_good, bent, copied, damaged, dense, falling, foreign, letters, strategy, strategy_of,
    two_faults, with_marked_start, Dice, Letters, BREAKS,
};
use crate::rules::codes::{BOUND, LETTERS, REALIZABLE, ROOM, ROWS, UNREALIZABLE};
use crate::rules::read::read;
use crate::rules::rows::{clauses_broken, read_rows};
use crate::rules::table::Table;
use crate::session::{Session, EXACT};
use std::collections::BTreeSet;

pub fn draw(session: &mut Session) {
    match session.dice.below(13) {
        0 | 1 => written(session),
        2..=4 => any_rows(session),
        5 => misshapen(session),
        6 => other_letters(session),
        7 | 8 => bad_tables(session),
        9 => one_byte(session),
        10 => unsafe_start(session),
        _ => short(session),
    }
    if session.dice.below(60) == 0 {
        largest(session);
    }
}

/// The letters of a good table.
pub fn letters_of(table: &[u8]) -> Letters {
    let table = good(table);
    Letters { outputs: table.controller.letters, inputs: table.world.letters }
}

fn good(table: &[u8]) -> Table {
    read(table).expect("the table is good")
}

/// A good table; in every second one runs fall, whatever the rows do.
fn any_table(dice: &mut Dice) -> Vec<u8> {
    if dice.chance(50) {
        return any_good(dice);
    }
    let letters = letters(dice);
    let states = dice.between(2, 8);
    falling(dice, letters, states)
}

/// The least K at which a table is realizable, and the rows; empty if there is none.
pub fn least_solved(table: &[u8]) -> Option<(u32, Vec<u8>)> {
    let table = good(table);
    let rows = |patience: u32| {
        let settled = antichain::solve(&table, patience as i8, 256).ok()?;
        settled.start.map(|_| (patience, settled.rows.concat()))
    };
    (0..8).find_map(rows)
}

/// Rows that an engine wrote, at the least K and one less; then others that do the same, and others
/// that do nearly the same.
fn written(session: &mut Session) {
    let table = any_good(&mut session.dice);
    let Some((patience, rows)) = least_solved(&table) else { return };
    let letters = letters_of(&table);
    let same = copied(&mut session.dice, &rows, letters);
    for (rows, note) in [(&rows, "an engine's rows"), (&same, "the same with other states")] {
        let call = call(&table, patience, rows).noted(note);
        session.put_knowing(&call, "0", |outcome| outcome.result == REALIZABLE);
    }
    if patience > 0 {
        let one = session.put(&call(&table, patience - 1, &rows));
        let other = call(&table, patience - 1, &same).noted("the same with other states");
        session.put_knowing(&other, "the same verdict", |outcome| outcome.result == one.result);
    }
    for rows in [rows, same] {
        let rows = bent(&mut session.dice, &rows, letters);
        session.put(&call(&table, patience, &rows).noted("bent in one place"));
    }
}

/// Strategies with memory, at the least K that they keep to, one less and any.
fn any_rows(session: &mut Session) {
    let table = any_table(&mut session.dice);
    for _ in 0..2 {
        let rows = strategy(&mut session.dice, letters_of(&table));
        near_most(session, &table, &rows);
    }
}

fn near_most(session: &mut Session, table: &[u8], rows: &[u8]) {
    let controller = read_rows(rows).expect("the rows are well formed");
    let any = session.dice.below(8) as u32;
    let most = most_visits(&good(table), &controller).unwrap_or(any);
    for patience in [most, most.saturating_sub(1), any] {
        session.put(&call(table, patience.min(7), rows));
    }
}

/// A marked start at K 0: a run passes K in its first state, whatever the rows.
fn unsafe_start(session: &mut Session) {
    let table = any_table(&mut session.dice);
    let table = with_marked_start(&mut session.dice, &table);
    for _ in 0..2 {
        let rows = strategy(&mut session.dice, letters_of(&table));
        let call = call(&table, 0, &rows);
        session.put_knowing(&call, "1", |outcome| outcome.result == UNREALIZABLE);
    }
}

/// 256 states, and 8 states and 8 letters on each side of the table.
fn largest(session: &mut Session) {
    let letters = Letters { outputs: 8, inputs: 8 };
    let dice = &mut session.dice;
    let table = if dice.chance(50) { dense(dice) } else { falling(dice, letters, 8) };
    let rows = strategy_of(dice, letters_of(&table), 256);
    near_most(session, &table, &rows);
}

/// Rows of some states for a table, and of two inputs or more.
fn several(dice: &mut Dice, table: &[u8]) -> Vec<u8> {
    let Letters { outputs, inputs } = letters_of(table);
    let many = dice.between(3, 12);
    strategy_of(dice, Letters { outputs, inputs: inputs.max(2) }, many)
}

/// Each clause for itself, and now and then with an output that is no letter too. What is broken is noted
/// where no other clause is broken with it.
fn misshapen(session: &mut Session) {
    let table = any_table(&mut session.dice);
    for broken in &BREAKS {
        let (rows, foreign) = with_foreign(&mut session.dice, &table);
        let rows = broken.of(&mut session.dice, &rows);
        let mut call = call(&table, session.dice.below(8) as u32, &rows);
        call.notes.extend((clauses_broken(&rows) == 1).then_some(broken.name));
        call.notes.extend(foreign.then_some("with other letters"));
        session.put_knowing(&call, "ROWS", |outcome| outcome.result == ROWS);
    }
    let call = call(&table, 0, &table).noted("the table's own bytes as rows");
    session.put_knowing(&call, "ROWS", |outcome| outcome.result == ROWS);
}

/// Rows of some states; and whether one of them was given an output that is no letter.
fn with_foreign(dice: &mut Dice, table: &[u8]) -> (Vec<u8>, bool) {
    let rows = several(dice, table);
    let outputs = letters_of(table).outputs;
    if outputs == 8 || dice.chance(80) {
        return (rows, false);
    }
    let all = rows.chunks(4).map(|row| row[0]).collect();
    (foreign(dice, &rows, &all, outputs), true)
}

/// 13 for both reasons.
fn other_letters(session: &mut Session) {
    let table = any_table(&mut session.dice);
    let Letters { outputs, inputs } = letters_of(&table);
    for others in (1..=8).filter(|others| *others != inputs) {
        let rows = strategy(&mut session.dice, Letters { outputs, inputs: others });
        let note = if others < inputs { "fewer inputs" } else { "more inputs" };
        put_other_letters(session, &table, &rows, note);
    }
    for _ in 0..if outputs < 8 { 3 } else { 0 } {
        let rows = strategy(&mut session.dice, Letters { outputs, inputs });
        let controller = read_rows(&rows).expect("the rows are well formed");
        let reached = controller.reached();
        let unreached: BTreeSet<u8> =
            controller.states.keys().copied().filter(|state| !reached.contains(state)).collect();
        for (among, note) in [(reached, REACHED), (unreached, UNREACHED)] {
            if !among.is_empty() {
                let rows = foreign(&mut session.dice, &rows, &among, outputs);
                put_other_letters(session, &table, &rows, note);
            }
        }
    }
}

const REACHED: Feature = "an output that is no letter";
const UNREACHED: Feature = "an output that is no letter, in a state never reached";

fn put_other_letters(session: &mut Session, table: &[u8], rows: &[u8], note: Feature) {
    let call = call(table, session.dice.below(8) as u32, rows).noted(note);
    session.put_knowing(&call, "LETTERS", |outcome| outcome.result == LETTERS);
}

/// Any rows, well formed or not.
fn rows_or_broken(dice: &mut Dice, table: &[u8]) -> Vec<u8> {
    let rows = several(dice, table);
    if dice.chance(50) {
        return rows;
    }
    BREAKS[dice.below(BREAKS.len())].of(dice, &rows)
}

/// 4 to 10 of the table come before anything of the rows.
fn bad_tables(session: &mut Session) {
    let table = any_good(&mut session.dice);
    for _ in 0..3 {
        let dice = &mut session.dice;
        let rows = rows_or_broken(dice, &table);
        let spoilt = damaged(dice, &table);
        let twice = two_faults(dice, &table);
        session.put(&call(&spoilt, 0, &rows));
        session.put(&call(&twice, 0, &rows).noted("two faults at once"));
    }
}

/// Any byte of well-formed rows changed.
fn one_byte(session: &mut Session) {
    let table = any_table(&mut session.dice);
    for _ in 0..4 {
        let dice = &mut session.dice;
        let mut rows = several(dice, &table);
        let place = dice.below(rows.len());
        rows[place] = if dice.chance(70) { dice.below(9) as u8 } else { dice.next() as u8 };
        let patience = dice.below(8) as u32;
        session.put(&call(&table, patience, &rows).noted("a byte changed"));
    }
}

/// K over 7, an answer's buffer that is too short, or both, with good tables and rows and bad ones.
fn short(session: &mut Session) {
    let dice = &mut session.dice;
    let good = any_table(dice);
    let rows = rows_or_broken(dice, &good);
    let table = if dice.chance(50) { damaged(dice, &good) } else { good };
    let (over, under) = [(true, true), (true, false), (false, true)][dice.below(3)];
    let mut call = call(&table, dice.below(8) as u32, &rows).noted(EXACT);
    if over {
        call.numbers[0] = [8, 9, 255, 256, u32::MAX][dice.below(5)];
    }
    if under {
        call.lend("answer", [23, 23, 0, 7][dice.below(4)]);
    }
    if over && under {
        call = call.noted("K over 7 and too short an answer");
    }
    let code = if over { BOUND } else { ROOM };
    session.put_knowing(&call, "BOUND or ROOM", |outcome| outcome.result == code);
}
