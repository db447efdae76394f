//! "In the papers a run visits its first state too": so a start counts as it does where a round comes before
//! it, whatever the letters, that leads from an unmarked start to every start state.

use super::full;
use crate::calls::parts::any_patience;
use crate::calls::solved::MOST_ROOM;
use crate::calls::{check, solve};
use crate::make::{any_good, falling_from_mark, letters, strategy, with_marked_start};
use crate::rules::read::read;
use crate::rules::record::{records, Record, FIRST, MARKED};
use crate::session::Session;

pub const SAYS: [&str; 2] = [
    "a table with a round before it has the same verdict",
    "rows with a round before them have the same verdict",
];

/// The table with such a round; empty if a side would have a ninth state.
fn table_with_round_before(table: &[u8]) -> Option<Vec<u8>> {
    let good = read(table).expect("the table is good");
    let (first, middle) = (good.controller.states as u8, good.world.states as u8);
    if first.max(middle) == 8 {
        return None;
    }
    let mut all = records(table);
    let states = all.iter_mut().filter(|record| record[0] == 1);
    states.for_each(|record| record[2] &= MARKED);
    all.extend([[1, first, FIRST, 0], [2, middle, 0, 0]]);
    all.extend((0..good.controller.letters as u8).map(|output| [3, first, output, middle]));
    for start in (0..first).filter(|state| good.starts >> state & 1 == 1) {
        all.extend((0..good.world.letters as u8).map(|input| [4, middle, input, start]));
    }
    all.sort_unstable();
    Some(all.concat())
}

/// The rows with a state before them, which leads to their first one; empty if there are 256 states.
fn rows_with_round_before(rows: &[u8], inputs: usize) -> Option<Vec<u8>> {
    let mut others = records(rows);
    let start = others[0][0];
    let unused = (0..=255).find(|state| others.iter().all(|row| row[0] != *state))?;
    let mut all: Vec<Record> = (0..inputs as u8).map(|input| [unused, 0, input, start]).collect();
    others.sort_unstable();
    all.extend(others);
    Some(all.concat())
}

pub fn draw(session: &mut Session) {
    solved(session);
    checked(session);
}

fn solved(session: &mut Session) {
    let table = any_good(&mut session.dice);
    let table = with_marked_start(&mut session.dice, &table);
    let Some(later) = table_with_round_before(&table) else { return };
    let patience = any_patience(session);
    let [own, after] =
        [&table, &later].map(|table| session.put(&solve::call(table, patience, MOST_ROOM)));
    if !full(session, "entered", &[&own, &after]) {
        session.hold(SAYS[0], own.result == after.result);
    }
}

fn checked(session: &mut Session) {
    let dice = &mut session.dice;
    let (letters, states) = (letters(dice), dice.between(2, 7));
    let table = falling_from_mark(dice, letters, states);
    let rows = strategy(dice, letters);
    let patience = dice.below(5) as u32;
    let later = table_with_round_before(&table).expect("it has 7 states at most");
    let Some(rows_later) = rows_with_round_before(&rows, letters.inputs) else { return };
    let own = session.put(&check::call(&table, patience, &rows));
    let after = session.put(&check::call(&later, patience, &rows_later));
    session.hold(SAYS[1], own.result == after.result);
}
