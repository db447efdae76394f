//! "Right rows are accepted whoever made them": what solve and by parts write with code 0 passes at the same
//! K, and at every larger one.

use super::{full, joined};
use crate::call::Call;
use crate::calls::check::draw::least_solved;
use crate::calls::solved::{written, MOST_ROOM};
use crate::calls::two::pair;
use crate::calls::{check, parts, solve};
use crate::make::any_good;
use crate::rules::codes::REALIZABLE;
use crate::rules::read::read;
use crate::session::Session;

pub const SAYS: [&str; 3] = [
    "the rows that solve wrote pass at the same K",
    "the rows that by parts wrote pass at the same K for the joined table",
    "rows that pass at some K pass at a larger one",
];

pub fn draw(session: &mut Session) {
    let table = any_good(&mut session.dice);
    hold(session, &table, SAYS[0], |patience| solve::call(&table, patience, MOST_ROOM));
    let [first, second] = pair(&mut session.dice);
    let Some(whole) = joined(session, &first, &second) else { return };
    hold(session, &whole, SAYS[1], |patience| parts::call(&first, &second, patience, MOST_ROOM));
}

/// For the rows that a call writes when it solves this table at the least K.
fn hold(session: &mut Session, table: &[u8], says: &str, call: impl Fn(u32) -> Call) {
    let Some((patience, _)) = least_solved(table) else { return };
    let call = call(patience);
    let outcome = session.put(&call);
    if full(session, "kept", &[&outcome]) {
        return;
    }
    let good = read(table).expect("a solved table is good");
    let [_, rows] = written(&call, &good, &outcome);
    let passed = session.put(&check::call(table, patience, rows)).result == REALIZABLE;
    session.hold(says, passed);
    let larger = session.dice.between((patience as usize + 1).min(7), 7) as u32;
    let again = session.put(&check::call(table, larger, rows)).result == REALIZABLE;
    session.hold(SAYS[2], again == passed);
}
