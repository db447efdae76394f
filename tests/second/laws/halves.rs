//! A joined table's runs are those of both tables: so rows pass a join exactly if they pass each alone.

use super::{full, joined};
use crate::calls::check;
use crate::calls::check::draw::letters_of;
use crate::make::{falling, letters, strategy};
use crate::rules::codes::REALIZABLE;
use crate::session::Session;

pub const SAYS: [&str; 1] = ["rows pass a join exactly if they pass both tables"];

pub fn draw(session: &mut Session) {
    let letters = letters(&mut session.dice);
    let [first, second] = [0, 1].map(|_| {
        let states = session.dice.between(2, 4);
        falling(&mut session.dice, letters, states)
    });
    let Some(whole) = joined(session, &first, &second) else { return };
    let rows = strategy(&mut session.dice, letters_of(&whole));
    let patience = session.dice.below(5) as u32;
    let [both, one, other] =
        [&whole, &first, &second].map(|table| session.put(&check::call(table, patience, &rows)));
    let passes = [&both, &one, &other].map(|outcome| outcome.result == REALIZABLE);
    session.hold(SAYS[0], passes[0] == (passes[1] && passes[2]));
    full(session, "halves", &[&both, &one, &other]);
}
