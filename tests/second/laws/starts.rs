//! Nothing but the start position looks at the start states: with others a table has the same rounds and
//! winners, and is FULL exactly if it was.

use super::{full, winners};
use crate::calls::parts::any_patience;
use crate::calls::solve;
use crate::calls::solved::answer;
use crate::make::{any_good, with_other_starts};
use crate::rules::codes::FULL;
use crate::session::Session;

pub const SAYS: [&str; 3] = [
    "with other starts it is FULL exactly if it was",
    "with other starts it takes the same rounds",
    "with other starts it has the same winners",
];

pub fn draw(session: &mut Session) {
    let table = any_good(&mut session.dice);
    let other = with_other_starts(&mut session.dice, &table);
    let patience = any_patience(session);
    let room = [256, 256, 3, 6][session.dice.below(4)];
    let calls = [&table, &other].map(|table| solve::call(table, patience, room));
    let [one, two] = [0, 1].map(|place| session.put(&calls[place]));
    full(session, "other starts", &[&one, &two]);
    session.hold(SAYS[0], (one.result == FULL) == (two.result == FULL));
    let rounds = |call, outcome| answer(call, outcome).map(|answer| answer.rounds);
    session.hold(SAYS[1], rounds(&calls[0], &one) == rounds(&calls[1], &two));
    session.hold(SAYS[2], winners(&calls[0], &one) == winners(&calls[1], &two));
}
