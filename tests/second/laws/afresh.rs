//! "Solving the parts and then the joined table held to the parts' winning positions gives the same
//! verdict, winning list and controller as solving the joined table afresh, wherever neither was
//! refused as full."

use super::{full, joined};
use crate::call::{Call, Outcome};
use crate::calls::parts::any_patience;
use crate::calls::solved::{answer, MOST_ROOM};
use crate::calls::two::pair;
use crate::calls::{parts, solve};
use crate::session::Session;

pub const SAYS: [&str; 1] = ["by parts and afresh give the same but for the rounds"];

pub fn draw(session: &mut Session) {
    let [first, second] = pair(&mut session.dice);
    let Some(whole) = joined(session, &first, &second) else { return };
    let patience = any_patience(session);
    let room = [MOST_ROOM, MOST_ROOM, 2, 4][session.dice.below(4)];
    let by_parts = parts::call(&first, &second, patience, room);
    let found = session.put(&by_parts);
    let afresh = solve::call(&whole, patience, room);
    let again = session.put(&afresh);
    if full(session, "by parts and afresh", &[&found, &again]) {
        return;
    }
    let same = same_but_rounds((&by_parts, &found), (&afresh, &again));
    session.hold(SAYS[0], same);
}

/// The rounds "are those of the last stage", so they may differ.
fn same_but_rounds(one: (&Call, &Outcome), other: (&Call, &Outcome)) -> bool {
    let without_rounds = |(call, outcome)| {
        let mut answer = answer(call, outcome)?;
        answer.rounds = 0;
        Some(answer)
    };
    let bytes = |(call, outcome): (&Call, &'_ Outcome), name: &str| {
        let least = call.bytes(name).len();
        outcome.bytes(call, name)[..least].to_vec()
    };
    without_rounds(one) == without_rounds(other)
        && ["winners", "controller"].iter().all(|name| bytes(one, name) == bytes(other, name))
}
