//! "A table joined with itself has its own verdict, full aside."

use super::{full, joined};
use crate::calls::parts::any_patience;
use crate::calls::solved::MOST_ROOM;
use crate::calls::{parts, solve};
use crate::make::{good, letters};
use crate::session::Session;

pub const SAYS: [&str; 2] =
    ["joined with itself it has its own verdict", "by parts with itself it has its own verdict"];

pub fn draw(session: &mut Session) {
    let letters = letters(&mut session.dice);
    let most = [3, 3, 4][session.dice.below(3)];
    let table = good(&mut session.dice, letters, most);
    let Some(twice) = joined(session, &table, &table) else { return };
    let patience = any_patience(session);
    let own = session.put(&solve::call(&table, patience, MOST_ROOM));
    let both = session.put(&solve::call(&twice, patience, MOST_ROOM));
    let halves = session.put(&parts::call(&table, &table, patience, MOST_ROOM));
    if full(session, "with itself", &[&own, &both, &halves]) {
        return;
    }
    session.hold(SAYS[0], both.result == own.result);
    session.hold(SAYS[1], halves.result == own.result);
}
