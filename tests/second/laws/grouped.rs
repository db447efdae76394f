//! "Joining may be grouped anyhow with equal bytes."

use super::{full, joined};
use crate::calls::join;
use crate::make::{good, letters};
use crate::session::Session;

pub const SAYS: [&str; 1] = ["grouped either way, a join has equal bytes"];

pub fn draw(session: &mut Session) {
    let letters = letters(&mut session.dice);
    let [one, two, three] = [0, 1, 2].map(|_| good(&mut session.dice, letters, 3));
    let left = joined(session, &one, &two).and_then(|both| joined(session, &both, &three));
    let Some(left) = left else { return };
    let Some(both) = joined(session, &two, &three) else { return };
    let call = join::call(&one, &both);
    let right = session.put(&call);
    session.hold(SAYS[0], join::out(&call, &right) == Some(&left));
    full(session, "grouped", &[&right]);
}
