//! Demand 3 on calls, and what is said of rows and of starts: what several calls together have to fulfil.
//! Each file is one law; it draws tables, puts calls and notes under its own name what came up.

mod afresh;
mod entered;
mod grouped;
mod halves;
mod itself;
mod kept;
mod starts;
mod swapped;

use crate::call::{Call, Feature, Outcome};
use crate::calls::{join, solved};
use crate::rules::codes::{FULL, REALIZABLE};
use crate::session::Session;

/// What a law notes: one of its calls was FULL, or none.
pub const FULL_SOMEWHERE: Feature = "FULL somewhere";
pub const NEVER_FULL: Feature = "never FULL";

pub struct Law {
    pub name: &'static str,
    pub draw: fn(&mut Session),
    /// What it says of its calls.
    pub says: &'static [&'static str],
    /// So many times at least none of its calls was FULL.
    pub least: u64,
}

pub const ALL: [Law; 8] = [
    Law { name: "by parts and afresh", draw: afresh::draw, says: &afresh::SAYS, least: 500 },
    Law { name: "grouped", draw: grouped::draw, says: &grouped::SAYS, least: 300 },
    Law { name: "swapped", draw: swapped::draw, says: &swapped::SAYS, least: 1_000 },
    Law { name: "with itself", draw: itself::draw, says: &itself::SAYS, least: 500 },
    Law { name: "kept", draw: kept::draw, says: &kept::SAYS, least: 500 },
    Law { name: "halves", draw: halves::draw, says: &halves::SAYS, least: 500 },
    Law { name: "entered", draw: entered::draw, says: &entered::SAYS, least: 400 },
    Law { name: "other starts", draw: starts::draw, says: &starts::SAYS, least: 400 },
];

/// The join of two tables, where it can be made.
fn joined(session: &mut Session, first: &[u8], second: &[u8]) -> Option<Vec<u8>> {
    let call = join::call(first, second);
    let outcome = session.put(&call);
    join::out(&call, &outcome).map(<[u8]>::to_vec)
}

/// Notes whether one of the outcomes is FULL, and gives that.
fn full(session: &mut Session, law: &'static str, outcomes: &[&Outcome]) -> bool {
    let full = outcomes.iter().any(|outcome| outcome.result == FULL);
    session.note(law, REALIZABLE, if full { FULL_SOMEWHERE } else { NEVER_FULL });
    full
}

/// The winners that a call on a table with so many controller-turn states wrote.
fn winners(call: &Call, outcome: &Outcome) -> Vec<[u8; 8]> {
    let number = solved::answer(call, outcome).map_or(0, |answer| answer.winners as usize);
    let bytes = outcome.bytes(call, "winners").chunks_exact(8).take(number);
    bytes.map(|winner| winner.try_into().expect("eight bytes")).collect()
}
