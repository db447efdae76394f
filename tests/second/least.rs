//! What a whole run must have met: the least numbers of each call and each law, asserted one by one.

use crate::calls;
use crate::laws::{self, FULL_SOMEWHERE, NEVER_FULL};
use crate::rules::codes::name;
use crate::session::Session;

/// So many calls the proved archive must have answered.
const PROVED: u64 = 70_000;

/// What must have been explored at least.
const EXPLORED: [(&str, u64); 6] = [
    ("winners from which a controller was played to the end", 9_000),
    ("positions beyond the winners from which the world won", 300_000),
    ("starts of unrealizable tables from which it won", 7_000),
    ("tables of which every position was tried", 6_000),
    ("rows from elsewhere that were played to the end", 4_800),
    ("rows from elsewhere that were played until a run passed K", 2_400),
];

/// "  120 of at least 100: what"
fn row(session: &mut Session, found: u64, least: u64, what: &str) {
    println!("  {found} of at least {least}: {what}");
    session.hold(&format!("only {found} of at least {least}: {what}"), found >= least);
}

fn calls(session: &mut Session) {
    for operation in calls::ALL {
        println!("{}", operation.name);
        for least in operation.least {
            let key = (operation.name, least.code, least.feature);
            let found = session.seen.get(&key).copied().unwrap_or(0);
            let comma = if least.feature.is_empty() { "" } else { ", " };
            let what = [&name(least.code), comma, least.feature].concat();
            row(session, found, least.least, &what);
        }
    }
}

fn laws(session: &mut Session) {
    println!("laws of several calls");
    for law in laws::ALL {
        let number = |feature| session.seen.get(&(law.name, 0, feature)).copied().unwrap_or(0);
        let (found, full) = (number(NEVER_FULL), number(FULL_SOMEWHERE));
        let what = format!("{}, none of its calls FULL ({full} others)", law.name);
        row(session, found, law.least, &what);
    }
}

fn explored(session: &mut Session) {
    println!("explored");
    let found = session.explored;
    let played = [found.played, found.lost, found.lost_starts, found.whole];
    let numbers = played.into_iter().chain([found.kept, found.overrun]);
    for (number, (what, least)) in numbers.zip(EXPLORED) {
        row(session, number, least, what);
    }
    println!("  broken off as too long: {}", found.broken_off);
}

/// Of a whole run; whether the proved calls were asked in it.
pub fn assert(session: &mut Session, proved: bool) {
    if proved {
        let answered = session.proved_answers;
        row(session, answered, PROVED, "calls that the proved archive answered");
    }
    calls(session);
    laws(session);
    explored(session);
}
