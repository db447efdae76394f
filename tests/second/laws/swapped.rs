//! "Joining may be ... swapped with only the states renumbered": bytes, verdict, rounds and winners.

use super::{full, joined, winners};
use crate::calls::parts::any_patience;
use crate::calls::solved::answer;
use crate::calls::two::pair;
use crate::calls::{parts, solve};
use crate::rules::read::read;
use crate::rules::record::{records, Record};
use crate::rules::table::Table;
use crate::session::Session;

pub const SAYS: [&str; 4] = [
    "swapped, a join has the same bytes, states renumbered",
    "swapped, it has the same code",
    "swapped, it takes the same rounds",
    "swapped, it has the same winners, states renumbered",
];

/// A number of a joined table's side when the halves change places: those of the first half, so many,
/// come after those of the second.
fn moved(state: u8, first: usize, second: usize) -> u8 {
    let (first, second) = (first as u8, second as u8);
    if state < first {
        state + second
    } else {
        state - first
    }
}

fn renumbered(record: &Record, first: &Table, second: &Table) -> Record {
    let controller = |state: u8| moved(state, first.controller.states, second.controller.states);
    let world = |state: u8| moved(state, first.world.states, second.world.states);
    let [kind, from, middle, to] = *record;
    match kind {
        1 => [kind, controller(from), middle, to],
        2 => [kind, world(from), middle, to],
        3 => [kind, controller(from), middle, world(to)],
        _ => [kind, world(from), middle, controller(to)],
    }
}

fn renumbered_table(bytes: &[u8], first: &Table, second: &Table) -> Vec<u8> {
    let mut table: Vec<Record> =
        records(bytes).iter().map(|record| renumbered(record, first, second)).collect();
    table.sort_unstable();
    table.concat()
}

fn renumbered_winners(mut list: Vec<[u8; 8]>, first: usize, second: usize) -> Vec<[u8; 8]> {
    list.iter_mut().for_each(|winner| winner[..first + second].rotate_left(first));
    list.sort_unstable();
    list
}

/// The number of sets' members doesn't change either: one is FULL exactly if the other is.
pub fn draw(session: &mut Session) {
    let [first, second] = pair(&mut session.dice);
    let (Ok(one), Ok(other)) = (read(&first), read(&second)) else { return };
    let Some(whole) = joined(session, &first, &second) else { return };
    let Some(swapped) = joined(session, &second, &first) else { return };
    let bytes = renumbered_table(&whole, &one, &other) == swapped;
    session.hold(SAYS[0], bytes);
    let patience = any_patience(session);
    let room = [256, 256, 3, 6][session.dice.below(4)];
    let pairs = [
        [solve::call(&whole, patience, room), solve::call(&swapped, patience, room)],
        [
            parts::call(&first, &second, patience, room),
            parts::call(&second, &first, patience, room),
        ],
    ];
    for [call, turned] in pairs {
        let (given, after) = (session.put(&call), session.put(&turned));
        full(session, "swapped", &[&given, &after]);
        session.hold(SAYS[1], given.result == after.result);
        let rounds = |call, outcome| answer(call, outcome).map(|answer| answer.rounds);
        session.hold(SAYS[2], rounds(&call, &given) == rounds(&turned, &after));
        let (first, second) = (one.controller.states, other.controller.states);
        let list = renumbered_winners(winners(&call, &given), first, second);
        session.hold(SAYS[3], list == winners(&turned, &after));
    }
}
