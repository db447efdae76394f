//! `desk_check`: checks rows from elsewhere against a table.

pub mod draw;
mod lies;

use super::solved::{self, patience};
use crate::call::{
    least, lent, Buffer, Call, Feature, Found, Layout, Least, Operation, Outcome, Use, Voice, ANY,
};
use crate::follow::{longest, single};
use crate::play::elsewhere::{self, CHECK as PLAYED};
use crate::play::Explored;
use crate::rules::answer::{Answer, ANSWER_BYTES};
use crate::rules::codes::*;
use crate::rules::read::read;
use crate::rules::rows::{clauses_broken, read_rows, Controller};
use crate::rules::table::Table;

pub static CHECK: Operation = Operation {
    name: "check",
    server: "serve",
    numbers: &["K"],
    buffers: &[("table", Use::Read), ("rows", Use::Read), ("answer", Use::Written)],
    oracles,
    property,
    checks: &[PLAYED],
    lies: &lies::LIES,
    draw: draw::draw,
    features,
    least: &LEAST,
};

pub fn call(table: &[u8], patience: u32, rows: &[u8]) -> Call {
    let bytes = [table.to_vec(), rows.to_vec(), lent(ANSWER_BYTES)];
    let buffer = |bytes| Buffer { bytes, layout: Layout::BeforeWall };
    let buffers = bytes.into_iter().map(buffer).collect();
    Call { operation: &CHECK, numbers: vec![patience], buffers, notes: Vec::new() }
}

/// "A row's output isn't a letter of the table or the inputs differ in number."
fn letters_differ(table: &Table, controller: &Controller) -> bool {
    let outputs = table.controller.letters;
    controller.states.values().any(|state| state.output >= outputs)
        || controller.inputs != table.world.letters
}

/// "Refusals: 2, then 4 to 10, then 15 ROWS (not well formed), then 13"; 3 after 2 (reading 24).
fn checked(call: &Call) -> Result<(Table, Controller), Answer> {
    let refused = |code: u32| Answer::refusal(code, 0, 0);
    if patience(call) > 7 {
        return Err(refused(BOUND));
    }
    if call.bytes("answer").len() < ANSWER_BYTES {
        return Err(refused(ROOM));
    }
    let table =
        read(call.bytes("table")).map_err(|fault| Answer::refusal(fault.code, fault.place, 0))?;
    let controller = read_rows(call.bytes("rows")).ok_or(refused(ROWS))?;
    match letters_differ(&table, &controller) {
        true => Err(refused(LETTERS)),
        false => Ok((table, controller)),
    }
}

/// "Say 0 if following the rows keeps every run to at most K entries for every finite input sequence,
/// and 1 if it doesn't. ... The answer's other fields are 0." Since R-2 it says "visits" for "entries".
fn voice(call: &Call, name: &'static str, keeps: bool) -> Voice {
    let code = if keeps { REALIZABLE } else { UNREALIZABLE };
    let mut outcome = Outcome::result_only(call, code);
    outcome.write(call, "answer", &Answer { code, ..Answer::default() }.bytes());
    Voice { name, outcome }
}

fn oracles(call: &Call) -> Vec<Voice> {
    let (table, controller) = match checked(call) {
        Ok(both) => both,
        Err(answer) => {
            return vec![Voice { name: "checks", outcome: solved::refused(call, answer) }]
        }
    };
    let patience = patience(call);
    let most = longest::most_visits(&table, &controller);
    let passed = single::overrun(&table, patience as usize, &controller);
    let mut voices = vec![
        voice(call, "longest run", most.is_some_and(|most| most <= patience)),
        voice(call, "run by run", passed.is_none()),
    ];
    let late = passed.is_some_and(|rounds| rounds >= LATE);
    voices[0].outcome.notes.extend(near_patience(most, patience));
    voices[0].outcome.notes.extend(late.then_some("a run passes K late"));
    let decides = first_decides(&table, &controller, most, patience);
    let notes = decides.then(|| solved::decided_by_mark(&table, patience));
    voices[0].outcome.notes.extend(notes);
    voices
}

/// Whether the most visits are over K, and would not be if the first one went free.
fn first_decides(table: &Table, controller: &Controller, most: Option<u32>, patience: u32) -> bool {
    most.is_some_and(|most| most > patience)
        && longest::most_entries(table, controller).is_some_and(|most| most <= patience)
}

/// An overrun is late after so many rounds.
const LATE: u32 = 6;

/// How near the most visits of any run are to K.
fn near_patience(most: Option<u32>, patience: u32) -> Option<Feature> {
    match most {
        None => Some("visits without end"),
        Some(most) if most == patience + 1 => Some("just one visit over K"),
        Some(most) if most == patience && patience > 0 => Some("exactly K visits"),
        _ => None,
    }
}

/// The rows are played, too.
fn property(call: &Call, outcome: &Outcome, explored: &mut Explored) -> Vec<Found> {
    if outcome.result > UNREALIZABLE {
        return Vec::new();
    }
    let Ok((table, controller)) = checked(call) else {
        return vec![(PLAYED, "a verdict on what can't be followed".to_string())];
    };
    let played = elsewhere::keeps(&table, patience(call) as i8, &controller);
    let fault = elsewhere::fault(played, outcome.result == REALIZABLE, explored);
    fault.into_iter().map(|reason| (PLAYED, reason)).collect()
}

fn of_rows(controller: &Controller) -> Vec<Feature> {
    let states = controller.states.len();
    let highest = controller.states.keys().next_back().map_or(0, |state| *state as usize);
    let named = [
        (states == 1, "one state"),
        (states > 20, "over 20 states"),
        (states == 256, "256 states"),
        (highest + 1 > states, "holes between the numbers"),
        (controller.start != 0, "a start other than 0"),
        (controller.reached().len() < states, "a state never reached"),
    ];
    named.into_iter().filter(|(holds, _)| *holds).map(|(_, feature)| feature).collect()
}

fn features(call: &Call, _: &Outcome) -> Vec<Feature> {
    match checked(call) {
        Ok((table, controller)) => {
            [solved::of_table(&table, patience(call)), of_rows(&controller)].concat()
        }
        Err(answer) => of_refusal(call, answer.code),
    }
}

/// What else is wrong in a refused call.
fn of_refusal(call: &Call, code: u32) -> Vec<Feature> {
    let bad_rows = code < LETTERS && clauses_broken(call.bytes("rows")) > 0;
    if bad_rows {
        vec!["with bad rows"]
    } else {
        Vec::new()
    }
}

static LEAST: [Least; 97] = [
    least(REALIZABLE, ANY, 4_000),
    least(REALIZABLE, "256 states", 100),
    least(REALIZABLE, "8 states and 8 letters", 30),
    least(REALIZABLE, "K over 0", 3_000),
    least(REALIZABLE, "a buffer after a wall", 2_000),
    least(REALIZABLE, "a buffer at any address", 2_000),
    least(REALIZABLE, "a buffer before a wall", 4_000),
    least(REALIZABLE, "a byte changed", 20),
    least(REALIZABLE, "a marked start", 2_000),
    least(REALIZABLE, "a marked start and an unmarked one", 1_300),
    least(REALIZABLE, "a start other than 0", 3_000),
    least(REALIZABLE, "a state never reached", 1_000),
    least(REALIZABLE, "an engine's rows", 200),
    least(REALIZABLE, "bent in one place", 400),
    least(REALIZABLE, "exactly K visits", 1_000),
    least(REALIZABLE, "holes between the numbers", 2_000),
    least(REALIZABLE, "one state", 900),
    least(REALIZABLE, "over 20 states", 700),
    least(REALIZABLE, "several edges for a letter", 2_000),
    least(REALIZABLE, "several starts", 3_000),
    least(REALIZABLE, "the same with other states", 200),
    least(UNREALIZABLE, ANY, 2_000),
    least(UNREALIZABLE, "256 states", 100),
    least(UNREALIZABLE, "8 states and 8 letters", 70),
    least(UNREALIZABLE, "K over 0", 1_500),
    least(UNREALIZABLE, "a buffer after a wall", 1_000),
    least(UNREALIZABLE, "a buffer at any address", 1_000),
    least(UNREALIZABLE, "a buffer before a wall", 2_000),
    least(UNREALIZABLE, "a byte changed", 20),
    least(UNREALIZABLE, "a marked start", 2_000),
    least(UNREALIZABLE, "a marked start and an unmarked one", 1_100),
    least(UNREALIZABLE, "a run passes K late", 400),
    least(UNREALIZABLE, "a start other than 0", 1_500),
    least(UNREALIZABLE, "a state never reached", 600),
    least(UNREALIZABLE, "an unsafe start", 1_000),
    least(UNREALIZABLE, "bent in one place", 100),
    least(UNREALIZABLE, "holes between the numbers", 1_500),
    least(UNREALIZABLE, "just one visit over K", 900),
    least(UNREALIZABLE, "one state", 300),
    least(UNREALIZABLE, "only the mark of a safe start decides", 400),
    least(UNREALIZABLE, "only the mark of an unsafe start decides", 400),
    least(UNREALIZABLE, "over 20 states", 400),
    least(UNREALIZABLE, "several edges for a letter", 1_500),
    least(UNREALIZABLE, "several starts", 1_000),
    least(UNREALIZABLE, "the same with other states", 100),
    least(UNREALIZABLE, "visits without end", 1_000),
    least(BOUND, ANY, 200),
    least(BOUND, "K over 7 and too short an answer", 100),
    least(BOUND, "with bad rows", 100),
    least(ROOM, ANY, 100),
    least(ROOM, "with bad rows", 50),
    least(LENGTH, ANY, 500),
    least(LENGTH, "two faults at once", 300),
    least(LENGTH, "with bad rows", 200),
    least(RECORD, ANY, 300),
    least(RECORD, "two faults at once", 150),
    least(RECORD, "with bad rows", 150),
    least(ORDER, ANY, 400),
    least(ORDER, "two faults at once", 200),
    least(ORDER, "with bad rows", 200),
    least(STATES, ANY, 300),
    least(STATES, "two faults at once", 150),
    least(STATES, "with bad rows", 200),
    least(START, ANY, 200),
    least(START, "two faults at once", 100),
    least(START, "with bad rows", 100),
    least(EDGE, ANY, 150),
    least(EDGE, "two faults at once", 50),
    least(EDGE, "with bad rows", 80),
    least(GAP, ANY, 100),
    least(GAP, "two faults at once", 6),
    least(GAP, "with bad rows", 50),
    least(LETTERS, ANY, 2_000),
    least(LETTERS, "an output that is no letter", 500),
    least(LETTERS, "an output that is no letter, in a state never reached", 100),
    least(LETTERS, "fewer inputs", 400),
    least(LETTERS, "more inputs", 900),
    least(ROWS, ANY, 3_000),
    least(ROWS, "a byte changed", 600),
    least(ROWS, "a length that is no multiple of 4", 150),
    least(ROWS, "a next state without rows", 150),
    least(ROWS, "a state with fewer inputs", 150),
    least(ROWS, "a state with more inputs", 150),
    least(ROWS, "an input left out in every state", 150),
    least(ROWS, "an input over 7", 150),
    least(ROWS, "an input twice", 150),
    least(ROWS, "an output over 7", 150),
    least(ROWS, "inputs out of order", 150),
    least(ROWS, "over 8,192 bytes", 40),
    least(ROWS, "rows of 0 bytes", 150),
    least(ROWS, "the first state's rows again later", 90),
    least(ROWS, "the others don't ascend", 150),
    least(ROWS, "the rows of two states mixed", 150),
    least(ROWS, "the table's own bytes as rows", 150),
    least(ROWS, "two outputs of a state", 150),
    least(ROWS, "two tables in the same bytes", 90),
    least(ROWS, "with other letters", 500),
];
