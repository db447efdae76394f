//! What `solve` and `parts` have in common: the patience, the room, the winners, the controller and the
//! answer.

use crate::call::{lent, Buffer, Call, Feature, Found, Layout, Operation, Outcome, Voice};
use crate::engines::{Engine, Settled, Stage, Stop};
use crate::play::{self, Claim, Explored};
use crate::rules::answer::{Answer, ANSWER_BYTES};
use crate::rules::codes::{BOUND, FULL, REALIZABLE, ROOM, UNREALIZABLE};
use crate::rules::table::{Position, Table};
use crate::session::Session;

pub const MOST_ROOM: u32 = 256;

/// A call on these tables, every buffer just long enough and at the end of its memory.
pub fn call(operation: &'static Operation, tables: &[&[u8]], patience: u32, room: u32) -> Call {
    let mut bytes: Vec<Vec<u8>> = tables.iter().map(|table| table.to_vec()).collect();
    bytes.push(lent(8 * room as usize));
    bytes.push(lent(32 * room as usize));
    bytes.push(lent(ANSWER_BYTES));
    let buffer = |bytes| Buffer { bytes, layout: Layout::BeforeWall };
    let buffers = bytes.into_iter().map(buffer).collect();
    Call { operation, numbers: vec![patience, room], buffers, notes: Vec::new() }
}

pub fn patience(call: &Call) -> u32 {
    call.numbers[0]
}

pub fn room(call: &Call) -> u32 {
    call.numbers[1]
}

/// The same call with another room.
pub fn with_room(call: &Call, room: u32) -> Call {
    let mut other = call.clone();
    other.numbers[1] = room;
    other.lend("winners", 8 * room as usize);
    other.lend("controller", 32 * room as usize);
    other
}

/// Codes 2 and 3.
pub fn check_room(call: &Call) -> Result<(), Answer> {
    let refused = |code: u32| Err(Answer::refusal(code, 0, 0));
    if patience(call) > 7 {
        return refused(BOUND);
    }
    if room(call) < 1 || room(call) > MOST_ROOM {
        return refused(ROOM);
    }
    let short = |name: &str, least: usize| call.bytes(name).len() < least;
    let room = room(call) as usize;
    if short("winners", 8 * room) || short("controller", 32 * room) || short("answer", ANSWER_BYTES)
    {
        return refused(ROOM);
    }
    Ok(())
}

/// "Winners: 8 bytes a position, byte q holding count + 1, states that aren't in the table 0."
fn winner_bytes(position: &Position) -> [u8; 8] {
    position.map(|count| (count + 1) as u8)
}

fn from_winner_bytes(bytes: &[u8]) -> Vec<Position> {
    let position = |bytes: &[u8]| std::array::from_fn(|state| bytes[state].wrapping_sub(1) as i8);
    bytes.chunks_exact(8).map(position).collect()
}

/// The outcome of a refused call: "Refusals ... write no byte of a result buffer."
pub fn refused(call: &Call, answer: Answer) -> Outcome {
    let mut outcome = Outcome::result_only(call, answer.code);
    if call.bytes("answer").len() >= ANSWER_BYTES {
        outcome.write(call, "answer", &answer.bytes());
    }
    outcome
}

fn stopped(call: &Call, stop: Stop) -> Outcome {
    let mut outcome = refused(call, Answer::refusal(stop.code, 0, stop.which()));
    outcome.notes.extend(match stop.stage {
        _ if stop.code != FULL => None,
        Stage::Only => None,
        Stage::FirstAlone => Some("full while the first is solved alone"),
        Stage::SecondAlone => Some("full while the second is solved alone"),
        Stage::Pairs => Some("full in the list of pairs"),
        Stage::Last => Some("full in the last stage"),
    });
    outcome
}

/// "UNREALIZABLE: winners written, controller buffer untouched, start 0."
fn settled(call: &Call, settled: Settled) -> Outcome {
    let code = if settled.start.is_some() { REALIZABLE } else { UNREALIZABLE };
    let answer = Answer {
        code,
        rounds: settled.rounds,
        winners: settled.winners.len() as u32,
        start: settled.start.unwrap_or(0) as u32,
        ..Answer::default()
    };
    let mut outcome = Outcome::result_only(call, code);
    let winners: Vec<[u8; 8]> = settled.winners.iter().map(winner_bytes).collect();
    outcome.write(call, "winners", &winners.concat());
    outcome.write(call, "controller", &settled.rows.concat());
    outcome.write(call, "answer", &answer.bytes());
    outcome.largest = settled.largest;
    outcome
}

/// What an engine says to a call that no check has refused.
pub fn voice(call: &Call, engine: Engine, result: Result<Settled, Stop>) -> Voice {
    let outcome = match result {
        Ok(found) => settled(call, found),
        Err(stop) => stopped(call, stop),
    };
    Voice { name: engine.name(), outcome }
}

pub fn answer(call: &Call, outcome: &Outcome) -> Option<Answer> {
    Answer::from_bytes(outcome.bytes(call, "answer"))
}

/// The bytes of winners and of rows that an outcome speaks of.
pub fn written<'a>(call: &Call, table: &Table, outcome: &'a Outcome) -> [&'a [u8]; 2] {
    let number = answer(call, outcome).map_or(0, |answer| answer.winners as usize);
    let rows = if outcome.result == REALIZABLE { 4 * table.world.letters * number } else { 0 };
    let part = |name: &str, length: usize| {
        let bytes = outcome.bytes(call, name);
        &bytes[..length.min(bytes.len())]
    };
    [part("winners", 8 * number), part("controller", rows)]
}

/// Up to so many the plain engine tells the world when each position fell, and above it the other.
const FEW_POSITIONS: u64 = 1_000;

/// What an outcome says of the table that was solved, alone or joined.
pub fn claim<'a>(call: &Call, table: &'a Table, outcome: &'a Outcome) -> Option<Claim<'a>> {
    let [winners, rows] = written(call, table, outcome);
    Some(Claim {
        table,
        patience: patience(call) as i8,
        winners: from_winner_bytes(winners),
        rows: (outcome.result == REALIZABLE).then_some(rows),
        start: answer(call, outcome)?.start as usize,
    })
}

/// Demand 2: what the winners allow is kept by the controller written, and nothing else could be.
pub fn property(
    call: &Call,
    table: Option<Table>,
    outcome: &Outcome,
    explored: &mut Explored,
) -> Vec<Found> {
    if outcome.result > UNREALIZABLE {
        return Vec::new();
    }
    let Some(claim) = table.as_ref().and_then(|table| claim(call, table, outcome)) else {
        return vec![(play::CHECKS[0], "solved what can't be solved".to_string())];
    };
    let few = claim.table.positions(patience(call)) <= FEW_POSITIONS;
    let engine = if few { Engine::Plain } else { Engine::Antichain };
    let rounds = engine.rounds(claim.table, claim.patience);
    play::faults(&claim, rounds.as_deref(), explored)
}

/// "An unsafe start position is not covered by any winner: code 1" (reading 22), and then "winners written,
/// controller buffer untouched, start 0". The call has such a start, and room for every set.
pub fn put_unsafe_start(session: &mut Session, call: &Call) {
    session.put_knowing(call, "1 for an unsafe start", |outcome| {
        let answer = answer(call, outcome).expect("the answer buffer is long enough");
        let untouched = outcome.bytes(call, "controller").starts_with(call.bytes("controller"));
        (answer.code, answer.start) == (UNREALIZABLE, 0) && answer.winners > 0 && untouched
    });
}

fn several_edges(table: &Table) -> bool {
    let branching =
        |targets: &[[u8; 8]; 8]| targets.iter().flatten().any(|bits| bits.count_ones() > 1);
    branching(&table.controller.targets) || branching(&table.world.targets)
}

fn is_large(table: &Table) -> bool {
    [&table.controller, &table.world].iter().all(|side| side.states == 8 && side.letters == 8)
}

/// The marks of the start states.
fn start_marks(table: &Table) -> Vec<i8> {
    let starts = (0..8).filter(|state| table.starts >> state & 1 == 1);
    starts.map(|state| table.controller.marks[state]).collect()
}

fn unsafe_start(table: &Table, patience: u32) -> bool {
    start_marks(table).iter().any(|mark| *mark as u32 > patience)
}

/// What a table of a call has.
pub fn of_table(table: &Table, patience: u32) -> Vec<Feature> {
    let marks = start_marks(table);
    let marked = marks.iter().any(|mark| *mark > 0);
    let named = [
        (patience > 0 && patience < 8, "K over 0"),
        (marks.len() > 1, "several starts"),
        (marked, "a marked start"),
        (marked && marks.contains(&0), "a marked start and an unmarked one"),
        (unsafe_start(table, patience), "an unsafe start"),
        (several_edges(table), "several edges for a letter"),
        (is_large(table), "8 states and 8 letters"),
    ];
    named.into_iter().filter(|(holds, _)| *holds).map(|(_, feature)| feature).collect()
}

/// A verdict of 1 that would be 0 if the first visit went free.
pub fn decided_by_mark(table: &Table, patience: u32) -> Feature {
    if unsafe_start(table, patience) {
        "only the mark of an unsafe start decides"
    } else {
        "only the mark of a safe start decides"
    }
}

/// The first of the written winners that the start would be below if the first visit went free.
pub fn free_start(table: &Table, winners: &[u8]) -> Option<usize> {
    let is_start = |state: usize| table.starts >> state & 1 == 1;
    let above = |winner: &[u8]| (0..8).all(|state| winner[state] > 0 || !is_start(state));
    winners.chunks_exact(8).position(above)
}

/// What the last table of a call and its outcome have.
pub fn features(call: &Call, table: Option<Table>, outcome: &Outcome) -> Vec<Feature> {
    let Some(table) = table else { return Vec::new() };
    let mut found = of_table(&table, patience(call));
    let mut note = |holds: bool, feature: Feature| {
        if holds {
            found.push(feature);
        }
    };
    let [winners, _] = written(call, &table, outcome);
    let start = answer(call, outcome).map_or(0, |answer| answer.start as usize);
    let free = free_start(&table, winners);
    let lost = outcome.result == UNREALIZABLE && free.is_some();
    note(lost, decided_by_mark(&table, patience(call)));
    let elsewhere = outcome.result == REALIZABLE && free != Some(start);
    note(elsewhere, "only the mark of a start decides where to begin");
    note(winners.len() > 8, "several winners");
    note(winners.iter().any(|byte| *byte > 0), "winners beyond the bottom one");
    note(crate::engines::fit_for(&table, patience(call).min(7)).len() == 2, "by both engines");
    found
}
