//! The stored cases: those of `tests/vectors`, the limits of a table and of rows, and four hard tables and
//! two sets of rows with known answers. The program of cases' stored output is held against the vectors too.

use crate::call::{lent, Buffer, Call, Layout, Outcome};
use crate::calls::{check, join, parts, solve, solved, ALL};
use crate::make::{overwound_rows, winding_rows, winding_table, MOST_VISITS};
use crate::rules::answer::{Answer, ANSWER_BYTES};
use crate::rules::codes::{FULL, NAMES, REALIZABLE, ROWS, UNREALIZABLE};
use crate::session::{Session, EXACT};
use crate::vectors::{Case, Part, Vectors};

const WORK: &[u8] = include_bytes!("../../tables/work.tab");
const UNREAL: &[u8] = include_bytes!("../../tables/unreal.tab");
const SHRINK: &[u8] = include_bytes!("../../tables/shrink.tab");
const LONG: &[u8] = include_bytes!("../../tables/long.tab");

pub const HARD: [&[u8]; 4] = [WORK, UNREAL, SHRINK, LONG];

const VECTORS: &str = include_str!("../vectors");
const CASES: &str = include_str!("../../crates/cases/stdout");

fn code(name: &str) -> u32 {
    let place = NAMES.iter().position(|known| *known == name);
    place.unwrap_or_else(|| panic!("no such code: {name}")) as u32
}

fn answer(name: &str, fields: &[u32; 5]) -> Answer {
    let [place, which, rounds, winners, start] = *fields;
    Answer { code: code(name), place, which, rounds, winners, start }
}

/// The bytes of a buffer before the call and after it.
fn buffer(part: &Part) -> (Vec<u8>, Vec<u8>) {
    let (length, begin) = match part {
        Part::Read(bytes) => return (bytes.clone(), bytes.clone()),
        Part::Lent(length, bytes) => (*length, bytes.clone()),
        Part::Answer(length, _, _) if *length < ANSWER_BYTES => (*length, Vec::new()),
        Part::Answer(length, name, fields) => (*length, answer(name, fields).bytes().to_vec()),
    };
    let mut after = lent(length);
    after[..begin.len()].copy_from_slice(&begin);
    (lent(length), after)
}

/// A case as a call and the outcome that it must have.
fn call_of(case: &Case) -> (Call, Outcome) {
    let operation = ALL.into_iter().find(|operation| operation.name == case.call);
    let operation = operation.unwrap_or_else(|| panic!("no such call: {}", case.call));
    let (before, after): (Vec<_>, Vec<_>) = case.parts.iter().map(buffer).unzip();
    let buffers = before.into_iter().map(|bytes| Buffer { bytes, layout: Layout::BeforeWall });
    let buffers = buffers.collect();
    let call = Call { operation, numbers: case.numbers.clone(), buffers, notes: vec![EXACT] };
    let mut outcome = Outcome::result_only(&call, code(&case.gives));
    outcome.buffers = after;
    (call, outcome)
}

fn of_the_file(session: &mut Session, vectors: &Vectors) {
    for case in &vectors.cases {
        let (call, wanted) = call_of(case);
        session.put_knowing(&call, &case.name, |outcome| {
            outcome.result == wanted.result && outcome.buffers == wanted.buffers
        });
    }
}

/// Bytes as numbers, so many a line.
fn lines(bytes: &[u8], width: usize) -> String {
    let line = |part: &[u8]| {
        let numbers: Vec<String> = part.iter().map(u8::to_string).collect();
        numbers.join(" ") + "\n"
    };
    bytes.chunks(width).map(line).collect()
}

/// What the program of cases prints for a case of document 01: the answer, the winners and the rows.
fn printed(case: &Case) -> String {
    let name = first_word(&case.name);
    let mut text = String::new();
    for part in &case.parts {
        if let Part::Answer(_, name_of_code, fields) = part {
            let answer = answer(name_of_code, fields);
            text += &format!(
                "\n{name} code {} place {} which {} rounds {} winners {} start {}\n",
                answer.code,
                answer.place,
                answer.which,
                answer.rounds,
                answer.winners,
                answer.start
            );
        }
    }
    let written = case.parts.iter().filter_map(|part| match part {
        Part::Lent(_, bytes) => Some(bytes),
        _ => None,
    });
    let widths = [8, 4];
    text += &written.zip(widths).map(|(bytes, width)| lines(bytes, width)).collect::<String>();
    text + "9s left at the end:"
}

fn first_word(name: &str) -> &str {
    name.split_whitespace().next().unwrap_or_default()
}

/// C1 to C12 as the program of cases has them.
fn of_the_program(session: &mut Session, vectors: &Vectors) {
    for number in 1..=12 {
        let name = format!("C{number}");
        let case = vectors.cases.iter().find(|case| first_word(&case.name) == name);
        let found = case.is_some_and(|case| CASES.contains(&printed(case)));
        session.hold(&format!("crates/cases/stdout has {name} as tests/vectors has it"), found);
    }
}

/// "At most 1,040 records, 4,160 bytes": every state and every edge there can be.
pub fn fullest() -> Vec<u8> {
    let states = |kind: u8, flags: u8| (0..8).map(move |state| [kind, state, flags, 0]);
    let edge = |kind: u8, number: u16| {
        [kind, (number >> 6) as u8, (number >> 3 & 7) as u8, (number & 7) as u8]
    };
    let mut records: Vec<[u8; 4]> = states(1, 2).chain(states(2, 0)).collect();
    records.extend((0..512).map(|number| edge(3, number)));
    records.extend((0..512).map(|number| edge(4, number)));
    records.concat()
}

fn of_the_limits(session: &mut Session) {
    let fullest = fullest();
    let mut longer = fullest.clone();
    longer.extend([4, 7, 7, 7]);
    let solved = Some(Answer { winners: 1, ..Answer::default() });
    for patience in [0, 7] {
        let call = solve::call(&fullest, patience as u32, 1);
        session.put_knowing(&call, "the fullest table", |outcome| {
            let winner = [patience + 1; 8];
            solved::answer(&call, outcome) == solved
                && outcome.bytes(&call, "winners").starts_with(&winner)
        });
    }
    refused(session, &solve::call(&longer, 0, 1), (4, 0, 0));
    refused(session, &parts::call(&fullest, &fullest, 0, 1), (14, 0, 0));
    refused(session, &join::call(&fullest, &longer), (4, 0, 2));
}

fn refused(session: &mut Session, call: &Call, (code, place, which): (u32, u32, u32)) {
    let wanted = Some(Answer::refusal(code, place, which));
    session.put_knowing(call, "this refusal", |outcome| solved::answer(call, outcome) == wanted);
}

/// The record table of document 01 once more: the largest bytes 1, 2 and 3 of each kind.
const LARGEST: [[u8; 4]; 4] = [[1, 7, 3, 0], [2, 7, 1, 0], [3, 7, 7, 7], [4, 7, 7, 7]];

/// A table of one record lacks states (7) unless a byte of it is outside (5).
fn of_the_bytes(session: &mut Session) {
    for record in LARGEST {
        refused(session, &solve::call(&record, 0, 1), (7, 0, 0));
        for byte in 1..4 {
            let mut over = record;
            over[byte] += 1;
            refused(session, &solve::call(&over, 0, 1), (5, 0, 0));
        }
    }
}

/// A hard table's bytes, answer at K 7, and the maximal members of its largest named set.
fn hard() -> [(&'static [u8], Answer, usize); 4] {
    let answer = |code: u32, rounds: u32, winners: u32, start: u32| Answer {
        code,
        rounds,
        winners,
        start,
        ..Answer::default()
    };
    [
        (WORK, answer(0, 152, 9, 7), 256),
        (UNREAL, answer(1, 22, 1, 0), 256),
        (SHRINK, answer(0, 36, 47, 23), 247),
        (LONG, answer(0, 840, 4, 3), 54),
    ]
}

fn of_hard_tables(session: &mut Session) {
    for (table, answer, largest) in hard() {
        let call = solve::call(table, 7, 256);
        session.put_knowing(&call, "a hard table's answer and largest set", |outcome| {
            solved::answer(&call, outcome) == Some(answer) && outcome.largest == largest
        });
        let call = solve::call(table, 7, largest as u32);
        session.put_knowing(&call, "a hard table's answer in the least room", |outcome| {
            solved::answer(&call, outcome) == Some(answer)
        });
        refused(session, &solve::call(table, 7, largest as u32 - 1), (FULL, 0, 0));
    }
}

/// 8,192 bytes of rows with 256 states, and a row or a byte more; and those with much work in them.
fn of_rows(session: &mut Session) {
    let row = |number: usize| [(number / 8) as u8, 7, (number % 8) as u8, (number / 7) as u8];
    let rows: Vec<u8> = (0..2048).flat_map(row).collect();
    let longer = |more: &[u8]| [&rows, more].concat();
    let (table, winding) = (winding_table(), winding_rows());
    let cases = [
        (check::call(&fullest(), 0, &rows), REALIZABLE),
        (check::call(&fullest(), 0, &longer(&[255, 7, 7, 0])), ROWS),
        (check::call(&fullest(), 0, &longer(&[255])), ROWS),
        (check::call(&table, MOST_VISITS, &winding), REALIZABLE),
        (check::call(&table, MOST_VISITS - 1, &winding), UNREALIZABLE),
        (check::call(&table, MOST_VISITS, &overwound_rows()), UNREALIZABLE),
    ];
    for (call, code) in &cases {
        let wanted = Some(Answer { code: *code, ..Answer::default() });
        session.put_knowing(call, "this code", |outcome| solved::answer(call, outcome) == wanted);
    }
}

/// Tables for the desk program: OWED first, then the other two and their join, those with two starts, every
/// fault, the hard ones, and lengths about the longest.
pub fn tables() -> Vec<Vec<u8>> {
    let vectors = Vectors::read(VECTORS);
    let names = ["OWED", "SILENT", "FIRST", "OWED_SILENT", "TWO_STARTS", "CHOICE"];
    let mut tables = names.map(|name| vectors.table(name)).to_vec();
    for case in vectors.cases.iter().filter(|case| case.name.starts_with("fault")) {
        if let Part::Read(bytes) = &case.parts[0] {
            tables.push(bytes.clone());
        }
    }
    tables.extend(HARD.map(<[u8]>::to_vec));
    for length in [0, 4159, 4160, 4161, 4164, 10_000] {
        let mut table = fullest();
        table.resize(length, 4);
        tables.push(table);
    }
    tables
}

pub fn run(session: &mut Session) {
    let vectors = Vectors::read(VECTORS);
    of_the_file(session, &vectors);
    of_the_program(session, &vectors);
    of_the_limits(session);
    of_the_bytes(session);
    of_hard_tables(session);
    of_rows(session);
}
