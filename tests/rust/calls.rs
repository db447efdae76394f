//! The calls from Rust, by the declarations of include/feshamiru.rs: every case of tests/vectors with its
//! result and every byte of the lent buffers and beyond them; then several threads at once, and result
//! buffers that nothing was written to. A line for each check that failed, and last 'N passed, M failed';
//! the exit status is 1 if any failed.
//!
//!     rustc --edition 2021 -L target/staticlib -l static=calls -o target/from_rust tests/rust/calls.rs

#[path = "../../include/feshamiru.rs"]
mod feshamiru;
#[path = "../second/vectors.rs"]
mod vectors;

use feshamiru::*;
use std::mem::MaybeUninit;
use vectors::{Case, Part, Vectors};

const VECTORS: &str = include_str!("../vectors");
const ANSWER_BYTES: usize = 24;
const MARGIN: usize = 64;
const THREADS: usize = 8;

const CODES: [(&str, u32); 16] = [
    ("REALIZABLE", DESK_REALIZABLE),
    ("UNREALIZABLE", DESK_UNREALIZABLE),
    ("BOUND", DESK_BOUND),
    ("ROOM", DESK_ROOM),
    ("LENGTH", DESK_LENGTH),
    ("RECORD", DESK_RECORD),
    ("ORDER", DESK_ORDER),
    ("STATES", DESK_STATES),
    ("START", DESK_START),
    ("EDGE", DESK_EDGE),
    ("GAP", DESK_GAP),
    ("FULL", DESK_FULL),
    ("NOTHING", DESK_NOTHING),
    ("LETTERS", DESK_LETTERS),
    ("SIZE", DESK_SIZE),
    ("ROWS", DESK_ROWS),
];

fn code(name: &str) -> u32 {
    let found = CODES.iter().find(|(known, _)| *known == name);
    found.unwrap_or_else(|| panic!("no such code: {name}")).1
}

fn lent(length: usize) -> Vec<u8> {
    (0..length).map(|place| (place as u8).wrapping_mul(29) ^ 0xA7).collect()
}

/// The bytes of a buffer before the call and after it.
fn buffer(part: &Part) -> (Vec<u8>, Vec<u8>) {
    let (length, begin) = match part {
        Part::Read(bytes) => return (bytes.clone(), bytes.clone()),
        Part::Lent(length, bytes) => (*length, bytes.clone()),
        Part::Answer(length, _, _) if *length < ANSWER_BYTES => (*length, Vec::new()),
        Part::Answer(length, name, fields) => {
            let fields = std::iter::once(code(name)).chain(*fields);
            (*length, fields.flat_map(u32::to_le_bytes).collect())
        }
    };
    let mut after = lent(length);
    after[..begin.len()].copy_from_slice(&begin);
    (lent(length), after)
}

/// A buffer as the calls take it.
type Slice = (*mut u8, usize);

/// Makes a call on these buffers, in the order of its declaration.
///
/// # Safety
/// Each buffer has its length, and one that is written to overlaps no other.
unsafe fn make(call: &str, numbers: &[u32], buffers: &[Slice]) -> u32 {
    match (call, numbers, buffers) {
        ("solve", [k, room], [table, winners, rows, answer]) => desk_solve(
            table.0, table.1, *k, *room, winners.0, winners.1, rows.0, rows.1, answer.0, answer.1,
        ),
        ("join", [], [first, second, out, answer]) => {
            desk_join(first.0, first.1, second.0, second.1, out.0, out.1, answer.0, answer.1)
        }
        ("parts", [k, room], [first, second, winners, rows, answer]) => desk_parts(
            first.0, first.1, second.0, second.1, *k, *room, winners.0, winners.1, rows.0, rows.1,
            answer.0, answer.1,
        ),
        ("check", [k], [table, rows, answer]) => {
            desk_check(table.0, table.1, *k, rows.0, rows.1, answer.0, answer.1)
        }
        _ => panic!("no such call: {call}"),
    }
}

/// The same bytes and a margin after them, which no call is lent.
fn with_margin(bytes: Vec<u8>) -> Vec<u8> {
    let long = bytes.len();
    [&bytes[..], &lent(long + MARGIN)[long..]].concat()
}

fn holds(case: &Case) -> bool {
    let (before, after): (Vec<_>, Vec<_>) = case.parts.iter().map(buffer).unzip();
    let [mut before, after] =
        [before, after].map(|list| list.into_iter().map(with_margin).collect::<Vec<_>>());
    let slices: Vec<Slice> =
        before.iter_mut().map(|bytes| (bytes.as_mut_ptr(), bytes.len() - MARGIN)).collect();
    // SAFETY: each buffer is its own and comes with no more than its length.
    let result = unsafe { make(&case.call, &case.numbers, &slices) };
    result == code(&case.gives) && before == after
}

/// Every case in each of several threads at once, each with buffers of its own.
fn holds_in_threads() -> bool {
    let cases = || {
        let vectors = Vectors::read(VECTORS);
        (0..20).all(|_| vectors.cases.iter().all(holds))
    };
    std::thread::scope(|scope| {
        let threads: Vec<_> = (0..THREADS).map(|_| scope.spawn(cases)).collect();
        threads.into_iter().all(|thread| thread.join().unwrap_or(false))
    })
}

/// C1 into buffers that nothing was written to: what the call writes is there.
fn holds_unwritten() -> bool {
    let mut table = Vectors::read(VECTORS).table("OWED");
    let mut winners = [MaybeUninit::<u8>::uninit(); 8];
    let mut rows = [MaybeUninit::<u8>::uninit(); 32];
    let mut answer = [MaybeUninit::<u8>::uninit(); ANSWER_BYTES];
    let buffers: [Slice; 4] = [
        (table.as_mut_ptr(), table.len()),
        (winners.as_mut_ptr().cast(), winners.len()),
        (rows.as_mut_ptr().cast(), rows.len()),
        (answer.as_mut_ptr().cast(), answer.len()),
    ];
    // SAFETY: as above. Of the bytes read afterwards each was written by the call.
    unsafe {
        make("solve", &[0, 1], &buffers) == DESK_REALIZABLE
            && winners.map(|byte| byte.assume_init()) == [1, 1, 0, 0, 0, 0, 0, 0]
            && [0, 1, 2, 3, 4, 5, 6, 7].map(|at| rows[at].assume_init()) == [0, 1, 0, 0, 0, 1, 1, 0]
            && answer.map(|byte| byte.assume_init())[16] == 1
    }
}

fn main() {
    let vectors = Vectors::read(VECTORS);
    let mut checks: Vec<(String, bool)> =
        vectors.cases.iter().map(|case| (case.name.clone(), holds(case))).collect();
    checks.push(("several threads at once".to_string(), holds_in_threads()));
    checks.push(("buffers that nothing was written to".to_string(), holds_unwritten()));
    let failed: Vec<&String> =
        checks.iter().filter(|(_, holds)| !holds).map(|(name, _)| name).collect();
    failed.iter().for_each(|name| println!("FAILED: {name}"));
    println!("{} passed, {} failed", checks.len() - failed.len(), failed.len());
    std::process::exit(i32::from(!failed.is_empty()));
}
