//! The second program: written from documents 01 and 02 alone, and held against the proved one.
//!
//! Its oracles are held against each other, and with `--calls` every call is put to the proved archive
//! as well. The exit status is 1 if anything differs.
//!
//!     rustc --edition 2021 -O -o target/second tests/second/main.rs
//!
//!     second                        the stored cases and a fixed number of random ones
//!     second --calls tools/program
//!                                   with the proved calls, as 'tools/program serve' answers them
//!     second --calls tools/program --seed 7 --cases 200000
//!                                   a long run: another seed, another number
//!     second --calls tools/program --spoil
//!                                   the negative control: spoilt answers, each of which must be caught
//!     second --desk 'tools/program desk' --cases 100
//!                                   the desk program's text, on stored tables and 100 others
//!     second --compare 'tools/program compare' --cases 1000
//!                                   the program for two positions, on 1,000 pairs of words
//!     second --compare 'tools/program compare' --spoil
//!                                   its negative control
//!
//! rules/ is what the documents say of records, marks, starts, rows and answers; engines/ solves, in two
//! ways; follow/ follows rows, in two ways; play/ plays what was solved, both sides, and rows from
//! elsewhere; call.rs says what a call is and calls/ has one file for each, or a folder; laws/ is demand 3,
//! and what is said of rows and of starts; make/ draws tables and rows; session.rs puts calls and counts;
//! spoil/ is the negative control; desk.rs and positions/ run programs of the desk.
//! A new call is a file in calls/, its line in calls/mod.rs and its wrapper in tests/c, in the operations
//! of its archive.

mod call;
mod calls;
mod compare;
mod desk;
mod engines;
mod follow;
mod laws;
mod least;
mod make;
mod options;
mod play;
mod positions;
mod proved;
mod rules;
mod session;
mod spoil;
mod stored;
mod vectors;

use desk::Desk;
use options::Options;
use positions::Positions;
use proved::Proved;
use session::{Seen, Session};
use std::io;
use std::process::ExitCode;

const CASES: u64 = 27_000;
const DESK_CASES: u64 = 200;

/// How many passed and how many failed.
type Count = (u64, u64);

/// Calls and laws take turns: three draws of calls to one of laws.
fn run(session: &mut Session, cases: u64) {
    stored::run(session);
    // What came up is counted from here: random calls have to reach it without the stored ones.
    session.seen = Seen::new();
    for number in 0..cases as usize {
        match number % 4 {
            0 => (laws::ALL[number / 4 % laws::ALL.len()].draw)(session),
            _ => (calls::ALL[(number - number / 4 - 1) % calls::ALL.len()].draw)(session),
        }
    }
}

fn compare_calls(options: &Options) -> Count {
    let cases = options.cases.unwrap_or(CASES);
    println!("seed {} cases {cases}", options.seed);
    let proved = options.calls.as_deref().map(|line| Proved::new(line, false));
    let mut session = Session::new(options.seed, proved);
    run(&mut session, cases);
    session.end();
    if cases >= CASES {
        least::assert(&mut session, options.calls.is_some());
    }
    if options.seen {
        print_seen(&session);
    }
    println!("calls answered by the proved calls: {}", session.proved_answers);
    (session.passed, session.failed)
}

/// All that came up, for whoever sets the least numbers.
fn print_seen(session: &Session) {
    for ((operation, code, feature), number) in &session.seen {
        println!("seen {number}: {operation}, code {code}, {feature}");
    }
}

fn compare_desk(line: &str, options: &Options) -> io::Result<Count> {
    let cases = options.cases.unwrap_or(DESK_CASES);
    println!("seed {} cases {cases}", options.seed);
    let mut desk = Desk::new(line);
    desk.stored()?;
    desk.random(options.seed, cases)?;
    desk.print();
    Ok((desk.passed, desk.failed))
}

fn compare_positions(line: &str, options: &Options) -> io::Result<Count> {
    if options.spoil {
        return positions::spoil::run(line, options.seed);
    }
    let cases = options.cases.unwrap_or(positions::CASES);
    println!("seed {} cases {cases}", options.seed);
    let mut positions = Positions::new(line);
    positions.random(options.seed, cases)?;
    Ok((positions.passed, positions.failed))
}

fn compare(options: &Options) -> io::Result<Count> {
    match (&options.desk, &options.compare, &options.calls) {
        (Some(line), _, _) => compare_desk(line, options),
        (None, Some(line), _) => compare_positions(line, options),
        (None, None, Some(line)) if options.spoil => Ok(spoil::run(line, options.seed)),
        _ => Ok(compare_calls(options)),
    }
}

fn unable(reason: String) -> ExitCode {
    eprintln!("{reason}");
    ExitCode::from(2)
}

fn main() -> ExitCode {
    let options = match options::read() {
        Ok(options) => options,
        Err(reason) => return unable(reason),
    };
    match compare(&options) {
        Ok((passed, failed)) => {
            println!("{passed} passed, {failed} failed");
            ExitCode::from(u8::from(failed > 0))
        }
        Err(error) => unable(format!("a program could not be run: {error}")),
    }
}
