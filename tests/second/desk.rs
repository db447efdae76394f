//! The desk program's text: it is run on stored and random tables, and what it prints is held
//! against what document 01 says that it prints.

use crate::calls::solve;
use crate::calls::solved::{answer, written, MOST_ROOM};
use crate::compare::{digits, MOST_PRINTED};
use crate::make::{any_good, changed, damaged, Dice};
use crate::proved::piped;
use crate::rules::codes::{REALIZABLE, UNREALIZABLE};
use crate::rules::read::read;
use crate::stored::{self, HARD};
use std::collections::BTreeMap;
use std::io::{self, Write};
use std::process::{ChildStdin, Output};
use std::time::Duration;

/// "The desk program reads up to 4,161 bytes of a table from standard input."
const MOST_READ: usize = 4161;

/// "For OWED it prints exactly".
const OWED_TEXT: &str = "k 0 code 0 place 0 rounds 0 winners 1 start 0\n0 1 0 0\n0 1 1 0\n";

/// How seldom a hard table comes.
const HARD_EVERY: u64 = 40;

#[derive(Default)]
pub struct Desk {
    line: String,
    pub passed: u64,
    pub failed: u64,
    /// The tables whose last line has this code.
    codes: BTreeMap<u32, u32>,
}

/// "A line with K and the answer's fields by name, all but which, and after code 0 the rows as
/// numbers (state, output, input, next)." The code is that of the line.
fn lines(table: &[u8], patience: u32) -> (String, u32) {
    let call = solve::call(table, patience, MOST_ROOM);
    let outcome = (solve::SOLVE.oracles)(&call).swap_remove(0).outcome;
    let answer = answer(&call, &outcome).expect("the answer buffer is long enough");
    let mut text = format!(
        "k {patience} code {} place {} rounds {} winners {} start {}\n",
        answer.code, answer.place, answer.rounds, answer.winners, answer.start
    );
    if answer.code == REALIZABLE {
        let good = read(table).expect("a solved table is good");
        let [_, rows] = written(&call, &good, &outcome);
        for row in rows.chunks(4) {
            text += &format!("{} {} {} {}\n", row[0], row[1], row[2], row[3]);
        }
    }
    (text, answer.code)
}

/// "For K = 0, 1, up to 7, stopping after the first code other than 1."
fn expected(table: &[u8]) -> (String, u32) {
    let table = &table[..table.len().min(MOST_READ)];
    let mut text = String::new();
    for patience in 0..8 {
        let (more, code) = lines(table, patience);
        text += &more;
        if code != UNREALIZABLE {
            return (text, code);
        }
    }
    (text, UNREALIZABLE)
}

/// A program that has read enough may end before all is written.
fn feed(input: &mut ChildStdin, bytes: &[u8]) -> io::Result<()> {
    match input.write_all(bytes) {
        Err(error) if error.kind() != io::ErrorKind::BrokenPipe => Err(error),
        _ => Ok(()),
    }
}

/// What the program prints for a table that comes in these pieces, with a pause between them.
fn run(line: &str, pieces: &[&[u8]]) -> io::Result<Output> {
    let mut process = piped(line).spawn()?;
    let mut input = process.stdin.take().expect("the input is piped");
    for (number, piece) in pieces.iter().enumerate() {
        if number > 0 {
            std::thread::sleep(Duration::from_millis(200));
        }
        feed(&mut input, piece)?;
    }
    drop(input);
    process.wait_with_output()
}

impl Desk {
    pub fn new(line: &str) -> Desk {
        Desk { line: line.to_string(), ..Desk::default() }
    }

    fn table(&mut self, table: &[u8]) -> io::Result<()> {
        self.pieces(&[table])
    }

    fn pieces(&mut self, pieces: &[&[u8]]) -> io::Result<()> {
        let table = pieces.concat();
        let (text, code) = expected(&table);
        *self.codes.entry(code).or_default() += 1;
        let output = run(&self.line, pieces)?;
        let printed = String::from_utf8_lossy(&output.stdout);
        if output.status.success() && printed == text {
            self.passed += 1;
            return Ok(());
        }
        self.failed += 1;
        if self.failed <= MOST_PRINTED {
            println!("FAILED: the desk program, {}, table {}", output.status, digits(&table));
            println!("expected:\n{text}printed:\n{printed}");
        }
        Ok(())
    }

    /// Document 01's own tables, faults, long ones, and one that comes in two pieces.
    pub fn stored(&mut self) -> io::Result<()> {
        let tables = stored::tables();
        assert_eq!(expected(&tables[0]).0, OWED_TEXT);
        for table in &tables {
            self.table(table)?;
        }
        let (begin, end) = tables[0].split_at(22);
        self.pieces(&[begin, end])
    }

    pub fn random(&mut self, seed: u64, cases: u64) -> io::Result<()> {
        let mut dice = Dice::new(seed);
        for number in 0..cases {
            let good = any_good(&mut dice);
            let hard = HARD[dice.below(HARD.len())];
            self.table(&match number {
                _ if number % HARD_EVERY == 0 => changed(&mut dice, hard),
                _ if number % 4 == 3 => damaged(&mut dice, &good),
                _ => good,
            })?;
        }
        Ok(())
    }

    pub fn print(&self) {
        println!("tables put to the desk program {}", self.passed + self.failed);
        for (code, number) in &self.codes {
            println!("  code {code} last: {number}");
        }
    }
}
