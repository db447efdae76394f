//! The benchmark: the proved engine beside the second program's antichain engine, on the same
//! tables in one run, and the proved check of rows beside others. `bench/run` links it with the proved
//! calls and starts it.
//!
//!     bench/run                       the seconds, and the stack of solve, by parts and check
//!     bench/run --seed 7 --runs 20    other random tables; the best of 20 runs
//!     bench/run --search 102 30000    looks for a table with many rounds: a seed, and how many
//!                                     changes to try; writes target/bench/found.tab
//!
//! The exit status is 1 if answers differ, and 2 if something could not be run.

mod checks;
mod linked;
mod raising;
mod search;
mod stack;
mod times;

#[path = "../include/feshamiru.rs"]
mod feshamiru;

// Of the second program's modules not all is needed here.
#[allow(dead_code)]
#[path = "../tests/second/call.rs"]
mod call;
#[allow(dead_code)]
#[path = "../tests/second/calls/mod.rs"]
mod calls;
#[allow(dead_code)]
#[path = "../tests/second/compare.rs"]
mod compare;
#[allow(dead_code)]
#[path = "../tests/second/engines/mod.rs"]
mod engines;
#[allow(dead_code)]
#[path = "../tests/second/follow/mod.rs"]
mod follow;
#[allow(dead_code)]
#[path = "../tests/second/make/mod.rs"]
mod make;
#[allow(dead_code)]
#[path = "../tests/second/play/mod.rs"]
mod play;
#[allow(dead_code)]
#[path = "../tests/second/proved.rs"]
mod proved;
#[allow(dead_code)]
#[path = "../tests/second/rules/mod.rs"]
mod rules;
#[allow(dead_code)]
#[path = "../tests/second/session.rs"]
mod session;
#[allow(dead_code)]
#[path = "../tests/second/stored.rs"]
mod stored;
#[allow(dead_code)]
#[path = "../tests/second/vectors.rs"]
mod vectors;

use calls::{check, parts, solve};
use make::Dice;
use std::process::ExitCode;
use times::Line;

const PATIENCE: u32 = 7;
const ROOM: u32 = 256;
const WORK: &[u8] = include_bytes!("../tables/work.tab");
const STORED: [(&str, &[u8]); 4] = [
    ("work", WORK),
    ("unreal", include_bytes!("../tables/unreal.tab")),
    ("shrink", include_bytes!("../tables/shrink.tab")),
    ("long", include_bytes!("../tables/long.tab")),
];
const OWED: [u8; 52] = [
    1, 0, 2, 0, 1, 1, 0, 0, 2, 0, 0, 0, 2, 1, 1, 0, // states
    3, 0, 0, 0, 3, 0, 1, 0, 3, 1, 0, 1, 3, 1, 1, 0, // edges on an output
    4, 0, 0, 0, 4, 0, 1, 0, 4, 0, 1, 1, 4, 1, 0, 1, 4, 1, 1, 1, // edges on an input
];
const RANDOM: usize = 2_000;
const FOUND: &str = "target/bench/found.tab";

struct Options {
    seed: u64,
    runs: u32,
}

fn number<Number: std::str::FromStr>(word: &str) -> Result<Number, String> {
    word.parse().map_err(|_| format!("not a number: {word}"))
}

fn options(mut words: &[&str]) -> Result<Options, String> {
    let mut options = Options { seed: 1, runs: 9 };
    loop {
        words = match words {
            [] => return Ok(options),
            ["--seed", seed, rest @ ..] => {
                options.seed = number(seed)?;
                rest
            }
            ["--runs", runs, rest @ ..] => {
                options.runs = number::<u32>(runs)?.max(1);
                rest
            }
            _ => return Err(format!("these words aren't known: {}", words.join(" "))),
        };
    }
}

fn stored_lines() -> impl Iterator<Item = Line> {
    STORED.into_iter().map(|(name, table)| Line {
        name: name.to_string(),
        calls: vec![solve::call(table, PATIENCE, ROOM)],
    })
}

fn random_line(seed: u64) -> Line {
    let mut dice = Dice::new(seed);
    let mut call = || solve::call(&make::any_good(&mut dice), PATIENCE, ROOM);
    Line {
        name: format!("2,000 random, seed {seed}"),
        calls: (0..RANDOM).map(|_| call()).collect(),
    }
}

/// False if the engines differ.
fn print_seconds(options: &Options) -> bool {
    println!("K {PATIENCE}, N {ROOM}, the best of {} runs each", options.runs);
    println!("| Table | Rounds | Proved, seconds | Antichain, seconds | Ratio |");
    println!("|---|---|---|---|---|");
    for line in stored_lines().chain([random_line(options.seed)]) {
        let Some(measured) = times::measure(&line, options.runs) else { return false };
        let (proved, antichain) = (measured.proved, measured.antichain);
        let (name, rounds, ratio) = (line.name, measured.rounds, proved / antichain);
        println!("| {name} | {rounds} | {proved:.4} | {antichain:.4} | {ratio:.2} |");
    }
    true
}

fn benchmark(words: &[&str]) -> Result<ExitCode, String> {
    let options = options(words)?;
    if !print_seconds(&options) || !checks::print_seconds(options.seed, options.runs) {
        return Ok(ExitCode::from(1));
    }
    let calls = [
        (stack::SINK_AND_SOLVE, "solve, work, N 256"),
        (stack::SINK_AND_PARTS, "by parts, OWED with itself, N 256"),
        (stack::SINK_AND_CHECK, "check, winding"),
    ];
    for (word, what) in calls {
        let bytes =
            stack::needed(word).map_err(|error| format!("the stack wasn't measured: {error}"))?;
        println!("the stack of {what} at K {PATIENCE}: {bytes} bytes");
    }
    Ok(ExitCode::SUCCESS)
}

fn look_for_long(seed: u64, changes: u32) -> Result<(), String> {
    let found = search::climb(seed, changes).ok_or("no table was drawn that fits")?;
    println!("{} rounds, the largest named set {}: {FOUND}", found.rounds, found.largest);
    std::fs::write(FOUND, found.table).map_err(|error| format!("{FOUND}: {error}"))
}

fn run(words: &[&str]) -> Result<ExitCode, String> {
    match words {
        [stack::SINK, bytes] => stack::try_to_sink(number(bytes)?),
        [stack::SINK_AND_SOLVE, bytes] => {
            stack::try_call(number(bytes)?, solve::call(WORK, PATIENCE, ROOM))
        }
        [stack::SINK_AND_PARTS, bytes] => {
            stack::try_call(number(bytes)?, parts::call(&OWED, &OWED, PATIENCE, ROOM))
        }
        [stack::SINK_AND_CHECK, bytes] => {
            let (table, rows) = (make::winding_table(), make::winding_rows());
            stack::try_call(number(bytes)?, check::call(&table, PATIENCE, &rows))
        }
        ["--search", seed, changes] => look_for_long(number(seed)?, number(changes)?)?,
        _ => return benchmark(words),
    }
    Ok(ExitCode::SUCCESS)
}

fn main() -> ExitCode {
    let words: Vec<String> = std::env::args().skip(1).collect();
    let words: Vec<&str> = words.iter().map(String::as_str).collect();
    run(&words).unwrap_or_else(|reason| {
        eprintln!("{reason}");
        ExitCode::from(2)
    })
}
