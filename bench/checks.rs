//! The seconds of the proved check beside those of three others, on the same calls: its own method in plain
//! Rust, and the two ways in which the second program follows rows. What all answer is compared first.

use crate::call::{Call, Outcome, Voice};
use crate::calls::check;
use crate::calls::solved::patience;
use crate::compare::{fault, print_fault};
use crate::follow::{longest, single};
use crate::linked;
use crate::make::{
    any_good, falling, letters, overwound_rows, strategy, winding_rows, winding_table, Dice,
    MOST_VISITS,
};
use crate::play::Explored;
use crate::raising;
use crate::rules::read::read;
use crate::rules::rows::{read_rows, Controller};
use crate::rules::table::Table;
use crate::times::seconds;
use crate::{make, PATIENCE, RANDOM};
use std::hint::black_box;

/// What is measured together.
struct Line {
    name: String,
    calls: Vec<Call>,
}

type Way = fn(&Call);

/// Whom the proved check is measured beside.
const OTHERS: [(&str, Way); 3] =
    [("Work list", by_work_list), ("Run by run", by_runs), ("Longest run", by_longest)];

/// All calls of one line are made so often in a run that a short one can be measured.
const TIMES: usize = 10;

fn by_work_list(call: &Call) {
    black_box(raising::check(call.bytes("table"), patience(call) as i8, call.bytes("rows")));
}

fn read_both(call: &Call) -> (Table, Controller) {
    let table = read(call.bytes("table")).expect("the tables measured are good");
    (table, read_rows(call.bytes("rows")).expect("the rows measured are well formed"))
}

fn by_runs(call: &Call) {
    let (table, controller) = read_both(call);
    black_box(single::overrun(&table, patience(call) as usize, &controller));
}

fn by_longest(call: &Call) {
    let (table, controller) = read_both(call);
    black_box(longest::most_visits(&table, &controller));
}

/// False if two differ in an answer, which is printed.
fn agree(call: &Call) -> bool {
    let mut voices = (call.operation.oracles)(call);
    let code = raising::check(call.bytes("table"), patience(call) as i8, call.bytes("rows"));
    let mut plain = voices[0].outcome.clone();
    plain.result = code;
    voices.push(Voice { name: "work list", outcome: plain });
    voices.push(Voice { name: "proved", outcome: linked::answer(call) });
    let reason = fault(call, &voices, &mut Explored::default());
    if let Some(reason) = &reason {
        print_fault(call, &voices, reason);
    }
    reason.is_none()
}

fn winding_lines() -> impl Iterator<Item = Line> {
    let table = winding_table();
    let stored = [("winding, code 0", winding_rows()), ("overwound, code 1", overwound_rows())];
    stored.into_iter().map(move |(name, rows)| Line {
        name: name.to_string(),
        calls: vec![check::call(&table, MOST_VISITS, &rows)],
    })
}

fn random_line(seed: u64) -> Line {
    let mut dice = Dice::new(seed);
    let mut call = || {
        let letters = letters(&mut dice);
        let states = dice.between(3, 8);
        let table = match dice.chance(50) {
            true => falling(&mut dice, letters, states),
            false => any_good(&mut dice),
        };
        let good = read(&table).expect("the table is good");
        let letters =
            make::Letters { outputs: good.controller.letters, inputs: good.world.letters };
        check::call(&table, PATIENCE, &strategy(&mut dice, letters))
    };
    Line {
        name: format!("2,000 random, seed {seed}"),
        calls: (0..RANDOM).map(|_| call()).collect(),
    }
}

/// The least seconds of several runs: the proved check's and the others'. They take turns, so that what
/// else the machine does meets all.
fn measure(line: &Line, runs: u32) -> [f64; 4] {
    let mut least = [f64::MAX; 4];
    let mut lent = Outcome::result_only(&line.calls[0], 0);
    let mut note = |place: usize, found: f64| least[place] = least[place].min(found / TIMES as f64);
    let calls = || line.calls.iter().cycle().take(TIMES * line.calls.len());
    for _ in 0..runs {
        note(0, seconds(|| calls().for_each(|call| linked::make(call, &mut lent))));
        for (place, (_, way)) in OTHERS.iter().enumerate() {
            note(place + 1, seconds(|| calls().for_each(way)));
        }
    }
    least
}

/// False if the check answers otherwise than another.
pub fn print_seconds(seed: u64, runs: u32) -> bool {
    println!("check at K {PATIENCE}, the best of {runs} runs each; a ratio is the proved time by another");
    let names: Vec<&str> = OTHERS.iter().map(|(name, _)| *name).collect();
    let seconds = names.iter().map(|name| format!(" {name}, seconds |")).collect::<String>();
    let ratios = names.iter().map(|name| format!(" By {} |", name.to_lowercase()));
    println!("| Rows | Proved, seconds |{seconds}{}", ratios.collect::<String>());
    println!("|---|---|---|---|---|---|---|---|");
    for line in winding_lines().chain([random_line(seed)]) {
        if !line.calls.iter().all(agree) {
            return false;
        }
        let found = measure(&line, runs);
        let seconds = found.iter().map(|seconds| format!(" {seconds:.5} |")).collect::<String>();
        let ratios = found[1..].iter().map(|other| format!(" {:.2} |", found[0] / other));
        println!("| {} |{seconds}{}", line.name, ratios.collect::<String>());
    }
    true
}
