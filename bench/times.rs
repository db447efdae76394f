//! The seconds of both engines on the same calls. What they answer is compared first, byte by byte.

use crate::call::{Call, Outcome, Voice};
use crate::calls::solved::{answer, patience, room};
use crate::compare::{fault, print_fault};
use crate::engines::{antichain, Engine};
use crate::linked;
use crate::play::Explored;
use crate::rules::answer::Answer;
use crate::rules::read::read;
use std::hint::black_box;
use std::time::Instant;

/// What is measured together: calls with the same room.
pub struct Line {
    pub name: String,
    pub calls: Vec<Call>,
}

/// The rounds of all calls, and each engine's least seconds of several runs.
pub struct Measured {
    pub rounds: u32,
    pub proved: f64,
    pub antichain: f64,
}

/// The answer in which both engines agree, and in every byte that they write. A difference is
/// printed, and the answer is empty then.
fn agreed(call: &Call) -> Option<Answer> {
    let name = Engine::Antichain.name();
    let mut voices = (call.operation.oracles)(call);
    voices.retain(|voice| voice.name == name);
    voices.push(Voice { name: "proved", outcome: linked::answer(call) });
    match fault(call, &voices, &mut Explored::default()) {
        None => answer(call, &voices[0].outcome),
        Some(reason) => {
            print_fault(call, &voices, &reason);
            None
        }
    }
}

/// Reads the table and solves it, as the proved call does. Nothing is lent here: the lists that it
/// makes are the result.
fn solve_by_antichain(call: &Call) {
    let table = read(call.bytes("table")).expect("the tables measured are good");
    let settled = antichain::solve(&table, patience(call) as i8, room(call) as usize);
    black_box(settled.is_ok());
}

pub fn seconds(work: impl FnOnce()) -> f64 {
    let begun = Instant::now();
    work();
    begun.elapsed().as_secs_f64()
}

/// The engines take turns, so that what else the machine does meets both.
pub fn measure(line: &Line, runs: u32) -> Option<Measured> {
    let answers = line.calls.iter().map(agreed).collect::<Option<Vec<Answer>>>()?;
    let rounds = answers.iter().map(|answer| answer.rounds).sum();
    let mut least = Measured { rounds, proved: f64::MAX, antichain: f64::MAX };
    let mut lent = Outcome::result_only(&line.calls[0], 0);
    for _ in 0..runs {
        let proved = seconds(|| line.calls.iter().for_each(|call| linked::make(call, &mut lent)));
        let antichain = seconds(|| line.calls.iter().for_each(solve_by_antichain));
        least.proved = least.proved.min(proved);
        least.antichain = least.antichain.min(antichain);
    }
    Some(least)
}
