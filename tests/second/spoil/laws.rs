//! What a law of several calls is told is changed. Not every change breaks it, but often it must fail.

use super::Control;
use crate::call::{Call, Outcome};
use crate::laws::{self, Law};
use crate::rules::codes::{FULL, UNREALIZABLE};
use crate::session::Change;

/// So often a law is tried, and so often at least it has to fail.
const TRIED: u64 = 200;
const LEAST_NOTICED: u64 = 50;

type Way = fn(&Call, &mut Outcome);

/// Changes the first outcome of an operation.
fn once(operation: &'static str, way: Way) -> Change {
    let mut done = false;
    Box::new(move |call, outcome| {
        if !done && call.operation.name == operation && outcome.result <= UNREALIZABLE {
            way(call, outcome);
            done = true;
        }
    })
}

fn turn_verdict(call: &Call, outcome: &mut Outcome) {
    outcome.result ^= 1;
    flip_byte(call, outcome, "answer", 0);
}

fn flip_byte(call: &Call, outcome: &mut Outcome, name: &str, byte: usize) {
    let place = call.place(name).expect("the call has this buffer");
    outcome.buffers[place][byte] ^= 1;
}

fn bend_winner(call: &Call, outcome: &mut Outcome) {
    flip_byte(call, outcome, "winners", 0);
}

fn bend_row(call: &Call, outcome: &mut Outcome) {
    flip_byte(call, outcome, "controller", 1);
}

fn bend_join(call: &Call, outcome: &mut Outcome) {
    flip_byte(call, outcome, "out", 2);
}

fn turn_full(_: &Call, outcome: &mut Outcome) {
    outcome.result = FULL;
}

fn turn_rounds(call: &Call, outcome: &mut Outcome) {
    flip_byte(call, outcome, "answer", 12);
}

/// The law, what it is told otherwise, and of which call.
const TOLD: [(&str, &str, &str, Way); 20] = [
    ("by parts and afresh", "the verdict", "solve", turn_verdict),
    ("by parts and afresh", "a winner", "parts", bend_winner),
    ("by parts and afresh", "a row", "parts", bend_row),
    ("grouped", "a byte", "join", bend_join),
    ("swapped", "a byte", "join", bend_join),
    ("swapped", "the verdict", "solve", turn_verdict),
    ("swapped", "the rounds", "parts", turn_rounds),
    ("swapped", "a winner", "solve", bend_winner),
    ("swapped", "a winner", "parts", bend_winner),
    ("with itself", "the verdict", "solve", turn_verdict),
    ("with itself", "the verdict", "parts", turn_verdict),
    ("kept", "a row", "solve", bend_row),
    ("kept", "a row", "parts", bend_row),
    ("kept", "the verdict", "check", turn_verdict),
    ("halves", "the verdict", "check", turn_verdict),
    ("entered", "the verdict", "solve", turn_verdict),
    ("entered", "the verdict", "check", turn_verdict),
    ("other starts", "the code", "solve", turn_full),
    ("other starts", "the rounds", "solve", turn_rounds),
    ("other starts", "a winner", "solve", bend_winner),
];

impl Control {
    /// Each change has to be noticed, and each thing that a law says has to have been found broken.
    pub fn laws(&mut self) {
        for law in laws::ALL {
            self.session.broken.clear();
            for (_, name, operation, way) in TOLD.iter().filter(|told| told.0 == law.name) {
                self.law(&law, name, operation, *way);
            }
            for says in law.says {
                let broken = self.session.broken.get(*says).copied().unwrap_or(0);
                self.hold(format!("{}: never broken: {says}", law.name), broken >= LEAST_NOTICED);
            }
        }
    }

    fn law(&mut self, law: &Law, name: &str, operation: &'static str, way: Way) {
        self.session.failed = 0;
        for _ in 0..TRIED {
            self.session.bend = Some(once(operation, way));
            (law.draw)(&mut self.session);
            self.session.bend = None;
        }
        let noticed = self.session.failed;
        println!("  {}: {name} of {operation} noticed {noticed} times", law.name);
        self.hold(format!("{}: {name} of {operation}", law.name), noticed >= LEAST_NOTICED);
    }
}
