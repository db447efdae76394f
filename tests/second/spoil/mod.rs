//! The negative control: every call and every kind of change, one at a time, and each has to be
//! caught. Else a comparison that compares nothing would pass.

mod laws;
mod lies;
mod outside;
mod replies;

use crate::call::{Call, Operation, Outcome};
use crate::calls;
use crate::proved::Proved;
use crate::rules::codes::UNREALIZABLE;
use crate::session::Session;
use std::cell::RefCell;
use std::rc::Rc;

/// So often calls are drawn until a change can be made.
const MOST_DRAWN: usize = 3_000;

struct Control {
    /// How the servers are started.
    line: String,
    session: Session,
    passed: u64,
    failed: u64,
}

impl Control {
    fn hold(&mut self, what: String, caught: bool) {
        if caught {
            self.passed += 1;
        } else {
            self.failed += 1;
            println!("FAILED: not caught: {what}");
        }
    }

    /// So many solved calls of an operation, as they were laid out, with what all agreed in.
    fn samples(&mut self, operation: &'static Operation, number: usize) -> Vec<(Call, Outcome)> {
        let found = Rc::new(RefCell::new(Vec::new()));
        let kept = found.clone();
        self.session.bend = Some(Box::new(move |call, outcome| {
            if call.operation.name == operation.name && outcome.result <= UNREALIZABLE {
                kept.borrow_mut().push((call.clone(), outcome.clone()));
            }
        }));
        for _ in 0..MOST_DRAWN {
            if found.borrow().len() >= number {
                break;
            }
            (operation.draw)(&mut self.session);
        }
        self.session.bend = None;
        found.take()
    }
}

/// How many passed and how many failed.
pub fn run(line: &str, seed: u64) -> (u64, u64) {
    let mut session = Session::new(seed, Some(Proved::new(line, false)));
    session.quiet = true;
    let mut control = Control { line: line.to_string(), session, passed: 0, failed: 0 };
    for operation in calls::ALL {
        control.replies(operation);
        control.outside(operation);
        control.lies(operation);
    }
    control.laws();
    control.session.end();
    (control.passed, control.failed)
}
