//! What the proved calls reply is changed: the result, a byte of each buffer, a row; or it is one of the
//! call's lies.

use super::{Control, MOST_DRAWN};
use crate::call::{Call, Lie, Operation, Outcome, Use};
use crate::make::Dice;
use crate::rules::codes::REALIZABLE;
use std::cell::Cell;
use std::rc::Rc;

/// A way of changing the reply to a call; false if that can't be done here.
type Way = Box<dyn Fn(&Call, &mut Outcome) -> bool>;

fn flip_byte(bytes: &mut [u8], place: Option<usize>) -> bool {
    place.is_some_and(|place| {
        bytes[place] ^= 1;
        true
    })
}

/// The first byte of a buffer that the call has written otherwise than it was, or has left as it was.
fn place(call: &Call, outcome: &Outcome, buffer: usize, written: bool) -> Option<usize> {
    let (before, after) = (&call.buffers[buffer].bytes, &outcome.buffers[buffer]);
    (0..before.len()).find(|place| (before[*place] != after[*place]) == written)
}

fn byte_way(buffer: usize, written: bool) -> Way {
    Box::new(move |call, outcome| {
        let place = place(call, outcome, buffer, written);
        flip_byte(&mut outcome.buffers[buffer], place)
    })
}

/// Byte 1, the output, or byte 3, the next state, of a row.
fn row_way(byte: usize) -> Way {
    Box::new(move |call, outcome| {
        let Some(buffer) = call.place("controller") else { return false };
        let written = outcome.result == REALIZABLE;
        let place = written.then(|| place(call, outcome, buffer, true)).flatten();
        flip_byte(&mut outcome.buffers[buffer], place.map(|place| place / 4 * 4 + byte))
    })
}

fn lie_way(lie: &'static Lie) -> Way {
    Box::new(|call, outcome| match (lie.tell)(call, outcome, &mut Dice::new(1)) {
        Some(wrong) => {
            *outcome = wrong;
            true
        }
        None => false,
    })
}

/// Every way of changing a reply to this operation.
fn ways(operation: &'static Operation) -> Vec<(String, Way)> {
    let one_more: Way = Box::new(|_, outcome| {
        outcome.result += 1;
        true
    });
    let mut ways = vec![("the result one more".to_string(), one_more)];
    for (buffer, (name, used)) in operation.buffers.iter().enumerate() {
        if *used != Use::Read {
            ways.push((format!("a byte that was written to {name}"), byte_way(buffer, true)));
        }
        ways.push((format!("a byte that was left in {name}"), byte_way(buffer, false)));
    }
    if operation.buffers.iter().any(|(name, _)| *name == "controller") {
        ways.push(("the output of a row".to_string(), row_way(1)));
        ways.push(("the next state of a row".to_string(), row_way(3)));
    }
    ways.extend(operation.lies.iter().map(|lie| (lie.name.to_string(), lie_way(lie))));
    ways
}

impl Control {
    pub fn replies(&mut self, operation: &'static Operation) {
        for (name, way) in ways(operation) {
            self.reply(operation, &name, way);
        }
    }

    /// Draws calls until `way` has changed one reply, the first that it can. The comparison has to fail
    /// for that call and for no other.
    fn reply(&mut self, operation: &'static Operation, name: &str, way: Way) {
        let done = Rc::new(Cell::new(false));
        let seen = done.clone();
        self.session.spoil = Some(Box::new(move |call, outcome| {
            let ours = call.operation.name == operation.name;
            if !seen.get() && ours && way(call, outcome) {
                seen.set(true);
            }
        }));
        self.session.failed = 0;
        for _ in 0..MOST_DRAWN {
            (operation.draw)(&mut self.session);
            if done.get() {
                break;
            }
        }
        self.session.spoil = None;
        let caught = done.get() && self.session.failed == 1;
        self.hold(format!("{}: {name}", operation.name), caught);
    }
}
