//! The proved calls, linked into this program: those of include/feshamiru.rs.

use crate::call::{Call, Outcome, Use};
use crate::calls::solved::{patience, room};
use crate::feshamiru::{desk_check, desk_parts, desk_solve};

/// What a call writes to, in its order: winners and controller where it solves, and the answer.
type Lent<'a> = &'a mut [Vec<u8>];

fn solve(call: &Call, lent: Lent) -> u32 {
    let table = call.bytes("table");
    let [winners, controller, answer] = lent else { panic!("three buffers are written to") };
    // SAFETY: each pointer is that of a buffer of its own, and its length comes with it.
    unsafe {
        desk_solve(
            table.as_ptr(),
            table.len(),
            patience(call),
            room(call),
            winners.as_mut_ptr(),
            winners.len(),
            controller.as_mut_ptr(),
            controller.len(),
            answer.as_mut_ptr(),
            answer.len(),
        )
    }
}

fn parts(call: &Call, lent: Lent) -> u32 {
    let (first, second) = (call.bytes("first"), call.bytes("second"));
    let [winners, controller, answer] = lent else { panic!("three buffers are written to") };
    // SAFETY: as above; the two tables are only read.
    unsafe {
        desk_parts(
            first.as_ptr(),
            first.len(),
            second.as_ptr(),
            second.len(),
            patience(call),
            room(call),
            winners.as_mut_ptr(),
            winners.len(),
            controller.as_mut_ptr(),
            controller.len(),
            answer.as_mut_ptr(),
            answer.len(),
        )
    }
}

fn check(call: &Call, lent: Lent) -> u32 {
    let (table, rows) = (call.bytes("table"), call.bytes("rows"));
    let [answer] = lent else { panic!("one buffer is written to") };
    // SAFETY: as above; the table and the rows are only read.
    unsafe {
        desk_check(
            table.as_ptr(),
            table.len(),
            patience(call),
            rows.as_ptr(),
            rows.len(),
            answer.as_mut_ptr(),
            answer.len(),
        )
    }
}

/// Makes the call on the buffers that are lent: those of `answer` once more.
pub fn make(call: &Call, lent: &mut Outcome) {
    let read = call.operation.buffers.iter().filter(|(_, used)| *used == Use::Read).count();
    let written = &mut lent.buffers[read..];
    lent.result = match call.operation.name {
        "solve" => solve(call, written),
        "check" => check(call, written),
        _ => parts(call, written),
    };
}

pub fn answer(call: &Call) -> Outcome {
    let mut outcome = Outcome::result_only(call, 0);
    make(call, &mut outcome);
    outcome
}
