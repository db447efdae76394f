//! The server writes the byte before or after each buffer, or reads the one after it, with the buffer at
//! either wall and at neither.

use super::Control;
use crate::call::{Call, Layout, Operation};
use crate::proved::Proved;

const LAYOUTS: [Layout; 3] = [Layout::BeforeWall, Layout::AfterWall(0), Layout::AfterWall(5)];

/// What the server is asked to do to a buffer beside the call (tests/c/serve.c).
const WRITE_BEFORE: u32 = 1;
const WRITE_AFTER: u32 = 2;
const READ_AFTER: u32 = 3;

impl Control {
    /// What it does beside a call is seen; a call beside which it does nothing is answered.
    pub fn outside(&mut self, operation: &'static Operation) {
        let Some((call, _)) = self.samples(operation, 1).pop() else {
            return self.hold(format!("{}: nothing was solved", operation.name), false);
        };
        for buffer in 0..operation.buffers.len() {
            for layout in LAYOUTS {
                let mut call = call.clone();
                call.buffers[buffer].layout = layout;
                let mischief = |what: u32| 3 * buffer as u32 + what;
                self.mischief(&call, 0, "nothing done outside");
                self.mischief(&call, mischief(WRITE_BEFORE), "a byte written before a buffer");
                self.mischief(&call, mischief(WRITE_AFTER), "a byte written after a buffer");
                if layout == Layout::BeforeWall {
                    self.mischief(&call, mischief(READ_AFTER), "a byte read after a buffer");
                }
            }
        }
    }

    /// A process of its own: it has to break off, unless it was asked for nothing.
    fn mischief(&mut self, call: &Call, mischief: u32, what: &str) {
        let mut proved = Proved::new(&self.line, true);
        let heard = proved.ask(call, mischief).and_then(|()| proved.hear(call)).is_ok();
        let well = proved.end().is_ok();
        let answered = mischief == 0;
        let caught = heard == answered && well == answered;
        self.hold(format!("{}: {what}, mischief {mischief}", call.operation.name), caught);
    }
}
