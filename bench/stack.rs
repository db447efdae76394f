//! The stack that a call needs: how much less deep a thread can sink if it makes the call at the
//! bottom than if it doesn't.
//!
//! An overflow ends the process, so each try is a process of its own: this program again.

use crate::call::{Call, Outcome};
use crate::linked;
use std::hint::black_box;
use std::io;
use std::process::{Command, Stdio};

/// The words by which this program is started for a try; the bytes to sink come next.
pub const SINK: &str = "--sink";
pub const SINK_AND_SOLVE: &str = "--sink-and-solve";
pub const SINK_AND_PARTS: &str = "--sink-and-parts";
pub const SINK_AND_CHECK: &str = "--sink-and-check";

const THREAD_BYTES: usize = 1 << 20;

/// Goes on by small frames until it is so many bytes below the top; gives how many they are.
#[inline(never)]
fn sink(top: usize, bytes: usize, at_bottom: &mut dyn FnMut()) -> usize {
    let here = 0u8;
    let sunk = top - black_box(&here) as *const u8 as usize;
    if sunk < bytes {
        // The result is looked at, so that no frame ends before the next one begins.
        return black_box(sink(top, bytes, at_bottom));
    }
    at_bottom();
    sunk
}

fn in_thread(bytes: usize, mut at_bottom: impl FnMut() + Send + 'static) -> usize {
    let whole = move || {
        let here = 0u8;
        sink(black_box(&here) as *const u8 as usize, bytes, &mut at_bottom)
    };
    let thread = std::thread::Builder::new().stack_size(THREAD_BYTES).spawn(whole);
    thread.expect("a thread can be started").join().expect("nothing panics there")
}

/// A try without a table: says how far it has sunk, if it comes so far.
pub fn try_to_sink(bytes: usize) {
    println!("{}", in_thread(bytes, || ()));
}

pub fn try_call(bytes: usize, call: Call) {
    let mut lent = Outcome::result_only(&call, 0);
    println!("{}", in_thread(bytes, move || linked::make(&call, &mut lent)));
}

/// How far a try has sunk; empty if the stack was too small.
fn sunk(word: &str, bytes: usize) -> io::Result<Option<usize>> {
    let mut program = Command::new(std::env::current_exe()?);
    let output = program.args([word, &bytes.to_string()]).stderr(Stdio::null()).output()?;
    let printed = String::from_utf8_lossy(&output.stdout);
    Ok(output.status.success().then(|| printed.trim().parse().ok()).flatten())
}

fn deepest(word: &str) -> io::Result<usize> {
    let mut fits = sunk(word, 0)?.ok_or(io::Error::other("the thread's stack is too small"))?;
    let mut over = THREAD_BYTES;
    while fits + 1 < over {
        let middle = fits + (over - fits) / 2;
        match sunk(word, middle)? {
            Some(deeper) if deeper < over => fits = deeper,
            _ => over = middle,
        }
    }
    Ok(fits)
}

/// The bytes that the call at the bottom needs, give or take a frame of `sink`.
pub fn needed(word: &str) -> io::Result<usize> {
    Ok(deepest(SINK)? - deepest(word)?)
}
