//! A call, whatever it is: an operation with numbers and buffers; and an outcome: a result and the
//! buffers afterwards.

use crate::make::Dice;
use crate::play::Explored;
use crate::session::Session;

/// What a call does with a buffer.
#[derive(Clone, Copy, Debug, PartialEq, Eq)]
pub enum Use {
    Read,
    Written,
    /// Read and written: its bytes before the call are a part of what was asked.
    #[allow(dead_code)]
    Both,
}

/// How a buffer lies in the memory of whoever makes the call (tests/c/serve.c).
#[derive(Clone, Copy, Debug, PartialEq, Eq)]
pub enum Layout {
    /// It ends where memory that can't be read begins.
    BeforeWall,
    /// It begins so many bytes after such memory.
    AfterWall(u32),
    /// It is the same bytes as an earlier buffer.
    SameAs(usize),
}

#[derive(Clone, Debug)]
pub struct Buffer {
    pub bytes: Vec<u8>,
    pub layout: Layout,
}

/// A name for something that a call has, and of which there must be enough.
pub type Feature = &'static str;

/// So many calls at least must have had this code and this feature.
pub struct Least {
    pub code: u32,
    pub feature: Feature,
    pub least: u64,
}

pub const fn least(code: u32, feature: Feature, least: u64) -> Least {
    Least { code, feature, least }
}

/// What a check has found: its name, and what is wrong.
pub type Found = (&'static str, String);

/// A wrong outcome, made from the right one where that can be done.
pub struct Lie {
    pub name: &'static str,
    pub tell: fn(&Call, &Outcome, &mut Dice) -> Option<Outcome>,
}

/// The feature that every call has.
pub const ANY: Feature = "";

/// All that is known of one call: one file in calls/ for each.
pub struct Operation {
    pub name: &'static str,
    /// The program that answers for its archive.
    pub server: &'static str,
    pub numbers: &'static [&'static str],
    pub buffers: &'static [(&'static str, Use)],
    /// What each oracle says to a call, at least one.
    pub oracles: fn(&Call) -> Vec<Voice>,
    /// What is wrong with an outcome though the oracles agree in it.
    pub property: fn(&Call, &Outcome, &mut Explored) -> Vec<Found>,
    /// The checks that the property is made of.
    pub checks: &'static [&'static str],
    /// Wrong outcomes that the property alone has to see through.
    pub lies: &'static [Lie],
    /// Draws calls and puts them.
    pub draw: fn(&mut Session),
    /// What a call and its outcome have.
    pub features: fn(&Call, &Outcome) -> Vec<Feature>,
    pub least: &'static [Least],
}

#[derive(Clone)]
pub struct Call {
    pub operation: &'static Operation,
    pub numbers: Vec<u32>,
    pub buffers: Vec<Buffer>,
    /// What whoever drew it knows of it.
    pub notes: Vec<Feature>,
}

impl Call {
    /// The place of the operation's buffer with this name.
    pub fn place(&self, name: &str) -> Option<usize> {
        self.operation.buffers.iter().position(|(known, _)| *known == name)
    }

    /// The bytes of a buffer before the call.
    pub fn bytes(&self, name: &str) -> &[u8] {
        &self.buffers[self.place(name).expect("the call has this buffer")].bytes
    }

    pub fn lend(&mut self, name: &str, length: usize) {
        let place = self.place(name).expect("the call has this buffer");
        self.buffers[place].bytes = lent(length);
    }

    pub fn noted(mut self, note: Feature) -> Call {
        self.notes.push(note);
        self
    }
}

/// The result and every byte of the lent buffers afterwards.
#[derive(Clone, Debug, PartialEq, Eq)]
pub struct Outcome {
    pub result: u32,
    pub buffers: Vec<Vec<u8>>,
    /// The least room for the call, 0 where whoever answers doesn't tell.
    pub largest: usize,
    /// What whoever answers knows beyond the bytes.
    pub notes: Vec<Feature>,
}

impl Outcome {
    pub fn bytes<'a>(&'a self, call: &Call, name: &str) -> &'a [u8] {
        &self.buffers[call.place(name).expect("the call has this buffer")]
    }

    pub fn result_only(call: &Call, result: u32) -> Outcome {
        let buffers = call.buffers.iter().map(|buffer| buffer.bytes.clone()).collect();
        Outcome { result, buffers, largest: 0, notes: Vec::new() }
    }

    /// "Bytes beyond those written stay as they were."
    pub fn write(&mut self, call: &Call, name: &str, bytes: &[u8]) {
        let place = call.place(name).expect("the call has this buffer");
        self.buffers[place][..bytes.len()].copy_from_slice(bytes);
    }
}

/// What an engine, or whoever else is asked, says to a call.
pub struct Voice {
    pub name: &'static str,
    pub outcome: Outcome,
}

/// What a lent byte holds before the call: never the same as its neighbours.
fn pattern(place: usize) -> u8 {
    (place as u8).wrapping_mul(29) ^ 0xA7
}

/// A buffer that is to be written to.
pub fn lent(length: usize) -> Vec<u8> {
    (0..length).map(pattern).collect()
}
