//! The program for two positions: it is run on random pairs of words, and what it prints is held against
//! document 02's comparison, byte by byte.

mod draw;
mod reply;
pub mod spoil;

use crate::compare::MOST_PRINTED;
use crate::make::Dice;
use draw::{Pair, SHAPES};
use reply::{fault, heard, kind, position, KINDS};
use std::collections::{BTreeMap, BTreeSet};
use std::io;

/// So many pairs are drawn where no number is given, and from so many on the least numbers are asserted.
pub const CASES: u64 = 1_000;

/// How often each kind of reply must have come up at least, in the order of `KINDS`.
const LEAST: [u64; 6] = [90, 180, 180, 180, 130, 60];

/// Every digit has to be met at every state.
const DIGITS_MET: u64 = 10 * 8;

pub struct Positions {
    line: String,
    pub passed: u64,
    pub failed: u64,
    /// How often each kind of reply was due.
    seen: BTreeMap<&'static str, u64>,
    /// The digits of positions, each with its state.
    digits: BTreeSet<(usize, i8)>,
}

impl Positions {
    pub fn new(line: &str) -> Positions {
        let (seen, digits) = (BTreeMap::new(), BTreeSet::new());
        Positions { line: line.to_string(), passed: 0, failed: 0, seen, digits }
    }

    pub fn random(&mut self, seed: u64, cases: u64) -> io::Result<()> {
        let mut dice = Dice::new(seed);
        for number in 0..cases as usize {
            self.pair(&SHAPES[number % SHAPES.len()](&mut dice))?;
        }
        if cases >= CASES {
            self.least();
        }
        Ok(())
    }

    fn pair(&mut self, pair: &Pair) -> io::Result<()> {
        *self.seen.entry(kind(pair)).or_default() += 1;
        for counts in [&pair.first, &pair.second].into_iter().filter_map(|word| position(word)) {
            self.digits.extend(counts.into_iter().enumerate());
        }
        let found = fault(pair, &heard(&self.line, pair)?);
        self.hold(found.is_none(), || format!("{pair}: {}", found.unwrap_or_default()));
        Ok(())
    }

    fn hold(&mut self, holds: bool, what: impl FnOnce() -> String) {
        if holds {
            self.passed += 1;
            return;
        }
        self.failed += 1;
        if self.failed <= MOST_PRINTED {
            println!("FAILED: {}", what());
        }
    }

    /// "  120 of at least 100: what"
    fn row(&mut self, found: u64, least: u64, what: &str) {
        println!("  {found} of at least {least}: {what}");
        self.hold(found >= least, || format!("only {found} of at least {least}: {what}"));
    }

    fn least(&mut self) {
        println!("pairs put to the program for two positions {}", self.passed + self.failed);
        for (kind, least) in KINDS.into_iter().zip(LEAST) {
            let found = self.seen.get(kind).copied().unwrap_or(0);
            self.row(found, least, kind);
        }
        self.row(self.digits.len() as u64, DIGITS_MET, "digits at a state");
    }
}
