//! A table while it is drawn up.

use super::{Dice, Letters};
use crate::rules::record::{Record, FIRST, MARKED};
use std::collections::BTreeSet;

/// A table while it is drawn up: the flags of the states of each side, and the edges.
pub struct Draft {
    pub letters: Letters,
    pub controllers: Vec<u8>,
    pub worlds: Vec<u8>,
    edges: BTreeSet<Record>,
}

impl Draft {
    pub fn new(letters: Letters, controllers: usize, worlds: usize) -> Draft {
        Draft {
            letters,
            controllers: vec![0; controllers],
            worlds: vec![0; worlds],
            edges: BTreeSet::new(),
        }
    }

    pub fn output(&mut self, from: usize, letter: usize, to: usize) {
        self.edges.insert([3, from as u8, letter as u8, to as u8]);
    }

    pub fn input(&mut self, from: usize, letter: usize, to: usize) {
        self.edges.insert([4, from as u8, letter as u8, to as u8]);
    }

    pub fn random_output(&mut self, dice: &mut Dice, from: usize, letter: usize) {
        self.output(from, letter, dice.below(self.worlds.len()));
    }

    pub fn random_input(&mut self, dice: &mut Dice, from: usize, letter: usize) {
        self.input(from, letter, dice.below(self.controllers.len()));
    }

    pub fn noise(&mut self, dice: &mut Dice) {
        let (controllers, worlds) = (self.controllers.len(), self.worlds.len());
        let (from, letter) = (dice.below(controllers), dice.below(self.letters.outputs));
        let (back, input) = (dice.below(worlds), dice.below(self.letters.inputs));
        match dice.below(5) {
            0 => self.random_output(dice, from, letter),
            1 => self.random_input(dice, back, input),
            2 => self.controllers[from] ^= MARKED,
            3 => self.worlds[back] ^= MARKED,
            _ => self.controllers[from] |= FIRST,
        }
    }

    pub fn bytes(&self) -> Vec<u8> {
        let states = |kind: u8, flags: &[u8]| -> Vec<Record> {
            flags.iter().zip(0..).map(|(flags, state)| [kind, state, *flags, 0]).collect()
        };
        let mut records = states(1, &self.controllers);
        records.extend(states(2, &self.worlds));
        records.extend(&self.edges);
        records.concat()
    }
}

pub fn grid(states: usize, letters: usize) -> impl Iterator<Item = (usize, usize)> {
    (0..states).flat_map(move |state| (0..letters).map(move |letter| (state, letter)))
}
