//! Pairs of words for the program: positions that stand to each other in every way, and words that are no
//! position.

use crate::make::Dice;
use std::fmt;

const STATES: usize = 8;

/// The two words of a call: any bytes but 0, which no word can have.
pub struct Pair {
    pub first: Vec<u8>,
    pub second: Vec<u8>,
}

pub type Shape = fn(&mut Dice) -> Pair;

/// Each draws a pair of its own kind; they take turns.
pub const SHAPES: [Shape; 11] = [
    apart,
    close,
    equal,
    |dice| raised(dice, 1),
    |dice| swapped(raised(dice, 1)),
    |dice| raised(dice, STATES),
    |dice| swapped(raised(dice, STATES)),
    mixed,
    |dice| spoilt(dice, wrong_length),
    |dice| spoilt(dice, other_byte),
    both_wrong,
];

impl fmt::Display for Pair {
    fn fmt(&self, out: &mut fmt::Formatter) -> fmt::Result {
        write!(out, "'{}' '{}'", self.first.escape_ascii(), self.second.escape_ascii())
    }
}

/// Digits up to the largest.
fn digits(dice: &mut Dice, long: usize, largest: usize) -> Vec<u8> {
    (0..long).map(|_| b'0' + dice.between(0, largest) as u8).collect()
}

fn apart(dice: &mut Dice) -> Pair {
    Pair { first: digits(dice, STATES, 9), second: digits(dice, STATES, 9) }
}

/// Few digits, so that any of the four may come.
fn close(dice: &mut Dice) -> Pair {
    let (mut first, mut second) = (vec![b'0'; STATES], vec![b'0'; STATES]);
    for _ in 0..2 {
        first[dice.below(STATES)] = b'1';
        second[dice.below(STATES)] = b'1';
    }
    Pair { first, second }
}

fn equal(dice: &mut Dice) -> Pair {
    let first = digits(dice, STATES, 9);
    Pair { second: first.clone(), first }
}

/// The second is the first with up to so many states raised, and at least one.
fn raised(dice: &mut Dice, most: usize) -> Pair {
    let first = digits(dice, STATES, 8);
    let mut second = first.clone();
    for _ in 0..dice.between(1, most) {
        let state = dice.below(STATES);
        let digit = (first[state] - b'0') as usize;
        second[state] = b'0' + dice.between(digit + 1, 9) as u8;
    }
    Pair { first, second }
}

fn swapped(pair: Pair) -> Pair {
    Pair { first: pair.second, second: pair.first }
}

/// One state is raised and another is lowered; the rest are equal.
fn mixed(dice: &mut Dice) -> Pair {
    let mut pair = equal(dice);
    let one = dice.below(STATES);
    let other = (one + dice.between(1, STATES - 1)) % STATES;
    (pair.first[one], pair.second[one]) = unequal(dice);
    (pair.second[other], pair.first[other]) = unequal(dice);
    pair
}

/// A digit, and a lower one.
fn unequal(dice: &mut Dice) -> (u8, u8) {
    let higher = dice.between(1, 9);
    (b'0' + higher as u8, b'0' + dice.below(higher) as u8)
}

/// A word that is no position, in place of one of the two.
fn spoilt(dice: &mut Dice, wrong: fn(&mut Dice) -> Vec<u8>) -> Pair {
    let mut pair = apart(dice);
    if dice.chance(50) {
        pair.first = wrong(dice);
    } else {
        pair.second = wrong(dice);
    }
    pair
}

fn wrong_length(dice: &mut Dice) -> Vec<u8> {
    let long = [0, 1, 6, 7, 9, 10, 16, 40, 5_000][dice.below(9)];
    digits(dice, long, 9)
}

/// The bytes next to the digits come as often as all the others together.
fn other_byte(dice: &mut Dice) -> Vec<u8> {
    let mut word = digits(dice, STATES, 9);
    let byte = match dice.below(4) {
        0 => b'0' - 1,
        1 => b'9' + 1,
        2 => dice.between(1, b'0' as usize - 1) as u8,
        _ => dice.between(b'9' as usize + 1, 255) as u8,
    };
    word[dice.below(STATES)] = byte;
    word
}

fn both_wrong(dice: &mut Dice) -> Pair {
    Pair { first: wrong_length(dice), second: other_byte(dice) }
}
