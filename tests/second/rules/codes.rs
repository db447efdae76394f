//! The numbered answers of document 01, and those that document 02 adds.

pub const REALIZABLE: u32 = 0;
pub const UNREALIZABLE: u32 = 1;
pub const BOUND: u32 = 2;
pub const ROOM: u32 = 3;
pub const LENGTH: u32 = 4;
pub const RECORD: u32 = 5;
pub const ORDER: u32 = 6;
pub const STATES: u32 = 7;
pub const START: u32 = 8;
pub const EDGE: u32 = 9;
pub const GAP: u32 = 10;
pub const FULL: u32 = 11;
pub const NOTHING: u32 = 12;
pub const LETTERS: u32 = 13;
pub const SIZE: u32 = 14;
pub const ROWS: u32 = 15;

/// The name of each code, at its number.
pub const NAMES: [&str; 16] = [
    "REALIZABLE",
    "UNREALIZABLE",
    "BOUND",
    "ROOM",
    "LENGTH",
    "RECORD",
    "ORDER",
    "STATES",
    "START",
    "EDGE",
    "GAP",
    "FULL",
    "NOTHING",
    "LETTERS",
    "SIZE",
    "ROWS",
];

/// A code by its name, and a number that is none as it is.
pub fn name(code: u32) -> String {
    NAMES.get(code as usize).map_or(code.to_string(), |name| name.to_string())
}
