//! The calls for Rust. `feshamiru.h` beside this file says what each takes and gives: a slice passes
//! as a pointer and then a length. Link them from the archive that tools/archive writes.

// A program need not use them all.
#![allow(dead_code)]

/// The code of an answer.
pub const DESK_REALIZABLE: u32 = 0;
pub const DESK_UNREALIZABLE: u32 = 1;
pub const DESK_BOUND: u32 = 2;
pub const DESK_ROOM: u32 = 3;
pub const DESK_LENGTH: u32 = 4;
pub const DESK_RECORD: u32 = 5;
pub const DESK_ORDER: u32 = 6;
pub const DESK_STATES: u32 = 7;
pub const DESK_START: u32 = 8;
pub const DESK_EDGE: u32 = 9;
pub const DESK_GAP: u32 = 10;
pub const DESK_FULL: u32 = 11;
pub const DESK_NOTHING: u32 = 12;
pub const DESK_LETTERS: u32 = 13;
pub const DESK_SIZE: u32 = 14;
pub const DESK_ROWS: u32 = 15;

/// Lengths of buffers in bytes, and the largest room.
pub const DESK_TABLE_BYTES: u32 = 4160;
pub const DESK_WINNER_BYTES: u32 = 8;
pub const DESK_CONTROLLER_BYTES: u32 = 32;
pub const DESK_ROWS_BYTES: u32 = 8192;
pub const DESK_ANSWER_BYTES: u32 = 24;
pub const DESK_MOST_ROOM: u32 = 256;

extern "C" {
    pub fn desk_solve(
        table: *const u8,
        table_length: usize,
        k: u32,
        room: u32,
        winners: *mut u8,
        winners_length: usize,
        controller: *mut u8,
        controller_length: usize,
        answer: *mut u8,
        answer_length: usize,
    ) -> u32;

    pub fn desk_join(
        first: *const u8,
        first_length: usize,
        second: *const u8,
        second_length: usize,
        out: *mut u8,
        out_length: usize,
        answer: *mut u8,
        answer_length: usize,
    ) -> u32;

    pub fn desk_parts(
        first: *const u8,
        first_length: usize,
        second: *const u8,
        second_length: usize,
        k: u32,
        room: u32,
        winners: *mut u8,
        winners_length: usize,
        controller: *mut u8,
        controller_length: usize,
        answer: *mut u8,
        answer_length: usize,
    ) -> u32;

    pub fn desk_check(
        table: *const u8,
        table_length: usize,
        k: u32,
        rows: *const u8,
        rows_length: usize,
        answer: *mut u8,
        answer_length: usize,
    ) -> u32;
}
