//! What the documents say of records, marks, starts, joins, rows, answers and of two positions; nothing
//! here solves anything.

pub mod answer;
pub mod codes;
pub mod compared;
pub mod join;
pub mod read;
pub mod record;
pub mod rows;
pub mod table;
