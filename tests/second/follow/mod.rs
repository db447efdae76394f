//! Rows followed on a table, in two ways that share no code that decides anything: run by run, each with
//! its visits so far; and by the most visits that any run makes, however long it is. What is counted are
//! visits to marked states, and "a run visits its first state too" (R-2 of document 02).

pub mod longest;
pub mod single;
