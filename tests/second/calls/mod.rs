//! The registry: every call that is compared, one file each.

pub mod check;
pub mod join;
mod lies;
pub mod parts;
pub mod solve;
pub mod solved;
pub mod two;

use crate::call::Operation;

pub const ALL: [&Operation; 4] = [&solve::SOLVE, &join::JOIN, &parts::PARTS, &check::CHECK];
