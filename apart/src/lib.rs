//! Ghaymurath's scheduler board for survey launches, written apart from document 01 alone.
//!
//! Plain and literal: every tick is made one by one, so that this program can serve as an
//! outside comparison for the proved one.

pub mod board;
pub mod damage;
pub mod lines;
pub mod play;
pub mod random;
pub mod sheet;
pub mod tables;
pub mod wrong;
