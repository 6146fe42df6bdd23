//! A reference for the desk and for the calls, written from the rules alone: it writes out trees, and knows nothing of the product's
//! method.

pub mod answers;
pub mod keepers;
pub mod lent;
pub mod night;
pub mod pattern;
pub mod self_test;
mod self_test_sheet;
mod self_test_turns;
pub mod stretches;
pub mod trees;

/// The stack that a thread wants which asks for answers: trees of long texts are deep.
pub const STACK: usize = 1 << 29;
