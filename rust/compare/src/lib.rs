//! Random cases for the library and the second implementation, with the same inputs and the same buffers. Whatever a call leaves is
//! compared: its answer, and every buffer at exit.

pub mod bundles;
pub mod desk;
pub mod library;
pub mod lowest;
pub mod mending;
pub mod misses;
pub mod openings;
pub mod outcome;
pub mod random;
pub mod texts;
pub mod totals;
