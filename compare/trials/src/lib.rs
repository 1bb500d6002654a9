//! What the comparisons, the vectors, the timings, the tables and the hall's command
//! share: seeded inputs like the trade's, photographs with known moves, the terms that are
//! advised, the original asked in the naive reading's terms, the run over all cases, and a
//! clock.

pub mod advice;
pub mod camera;
pub mod clock;
pub mod frames;
pub mod inputs;
pub mod matches;
pub mod original;
pub mod pgm;
pub mod recount;
mod run;
pub mod scenes;
pub mod unequal;

pub use run::{Call, Outcome, call, run, same};
