//! The proved port through the functions that `crates/mtb_c` exports, a module for
//! each of its files. A call stands in one place: its safe function, with the
//! declaration of the exported one inside.
//!
//! Outputs go into buffers that the caller lends. A status is 0 for an accepted call
//! and else the number of its refusal, which leaves every buffer as it was, but for
//! the values of a refusal and, under 10, the needed scratch.
//!
//! What the calls take is named here, after the naive reading of the scope, so that
//! a caller needs no other crate: frames, exposures, bitmaps, stacks and planes, the lengths
//! that they have, options, and the numbers of refusals and verdicts.
//!
//! The exported functions ask nothing of their caller but that each pointer is good
//! for its length and that outputs overlap nothing, which references see to. So the
//! functions here are safe.

pub mod counts;
pub mod files;
pub mod frames;
pub mod levels;
pub mod mosaic;
pub mod moves;
pub mod report;
pub mod search;

pub use naive::align::{Exposure, Options, Scratch, Stack, halved_samples};
pub use naive::bitmap::{Bitmap, words_needed, words_per_row};
pub use naive::difference::Pair;
pub use naive::geometry::Shift;
pub use naive::gray::Frame;
pub use naive::mosaic::{Plane, Planes};
pub use naive::refusals;
pub use naive::report::{ALONE, CONTESTED, RECORD_BYTES, REFERENCE, Record, Rivalry, WEAK};
pub use naive::shrink::Shrink;

/// Room for what a refusal tells besides its number, from the front on: under 4 both
/// sizes and, of a stack, the number of the frame; under 5 the reference and the
/// number of frames; under 10 the number of records needed.
pub type Values = [usize; 5];
