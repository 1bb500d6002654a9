//! Documents 01, the scope, and 02, the changes to it, read pixel by pixel: plain and
//! slow, so that each line can be held against a sentence there. Nothing is taken from
//! the original's code but the names and the order of its nine candidates.
//!
//! Buffers are not written here. A call takes the lengths of the buffers that its
//! caller lends (`room`, [`align::Scratch`]) and hands back what it would write, so
//! a refusal leaves them alone by construction.

pub mod align;
pub mod bitmap;
pub mod difference;
pub mod geometry;
pub mod gray;
pub mod mosaic;
pub mod pgm;
pub mod refusals;
pub mod report;
pub mod shrink;
pub mod stacksteps;
pub mod threshold;

pub use refusals::Refusal;
