//! The nine files beside this one are those of the repository twangodev/mtb-align
//! at d985e07ce6 (2026-07-30), byte for byte. The published root is not at hand;
//! this one stands in for it: it declares the modules and re-exports what the
//! files import through `crate::` and what callers need.

mod align;
mod bitmap;
mod difference;
mod error;
mod geometry;
mod gray;
mod shrink;
mod strips;
mod threshold;

pub use align::{Options, align_stack, shift};
pub use bitmap::Bitmap;
pub use difference::disagreement;
pub use error::Error;
pub use geometry::{Rect, Shift, common_crop};
pub use gray::Gray;
pub use shrink::{Shrink, shrink2};
pub use threshold::{Bitmaps, Percentile, compute_bitmaps, threshold};
