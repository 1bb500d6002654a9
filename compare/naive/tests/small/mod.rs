//! Reports on frames that are small enough to be counted by hand.

use naive::align::{Options, Scratch, Stack};
use naive::report::{RECORD_BYTES, Report, Rivalry, Room, report};
use naive::stacksteps::{OPTIONS, PERCENTILE, RIVALRY};

/// The least reach that has rivals beside the step.
pub const REACH_2: Rivalry = Rivalry {
    reach: 2,
    ..RIVALRY
};

/// A report on frames of this height, the first of which is the reference, without halving.
pub fn small_report(frames: &[&[u8]], height: usize, tolerance: u8, rivalry: Rivalry) -> Report {
    let (count, width) = (frames.len(), frames[0].len() / height);
    let stack = Stack {
        samples: &frames.concat(),
        widths: &vec![width; count],
        heights: &vec![height; count],
        percentiles: &vec![PERCENTILE; count],
        reference: 0,
    };
    report_of(stack, tolerance, rivalry)
}

/// A report of a stack, without halving.
pub fn report_of(stack: Stack, tolerance: u8, rivalry: Rivalry) -> Report {
    let count = stack.widths.len();
    let options = Options {
        bits: 1,
        tolerance,
        ..OPTIONS
    };
    let room = Room {
        shifts: 2 * count,
        verdicts: count,
        scratch: Scratch::of_step(stack.widths[0], stack.heights[0], 1),
        records: rivalry.most_rivals() * count * RECORD_BYTES,
    };
    report(stack, &options, &rivalry, room).unwrap()
}
