//! Holds the naive reading against the original on seeded inputs, call by call.
//! Takes a seed, or none for the usual one. Ends at the first disagreement.

mod calls;
mod stacks;

use std::fmt::Debug;
use std::process::ExitCode;

use trials::{Call, Outcome, call};

const CALLS: [Call; 24] = [
    call("from_rgb", 2000, calls::from_rgb),
    call("shrink2", 3000, calls::shrink2),
    call("shifted", 4000, calls::shifted),
    call("threshold", 5250, calls::threshold),
    call("compute_bitmaps", 4200, calls::compute_bitmaps),
    call("get", 3000, calls::get),
    call("set", 3000, calls::set),
    call("count_ones", 2000, calls::count_ones),
    call("row", 3000, calls::row),
    call("doubled", 4000, calls::doubled),
    call("offset", 4000, calls::offset),
    call("common_crop", 4000, calls::common_crop),
    call("disagreement", 12000, calls::disagreement),
    call("pyramid", 2000, stacks::pyramid),
    call("level", 2000, stacks::level),
    call("scratch", 2000, stacks::scratch),
    call("shift", 3000, stacks::shift),
    call("align_stack", 1500, stacks::align_stack),
    call("report", 1200, stacks::report),
    call("stacksteps", 120, stacks::stacksteps),
    call("shift stops", stacks::STOPS, stacks::stops),
    call("shift unequal", 1000, stacks::shift_unequal),
    call("align_stack unequal", 600, stacks::align_stack_unequal),
    call("report unequal", 600, stacks::report_unequal),
];

fn main() -> ExitCode {
    trials::run(&CALLS, "naive and original")
}

fn same<T: PartialEq + Debug + ?Sized>(input: &str, naive: &T, other: &T) -> Outcome {
    trials::same(input, ("naive", naive), ("original", other))
}
