//! Holds the port against the original and the naive reading on seeded inputs, call
//! by call, after one run of every call on a thread with little room, of reports at the
//! same time, of refused calls with closed outputs, and of all short headers of a greymap.
//! Takes a seed, or none for the usual one. Ends at the first disagreement.

mod claims;
mod counts;
mod files;
mod frames;
mod lent;
mod levels;
mod mosaic;
mod moves;
mod parallel;
mod percentiles;
mod report;
mod sealed;
mod search;
mod threads;
mod whole;

use std::fmt::Debug;
use std::process::ExitCode;

use files::{headers, stacks, writes};
use mosaic::planes;
use naive::Refusal;
use trials::inputs::SIZES_OVER;
use trials::{Call, Outcome, call, same};

const CALLS: [Call; 49] = [
    call("from_rgb", 3000, frames::from_rgb),
    call("shrink2 average", 3000, frames::shrink2_average),
    call("shrink2 subsample", 3000, frames::shrink2_subsample),
    call("threshold", 4200, frames::threshold),
    call("compute_bitmaps", 4200, frames::compute_bitmaps),
    call("get", 4000, frames::get),
    call("set", 4000, frames::set),
    call("count_ones", 4000, frames::count_ones),
    call("row", 4000, frames::row),
    call("doubled", 4000, moves::doubled),
    call("offset", 4000, moves::offset),
    call("shifted", 4000, moves::shifted),
    call("common_crop", 4000, moves::common_crop),
    call("disagreement", 6000, counts::disagreement),
    call("pyramid", 4000, levels::pyramid),
    call("level", 4000, levels::level),
    call("scratch", 4000, levels::scratch),
    call("shift", 4000, search::shift),
    call("align_stack", 4000, search::align_stack),
    call("report", 4000, report::report),
    call("threshold tally", frames::TALLIES, frames::tally),
    call("shift stops", search::STOPS, search::stops),
    call("read_pgm", 400, files::image),
    call("read_pgm faults", 3000, files::fault),
    call("read_pgm limits", files::LIMITS, files::limit),
    call("read_pgm digits", files::MOST_DIGITS, files::digits),
    call("read_stack", 60 * stacks::MOST_IMAGES, stacks::stack),
    call("read_stack faults", 40 * stacks::PAIRS, stacks::stack_fault),
    call(
        "read_stack of none",
        4 * stacks::NO_IMAGES,
        stacks::no_image,
    ),
    call("read_stack bracket", 300, stacks::bracket),
    call("write_pgm", 4000, writes::frame),
    call("write_pgm sides", writes::SIZES, writes::sides),
    call("write_pgm digits", writes::EVERY_SIDE, writes::digits),
    call("write_pgm over", 4 * SIZES_OVER.len(), writes::over),
    call("write_pgm lengths", 1000, writes::lengths),
    call("write_pgm again", 1600, writes::again),
    call("write_pgm pairs", writes::PAIRS, writes::pair),
    call("shift unequal", 2000, search::shift_unequal),
    call("align_stack unequal", 1200, search::align_stack_unequal),
    call("report unequal", 1200, report::report_unequal),
    call(
        "percentile lists",
        20 * percentiles::LENGTHS,
        percentiles::lengths,
    ),
    call(
        "percentile places",
        2 * percentiles::PLACES,
        percentiles::places,
    ),
    call("take_apart", 4000, mosaic::take_apart),
    call("put_together", 4000, mosaic::put_together),
    call("mosaic sizes", mosaic::SIZES, mosaic::sizes),
    call("mosaic over", 4 * SIZES_OVER.len(), mosaic::over),
    call("planes", mosaic::LAYOUTS, mosaic::layout),
    call("planes of scenes", 1000, planes::scene),
    call("planes moved", planes::MOVED, planes::moved),
];

fn main() -> ExitCode {
    let first = [threads::run, parallel::run, sealed::run, headers::run];
    if let Err(wrong) = first.into_iter().try_for_each(|run| run()) {
        println!("{wrong}");
        return ExitCode::FAILURE;
    }
    let headers = headers::COUNT;
    let who = format!("port, naive and original; besides {headers} short headers, port and naive");
    trials::run(&CALLS, &who)
}

/// Agreement of the port, by its status and what it has written, with the naive
/// reading on every input and with the original where it has an answer, or its parts
/// have. It is asked only about what is accepted.
fn agreed<T: PartialEq + Debug>(
    input: &str,
    (status, written): (u32, T),
    naive: Result<T, Refusal>,
    original: Option<impl FnOnce() -> Result<T, Refusal>>,
) -> Outcome {
    let number = |refusal: Refusal| refusal.number;
    let port = match status {
        0 => Ok(written),
        refused => Err(refused),
    };
    same(input, ("port", &port), ("naive", &naive.map_err(number)))?;
    match original {
        Some(original) if port.is_ok() => {
            let original = original().map_err(number);
            same(input, ("port", &port), ("original", &original))
        }
        _ => Ok(()),
    }
}
