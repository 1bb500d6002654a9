//! Times the original and the port in one run on the same inputs and prints a table
//! for each call. Arguments name the calls that are timed; without any, all are. After
//! `--plain` it prints a line for each case instead, after `--known` nothing: an unknown call
//! is refused. After `--beside`, with a file of plain lines from before a change and one from
//! after it, it prints tables of both, after `--again` the calls that are to be timed again.

mod beside;
mod counts;
#[cfg(c_peer)]
mod files;
mod frames;
mod inputs;
mod levels;
#[cfg(c_peer)]
mod mosaic;
mod moves;
mod opencv;
mod original;
#[cfg(c_peer)]
mod peer;
mod race;
mod report;
mod search;
mod table;

use std::fs;
use std::process::exit;

use beside::Beside;
use inputs::{Input, Kind, SIZES, Size};
use table::{Entry, nanoseconds};

/// The time of a call on an input, in nanoseconds: of the original, or of a C peer where the
/// original lacks the call, then of the port.
#[derive(Clone)]
struct Timed {
    call: String,
    /// How many times as fast as the other the port is meant to be.
    goal: f64,
    size: Size,
    kind: String,
    times: [f64; 2],
    /// That of OpenCV, where it has the call and is at hand.
    opencv: Option<f64>,
}

fn timed(call: &'static str, goal: f64, input: &Input, times: [f64; 2]) -> Timed {
    Timed {
        call: call.to_owned(),
        goal,
        size: input.size,
        kind: input.kind.name().to_owned(),
        times,
        opencv: None,
    }
}

impl Timed {
    fn ratio(&self) -> f64 {
        self.times[0] / self.times[1]
    }

    /// As far as the two printed decimals tell.
    fn is_below(&self, goal: f64) -> bool {
        below(self.ratio(), goal, 2)
    }

    /// What the port is timed beside.
    fn peer(&self) -> &'static str {
        let call = call_of(&self.call);
        let in_c = beside_c().any(|(name, ..)| call == Some(*name));
        if in_c { "C peer" } else { "original" }
    }

    fn is_case(&self, other: &Self) -> bool {
        (&self.call, self.size, &self.kind) == (&other.call, other.size, &other.kind)
    }

    fn case_name(&self) -> String {
        let (width, height) = self.size;
        format!("{} {width}x{height} {}", self.call, self.kind)
    }

    /// Of this and another run of the case.
    fn take_least(&mut self, again: &Self) {
        for (time, again) in self.times.iter_mut().zip(again.times) {
            *time = time.min(again);
        }
        self.opencv = self
            .opencv
            .zip(again.opencv)
            .map(|(one, other)| one.min(other));
    }
}

/// As far as so many decimals tell.
fn below(ratio: f64, bound: f64, decimals: i32) -> bool {
    ratio < bound - 0.5 / 10f64.powi(decimals)
}

impl Entry for Timed {
    fn case(&self) -> &Timed {
        self
    }

    fn heads(&self) -> String {
        let heads = format!("{:>13}{:>12}{:>8}", self.peer(), "port", "ratio");
        match self.opencv {
            Some(_) => format!("{heads}{:>12}", "OpenCV"),
            None => heads,
        }
    }

    fn figures(&self) -> String {
        let [original, port] = self.times.map(nanoseconds);
        let mark = if self.is_below(self.goal) { "<" } else { " " };
        let figures = format!("{original:>13}{port:>12}{:>7.2}{mark}", self.ratio());
        match self.opencv {
            Some(opencv) => format!("{figures}{:>12}", nanoseconds(opencv)),
            None => figures,
        }
    }
}

/// Calls by the name that an argument gives, with those of their tables that are not named
/// for them. Each side meets its input through one pointer that the compiler cannot see
/// through.
type Call = (
    &'static str,
    fn(&Input) -> Vec<Timed>,
    &'static [&'static str],
);

/// Calls timed on every input.
const CALLS: [Call; 10] = [
    ("from_rgb", frames::from_rgb, &[]),
    ("shrink2", frames::shrink2, &[]),
    (
        frames::COMPUTE_BITMAPS,
        frames::cut_and_bitmaps,
        &[frames::THRESHOLD, frames::PACKING_ALONE],
    ),
    ("count_ones", frames::count_ones, &[]),
    ("shifted", moves::shifted, &[]),
    ("pyramid", levels::pyramid, &[]),
    ("disagreement", counts::disagreement, &[]),
    ("shift", search::shift, &[]),
    ("align_stack", search::align_stack, &[]),
    ("report", report::report, &[]),
];

/// Calls whose time has nothing to do with the input.
const CALLS_ON_ONE: [Call; 2] = [
    ("pixels", frames::pixels, &["get", "set"]),
    ("common_crop", moves::common_crop, &[]),
];
const ONE: Size = (640, 480);

/// Calls on files and on mosaics, which the original lacks, on one kind of input each.
#[cfg(c_peer)]
const ON_FILES: [Call; 3] = [
    ("read_pgm", files::read_pgm, &[]),
    ("read_stack", files::read_stack, &[]),
    ("write_pgm", files::write_pgm, &[]),
];
#[cfg(c_peer)]
const FILE_SIZES: [Size; 4] = files::SIZES;
#[cfg(c_peer)]
const ON_MOSAICS: [Call; 2] = [
    ("take_apart", mosaic::take_apart, &[]),
    ("put_together", mosaic::put_together, &[]),
];
#[cfg(c_peer)]
const MOSAIC_SIZES: [Size; 8] = mosaic::SIZES;
/// What the head of the output says of them.
#[cfg(c_peer)]
const PEER_SAID: &str = "The original has no files: read_pgm, read_stack and write_pgm are timed
beside a peer in C at -O2, which has sscanf for a plain header, a loop over the bytes for one
with a comment, sscanf and memcpy for a stack, and sprintf and memcpy to write. Nor has it
mosaics: take_apart and put_together are timed beside a loop by pixel in C at -O2.";

#[cfg(not(c_peer))]
const ON_FILES: [Call; 0] = [];
#[cfg(not(c_peer))]
const FILE_SIZES: [Size; 0] = [];
#[cfg(not(c_peer))]
const ON_MOSAICS: [Call; 0] = [];
#[cfg(not(c_peer))]
const MOSAIC_SIZES: [Size; 0] = [];
#[cfg(not(c_peer))]
const PEER_SAID: &str = "There is no cc for a peer in C, so read_pgm, read_stack, write_pgm,
take_apart and put_together are left out.";

/// Those that are timed beside a peer in C.
fn beside_c() -> impl Iterator<Item = &'static Call> {
    ON_FILES.iter().chain(&ON_MOSAICS)
}

fn calls() -> impl Iterator<Item = &'static Call> {
    CALLS.iter().chain(&CALLS_ON_ONE).chain(beside_c())
}

/// The call that a table is of: one whose name is the table's or its first word, or that
/// lists it.
fn call_of(table: &str) -> Option<&'static str> {
    let first = table.split(' ').next();
    let mut calls = calls();
    let call = calls.find(|(name, _, others)| first == Some(*name) || others.contains(&table));
    call.map(|(name, ..)| *name)
}

/// How often all is timed for the tables, so that no call meets bad weather alone. For plain
/// lines once: they are of many runs, as a process may be slow throughout.
const PASSES: usize = 4;

fn main() {
    let arguments: Vec<String> = std::env::args().skip(1).collect();
    match arguments.split_first() {
        Some((option, files)) if option == "--beside" => {
            print!("{}", both_sides(option, files).said());
        }
        Some((option, files)) if option == "--again" => {
            let again = both_sides(option, files).again();
            for call in again.unwrap_or_else(|error| fail(&error)) {
                println!("{call}");
            }
        }
        Some((option, named)) if option == "--known" => refuse_unknown(named),
        Some((option, named)) if option == "--plain" => {
            refuse_unknown(named);
            for timed in least_of(1, named) {
                println!("{}", beside::plain(&timed));
            }
        }
        _ => {
            refuse_unknown(&arguments);
            print_tables(&arguments);
        }
    }
}

fn both_sides(option: &str, files: &[String]) -> Beside {
    let [before, after] = files else {
        eprintln!("{option} takes two files of plain lines, of before and of after");
        exit(2);
    };
    let [before, after] = [before, after].map(|file| {
        fs::read_to_string(file).unwrap_or_else(|error| fail(&format!("{file}: {error}")))
    });
    beside::merged(&before, &after).unwrap_or_else(|error| fail(&error))
}

fn fail(error: &str) -> ! {
    eprintln!("{error}");
    exit(1);
}

fn print_tables(named: &[String]) {
    println!(
        "Nanoseconds of processor time per call, the least of {} rounds in which both sides
take turns, of fewer where a report takes long, of more where frames are only copied.
Both are built for release without overflow checks and called by C's convention, never
inlined. The original allocates its answer in every call and frees it, the port writes
to buffers made before. {}
{PEER_SAID}
The ratio is original, or peer, to port; `<` marks one below the goal.
Packing alone is compute_bitmaps less threshold on the port's side, and the whole of
compute_bitmaps on the original's. Percentile 50, tolerance 4.
A pyramid is made for bits 6; the original's begins with a copy of the frame.
A report is of two frames, at bits 1, floor 1 and margin 0; there the original counts
once at each shift that the report surveys, in bitmaps packed before: at all within
reach but the eight around the step.
Inputs: noise, any bytes; pins, even rows of bright pins, 6 of 16 columns and 24 of 40
rows, in light that changes by row; flat, 128 throughout. RGB has each sample thrice.",
        PASSES * race::ROUNDS,
        opencv::SAID
    );

    let mut all = least_of(PASSES, named);
    all.extend(frames::packing_alone(&all));
    print!("{}", table::tables(&all));

    println!();
    let below = all.iter().filter(|timed| timed.is_below(timed.goal));
    println!("below the goal: {} of {}", below.count(), all.len());
    for timed in all.iter().filter(|timed| timed.is_below(1.0)) {
        let (case, ratio) = (timed.case_name(), timed.ratio());
        println!("slower than the {}: {case}, ratio {ratio:.2}", timed.peer());
    }
}

fn refuse_unknown(named: &[String]) {
    let known = || calls().map(|(name, ..)| *name);
    if let Some(other) = named.iter().find(|name| known().all(|call| call != *name)) {
        let known: Vec<&str> = known().collect();
        eprintln!("no call {other}; there are {}", known.join(", "));
        exit(2);
    }
}

/// The calls that are named, or all, in so many passes.
fn least_of(passes: usize, named: &[String]) -> Vec<Timed> {
    let is_timed = |call: &Call| named.is_empty() || named.iter().any(|name| name == call.0);
    let mut all = pass(is_timed);
    for _ in 1..passes {
        for (timed, again) in all.iter_mut().zip(pass(is_timed)) {
            timed.take_least(&again);
        }
    }
    all
}

/// The calls on their inputs, always in the same order.
fn pass(is_timed: impl Fn(&Call) -> bool) -> Vec<Timed> {
    let mut all = Vec::new();
    let mut time = |calls: &[Call], size: Size, kind: Kind| {
        let mut timed = calls.iter().filter(|call| is_timed(call)).peekable();
        // A large input takes its time to make.
        if timed.peek().is_some() {
            let input = Input::new(size, kind);
            all.extend(timed.flat_map(|call| call.1(&input)));
        }
    };
    for size in SIZES {
        for kind in Kind::ALL {
            time(&CALLS, size, kind);
        }
    }
    time(&CALLS_ON_ONE, ONE, Kind::Noise);
    for size in FILE_SIZES {
        time(&ON_FILES, size, Kind::Flat);
    }
    for size in MOSAIC_SIZES {
        time(&ON_MOSAICS, size, Kind::Noise);
    }
    all
}

#[cfg(test)]
mod tests {
    use super::*;

    #[test]
    fn every_table_is_of_the_call_that_times_it() {
        let small = Input::new(SIZES[0], Kind::Noise);
        for (name, time, others) in calls() {
            let mut all = time(&small);
            assert!(!all.is_empty(), "{name} has no case");
            all.extend(frames::packing_alone(&all));
            for timed in &all {
                assert_eq!(call_of(&timed.call), Some(*name), "{}", timed.call);
            }
            for other in *others {
                assert!(all.iter().any(|timed| timed.call == *other), "{other}");
            }
        }
    }

    #[test]
    fn a_table_of_no_call_is_told_apart() {
        for table in [
            "",
            "shrink",
            "shifted2",
            "packing",
            "threshold alone",
            "at 0",
        ] {
            assert_eq!(call_of(table), None, "{table}");
        }
    }
}
