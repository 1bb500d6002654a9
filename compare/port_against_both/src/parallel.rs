//! Files written, read and reported, and mosaics taken apart and put together, at the same time
//! on separate buffers: each gives what it gives alone.

use std::thread;

use port::files::read_stack;
use port::mosaic::{layout, put_together, take_apart};
use port::{Frame, Options, Planes, Rivalry};
use trials::Outcome;
use trials::frames::Frames;
use trials::inputs::{ACROSS, Random};

use crate::files::writes::{file_of_all, one_behind_another};
use crate::whole::{Reported, reported};

const SIDE: usize = 64;
const FRAMES: usize = ACROSS.len();
const THREADS: u64 = 4;
const TIMES: usize = 50;
/// A file is written and read, and its frames taken apart and put together, so often before it is
/// reported, as each is short.
const READINGS: usize = 100;

const OPTIONS: Options = Options::USUAL;
const RIVALRY: Rivalry = Rivalry {
    reach: 8,
    floor: 1,
    margin: 20,
};

/// Noise, which the seed gives, in a size that no other seed has, each frame with a percentile
/// of its own.
fn noise(seed: u64) -> Frames {
    let (width, height) = (SIDE + seed as usize, SIDE - seed as usize);
    let mut random = Random::new(seed);
    let frames = (0..FRAMES).map(|_| random.bytes(width * height)).collect();
    let mut frames = Frames::alike(frames, (width, height), 50, 1);
    frames.percentiles = ACROSS.to_vec();
    frames
}

fn lent(frames: &Frames) -> Vec<Frame<'_>> {
    let (width, height) = (frames.widths[0], frames.heights[0]);
    let samples = frames.samples.chunks(width * height);
    samples.map(|f| Frame::new(f, width, height)).collect()
}

/// Writes a file of these frames; says whether it is what is meant.
fn writes(file: &[u8], frames: &Frames) -> bool {
    let mut written = vec![0; file.len()];
    let length = one_behind_another(&lent(frames), &mut written);
    length == Ok(file.len()) && written == file
}

/// Reads a file of these frames; says whether they are what is read.
fn reads(file: &[u8], frames: &Frames) -> bool {
    let [mut widths, mut heights] = [[0; FRAMES]; 2];
    let mut samples = vec![0; frames.samples.len()];
    let mut next = 0;
    let status = read_stack(file, 0, &mut widths, &mut heights, &mut samples, &mut next);
    let as_lent = widths[..] == frames.widths && heights[..] == frames.heights;
    (status, next) == (0, file.len()) && as_lent && samples == frames.samples
}

/// What a frame, as a mosaic, is meant to be taken apart into, and how the planes lie.
fn apart(frame: Frame) -> (Vec<u8>, Planes) {
    let Frame { width, height, .. } = frame;
    let area = width * height;
    let planes = naive::mosaic::take_apart(frame.samples, width, height, area);
    let layout = naive::mosaic::layout(width, height);
    (planes.expect("a mosaic"), layout.expect("a size"))
}

/// Takes a mosaic apart and puts it together; says whether planes, layout and mosaic are what
/// is meant.
fn takes_apart(mosaic: Frame, meant: &(Vec<u8>, Planes)) -> bool {
    let Frame { width, height, .. } = mosaic;
    let [mut planes, mut back] = [(); 2].map(|()| vec![0; width * height]);
    let there = take_apart(mosaic.samples, width, height, &mut planes);
    let status = (there, put_together(&planes, width, height, &mut back));
    let laid = layout(width, height) == Ok(meant.1);
    status == (0, 0) && laid && planes == meant.0 && back == mosaic.samples
}

fn report_of(frames: &Frames) -> Result<Reported, u32> {
    reported(frames.stack(), &OPTIONS, &RIVALRY)
}

/// Says that all agreed.
pub fn run() -> Outcome {
    let alone: Vec<_> = (0..THREADS).map(|seed| report_of(&noise(seed))).collect();
    let has_records = |report: &Result<Reported, u32>| matches!(report, Ok(r) if r.count > 0);
    if !alone.iter().all(has_records) {
        return Err(format!("a report has no record to hold: {alone:?}"));
    }
    let as_alone = |seed: u64, alone: &_| {
        let frames = noise(seed);
        let lent = lent(&frames);
        let file = file_of_all(&lent);
        let meant: Vec<_> = lent.iter().map(|frame| apart(*frame)).collect();
        let filed = || writes(&file, &frames) && reads(&file, &frames);
        let taken = || {
            lent.iter()
                .zip(&meant)
                .all(|(frame, meant)| takes_apart(*frame, meant))
        };
        let kept = || (0..READINGS).all(|_| filed() && taken());
        (0..TIMES).all(|_| kept() && report_of(&frames) == *alone)
    };
    let same = thread::scope(|scope| {
        let started: Vec<_> = (0..THREADS)
            .zip(&alone)
            .map(|(seed, alone)| scope.spawn(move || as_alone(seed, alone)))
            .collect();
        started.into_iter().all(|t| t.join().expect("no panic"))
    });
    if !same {
        return Err("a file, a mosaic or a report at the same time as others differs".into());
    }
    let readings = TIMES * READINGS;
    print!("{THREADS} threads at the same time, ");
    print!("{readings} files written and read and their frames taken apart and put together, ");
    println!("and {TIMES} reports each, as alone");
    Ok(())
}
