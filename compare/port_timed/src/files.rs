//! The readers and the writer of greymaps beside a C peer, as the original has neither. The first
//! sample of each image that is read is 0: sscanf begins with a look for the end of the string,
//! and has it there.

use std::cell::RefCell;
use std::hint::black_box;

use ::port::refusals::LONGEST_SIDE;
use ::port::{Frame, files as port};

use crate::frames::{accepted, frame};
use crate::inputs::{Input, Size};
use crate::peer;
use crate::race::{ROUNDS, race, race_of};
use crate::{ONE, Timed, timed};

const SMALL: Size = (64, 64);
const LARGE: Size = (1920, 1080);
const LARGEST: Size = (LONGEST_SIDE, LONGEST_SIDE);
/// Those of the writer.
pub const SIZES: [Size; 4] = [SMALL, ONE, LARGE, LARGEST];
/// A header before few samples and before many, which no reader of a header looks at.
const HEADER_SIZES: [Size; 3] = [SMALL, ONE, LARGEST];
const STACK_SIZES: [Size; 2] = [SMALL, ONE];
const STACK: usize = 4;
const COMMENT: usize = 1 << 16;
/// More than other calls have: both sides copy as fast, and a fiftieth is to be told.
const WRITE_ROUNDS: usize = 4 * ROUNDS;

/// A file of one image, with something between `P5` and the width.
fn file(input: &Input, gap: &str) -> Vec<u8> {
    let (width, height) = input.size;
    let mut file = format!("P5{gap}{width} {height}\n255\n").into_bytes();
    file.push(0);
    file.extend(&input.samples[1..]);
    file
}

type Reader = fn(&[u8], &mut [usize; 4]) -> u32;

/// The times of a peer and of the port on a file, of which both read the same.
fn times(peer: Reader, file: &[u8]) -> [f64; 2] {
    let [mut there, mut here] = [[0; 4]; 2];
    let times = race([
        &mut || accepted(peer(black_box(file), &mut there)),
        &mut || accepted(port::read_pgm(black_box(file), 0, here.each_mut())),
    ]);
    assert_eq!(there, here, "the peer and the port read the same");
    times
}

pub fn read_pgm(input: &Input) -> Vec<Timed> {
    if !HEADER_SIZES.contains(&input.size) {
        return vec![];
    }
    let plain = times(peer::scan, &file(input, "\n"));
    let comment = format!("\n#{}\n", "c".repeat(COMMENT));
    let comment = times(peer::scan_bytes, &file(input, &comment));
    vec![
        timed("read_pgm plain", 4.0, input, plain),
        timed("read_pgm 64 KB comment", 1.0, input, comment),
    ]
}

/// What a reader of a stack writes.
#[derive(Clone, PartialEq)]
struct Laid {
    widths: [usize; STACK],
    heights: [usize; STACK],
    samples: Vec<u8>,
    next: usize,
}

impl Laid {
    fn by_peer(&mut self, file: &[u8]) {
        let sides = [&mut self.widths, &mut self.heights];
        let (samples, next) = (&mut self.samples, &mut self.next);
        accepted(peer::scan_stack(file, sides, samples, next));
    }

    fn by_port(&mut self, file: &[u8]) {
        let (widths, heights) = (&mut self.widths, &mut self.heights);
        let (samples, next) = (&mut self.samples, &mut self.next);
        accepted(port::read_stack(file, 0, widths, heights, samples, next));
    }
}

pub fn read_stack(input: &Input) -> Vec<Timed> {
    if !STACK_SIZES.contains(&input.size) {
        return vec![];
    }
    let file = file(input, "\n").repeat(STACK);
    let mut there = Laid {
        widths: [0; STACK],
        heights: [0; STACK],
        samples: vec![0; STACK * input.samples.len()],
        next: 0,
    };
    let mut here = there.clone();
    there.by_peer(&file);
    here.by_port(&file);
    assert!(there == here, "the peer and the port lay out the same");

    // One room for both, as copies take longer or shorter by where it lies.
    let room = RefCell::new(here);
    let times = race([
        &mut || room.borrow_mut().by_peer(black_box(&file)),
        &mut || room.borrow_mut().by_port(black_box(&file)),
    ]);
    vec![timed("read_stack of 4", 1.0, input, times)]
}

type Writer = fn(Frame, &mut [u8], &mut usize) -> u32;

pub fn write_pgm(input: &Input) -> Vec<Timed> {
    // The header takes half of the peer's time for a small frame, and nothing for a large one.
    let goal = if input.size == SMALL { 1.5 } else { 1.0 };
    let frame = frame(input);
    let file = vec![0; file(input, "\n").len()];
    let [there, here] = [peer::print as Writer, port::write_pgm].map(|writer| {
        let (mut file, mut length) = (file.clone(), 0);
        accepted(writer(frame, &mut file, &mut length));
        (file, length)
    });
    assert!(there == here, "the peer and the port write the same");
    drop(there);

    // From one place into one room, as copies take longer or shorter by where these lie.
    let room = RefCell::new(here);
    let write = |writer: Writer| {
        let (file, length) = &mut *room.borrow_mut();
        accepted(writer(*black_box(&frame), file, length));
    };
    let times = race_of(
        WRITE_ROUNDS,
        [&mut || write(peer::print), &mut || write(port::write_pgm)],
    );
    vec![timed("write_pgm", goal, input, times)]
}
