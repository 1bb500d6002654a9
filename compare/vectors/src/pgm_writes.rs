//! Frames that are written as greymaps.

use naive::pgm;
use naive::refusals::{LONGEST_SIDE, SIDE_TOO_LONG, WRONG_LENGTH};
use trials::inputs::Random;

use crate::cases::{Break, Case, SIZES_OVER, Size, accepted, refused, stated};
use crate::images::Image;
use crate::line::Answered;

/// Asks for nothing but the file; the room is the buffer.
#[derive(Clone)]
struct Writing;

impl Case for Image<Writing> {
    fn answered(&self) -> Answered {
        let file = pgm::write(self.frame(), self.rooms[0]);
        self.line().numbers(&self.rooms).answer(file)
    }
}

/// A frame, and a buffer that is longer than its file by so many bytes.
fn writing(samples: Vec<u8>, (width, height): Size, spare: usize) -> Image<Writing> {
    let file = format!("P5\n{width} {height}\n255\n").len() + samples.len();
    Image::new(samples, (width, height), Writing, &[file + spare])
}

/// Sides at the ends of each number of digits.
const SIDES: [usize; 9] = [0, 1, 9, 10, 99, 100, 999, 1000, LONGEST_SIDE];
/// Frames of more samples are left out, but for a few.
const MOST: usize = 100;
const LARGER: [Size; 7] = [
    (999, 1),
    (1, 999),
    (1000, 1),
    (1, 1000),
    (9, 99),
    (100, 10),
    (1, LONGEST_SIDE),
];

/// All pairs of sides that have few samples, and the larger ones, with samples of one digit.
fn sizes(random: &mut Random) -> Vec<Image<Writing>> {
    let pairs = SIDES.map(|width| SIDES.map(|height| (width, height)));
    let small = pairs.into_iter().flatten();
    let small = small.filter(|(width, height)| width * height <= MOST);
    let mut cases = Vec::new();
    for size in small {
        let samples = random.bytes(size.0 * size.1);
        for spare in [0, random.pick(&[1, 2, 40, 300])] {
            cases.push(writing(samples.clone(), size, spare));
        }
    }
    for size in LARGER {
        let digits = (0..size.0 * size.1).map(|_| random.below(10) as u8);
        let samples = digits.collect();
        cases.push(writing(samples, size, random.below(2)));
    }
    cases
}

/// Every length of the buffer up to two past the file's.
fn rooms(samples: &[u8], size: Size) -> Vec<(u32, Image<Writing>)> {
    let sound = writing(samples.to_vec(), size, 0);
    let file = sound.rooms[0];
    let case = |room| {
        let mut case = sound.clone();
        case.rooms[0] = room;
        let status = if room < file { WRONG_LENGTH } else { 0 };
        (status, case)
    };
    (0..=file + 2).map(case).collect()
}

/// Samples that are one or more too many or too few, in buffers that are exact for the size, or
/// as long as any that is lent here, exact for the samples, longer, and empty.
fn wrong_samples(random: &mut Random) -> Vec<(u32, Image<Writing>)> {
    let mut cases = Vec::new();
    for (size, length) in [
        ((3, 2), 5),
        ((3, 2), 7),
        ((3, 2), 0),
        ((3, 2), 12),
        ((0, 0), 1),
        ((0, LONGEST_SIDE), 1),
        ((LONGEST_SIDE, 1), 0),
        ((LONGEST_SIDE, LONGEST_SIDE), 0),
    ] {
        let mut case = writing(random.bytes(length), size, 0);
        let header = case.rooms[0] - length;
        let exact = header + (size.0 * size.1).min(LONGEST_SIDE);
        for room in [exact, header + length, 100, 0] {
            case.rooms[0] = room;
            cases.push((WRONG_LENGTH, case.clone()));
        }
    }
    cases
}

/// Sides over the limit, in a buffer that would do, or not.
fn sides_over(random: &mut Random) -> Vec<(u32, Image<Writing>)> {
    let mut cases = Vec::new();
    for (size, length) in SIZES_OVER {
        let mut case = writing(random.bytes(length), size, 0);
        for room in [case.rooms[0], 100, 0] {
            case.rooms[0] = room;
            cases.push((SIDE_TOO_LONG, case.clone()));
        }
    }
    cases
}

const ROOM_BREAKS: [Break<Image<Writing>>; 2] = [
    (WRONG_LENGTH, |image| image.rooms[0] -= 1),
    (WRONG_LENGTH, |image| image.rooms[0] = 0),
];

pub fn write_pgm(random: &mut Random) -> Vec<String> {
    let sound = writing(b"# \n5\x00\xff".to_vec(), (3, 2), 0);
    let breaks = [Image::size_breaks(), ROOM_BREAKS.to_vec()].concat();
    [
        accepted(sizes(random)),
        stated(rooms(b"ab", (1, 2))),
        stated(rooms(b"", (1000, 0))),
        stated(wrong_samples(random)),
        stated(sides_over(random)),
        refused(&sound, &breaks),
    ]
    .concat()
}
