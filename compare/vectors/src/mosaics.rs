//! Mosaics taken apart and put together, and how their planes lie.

use naive::mosaic;
use naive::refusals::{LONGEST_SIDE, SIDE_TOO_LONG, WRONG_LENGTH};
use trials::inputs::{Random, TOO_LONG};

use crate::cases::{Case, SIZES_OVER, Size, accepted, refused, stated};
use crate::images::Image;
use crate::line::{Answered, Line};

/// Whether the list is the mosaic's and is taken apart, or the planes' and is put together. The
/// room is the other list.
#[derive(Clone, Copy)]
enum Way {
    Apart,
    Together,
}

impl Case for Image<Way> {
    fn answered(&self) -> Answered {
        let make = match self.asked {
            Way::Apart => mosaic::take_apart,
            Way::Together => mosaic::put_together,
        };
        let made = make(&self.list, self.width, self.height, self.rooms[0]);
        self.line().numbers(&self.rooms).answer(made)
    }
}

/// A list, and an output as long.
fn making(way: Way, list: Vec<u8>, size: Size) -> Image<Way> {
    let room = list.len();
    Image::new(list, size, way, &[room])
}

const SMALL: usize = 5;

/// Sides of up to 5 in all pairs.
fn small_sizes() -> impl Iterator<Item = Size> {
    (0..=SMALL).flat_map(|width| (0..=SMALL).map(move |height| (width, height)))
}

/// An odd one, the longest row and the longest column, and empty ones.
const LARGER: [Size; 5] = [
    (101, 81),
    (LONGEST_SIDE, 1),
    (1, LONGEST_SIDE),
    (LONGEST_SIDE, 0),
    (0, LONGEST_SIDE),
];

/// Samples that all differ where there are few, about a word's width any, with low heights and
/// lying on their side, then larger ones.
fn sizes(random: &mut Random, way: Way) -> Vec<Image<Way>> {
    let mut cases = Vec::new();
    for size in small_sizes() {
        let distinct = (11..).take(size.0 * size.1).collect();
        cases.push(making(way, distinct, size));
    }
    let words = [63, 64, 65].map(|width| [1, 2, 3].map(|height| (width, height)));
    let words = words.into_iter().flatten();
    let words = words.flat_map(|(width, height)| [(width, height), (height, width)]);
    for size in words.chain(LARGER) {
        let samples = random.bytes(size.0 * size.1);
        cases.push(making(way, samples, size));
    }
    cases
}

/// Lists and outputs that are exact, one short, one long and empty, but for both exact.
fn wrong_lengths(random: &mut Random, way: Way) -> Vec<(u32, Image<Way>)> {
    let mut cases = Vec::new();
    for size in [(3, 2), (2, 2), (5, 3)] {
        let exact = size.0 * size.1;
        let lengths = [exact, exact - 1, exact + 1, 0];
        let pairs = lengths.map(|list| lengths.map(|room| (list, room)));
        for (list, room) in pairs.into_iter().flatten().skip(1) {
            let mut case = making(way, random.bytes(list), size);
            case.rooms[0] = room;
            cases.push((WRONG_LENGTH, case));
        }
    }
    for size in [(0, 0), (0, 3), (LONGEST_SIDE, 0), (0, LONGEST_SIDE)] {
        let mut case = making(way, random.bytes(1), size);
        cases.push((WRONG_LENGTH, case.clone()));
        case.list.clear();
        cases.push((WRONG_LENGTH, case));
    }
    for size in [(LONGEST_SIDE, 1), (LONGEST_SIDE, LONGEST_SIDE)] {
        cases.push((WRONG_LENGTH, making(way, vec![], size)));
    }
    cases
}

/// Sides over the limit, with an output as long as the list, one longer, and of another length.
fn sides_over(random: &mut Random, way: Way) -> Vec<(u32, Image<Way>)> {
    let mut cases = Vec::new();
    for (size, length) in SIZES_OVER {
        let mut case = making(way, random.bytes(length), size);
        for room in [length, length + 1, 100] {
            case.rooms[0] = room;
            cases.push((SIDE_TOO_LONG, case.clone()));
        }
    }
    cases
}

fn lines(random: &mut Random, way: Way) -> Vec<String> {
    let sound = making(way, random.bytes(15), (5, 3));
    let breaks = [Image::size_breaks(), Image::room_breaks()].concat();
    [
        accepted(sizes(random, way)),
        stated(wrong_lengths(random, way)),
        stated(sides_over(random, way)),
        refused(&sound, &breaks),
    ]
    .concat()
}

pub fn take_apart(random: &mut Random) -> Vec<String> {
    lines(random, Way::Apart)
}

pub fn put_together(random: &mut Random) -> Vec<String> {
    lines(random, Way::Together)
}

/// Asks how the planes of this size lie.
#[derive(Clone)]
struct Lying(Size);

impl Case for Lying {
    fn answered(&self) -> Answered {
        let Self((width, height)) = *self;
        let layout = mosaic::layout(width, height);
        Line::new().numbers([width, height]).answer(layout)
    }
}

/// Sides of which all pairs are asked about that are not among the small ones.
const SIDES: [usize; 9] = [0, 1, 63, 64, 65, 101, 4096, LONGEST_SIDE - 1, LONGEST_SIDE];

pub fn planes(_: &mut Random) -> Vec<String> {
    let pairs = SIDES.map(|width| SIDES.map(|height| (width, height)));
    let pairs = pairs.into_iter().flatten();
    let larger = pairs.filter(|(width, height)| width.max(height) > &SMALL);
    let within = small_sizes().chain(larger);
    let beside_the_longest = [(TOO_LONG, LONGEST_SIDE), (LONGEST_SIDE, TOO_LONG)];
    let over = SIZES_OVER.into_iter().map(|(size, _)| size);
    let over = over.chain(beside_the_longest);
    [
        accepted(within.map(Lying)),
        stated(over.map(|size| (SIDE_TOO_LONG, Lying(size)))),
    ]
    .concat()
}
