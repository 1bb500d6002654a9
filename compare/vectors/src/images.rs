//! Calls on one image: grey, halving, moving, cut, packing, pyramid.

use naive::align::{self, halved_samples};
use naive::bitmap::words_needed;
use naive::geometry::{self, Shift};
use naive::gray::{self, Frame};
use naive::refusals::{HIGHEST_PERCENTILE, LONGEST_SIDE, NO_PERCENTILE, SCRATCH_TOO_SHORT};
use naive::shrink::{self, Shrink};
use naive::threshold as cut;
use trials::inputs::{Random, any_shift, options, shrink};
use trials::{original, recount};

use crate::cases::{
    Break, Case, Lent, Size, accepted, agreed, emptied, frame, lines, refused, sizes,
    sizes_and_longest,
};
use crate::line::{Answered, Line, mode};

pub type Image<Asked> = Lent<u8, Asked>;

impl<Asked> Image<Asked> {
    pub fn frame(&self) -> Frame<'_> {
        Frame::new(&self.list, self.width, self.height)
    }

    pub fn line(&self) -> Line {
        Line::new().frame(self.frame())
    }
}

/// A size that has a halved level and room to spare for every break.
const SOUND: Size = (6, 5);

/// The three channels of RGB instead of samples.
#[derive(Clone)]
struct Rgb;

impl Case for Image<Rgb> {
    fn answered(&self) -> Answered {
        let (rgb, width, height) = (&self.list, self.width, self.height);
        let naive = gray::from_rgb(rgb, width, height, self.rooms[0]);
        self.line()
            .numbers(&self.rooms)
            .answer(agreed(naive, || original::from_rgb(rgb, width, height)))
    }
}

pub fn from_rgb(random: &mut Random) -> Vec<String> {
    let image = |random: &mut Random, size: Size| {
        let area = size.0 * size.1;
        Image::new(random.bytes(3 * area), size, Rgb, &[area])
    };
    let breaks = [Image::size_breaks(), Image::room_breaks()].concat();
    lines(random, sizes, SOUND, image, &breaks)
}

impl Case for Image<Shrink> {
    fn answered(&self) -> Answered {
        let naive = shrink::shrink2(self.frame(), self.asked, self.rooms[0]);
        self.line()
            .number(mode(self.asked))
            .numbers(&self.rooms)
            .answer(agreed(naive, || {
                original::shrink2(self.frame(), self.asked)
            }))
    }
}

pub fn shrink2(random: &mut Random) -> Vec<String> {
    let image = |random: &mut Random, size: Size| {
        let room = (size.0 / 2) * (size.1 / 2);
        Image::new(frame(random, size), size, shrink(random), &[room])
    };
    let breaks = [Image::size_breaks(), Image::room_breaks()].concat();
    lines(random, sizes_and_longest, SOUND, image, &breaks)
}

impl Case for Image<Shift> {
    fn answered(&self) -> Answered {
        let naive = geometry::shifted(self.frame(), self.asked, self.rooms[0]);
        self.line()
            .shift(self.asked)
            .numbers(&self.rooms)
            .answer(agreed(naive, || {
                original::shifted(self.frame(), self.asked)
            }))
    }
}

pub fn shifted(random: &mut Random) -> Vec<String> {
    let image = |random: &mut Random, size: Size| {
        let shift = any_shift(random, size);
        Image::new(frame(random, size), size, shift, &[size.0 * size.1])
    };
    let breaks = [Image::size_breaks(), Image::room_breaks()].concat();
    let sizes = |random: &mut Random| [sizes_and_longest(random), sizes(random)].concat();
    lines(random, sizes, SOUND, image, &breaks)
}

#[derive(Clone)]
struct Cut {
    percentile: u8,
    /// For packing only.
    tolerance: Option<u8>,
}

impl Case for Image<Cut> {
    fn answered(&self) -> Answered {
        let (frame, percentile) = (self.frame(), self.asked.percentile);
        let line = self.line().number(percentile);
        match self.asked.tolerance {
            None => {
                let naive = cut::threshold(frame, percentile);
                line.answer(agreed(naive, || original::threshold(frame, percentile)))
            }
            Some(tolerance) => {
                let rooms = [self.rooms[0], self.rooms[1]];
                let naive = cut::compute_bitmaps(frame, percentile, tolerance, rooms);
                let original = || original::compute_bitmaps(frame, percentile, tolerance);
                line.number(tolerance)
                    .numbers(rooms)
                    .answer(agreed(naive, original))
            }
        }
    }
}

const PERCENTILE_BREAKS: [Break<Image<Cut>>; 2] = [
    (NO_PERCENTILE, |image| {
        image.asked.percentile = HIGHEST_PERCENTILE + 1
    }),
    (NO_PERCENTILE, |image| image.asked.percentile = 255),
];
const PERCENTILES: [u8; 8] = [0, 1, 17, 50, 50, 83, 99, 100];

pub fn threshold(random: &mut Random) -> Vec<String> {
    let cut = |percentile| Cut {
        percentile,
        tolerance: None,
    };
    let image = |random: &mut Random, size| {
        let percentile = random.pick(&PERCENTILES);
        Image::new(frame(random, size), size, cut(percentile), &[])
    };
    let breaks = [Image::size_breaks(), PERCENTILE_BREAKS.to_vec()].concat();
    let mut lines = lines(random, sizes_and_longest, SOUND, image, &breaks);
    lines.extend(accepted((0..=100).map(|percentile| {
        let size = (7, 5);
        Image::new(frame(random, size), size, cut(percentile), &[])
    })));
    lines
}

pub fn compute_bitmaps(random: &mut Random) -> Vec<String> {
    let image = |random: &mut Random, size: Size| {
        let cut = Cut {
            percentile: random.pick(&PERCENTILES),
            tolerance: Some(random.pick(&[0, 1, 4, 4, 4, 40, 255])),
        };
        let rooms = [words_needed(size.0, size.1); 2];
        Image::new(frame(random, size), size, cut, &rooms)
    };
    let breaks = [
        Image::size_breaks(),
        Image::room_breaks(),
        PERCENTILE_BREAKS.to_vec(),
    ]
    .concat();
    let mut lines = lines(random, sizes_and_longest, SOUND, image, &breaks);
    // A distance of 256 is the only one over a tolerance of 255.
    let farthest = Cut {
        percentile: 100,
        tolerance: Some(255),
    };
    let farthest = Image::new(vec![0, 255, 1], (3, 1), farthest, &[1, 1]);
    lines.extend(accepted([farthest]));
    lines
}

/// Filling a pyramid; the room is the scratch.
#[derive(Clone)]
struct Filling {
    bits: u32,
    shrink: Shrink,
}

impl Case for Image<Filling> {
    fn answered(&self) -> Answered {
        let frame = self.frame();
        let Filling { bits, shrink } = self.asked;
        let naive = align::pyramid(frame, bits, shrink, self.rooms[0]);
        let original = || Ok(recount::halved_levels(frame, bits, shrink).concat());
        self.line()
            .number(bits)
            .number(mode(shrink))
            .numbers(&self.rooms)
            .answer(agreed(naive, original))
    }
}

/// The usual sizes and some with more levels.
fn pyramid_sizes(random: &mut Random) -> Vec<Size> {
    let mut sizes = sizes_and_longest(random);
    sizes.extend([(16, 16), (31, 40), (64, 33), (4, 4), (3, 3), (2048, 2)]);
    sizes
}

const SCRATCH_BREAKS: [Break<Image<Filling>>; 2] = [
    (SCRATCH_TOO_SHORT, |image| {
        image.rooms[0] = image.rooms[0].saturating_sub(1)
    }),
    (SCRATCH_TOO_SHORT, |image| image.rooms[0] = 0),
];

pub fn pyramid(random: &mut Random) -> Vec<String> {
    let image = |random: &mut Random, size: Size, bits, spare| {
        let shrink = shrink(random);
        let scratch = halved_samples(size.0, size.1, bits) + spare;
        let filling = Filling { bits, shrink };
        Image::new(frame(random, size), size, filling, &[scratch])
    };
    let mut cases = Vec::new();
    for size in pyramid_sizes(random) {
        let (bits, spare) = (options(random).0.bits, random.below(3));
        cases.push(image(random, size, bits, spare));
    }
    let breaks = [Image::size_breaks(), SCRATCH_BREAKS.to_vec()].concat();
    let broken = refused(&image(random, SOUND, 6, 0), &breaks);
    cases.push(image(random, (31, 18), 40, 1)); // more bits than are of use
    [accepted(cases), broken].concat()
}

/// Asking for a level out of a scratch.
#[derive(Clone)]
struct Asking {
    bits: u32,
    scratch: Vec<u8>,
    level: usize,
}

impl Image<Asking> {
    fn level(&self) -> &[u8] {
        let asking = &self.asked;
        align::level(self.frame(), asking.bits, &asking.scratch, asking.level)
    }
}

impl Case for Image<Asking> {
    fn answered(&self) -> Answered {
        self.line()
            .number(self.asked.bits)
            .list(&self.asked.scratch)
            .number(self.asked.level)
            .answer(Ok(self.level().to_vec()))
    }
}

/// Every level of a frame and two past the last, out of its own pyramid.
fn all_levels(random: &mut Random, size: Size) -> Vec<Image<Asking>> {
    let samples = frame(random, size);
    let (bits, shrink) = (options(random).0.bits, shrink(random));
    let halved = recount::halved_levels(Frame::new(&samples, size.0, size.1), bits, shrink);
    let mut scratch = halved.concat();
    scratch.resize(scratch.len() + random.below(3), 99);

    let levels = [vec![samples.clone()], halved, vec![vec![]; 2]].concat();
    let case = |(level, expected): (usize, &Vec<u8>)| {
        let asking = Asking {
            bits,
            scratch: scratch.clone(),
            level,
        };
        let case = Image::new(samples.clone(), size, asking, &[]);
        assert_eq!(case.level(), expected);
        case
    };
    levels.iter().enumerate().map(case).collect()
}

const LEVEL_BREAKS: [Break<Image<Asking>>; 2] = [
    (SCRATCH_TOO_SHORT, |image| _ = image.asked.scratch.pop()),
    (SCRATCH_TOO_SHORT, |image| image.asked.scratch.clear()),
];

pub fn level(random: &mut Random) -> Vec<String> {
    let sizes = [
        (0, 3),
        (1, 1),
        (2, 2),
        (3, 3),
        (4, 4),
        (7, 5),
        (16, 16),
        (24, 17),
        (63, 2),
        (64, 3),
        (65, 9),
        (8, 70),
        (127, 2),
        (128, 1),
        (129, 4),
        (LONGEST_SIDE, 0),
    ];
    let mut cases = Vec::new();
    for size in sizes {
        cases.extend(all_levels(random, size));
    }
    // A scratch is taken as it is, whatever it holds, and a level far past the last
    // is empty.
    let asking = |random: &mut Random, bits, level| {
        let scratch = random.bytes(halved_samples(SOUND.0, SOUND.1, bits));
        let asking = Asking {
            bits,
            scratch,
            level,
        };
        Image::new(frame(random, SOUND), SOUND, asking, &[])
    };
    cases.extend([1, 1 << 32].map(|level| asking(random, 6, level)));
    let breaks = [Image::size_breaks(), LEVEL_BREAKS.to_vec()].concat();
    let sound = asking(random, 6, 0);
    cases.extend([1, 2].map(|level| asking(random, 40, level)));
    [accepted(cases), emptied(&sound, &breaks)].concat()
}
