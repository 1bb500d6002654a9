//! The step of two frames.

use naive::align::{self, Exposure, Options, Scratch};
use naive::gray::Frame;
use naive::refusals::{
    HIGHEST_PERCENTILE, NO_PERCENTILE, SCRATCH_TOO_SHORT, SIDE_TOO_LONG, SIZES_DIFFER, WRONG_LENGTH,
};
use naive::stacksteps::{OPTIONS, PERCENTILE};
use trials::inputs::{Random, TOO_LONG, options};
use trials::matches::Pair;
use trials::{original, recount, unequal};

use crate::cases::{
    Break, Case, Size, accepted, agreed, frames, refused, refused_first, sizes_and_longest,
};
use crate::line::{Answered, Line};
use crate::matches;

/// A size with a halved level, so that both kinds of scratch are needed.
pub const SOUND: Size = (6, 4);

/// Options, and a percentile for all frames.
pub type Settings = (Options, u8);

/// Those of the program.
pub const USUAL: Settings = with_bits(OPTIONS.bits);

/// More bits than a frame of any size has levels for.
pub const MANY_BITS: Settings = with_bits(40);

/// The highest percentile, and the numbers of bits that leave no halved level.
pub const EDGES: [Settings; 3] = [(OPTIONS, HIGHEST_PERCENTILE), with_bits(0), with_bits(1)];

const fn with_bits(bits: u32) -> Settings {
    (Options { bits, ..OPTIONS }, PERCENTILE)
}

/// A size of few samples with one halved level or two.
pub fn small(random: &mut Random) -> Size {
    (6 + random.below(11), 4 + random.below(8))
}

/// Now and then longer than needed.
pub fn ample(random: &mut Random, needed: Scratch) -> Scratch {
    Scratch {
        bytes: needed.bytes + random.pick(&[0, 0, 5]),
        words: needed.words + random.pick(&[0, 0, 3]),
    }
}

/// Two frames, reference first.
#[derive(Clone)]
struct Two {
    samples: [Vec<u8>; 2],
    sizes: [Size; 2],
    percentiles: [u8; 2],
    options: Options,
    scratch: Scratch,
}

impl Two {
    fn of(random: &mut Random, pair: Pair) -> Self {
        let (width, height) = pair.size;
        let needed = Scratch::of_step(width, height, pair.options.bits);
        Self {
            samples: pair.samples,
            sizes: [pair.size; 2],
            percentiles: pair.percentiles,
            options: pair.options,
            scratch: ample(random, needed),
        }
    }

    fn any(random: &mut Random, size: Size, (options, percentile): Settings) -> Self {
        let frames = frames(random, size, 2);
        let pair = Pair {
            samples: frames.try_into().expect("two frames"),
            size,
            percentiles: [percentile; 2],
            options,
        };
        Self::of(random, pair)
    }

    fn exposures(&self) -> [Exposure<'_>; 2] {
        [0, 1].map(|number: usize| {
            let (width, height) = self.sizes[number];
            let frame = Frame::new(&self.samples[number], width, height);
            Exposure::new(frame, self.percentiles[number])
        })
    }

    fn needed(&self) -> Scratch {
        let (width, height) = self.sizes[0];
        Scratch::of_step(width, height, self.options.bits)
    }
}

impl Case for Two {
    fn answered(&self) -> Answered {
        let [reference, target] = self.exposures();
        let naive = align::shift(reference, target, &self.options, self.scratch);
        let counted = || {
            let step = recount::step(reference, target, &self.options);
            if original::has_one(&self.percentiles) {
                let original = original::shift(reference, target, &self.options)?;
                assert_eq!(step.shift, original);
            }
            Ok(step)
        };
        Line::new()
            .exposure(reference)
            .exposure(target)
            .options(&self.options)
            .scratch(self.scratch, &naive, || self.needed())
            .answer(agreed(naive, counted))
    }
}

const SIDE_BREAKS: [Break<Two>; 5] = [
    (SIDE_TOO_LONG, |two| {
        two.sizes = [(TOO_LONG, 0); 2];
        two.samples.fill(vec![]);
    }),
    (SIDE_TOO_LONG, |two| two.sizes[0].0 = TOO_LONG),
    (SIDE_TOO_LONG, |two| two.sizes[0].1 = TOO_LONG),
    (SIDE_TOO_LONG, |two| two.sizes[1].0 = TOO_LONG),
    (SIDE_TOO_LONG, |two| two.sizes[1].1 = 1 << 32),
];

/// Both percentiles over the highest, and each of them.
const PERCENTILE_BREAKS: [Break<Two>; 4] = [
    (NO_PERCENTILE, |two| {
        two.percentiles = [HIGHEST_PERCENTILE + 1; 2]
    }),
    (NO_PERCENTILE, |two| two.percentiles = [255; 2]),
    (NO_PERCENTILE, |two| {
        two.percentiles[0] = HIGHEST_PERCENTILE + 1
    }),
    (NO_PERCENTILE, |two| {
        two.percentiles[1] = HIGHEST_PERCENTILE + 1
    }),
];

const LATER_BREAKS: [Break<Two>; 7] = [
    (SIZES_DIFFER, |two| {
        two.sizes[1] = (two.sizes[1].1, two.sizes[1].0)
    }), // as many samples
    (SIZES_DIFFER, |two| two.sizes[0].0 += 1),
    (WRONG_LENGTH, |two| two.samples[0].push(9)),
    (WRONG_LENGTH, |two| _ = two.samples[1].pop()),
    (SCRATCH_TOO_SHORT, |two| two.scratch.bytes -= 1),
    (SCRATCH_TOO_SHORT, |two| two.scratch.words -= 1),
    (SCRATCH_TOO_SHORT, |two| two.scratch = Scratch::NONE),
];

pub fn shift(random: &mut Random) -> Vec<String> {
    let mut cases = Vec::new();
    for size in sizes_and_longest(random) {
        let settings = options(random);
        cases.push(Two::any(random, size, settings));
    }
    for size in [(16, 16), (24, 20), (33, 31), (40, 30), (66, 24)] {
        for settings in [USUAL, options(random)] {
            cases.push(Two::any(random, size, settings));
        }
    }
    let mut sound = Two::any(random, SOUND, USUAL);
    sound.scratch = sound.needed();
    cases.push(Two::any(random, (17, 33), MANY_BITS));
    let edges = EDGES.map(|settings| Two::any(random, (9, 6), settings));
    let mut counted = Vec::new();
    for one in matches::all(random) {
        let two = Two::of(random, one.pair);
        let [reference, target] = two.exposures();
        let step = align::shift(reference, target, &two.options, two.scratch);
        assert_eq!(step.map(|step| step.comparisons), Ok(one.comparisons));
        counted.push(two);
    }
    let (both, each) = PERCENTILE_BREAKS.split_at(2);
    let breaks = [&SIDE_BREAKS[..], both, &LATER_BREAKS].concat();
    [
        accepted(cases),
        refused(&sound, &breaks),
        accepted(edges),
        accepted(counted),
        refused_first(&sound, each, &LATER_BREAKS),
        accepted(unequal_pairs(random)),
    ]
    .concat()
}

/// Either frame at either end of the range, and pairs whose answer would be another if both
/// were cut at one percentile, or each at the other's.
fn unequal_pairs(random: &mut Random) -> Vec<Two> {
    let mut cases = Vec::new();
    for percentiles in [[0, 50], [50, 0], [100, 50], [50, 100], [0, 100], [100, 0]] {
        let mut two = Two::any(random, (9, 6), USUAL);
        two.percentiles = percentiles;
        cases.push(two);
    }
    for _ in 0..12 {
        let pair = unequal::telling_pair(random, |random| {
            let size = small(random);
            unequal::pair(random, size)
        });
        cases.push(Two::of(random, pair));
    }
    cases
}
