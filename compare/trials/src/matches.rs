//! Pairs of frames by how many of the nine candidates their step tries at a level: those up to
//! and including the first clean match, which disagrees in no pixel.

use naive::align::{Exposure, Options};
use naive::gray::Frame;

use crate::inputs::{Random, options};
use crate::{recount, scenes};

/// From the centre of a level to its candidates, in their order.
pub const NINE: [(i32, i32); 9] = [
    (0, 0),
    (-1, -1),
    (-1, 0),
    (-1, 1),
    (0, -1),
    (0, 1),
    (1, -1),
    (1, 0),
    (1, 1),
];

/// A reference and a target.
pub struct Pair {
    pub samples: [Vec<u8>; 2],
    pub size: (usize, usize),
    pub percentiles: [u8; 2],
    pub options: Options,
}

impl Pair {
    pub fn exposures(&self) -> [Exposure<'_>; 2] {
        let (width, height) = self.size;
        [0, 1].map(|number: usize| {
            let frame = Frame::new(&self.samples[number], width, height);
            Exposure::new(frame, self.percentiles[number])
        })
    }
}

/// Noise, and the same moved, of this size after so many halvings, at most two: after more,
/// hardly a sample of noise lies outside the tolerance. At that level, the coarsest, the first
/// clean match is the candidate at `at`, and at every finer level the centre; below some 40 by
/// 40 another may be clean by chance. With the pair comes its step.
pub fn moved(
    random: &mut Random,
    (width, height): (usize, usize),
    coarsest: usize,
    at: usize,
) -> (Pair, (i32, i32)) {
    let size = (width << coarsest, height << coarsest);
    let step = (NINE[at].0 << coarsest, NINE[at].1 << coarsest);
    let pair = Pair {
        samples: scenes::noise_moved(random, size, step),
        size,
        percentiles: [50; 2],
        options: Options {
            bits: coarsest as u32 + 1,
            // The edges and so the cuts differ: no sample between the cuts is compared.
            tolerance: 20,
            ..options(random).0
        },
    };
    (pair, step)
}

/// How many pairs are looked at for one of a kind.
const LOOKED_AT: usize = 100_000;

/// Two small frames of a scene, cut at one percentile and searched at three levels, whose step
/// tries so many candidates at one of them.
pub fn trying(random: &mut Random, tried: u64, level: usize) -> Pair {
    for _ in 0..LOOKED_AT {
        let [width, height] = [(); 2].map(|()| 8 + random.below(24));
        let frames = scenes::bracket(random, width, height, 2);
        let (options, percentile) = options(random);
        let pair = Pair {
            samples: frames.try_into().expect("two frames"),
            size: (width, height),
            percentiles: [percentile; 2],
            options: Options { bits: 3, ..options },
        };
        let [reference, target] = pair.exposures();
        if recount::tried(reference, target, &pair.options)[level] == tried {
            return pair;
        }
    }
    panic!("no pair tries {tried} candidates at level {level}")
}
