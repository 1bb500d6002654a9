//! How many comparisons a step takes: at each level those up to and including the first
//! candidate that disagrees in no pixel, or nine.

use naive::align::{Exposure, Options, Scratch, Step, shift};
use naive::geometry::Shift;
use naive::gray::Frame;
use naive::shrink::Shrink;
use naive::stacksteps::{OPTIONS, PERCENTILE};

type Size = (usize, usize);

/// The step of two frames that are cut at one percentile.
fn step(reference: &[u8], target: &[u8], (width, height): Size, options: Options) -> Step {
    let exposure = |samples| Exposure::new(Frame::new(samples, width, height), PERCENTILE);
    let [reference, target] = [reference, target].map(exposure);
    let scratch = Scratch::of_step(width, height, options.bits);
    shift(reference, target, &options, scratch).expect("a sound pair")
}

fn noise(seed: u32, samples: usize) -> Vec<u8> {
    let mut state = seed;
    let mut byte = || {
        state = state.wrapping_mul(1_664_525).wrapping_add(1_013_904_223);
        (state >> 24) as u8
    };
    (0..samples).map(|_| byte()).collect()
}

/// Sizes and bits with their L.
const LEVELS: [(Size, u32, u64); 6] = [
    ((1, 1), 6, 0),
    ((3, 3), 6, 0),
    ((4, 4), 6, 1),
    ((40, 30), 3, 2),
    ((64, 64), 6, 5),
    ((70, 33), 40, 5),
];

#[test]
fn equal_frames_cut_alike_take_one_a_level() {
    for ((width, height), bits, levels) in LEVELS {
        let frame = noise(1, width * height);
        for shrink in [Shrink::Average, Shrink::Subsample] {
            let options = Options {
                bits,
                shrink,
                ..OPTIONS
            };
            let found = step(&frame, &frame, (width, height), options);
            assert_eq!((found.shift, found.comparisons), (Shift::ZERO, levels + 1));
        }
    }
}

#[test]
fn noise_takes_nine_a_level() {
    for (size, bits, levels) in [((40, 30), 1, 0), ((40, 30), 3, 2), ((70, 66), 4, 3)] {
        let [reference, target] = [2, 3].map(|seed| noise(seed, size.0 * size.1));
        let options = Options { bits, ..OPTIONS };
        let found = step(&reference, &target, size, options);
        assert_eq!(found.comparisons, 9 * (levels + 1));
    }
}

#[test]
fn sides_of_0_take_one() {
    for size in [(0, 0), (0, 9), (9, 0)] {
        assert_eq!(step(&[], &[], size, OPTIONS).comparisons, 1);
    }
}

#[test]
fn a_candidate_that_compares_nothing_is_the_last() {
    let options = Options {
        tolerance: 0,
        ..OPTIONS
    };
    let found = step(&[0, 255], &[255, 0], (2, 1), options);
    assert_eq!((found.shift, found.comparisons), (Shift::new(-1, -1), 2));
}

const NINE: [(i32, i32); 9] = [
    (0, 0),
    (-1, -1),
    (-1, 0),
    (-1, 1),
    (0, -1),
    (0, 1),
    (1, -1),
    (1, 0),
    (1, 1),
];

/// Most of a frame: next to the cut, so that it is not compared.
const BOARD: u8 = 9;
const DARK: u8 = 0;
const BRIGHT: u8 = 99;

/// The step of two frames of 9 by 9 at one level. The first has two bright pixels, and the
/// second what they meet at each of the nine.
fn probed(met: [[u8; 2]; 9]) -> Step {
    let at = |x: i32, y: i32| (9 * y + x) as usize;
    let [mut reference, mut target] = [[BOARD; 81]; 2];
    let probes = [(2, 2), (6, 6)];
    for (probe, (x, y)) in probes.into_iter().enumerate() {
        reference[at(x, y)] = BRIGHT;
        for (candidate, (right, down)) in NINE.into_iter().enumerate() {
            target[at(x - right, y - down)] = met[candidate][probe];
        }
    }
    step(&reference, &target, (9, 9), Options { bits: 1, ..OPTIONS })
}

#[test]
fn every_stop_from_one_to_nine() {
    for stop in 0..9 {
        let mut met = [[DARK; 2]; 9];
        met[stop] = [BRIGHT; 2];
        let clean = Step {
            shift: Shift::new(NINE[stop].0, NINE[stop].1),
            comparisons: stop as u64 + 1,
        };
        assert_eq!(probed(met), clean);
        // Nor do later ones that are as clean change it; nor where it and they compare nothing.
        met[stop..].fill([BRIGHT; 2]);
        assert_eq!(probed(met), clean);
        met[stop..].fill([BOARD; 2]);
        assert_eq!(probed(met), clean);
    }
}

#[test]
fn ties_and_better_ones_that_are_not_clean_end_nothing() {
    let (worst, better) = ([DARK; 2], [BRIGHT, DARK]);
    assert_eq!(probed([worst; 9]).comparisons, 9);
    assert_eq!(probed([better; 9]).comparisons, 9);
    let mut met = [worst; 9];
    (met[2], met[5], met[7]) = (better, better, [BRIGHT; 2]);
    let found = probed(met);
    assert_eq!((found.shift, found.comparisons), (Shift::new(1, 0), 8));
}
