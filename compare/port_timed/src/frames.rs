//! The calls on single frames and bitmaps.

use std::hint::black_box;

use ::port::{Bitmap, Frame, Shrink, frames as port, words_needed};
use mtb_align::{Gray, Percentile};
use trials::inputs::Random;

use crate::inputs::Input;
use crate::original;
use crate::race::race;
use crate::{Timed, timed};

pub const PERCENTILE: u8 = 50;
pub const TOLERANCE: u8 = 4;

pub fn frame(input: &Input) -> Frame<'_> {
    let (width, height) = input.size;
    Frame::new(&input.samples, width, height)
}

pub fn gray(input: &Input) -> Gray {
    let (width, height) = input.size;
    Gray::from_vec(input.samples.clone(), width, height)
}

pub fn from_rgb(input: &Input) -> Vec<Timed> {
    let (width, height) = input.size;
    let rgb: Vec<u8> = input.samples.iter().flat_map(|&s| [s, s, s]).collect();
    let mut out = vec![0; width * height];
    let times = race([
        &mut || {
            let rgb = black_box(&rgb);
            accepted(original::from_rgb(rgb.as_ptr(), rgb.len(), width, height));
        },
        &mut || {
            let rgb = black_box(&rgb);
            accepted(port::from_rgb(rgb, width, height, &mut out));
        },
    ]);
    vec![timed("from_rgb", 1.0, input, times)]
}

pub fn shrink2(input: &Input) -> Vec<Timed> {
    let (width, height) = input.size;
    let (gray, frame) = (gray(input), frame(input));
    let mut out = vec![0; (width / 2) * (height / 2)];
    let mut times = |mode| {
        let subsampled = mode == Shrink::Subsample;
        race([
            &mut || accepted(original::shrink2(black_box(&gray), subsampled)),
            &mut || accepted(port::shrink2(*black_box(&frame), mode, &mut out)),
        ])
    };
    let average = times(Shrink::Average);
    let subsample = times(Shrink::Subsample);
    vec![
        timed("shrink2 average", 2.0, input, average),
        timed("shrink2 subsample", 2.0, input, subsample),
    ]
}

pub const THRESHOLD: &str = "threshold";
pub const COMPUTE_BITMAPS: &str = "compute_bitmaps";
pub const PACKING_ALONE: &str = "packing alone";

/// The cut and the bitmaps in one race, as packing alone is their difference.
pub fn cut_and_bitmaps(input: &Input) -> Vec<Timed> {
    let (width, height) = input.size;
    let (gray, frame) = (gray(input), frame(input));
    let [mut cut_there, mut cut] = [0; 2];
    let mut threshold = vec![0; words_needed(width, height)];
    let mut exclusion = threshold.clone();
    let [cut_of_original, cut_of_port, original, port] = race([
        &mut || {
            let gray = black_box(&gray);
            accepted(original::threshold(gray, PERCENTILE, &mut cut_there));
        },
        &mut || accepted(port::threshold(*black_box(&frame), PERCENTILE, &mut cut)),
        &mut || {
            let gray = black_box(&gray);
            accepted(original::compute_bitmaps(gray, PERCENTILE, TOLERANCE));
        },
        &mut || {
            accepted(port::compute_bitmaps(
                *black_box(&frame),
                PERCENTILE,
                TOLERANCE,
                &mut threshold,
                &mut exclusion,
            ));
        },
    ]);
    vec![
        timed(THRESHOLD, 1.0, input, [cut_of_original, cut_of_port]),
        timed(COMPUTE_BITMAPS, 2.5, input, [original, port]),
    ]
}

/// Packing without the cut on the port's side; the whole on the original's.
pub fn packing_alone(all: &[Timed]) -> Vec<Timed> {
    let of = |call: &'static str| all.iter().filter(move |timed| timed.call == call);
    of(COMPUTE_BITMAPS)
        .zip(of(THRESHOLD))
        .map(|(whole, cut)| Timed {
            call: PACKING_ALONE.to_owned(),
            goal: 5.0,
            times: [whole.times[0], whole.times[1] - cut.times[1]],
            ..whole.clone()
        })
        .collect()
}

/// The threshold bitmap of a frame, on both sides.
fn bitmaps(input: &Input) -> (mtb_align::Bitmap, Vec<u64>) {
    let percentile = Percentile::new(PERCENTILE);
    let bitmap = mtb_align::compute_bitmaps(&gray(input), percentile, TOLERANCE).threshold;
    let words = trials::original::words_of(&bitmap);
    (bitmap, words)
}

pub fn count_ones(input: &Input) -> Vec<Timed> {
    let (bitmap, words) = bitmaps(input);
    let lent = Bitmap::new(&words, input.size.0, input.size.1);
    let [mut total_there, mut total] = [0; 2];
    let times = race([
        &mut || {
            let bitmap = black_box(&bitmap);
            accepted(original::count_ones(bitmap, &mut total_there));
        },
        &mut || accepted(port::count_ones(*black_box(&lent), &mut total)),
    ]);
    vec![timed("count_ones", 1.0, input, times)]
}

/// Single pixels at places that jump about.
pub fn pixels(input: &Input) -> Vec<Timed> {
    let (width, height) = input.size;
    let mut random = Random::new(2);
    let places: Vec<(usize, usize)> = (0..1024)
        .map(|_| (random.below(width), random.below(height)))
        .collect();
    let per_call = |times: [f64; 2]| times.map(|time| time / places.len() as f64);

    let (mut bitmap, mut words) = bitmaps(input);
    let lent = Bitmap::new(&words, width, height);
    let [mut pixel_there, mut pixel] = [false; 2];
    let get = race([
        &mut || {
            for &(x, y) in &places {
                let bitmap = black_box(&bitmap);
                accepted(original::get(bitmap, x, y, &mut pixel_there));
                black_box(pixel_there);
            }
        },
        &mut || {
            for &(x, y) in &places {
                accepted(port::get(*black_box(&lent), x, y, &mut pixel));
                black_box(pixel);
            }
        },
    ]);
    let set = race([
        &mut || {
            for &(x, y) in &places {
                let bitmap = black_box(&mut bitmap);
                accepted(original::set(bitmap, x, y, x > y));
            }
        },
        &mut || {
            for &(x, y) in &places {
                let lent = black_box(&mut words);
                accepted(port::set(lent, width, height, x, y, x > y));
            }
        },
    ]);
    vec![
        timed("get", 1.0, input, per_call(get)),
        timed("set", 1.0, input, per_call(set)),
    ]
}

/// A refusal would be quick.
pub fn accepted(status: u32) {
    assert_eq!(status, 0, "refused");
}
