//! Pairs of frames made for the number of comparisons: a level is left at the first of the
//! nine that disagrees in no pixel.

use naive::align::Options;
use naive::refusals::HIGHEST_PERCENTILE;
use naive::stacksteps::{OPTIONS, PERCENTILE};
use trials::inputs::Random;
use trials::matches::{self, Pair};

use crate::cases::Size;

/// Two frames, and how many comparisons their step takes.
pub struct Counted {
    pub pair: Pair,
    pub comparisons: u64,
}

fn counted(samples: [Vec<u8>; 2], size: Size, options: Options, comparisons: u64) -> Counted {
    let pair = Pair {
        samples,
        size,
        percentiles: [PERCENTILE; 2],
        options,
    };
    Counted { pair, comparisons }
}

pub fn all(random: &mut Random) -> Vec<Counted> {
    let mut all = vec![nothing_compared(), equal(random), unlike(random)];
    for coarsest in [0, 1] {
        for at in 0..matches::NINE.len() {
            let (pair, _) = matches::moved(random, (10, 9), coarsest, at);
            let comparisons = (at + 1 + coarsest) as u64;
            all.push(Counted { pair, comparisons });
        }
    }
    all.push(one_pixel());
    all
}

/// Both pixels disagree at the centre, and the second candidate compares none.
fn nothing_compared() -> Counted {
    let samples = [vec![0, 255], vec![255, 0]];
    let options = Options {
        tolerance: 0,
        ..OPTIONS
    };
    counted(samples, (2, 1), options, 2)
}

/// One pixel and itself, of which one cut is 0 and the other 201: it disagrees at the centre,
/// and the second candidate compares nothing.
fn one_pixel() -> Counted {
    let options = Options {
        tolerance: 0,
        ..OPTIONS
    };
    let mut one = counted([vec![200], vec![200]], (1, 1), options, 2);
    one.pair.percentiles = [PERCENTILE, HIGHEST_PERCENTILE];
    one
}

/// A frame and itself, cut alike: one comparison at each of four levels.
fn equal(random: &mut Random) -> Counted {
    let frame = random.bytes(24 * 20);
    counted([frame.clone(), frame], (24, 20), OPTIONS, 4)
}

/// Two frames with nothing in common: nine at each of three levels.
fn unlike(random: &mut Random) -> Counted {
    let samples = [(); 2].map(|()| random.bytes(24 * 20));
    counted(samples, (24, 20), Options { bits: 3, ..OPTIONS }, 27)
}
