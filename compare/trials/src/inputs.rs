//! Seeded pseudo-random sizes, lengths, shifts, bitmaps, options and percentiles.

use naive::align::Options;
use naive::bitmap::packed;
use naive::geometry::Shift;
use naive::refusals::{HIGHEST_PERCENTILE, LONGEST_SIDE};
use naive::report::Rivalry;
use naive::shrink::Shrink;

/// SplitMix64: small, and the same on every machine.
pub struct Random {
    state: u64,
}

impl Random {
    pub fn new(seed: u64) -> Self {
        Self { state: seed }
    }

    pub fn word(&mut self) -> u64 {
        self.state = self.state.wrapping_add(0x9E37_79B9_7F4A_7C15);
        let mut word = self.state;
        word = (word ^ (word >> 30)).wrapping_mul(0xBF58_476D_1CE4_E5B9);
        word = (word ^ (word >> 27)).wrapping_mul(0x94D0_49BB_1331_11EB);
        word ^ (word >> 31)
    }

    /// A number from 0 up to, not including, `bound`.
    pub fn below(&mut self, bound: usize) -> usize {
        (self.word() % bound as u64) as usize
    }

    /// A number from `low` to `high`, both included.
    pub fn between(&mut self, low: i64, high: i64) -> i64 {
        low + self.below((high - low + 1) as usize) as i64
    }

    pub fn one_in(&mut self, chances: usize) -> bool {
        self.below(chances) == 0
    }

    pub fn byte(&mut self) -> u8 {
        self.word() as u8
    }

    pub fn pick<T: Copy>(&mut self, from: &[T]) -> T {
        from[self.below(from.len())]
    }

    pub fn bytes(&mut self, length: usize) -> Vec<u8> {
        (0..length).map(|_| self.byte()).collect()
    }
}

/// Widths about which packed rows and halving may go wrong.
pub const EDGE_WIDTHS: [usize; 10] = [0, 1, 2, 3, 63, 64, 65, 127, 128, 129];
pub const EDGE_HEIGHTS: [usize; 3] = [0, 1, 2];

/// The least side over the limit.
pub const TOO_LONG: usize = LONGEST_SIDE + 1;
pub const SIDES_OVER: [usize; 3] = [TOO_LONG, 1 << 32, usize::MAX];

/// Sizes over the limit, by one side or both. Some are within it in 16 or 32 bits; of others the
/// product is small in 32 or 64 bits.
pub const SIZES_OVER: [(usize, usize); 20] = [
    (TOO_LONG, 0),
    (0, TOO_LONG),
    (TOO_LONG, 1),
    (1, TOO_LONG),
    (TOO_LONG, TOO_LONG),
    (10_000, 2),
    (2, 99_999),
    ((1 << 16) + 3, 2),
    (3, (1 << 16) + 2),
    ((1 << 32) + 3, 2),
    (3, (1 << 32) + 2),
    (1 << 32, 1 << 32),
    ((1 << 32) + 1, (1 << 32) - 1),
    ((1 << 63) + 3, 2),
    (6, (1 << 63) + 1),
    (1 << 63, 0),
    (0, usize::MAX),
    (usize::MAX, 1),
    (usize::MAX, usize::MAX),
    (usize::MAX - 2, usize::MAX - 1),
];

pub fn size(random: &mut Random, most_height: usize) -> (usize, usize) {
    let width = match random.one_in(2) {
        true => random.pick(&EDGE_WIDTHS),
        false => random.below(180),
    };
    let height = match random.one_in(6) {
        true => random.pick(&EDGE_HEIGHTS),
        false => random.below(most_height + 1),
    };
    (width, height)
}

/// The bytes of pixels in colour; now and then all are at one end.
pub fn colours(random: &mut Random, length: usize) -> Vec<u8> {
    let mut rgb = random.bytes(length);
    if random.one_in(4) {
        let level = random.pick(&[0, 255]);
        rgb.fill(level);
    }
    rgb
}

/// Now and then one too many or too few.
pub fn perhaps_wrong(random: &mut Random, length: usize) -> usize {
    match random.below(20) {
        0 => length + 1,
        1 => length.saturating_sub(1),
        _ => length,
    }
}

/// A coordinate for a side: small, within the frame, about a multiple of 64, at the
/// edge, beyond the frame, or at the ends of i32.
pub fn coordinate(random: &mut Random, side: usize) -> i32 {
    let side = side as i64;
    let coordinate = match random.below(12) {
        0..4 => random.between(-6, 6),
        4..6 => random.between(-side, side),
        6..9 => {
            let words = side / 64 + 1;
            64 * random.between(-words, words) + random.between(-1, 1)
        }
        9 => random.pick(&[-1, 1]) * (side + random.between(-1, 1)),
        10 => {
            let ends = [i32::MIN, i32::MIN + 1, i32::MAX - 1, i32::MAX];
            i64::from(random.pick(&ends))
        }
        _ => i64::from(random.word() as i32),
    };
    coordinate as i32
}

/// A shift whose rows mostly still meet, or the columns would hardly be tried.
pub fn any_shift(random: &mut Random, (width, height): (usize, usize)) -> Shift {
    let x = coordinate(random, width);
    let y = match random.below(4) {
        0 => coordinate(random, height),
        1 => random.between(-(height as i64), height as i64) as i32,
        _ => 0,
    };
    Shift::new(x, y)
}

/// A coordinate, often where doubling it just fits.
pub fn doubling(random: &mut Random) -> i32 {
    match random.one_in(2) {
        true => coordinate(random, 100),
        false => random.pick(&[-1, 1]) * (1 << 30) + random.between(-2, 2) as i32,
    }
}

/// The shifts of a stack, near or far: x, then y for each frame.
pub fn shift_list(random: &mut Random, (width, height): (usize, usize)) -> Vec<i32> {
    let far = random.one_in(3);
    let mut shifts = Vec::new();
    for _ in 0..random.below(17) {
        for side in [width, height] {
            shifts.push(match far {
                true => coordinate(random, side),
                false => random.between(-9, 9) as i32,
            });
        }
    }
    shifts
}

/// How many of 16 bits a bitmap has set: any, or mostly set as exclusion bits are.
pub const ANY: [usize; 5] = [0, 1, 8, 15, 16];
pub const MOSTLY_SET: [usize; 5] = [4, 12, 14, 15, 16];

/// A bitmap's words with clear padding.
pub fn words(random: &mut Random, (width, height): (usize, usize), set: [usize; 5]) -> Vec<u64> {
    let set = random.pick(&set);
    let bits: Vec<bool> = (0..width * height)
        .map(|_| random.below(16) < set)
        .collect();
    packed(width, height, |x, y| bits[y * width + x])
}

/// A bitmap's words. Half of those with padding have some of it set: only totals and
/// counts mind.
pub fn padded_words(random: &mut Random, size: (usize, usize)) -> Vec<u64> {
    let mut words = words(random, size, ANY);
    let width = size.0;
    if !width.is_multiple_of(64) && random.one_in(2) {
        let last = width / 64;
        for row in words.chunks_mut(last + 1) {
            row[last] |= random.word() & (u64::MAX << (width % 64));
        }
    }
    words
}

/// The words of two packed pairs: threshold and exclusion of either.
pub fn two_pairs(random: &mut Random, size: (usize, usize)) -> [Vec<u64>; 4] {
    [ANY, MOSTLY_SET, ANY, MOSTLY_SET].map(|set| words(random, size, set))
}

pub fn shrink(random: &mut Random) -> Shrink {
    random.pick(&[Shrink::Average, Shrink::Subsample])
}

/// Percentiles 0 to 104 in turn.
pub fn percentile_of(case: usize) -> u8 {
    (case % 105) as u8
}

/// No percentile.
pub fn percentile_over(random: &mut Random) -> u8 {
    random.between(i64::from(HIGHEST_PERCENTILE) + 1, 255) as u8
}

pub fn tolerance(random: &mut Random) -> u8 {
    match random.one_in(2) {
        true => random.pick(&[0, 1, 4, 254, 255]),
        false => random.byte(),
    }
}

/// Mostly what a machine would be set to, now and then anything: options, and a percentile
/// for all frames, as the original has one.
pub fn options(random: &mut Random) -> (Options, u8) {
    let bits = match random.one_in(4) {
        true => random.pick(&[0, 1, 2, 31, 32, 64, u32::MAX]),
        false => random.between(3, 8) as u32,
    };
    let tolerance = match random.one_in(4) {
        true => random.byte(),
        false => random.pick(&[0, 2, 4, 8]),
    };
    let percentile = match random.one_in(3) {
        true => any_percentile(random),
        false => random.pick(&[17, 50, 50, 83]),
    };
    let options = Options {
        bits,
        tolerance,
        shrink: shrink(random),
    };
    (options, percentile)
}

fn any_percentile(random: &mut Random) -> u8 {
    random.below(usize::from(HIGHEST_PERCENTILE) + 1) as u8
}

/// Terms of a report on frames of this size: few rivals, all, or none.
pub fn rivalry(random: &mut Random, reach: u32, (width, height): (usize, usize)) -> Rivalry {
    let area = (width * height) as u32;
    Rivalry {
        reach,
        floor: random.pick(&[0, 1, 1, area / 8, area / 4, area / 2, u32::MAX]),
        margin: random.pick(&[0, 0, 1, 5, area / 8, u32::MAX]),
    }
}

/// From the dark end of a bracket to its bright one.
pub const ACROSS: [u8; 3] = [83, 50, 17];

/// A percentile for each of two frames or more, not all of them the same: across the bracket
/// or back, both ends of the range, or any.
pub fn unequal_percentiles(random: &mut Random, count: usize) -> Vec<u8> {
    assert!(count > 1, "one percentile is like itself");
    loop {
        let (kind, back) = (random.below(3), random.one_in(2));
        let mut percentiles: Vec<u8> = (0..count)
            .map(|frame| match kind {
                0 => ACROSS[2 * frame / (count - 1)],
                1 => random.pick(&[0, HIGHEST_PERCENTILE]),
                _ => any_percentile(random),
            })
            .collect();
        if back {
            percentiles.reverse();
        }
        if percentiles.iter().any(|&other| other != percentiles[0]) {
            return percentiles;
        }
    }
}
