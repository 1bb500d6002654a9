//! The sizes that a caller claims, and lists for them.

use std::fmt;

use naive::bitmap::words_needed;
use naive::refusals::LONGEST_SIDE;
use trials::inputs::{Random, TOO_LONG, colours, padded_words, perhaps_wrong, size};
use trials::scenes;

use crate::lent::{Element, Lent};

const LARGEST: (usize, usize) = (LONGEST_SIDE, LONGEST_SIDE);
const MOST_SAMPLES: usize = LARGEST.0 * LARGEST.1;
/// The case in which it is tried: at percentile 17, where the naive cut is soon found.
const OF_LARGEST: usize = 17;

const LONGEST: [(usize, usize); 9] = [
    (LONGEST_SIDE, 1),
    (1, LONGEST_SIDE),
    (LONGEST_SIDE, 8),
    (8, LONGEST_SIDE),
    (LONGEST_SIDE, 0),
    (0, LONGEST_SIDE),
    (LONGEST_SIDE - 1, 3),
    (3, LONGEST_SIDE - 1),
    (LONGEST_SIDE, 65),
];

/// Sides over the limit. The last five ask for more samples than there ever are, the
/// last three for as many as are 0 in 64 bits.
const OVER: [(usize, usize); 11] = [
    (TOO_LONG, 0),
    (0, TOO_LONG),
    (TOO_LONG, 1),
    (1, TOO_LONG),
    (TOO_LONG, 2),
    (2, TOO_LONG),
    (TOO_LONG, TOO_LONG),
    (usize::MAX, 1),
    (1 << 32, 1 << 32),
    (1 << 63, 2),
    (64, 1 << 63),
];

/// Lengths of lists for a size over the limit: as long as the product says, if one can be so
/// long, or as it says in fewer bits, none, and any.
pub fn lengths_over(random: &mut Random, (width, height): (usize, usize)) -> Vec<usize> {
    const MOST: usize = 1 << 18;
    let [as_16, as_32] = [0xffff, 0xffff_ffff].map(|mask| (width & mask) * (height & mask));
    let product = width.wrapping_mul(height);
    let some = 1 + random.below(100);
    let mut lengths = vec![product, as_16, as_32, 0, some];
    lengths.retain(|&length| length <= MOST);
    lengths
}

/// Width and height as claimed.
#[derive(Clone, Copy)]
pub struct Claim {
    pub width: usize,
    pub height: usize,
    /// The size that the lists are made for: as claimed, or none where they could not
    /// be as long.
    pub made: (usize, usize),
    /// Whether every length is right.
    sound: bool,
}

impl Claim {
    /// One size in 25 is at the limit and two are over it, each kind in turn.
    pub fn any(random: &mut Random, case: usize, most_height: usize) -> Self {
        let (width, height) = match case % 25 {
            _ if case == OF_LARGEST => LARGEST,
            0 => LONGEST[case / 25 % LONGEST.len()],
            1 | 2 => OVER[(case / 25 + case % 25) % OVER.len()],
            _ => size(random, most_height),
        };
        let made = match width.checked_mul(height) {
            Some(0..=MOST_SAMPLES) => (width, height),
            _ => (0, 0),
        };
        Self {
            width,
            height,
            made,
            sound: case == OF_LARGEST,
        }
    }

    pub fn area(self) -> usize {
        self.made.0 * self.made.1
    }

    pub fn halved_area(self) -> usize {
        (self.made.0 / 2) * (self.made.1 / 2)
    }

    pub fn words(self) -> usize {
        words_needed(self.made.0, self.made.1)
    }

    fn perhaps_wrong(self, random: &mut Random, length: usize) -> usize {
        match self.sound {
            true => length,
            false => perhaps_wrong(random, length),
        }
    }

    /// The length of a scratch: what is needed, more, or one too few.
    pub fn scratch(self, random: &mut Random, need: usize) -> usize {
        match random.below(12) {
            0 if !self.sound => need.saturating_sub(1),
            1..4 => need + 1 + random.below(60),
            _ => need,
        }
    }

    /// Room of that length or one off.
    pub fn room<T: Element>(self, random: &mut Random, length: usize) -> Lent<T> {
        let length = self.perhaps_wrong(random, length);
        Lent::room(random, length)
    }

    /// A list of its length or one off.
    pub fn list<T: Element>(self, random: &mut Random, mut list: Vec<T>) -> Lent<T> {
        let length = self.perhaps_wrong(random, list.len());
        list.resize_with(length, || T::any(random));
        Lent::holding(random, &list)
    }

    pub fn rgb(self, random: &mut Random) -> Lent<u8> {
        let rgb = colours(random, 3 * self.area());
        self.list(random, rgb)
    }

    /// The samples of a scene; of the largest frame noise, which is sooner made.
    pub fn samples(self, random: &mut Random) -> Lent<u8> {
        let samples = match self.made {
            LARGEST => random.bytes(self.area()),
            (width, height) => scenes::frame(random, width, height),
        };
        self.list(random, samples)
    }

    /// The words of a bitmap, some with padding bits set.
    pub fn bitmap(self, random: &mut Random) -> Lent<u64> {
        let words = padded_words(random, self.made);
        self.list(random, words)
    }

    /// A column and a row, mostly inside.
    pub fn pixel(self, random: &mut Random) -> (usize, usize) {
        let mut along = |side: usize| match random.below(24) {
            0 => side,
            1 => side.saturating_add(1),
            2 => random.pick(&[LONGEST_SIDE, 1 << 32, 1 << 58, usize::MAX]),
            3 => side | 63, // mostly padding
            4 => side.saturating_sub(1),
            _ => random.below(side.max(1)),
        };
        (along(self.width), along(self.height))
    }
}

impl fmt::Display for Claim {
    fn fmt(&self, f: &mut fmt::Formatter) -> fmt::Result {
        write!(f, "{} by {}", self.width, self.height)
    }
}
