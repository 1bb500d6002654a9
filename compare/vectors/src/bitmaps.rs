//! Calls on packed bitmaps.

use naive::bitmap::{self, Bitmap};
use naive::difference::{self, Counts, Pair};
use naive::geometry::Shift;
use naive::refusals::{
    LONGEST_SIDE, PADDING_SET, PIXEL_OUTSIDE, SIDE_TOO_LONG, SIZES_DIFFER, WRONG_LENGTH,
};
use trials::inputs::{ANY, Random, TOO_LONG, any_shift, padded_words, two_pairs, words};
use trials::{original, recount};

use crate::cases::{
    Break, Case, Lent, Size, accepted, agreed, emptied, lines, refused, sizes_and_longest,
};
use crate::line::{Answered, Line};

type Packed<Asked> = Lent<u64, Asked>;

impl<Asked> Packed<Asked> {
    fn bitmap(&self) -> Bitmap<'_> {
        Bitmap::new(&self.list, self.width, self.height)
    }

    fn line(&self) -> Line {
        Line::new()
            .list(&self.list)
            .numbers([self.width, self.height])
    }
}

const SOUND: Size = (67, 3);

/// A pixel to read or, with a value, to set.
#[derive(Clone)]
struct Pixel {
    x: usize,
    y: usize,
    value: Option<bool>,
}

impl Case for Packed<Pixel> {
    fn answered(&self) -> Answered {
        let bitmap = self.bitmap();
        let Pixel { x, y, value } = self.asked;
        let line = self.line().numbers([x, y]);
        let Some(value) = value else {
            let naive = bitmap::get(bitmap, x, y);
            return line.answer(agreed(naive, || original::get(bitmap, x, y)));
        };
        // The original has no bitmap with set padding: there only pixels compare.
        let naive = bitmap::set(bitmap, x, y, value);
        let bits = |words: Vec<u64>| {
            let set = Bitmap::new(&words, self.width, self.height);
            original::words_of(&original::bitmap_of(set))
        };
        let same_bits = naive.clone().map(bits);
        _ = agreed(same_bits, || original::set(bitmap, x, y, value));
        line.number(u8::from(value)).answer(naive)
    }
}

const PIXEL_BREAKS: [Break<Packed<Pixel>>; 4] = [
    (PIXEL_OUTSIDE, |packed| packed.asked.x = packed.width),
    (PIXEL_OUTSIDE, |packed| packed.asked.y = packed.height),
    (PIXEL_OUTSIDE, |packed| {
        (packed.asked.x, packed.asked.y) = (127, 0)
    }),
    (PIXEL_OUTSIDE, |packed| packed.asked.x = 1 << 32),
];

fn pixels(random: &mut Random, mut value: impl FnMut(&mut Random) -> Option<bool>) -> Vec<String> {
    let mut cases = Vec::new();
    for size in sizes_and_longest(random) {
        let (width, height) = size;
        if width * height == 0 {
            continue;
        }
        let anywhere = (random.below(width), random.below(height));
        for (x, y) in [(0, 0), (width - 1, height - 1), anywhere] {
            let value = value(random);
            let pixel = Pixel { x, y, value };
            cases.push(Packed::new(padded_words(random, size), size, pixel, &[]));
        }
    }
    let value = value(random);
    let pixel = Pixel { x: 66, y: 2, value };
    let sound = Packed::new(padded_words(random, SOUND), SOUND, pixel, &[]);
    let breaks = [Packed::size_breaks(), PIXEL_BREAKS.to_vec()].concat();
    [accepted(cases), refused(&sound, &breaks)].concat()
}

pub fn get(random: &mut Random) -> Vec<String> {
    pixels(random, |_| None)
}

pub fn set(random: &mut Random) -> Vec<String> {
    pixels(random, |random| Some(random.one_in(2)))
}

#[derive(Clone)]
struct Total;

impl Case for Packed<Total> {
    fn answered(&self) -> Answered {
        let naive = bitmap::count_ones(self.bitmap());
        self.line()
            .answer(agreed(naive, || original::count_ones(self.bitmap())))
    }
}

/// Each sets a bit that the size breaks may have taken away.
const PADDING_BREAKS: [Break<Packed<Total>>; 2] = [
    (PADDING_SET, |packed| set_bit(packed.list.get_mut(1), 3)),
    (PADDING_SET, |packed| set_bit(packed.list.last_mut(), 63)),
];

fn set_bit(word: Option<&mut u64>, bit: u32) {
    if let Some(word) = word {
        *word |= 1 << bit;
    }
}

pub fn count_ones(random: &mut Random) -> Vec<String> {
    let packed =
        |random: &mut Random, size: Size| Packed::new(words(random, size, ANY), size, Total, &[]);
    let breaks = [Packed::size_breaks(), PADDING_BREAKS.to_vec()].concat();
    lines(random, sizes_and_longest, SOUND, packed, &breaks)
}

#[derive(Clone)]
struct Row {
    y: usize,
}

impl Case for Packed<Row> {
    fn answered(&self) -> Answered {
        let row = bitmap::row(self.bitmap(), self.asked.y);
        self.line().number(self.asked.y).answer(Ok(row.to_vec()))
    }
}

const ROW_BREAKS: [Break<Packed<Row>>; 2] = [
    (PIXEL_OUTSIDE, |packed| packed.asked.y = packed.height),
    (PIXEL_OUTSIDE, |packed| packed.asked.y = 1 << 32),
];

pub fn row(random: &mut Random) -> Vec<String> {
    let mut cases = Vec::new();
    for size in sizes_and_longest(random) {
        for y in 0..size.1.min(3) {
            let words = words(random, size, ANY);
            let expected = original::row(Bitmap::new(&words, size.0, size.1), y);
            let case = Packed::new(words, size, Row { y }, &[]);
            assert_eq!(Ok(bitmap::row(case.bitmap(), y).to_vec()), expected);
            cases.push(case);
        }
        if size.1 < LONGEST_SIDE {
            let y = random.below(size.1 + 1);
            cases.push(Packed::new(
                padded_words(random, size),
                size,
                Row { y },
                &[],
            ));
        }
    }
    let sound = Packed::new(padded_words(random, SOUND), SOUND, Row { y: 2 }, &[]);
    let breaks = [Packed::size_breaks(), ROW_BREAKS.to_vec()].concat();
    [accepted(cases), emptied(&sound, &breaks)].concat()
}

/// Two packed pairs: threshold and exclusion of the reference, then of the target.
#[derive(Clone)]
struct Counting {
    maps: [Vec<u64>; 4],
    sizes: [Size; 2],
    shift: Shift,
}

impl Counting {
    fn any(random: &mut Random, size: Size) -> Self {
        Self {
            maps: two_pairs(random, size),
            sizes: [size; 2],
            shift: any_shift(random, size),
        }
    }

    fn pair(&self, number: usize) -> Pair<'_> {
        let (width, height) = self.sizes[number];
        Pair {
            threshold: &self.maps[2 * number],
            exclusion: &self.maps[2 * number + 1],
            width,
            height,
        }
    }

    fn set_padding(&mut self, map: usize) {
        set_bit(self.maps[map].last_mut(), 63);
    }
}

impl Case for Counting {
    fn answered(&self) -> Answered {
        let (reference, target, shift) = (self.pair(0), self.pair(1), self.shift);
        let original = || {
            let trusted = |pair: Pair| {
                original::bitmap_of(Bitmap::new(pair.exclusion, pair.width, pair.height))
            };
            Ok(Counts {
                disagreeing: original::disagreement(reference, target, shift)?,
                compared: recount::compared(&trusted(reference), &trusted(target), shift),
            })
        };
        let naive = difference::disagreement(reference, target, shift);
        [reference, target]
            .into_iter()
            .fold(Line::new(), |line, pair| {
                line.list(pair.threshold)
                    .list(pair.exclusion)
                    .numbers([pair.width, pair.height])
            })
            .shift(shift)
            .answer(agreed(naive, original))
    }
}

const COUNTING_BREAKS: [Break<Counting>; 15] = [
    (SIDE_TOO_LONG, |pairs| {
        pairs.sizes = [(TOO_LONG, 0); 2];
        pairs.maps.fill(vec![]);
    }),
    (SIDE_TOO_LONG, |pairs| pairs.sizes[0].0 = TOO_LONG),
    (SIDE_TOO_LONG, |pairs| pairs.sizes[0].1 = TOO_LONG),
    (SIDE_TOO_LONG, |pairs| pairs.sizes[1].0 = TOO_LONG),
    (SIDE_TOO_LONG, |pairs| pairs.sizes[1].1 = 1 << 32),
    (SIZES_DIFFER, |pairs| pairs.sizes[1].0 += 1), // as many words
    (SIZES_DIFFER, |pairs| pairs.sizes[0].1 += 1),
    (WRONG_LENGTH, |pairs| pairs.maps[0].push(0)),
    (WRONG_LENGTH, |pairs| _ = pairs.maps[1].pop()),
    (WRONG_LENGTH, |pairs| pairs.maps[2].clear()),
    (WRONG_LENGTH, |pairs| _ = pairs.maps[3].pop()),
    (PADDING_SET, |pairs| pairs.set_padding(0)),
    (PADDING_SET, |pairs| pairs.set_padding(1)),
    (PADDING_SET, |pairs| pairs.set_padding(2)),
    (PADDING_SET, |pairs| pairs.set_padding(3)),
];

/// Shifts about whole words, where a word is made of parts of two.
const WORD_SHIFTS: [i32; 17] = [
    -129, -128, -127, -65, -64, -63, -62, -1, 0, 1, 62, 63, 64, 65, 127, 128, 129,
];

pub fn disagreement(random: &mut Random) -> Vec<String> {
    let mut cases = Vec::new();
    for size in sizes_and_longest(random) {
        let shifts = if size.0 * size.1 == 0 { 1 } else { 3 };
        cases.extend((0..shifts).map(|_| Counting::any(random, size)));
    }
    for width in [63, 64, 65, 130] {
        for x in WORD_SHIFTS {
            let mut case = Counting::any(random, (width, 3));
            case.shift = Shift::new(x, random.between(-1, 1) as i32);
            cases.push(case);
        }
    }
    let sound = Counting::any(random, SOUND);
    [accepted(cases), refused(&sound, &COUNTING_BREAKS)].concat()
}
