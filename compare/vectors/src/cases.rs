//! How the cases of a call are put together.

use std::fmt::Debug;

use naive::Refusal;
use naive::refusals::{LONGEST_SIDE, SIDE_TOO_LONG, WRONG_LENGTH};
use trials::inputs::{EDGE_HEIGHTS, EDGE_WIDTHS, Random, TOO_LONG, size};
use trials::scenes;

use crate::line::Answered;

/// Width and height.
pub type Size = (usize, usize);

/// The input of a call, with the lengths of the buffers lent to it.
pub trait Case: Clone {
    /// Asks the call.
    fn answered(&self) -> Answered;
}

/// A change to a sound input, and the number of the check that it then fails.
pub type Break<C> = (u32, fn(&mut C));

/// The lines of inputs, each answered with the status that stands before it.
pub fn stated<C: Case>(cases: impl IntoIterator<Item = (u32, C)>) -> Vec<String> {
    let line = |(status, case): (u32, C)| {
        let answered = case.answered();
        assert_eq!(answered.status, status, "{}", answered.line);
        answered.line
    };
    cases.into_iter().map(line).collect()
}

/// The lines of inputs that are accepted.
pub fn accepted<C: Case>(cases: impl IntoIterator<Item = C>) -> Vec<String> {
    stated(cases.into_iter().map(|case| (0, case)))
}

/// A sound input under each break, each also with the next check broken, and the
/// first break of a check with every later check broken. With them the number of
/// the check that must answer: breaks stand in the order of the checks.
fn broken<C: Case>(sound: &C, breaks: &[Break<C>]) -> Vec<(u32, C)> {
    let mut cases = Vec::new();
    let mut checks = checks(breaks);
    while let Some(of_check) = checks.next() {
        for (number, &one) in of_check.iter().enumerate() {
            let how_many = if number == 0 { breaks.len() } else { 1 };
            cases.extend(beside(sound, one, checks.clone().take(how_many)));
        }
    }
    cases
}

/// The breaks of each check.
fn checks<C>(breaks: &[Break<C>]) -> impl Iterator<Item = &[Break<C>]> + Clone {
    breaks.chunk_by(|(one, _), (next, _)| one == next)
}

/// A sound input under one break, with the first break of each of these checks, then alone.
fn beside<'a, C: Case + 'a>(
    sound: &C,
    (check, change): Break<C>,
    later: impl Iterator<Item = &'a [Break<C>]>,
) -> Vec<(u32, C)> {
    let mut once = sound.clone();
    change(&mut once);
    let with = |later: &[Break<C>]| {
        let mut twice = once.clone();
        later[0].1(&mut twice);
        (check, twice)
    };
    let mut cases: Vec<_> = later.map(with).collect();
    cases.push((check, once));
    cases
}

/// The lines of broken inputs, each refused with the number of its check.
pub fn refused<C: Case>(sound: &C, breaks: &[Break<C>]) -> Vec<String> {
    stated(broken(sound, breaks))
}

/// The same for breaks of one check, each also with every later check broken.
pub fn refused_first<C: Case>(sound: &C, breaks: &[Break<C>], later: &[Break<C>]) -> Vec<String> {
    let cases = |&one| beside(sound, one, checks(later));
    stated(breaks.iter().flat_map(cases))
}

/// The lines of broken inputs, each answered with the empty part.
pub fn emptied<C: Case>(sound: &C, breaks: &[Break<C>]) -> Vec<String> {
    let lines = accepted(broken(sound, breaks).into_iter().map(|(_, case)| case));
    assert!(lines.iter().all(|line| line.ends_with(" 0 0")));
    lines
}

/// The lines of a call on sizes: accepted at each of them, then one input broken.
pub fn lines<C: Case>(
    random: &mut Random,
    sizes: fn(&mut Random) -> Vec<Size>,
    sound: Size,
    mut case: impl FnMut(&mut Random, Size) -> C,
    breaks: &[Break<C>],
) -> Vec<String> {
    let sound = case(random, sound);
    let sizes = sizes(random).into_iter();
    let cases = sizes.map(|size| case(random, size));
    [accepted(cases), refused(&sound, breaks)].concat()
}

/// The naive answer, which the original, or what is counted again with its parts, must share
/// where the call is accepted.
pub fn agreed<T: PartialEq + Debug>(
    naive: Result<T, Refusal>,
    original: impl FnOnce() -> Result<T, Refusal>,
) -> Result<T, Refusal> {
    if naive.is_ok() {
        assert_eq!(naive, original());
    }
    naive
}

/// A list with the size that it claims, what is asked of it, and the lengths lent
/// for the output.
#[derive(Clone)]
pub struct Lent<T, Asked> {
    pub list: Vec<T>,
    pub width: usize,
    pub height: usize,
    pub asked: Asked,
    pub rooms: Vec<usize>,
}

impl<T: Copy + Default, Asked> Lent<T, Asked> {
    pub fn new(list: Vec<T>, (width, height): Size, asked: Asked, rooms: &[usize]) -> Self {
        Self {
            list,
            width,
            height,
            asked,
            rooms: rooms.to_vec(),
        }
    }

    /// Check 1, then check 2 of the list. A side over the limit comes without and
    /// with a wrong length, and with a product that is 0 in 64 bits.
    pub fn size_breaks() -> Vec<Break<Self>> {
        vec![
            (SIDE_TOO_LONG, |lent| {
                (lent.width, lent.height) = (TOO_LONG, 0);
                lent.list.clear();
                lent.rooms.fill(0);
            }),
            (SIDE_TOO_LONG, |lent| lent.height = TOO_LONG),
            (SIDE_TOO_LONG, |lent| {
                (lent.width, lent.height) = (1 << 32, 1 << 32)
            }),
            (WRONG_LENGTH, |lent| lent.list.push(T::default())),
            (WRONG_LENGTH, |lent| _ = lent.list.pop()),
            (WRONG_LENGTH, |lent| lent.list.clear()),
        ]
    }

    /// Check 2 of the outputs.
    pub fn room_breaks() -> Vec<Break<Self>> {
        vec![
            (WRONG_LENGTH, |lent| lent.rooms[0] += 1),
            (WRONG_LENGTH, |lent| {
                *lent.rooms.last_mut().expect("an output") = 0
            }),
        ]
    }
}

/// Every edge width with every edge height and one more height; some of any size;
/// and those at the limit that hold no sample.
pub fn sizes(random: &mut Random) -> Vec<Size> {
    let mut sizes = Vec::new();
    for width in EDGE_WIDTHS {
        sizes.extend(EDGE_HEIGHTS.map(|height| (width, height)));
        sizes.push((width, random.between(3, 7) as usize));
    }
    sizes.extend((0..6).map(|_| size(random, 9)));
    sizes.extend([(LONGEST_SIDE, 0), (0, LONGEST_SIDE)]);
    sizes
}

/// The sizes above and one of the limit that holds samples.
pub fn sizes_and_longest(random: &mut Random) -> Vec<Size> {
    let mut sizes = sizes(random);
    sizes.push((LONGEST_SIDE, 1));
    sizes
}

/// Sizes over the limit, some within it in 32 bits, and of some the product small in 64 bits: each
/// with how many samples the product then says, or a few.
pub const SIZES_OVER: [(Size, usize); 11] = [
    ((TOO_LONG, 0), 0),
    ((0, TOO_LONG), 0),
    ((TOO_LONG, TOO_LONG), 0),
    (((1 << 32) + 3, 2), 6),
    ((3, (1 << 32) + 2), 6),
    ((1 << 32, 1 << 32), 0),
    (((1 << 63) + 3, 2), 6),
    ((6, (1 << 63) + 1), 6),
    ((usize::MAX, 0), 0),
    ((1, usize::MAX), 1),
    ((usize::MAX, usize::MAX), 1),
];

/// Frames of one scene; at the limit a row of one digit a sample, which keeps the
/// line short, and the same row moved a little.
pub fn frames(random: &mut Random, (width, height): Size, count: usize) -> Vec<Vec<u8>> {
    if width.max(height) < LONGEST_SIDE {
        return scenes::bracket(random, width, height, count);
    }
    let digits = (0..width * height).map(|_| random.below(10) as u8);
    let first: Vec<u8> = digits.collect();
    (0..count)
        .map(|frame| {
            let start = (3 * frame).min(first.len());
            [&first[start..], &first[..start]].concat()
        })
        .collect()
}

pub fn frame(random: &mut Random, size: Size) -> Vec<u8> {
    frames(random, size, 1).remove(0)
}
