//! Lists as the port gets them: lent out of the middle of longer ones, so that a
//! write beside them shows.

use std::fmt::{self, Debug, Display};
use std::ops::Range;

use naive::align::Stack;
use trials::frames::Frames;
use trials::inputs::Random;
use trials::{Outcome, same};

/// What a list is made of.
pub trait Element: Copy + PartialEq + Debug {
    fn any(random: &mut Random) -> Self;
}

macro_rules! numbers {
    ($($number:ty)*) => {
        $(impl Element for $number {
            fn any(random: &mut Random) -> Self {
                random.word() as $number
            }
        })*
    };
}

numbers!(u8 u16 u64 usize i32);

impl Element for bool {
    fn any(random: &mut Random) -> Self {
        random.one_in(2)
    }
}

/// The most elements on either side of a list. As their number is any, bytes are lent
/// at any alignment.
const MOST_AROUND: usize = 80;

pub struct Lent<T> {
    all: Vec<T>,
    before: Vec<T>,
    lent: Range<usize>,
}

impl<T: Element> Lent<T> {
    /// A list to read or to change.
    pub fn holding(random: &mut Random, list: &[T]) -> Self {
        let mut around = || -> Vec<T> {
            let length = 1 + random.below(MOST_AROUND);
            (0..length).map(|_| T::any(random)).collect()
        };
        let (ahead, behind) = (around(), around());
        let all = [&ahead, list, &behind].concat();
        Self {
            before: all.clone(),
            all,
            lent: ahead.len()..ahead.len() + list.len(),
        }
    }

    /// A part of a list to read, with the rest of it around.
    pub fn part_of(list: &[T], lent: Range<usize>) -> Self {
        Self {
            all: list.to_vec(),
            before: list.to_vec(),
            lent,
        }
    }

    /// Room for an output, full of something else.
    pub fn room(random: &mut Random, length: usize) -> Self {
        let old: Vec<T> = (0..length).map(|_| T::any(random)).collect();
        Self::holding(random, &old)
    }

    pub fn list(&self) -> &[T] {
        &self.all[self.lent.clone()]
    }

    pub fn list_mut(&mut self) -> &mut [T] {
        &mut self.all[self.lent.clone()]
    }

    /// For an output of one element.
    pub fn one_mut(&mut self) -> &mut T {
        &mut self.list_mut()[0]
    }

    /// For a list of a length that the port knows.
    pub fn array_mut<const N: usize>(&mut self) -> &mut [T; N] {
        self.list_mut().try_into().expect("room for just as many")
    }

    /// The list as it was lent.
    pub fn list_before(&self) -> &[T] {
        &self.before[self.lent.clone()]
    }

    /// A part of the list, if it lies within.
    pub fn part(&self, start: usize, length: usize) -> Option<Vec<T>> {
        let rest = self.list().get(start..)?;
        rest.get(..length).map(<[T]>::to_vec)
    }

    /// Nothing has changed.
    pub fn is_kept(&self, input: &str) -> Outcome {
        self.are_kept(input, 0..self.all.len())
    }

    /// The list after a call that changes it only if accepted.
    pub fn after(&self, input: &str, status: u32) -> Result<Vec<T>, String> {
        match status {
            0 => {
                self.are_kept(input, 0..self.lent.start)?;
                self.are_kept(input, self.lent.end..self.all.len())?;
            }
            _ => self.is_kept(input)?,
        }
        Ok(self.list().to_vec())
    }

    /// The list begins with these elements, and nothing else has changed.
    pub fn begins_with(&self, front: &[T], input: &str) -> Outcome {
        let start = self.lent.start;
        same(
            input,
            ("port", &self.list()[..front.len()]),
            ("naive", front),
        )?;
        self.are_kept(input, 0..start)?;
        self.are_kept(input, start + front.len()..self.all.len())
    }

    /// A scratch after a call that may leave anything in its first `need` elements,
    /// if accepted.
    pub fn used_up_to(&self, need: usize, input: &str, status: u32) -> Outcome {
        if status != 0 {
            return self.is_kept(input);
        }
        self.are_kept(input, 0..self.lent.start)?;
        self.are_kept(input, self.lent.start + need..self.all.len())
    }

    fn are_kept(&self, input: &str, places: Range<usize>) -> Outcome {
        let (now, before) = (&self.all[places.clone()], &self.before[places.clone()]);
        if now == before {
            return Ok(());
        }
        let changed = places.filter(|&place| self.all[place] != self.before[place]);
        let from_start = |place: usize| place as i64 - self.lent.start as i64;
        let changed: Vec<i64> = changed.map(from_start).take(20).collect();
        Err(format!(
            "{input}: the list {self} has changed at {changed:?}"
        ))
    }
}

/// A stack with all its lists lent.
pub struct LentStack {
    samples: Lent<u8>,
    widths: Lent<usize>,
    heights: Lent<usize>,
    percentiles: Lent<u8>,
    reference: usize,
}

impl LentStack {
    pub fn of(random: &mut Random, frames: &Frames) -> Self {
        Self {
            samples: Lent::holding(random, &frames.samples),
            widths: Lent::holding(random, &frames.widths),
            heights: Lent::holding(random, &frames.heights),
            percentiles: Lent::holding(random, &frames.percentiles),
            reference: frames.reference,
        }
    }

    pub fn stack(&self) -> Stack<'_> {
        Stack {
            samples: self.samples.list(),
            widths: self.widths.list(),
            heights: self.heights.list(),
            percentiles: self.percentiles.list(),
            reference: self.reference,
        }
    }

    pub fn are_kept(&self, input: &str) -> Outcome {
        self.samples.is_kept(input)?;
        self.widths.is_kept(input)?;
        self.heights.is_kept(input)?;
        self.percentiles.is_kept(input)
    }
}

/// The length and the first elements, as lent.
impl<T: Element> Display for Lent<T> {
    fn fmt(&self, f: &mut fmt::Formatter) -> fmt::Result {
        const SHOWN: usize = 12;
        let list = self.list_before();
        let dots = if list.len() > SHOWN { "..." } else { "" };
        let start = &list[..list.len().min(SHOWN)];
        write!(f, "of {} {start:?}{dots}", list.len())
    }
}
