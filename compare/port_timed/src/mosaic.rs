//! Mosaics taken apart and put together beside a loop by pixel in C, as the original does neither.

use std::cell::RefCell;
use std::hint::black_box;

use ::port::mosaic as port;
use ::port::refusals::LONGEST_SIDE;

use crate::frames::accepted;
use crate::inputs::{Input, Size};
use crate::peer;
use crate::race::race;
use crate::{ONE, Timed, timed};

/// Even and odd sides, from few samples on, the largest mosaic, and one row.
pub const SIZES: [Size; 8] = [
    (64, 64),
    (65, 63),
    ONE,
    (641, 481),
    (1280, 960),
    (1920, 1080),
    (LONGEST_SIDE, LONGEST_SIDE),
    (LONGEST_SIDE, 1),
];

type Way = fn(&[u8], usize, usize, &mut [u8]) -> u32;

pub fn take_apart(input: &Input) -> Vec<Timed> {
    times("take_apart", [peer::take_apart, port::take_apart], input)
}

pub fn put_together(input: &Input) -> Vec<Timed> {
    times(
        "put_together",
        [peer::put_together, port::put_together],
        input,
    )
}

/// The peer's way and the port's.
fn times(call: &'static str, ways: [Way; 2], input: &Input) -> Vec<Timed> {
    let (width, height) = input.size;
    // What a call costs before its first row takes its share of a small mosaic's time.
    let goal = match width * height < ONE.0 * ONE.1 {
        true => 3.0,
        false => 5.0,
    };
    let [there, here] = ways.map(|way| {
        let mut made = vec![0; input.samples.len()];
        accepted(way(&input.samples, width, height, &mut made));
        made
    });
    assert!(there == here, "the peer and the port make the same");
    drop(there);

    // From one place into one room, as copies take longer or shorter by where these lie.
    let room = RefCell::new(here);
    let make = |way: Way| {
        let samples = black_box(&input.samples);
        accepted(way(samples, width, height, &mut room.borrow_mut()));
    };
    let [peer, port] = ways;
    let times = race([&mut || make(peer), &mut || make(port)]);
    vec![timed(call, goal, input, times)]
}
