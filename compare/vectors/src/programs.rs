//! What the program `stacksteps` reads and prints, as pairs of files, and what it would
//! print at a longer reach.

use naive::report::Rivalry;
use naive::stacksteps::{RIVALRY, stacksteps, text_at};
use trials::inputs::Random;
use trials::scenes;

const SIDE: usize = 64;
const FRAME: usize = SIDE * SIDE;

/// A name, the standard input and the standard output.
pub type Pair = (String, Vec<u8>, String);

/// A row of pins, 8 columns apart and with soft edges, so that a shift one column or
/// one row aside disagrees in no more pixels than the right one.
fn pin_row(left: usize, top: usize) -> Vec<u8> {
    const PITCH: [u8; 8] = [0, 0, 0, 100, 200, 200, 200, 100];
    let sample = |at: usize| match (at / SIDE).wrapping_sub(top) {
        0..24 => PITCH[(at % SIDE + 8 - left) % 8],
        _ => 100,
    };
    (0..FRAME).map(sample).collect()
}

/// The edge of a part: its body, below it a row of pins, 8 columns apart and with hard
/// edges, then board, in two shades. Along the row the picture is the same one pitch on
/// and nowhere in between.
fn pins_of_part(left: usize, body: usize) -> Vec<u8> {
    const PITCH: [u8; 8] = [200, 200, 200, 200, 0, 0, 0, 0];
    let sample = |at: usize| match (at / SIDE).checked_sub(body) {
        None => 200,
        Some(0..24) => PITCH[(at % SIDE + 8 - left) % 8],
        Some(24..40) => 0,
        Some(_) => 100,
    };
    (0..FRAME).map(sample).collect()
}

/// Parts of one board of pads, each off the one before by a few columns and rows.
fn drifting(random: &mut Random) -> Vec<u8> {
    const BOARD: usize = 96;
    let pads: Vec<u8> = (0..BOARD * BOARD).map(|_| random.byte() / 2).collect();
    let grain = random.bytes(BOARD * BOARD);
    let light = |x: usize, y: usize| pads[y / 6 * BOARD + x / 6] + grain[y * BOARD + x] / 8;
    [
        (9, 7),
        (12, 7),
        (20, 2),
        (20, 3),
        (8, 11),
        (3, 18),
        (7, 31),
        (0, 25),
    ]
    .map(|(left, top)| -> Vec<u8> {
        let sample = |at| light(left + at % SIDE, top + at / SIDE);
        (0..FRAME).map(sample).collect()
    })
    .concat()
}

/// Kept as it is: an exposure like the reference, one far too bright, and one in the
/// dark.
const WORKSHOP: &[u8] = include_bytes!("../data/stacksteps/workshop.stdin");

/// Names and inputs.
fn inputs(random: &mut Random) -> Vec<(String, Vec<u8>)> {
    // The printed example: rows of 24 bytes 0, 16 bytes 100 and 24 bytes 200.
    let stripes = [[0; 24].as_slice(), &[100; 16], &[200; 24]].concat();
    let striped = |frames: usize| stripes.repeat(SIDE * frames);
    let mut inputs = vec![
        ("example".to_string(), striped(2)),
        ("one_frame".to_string(), striped(1)),
        ("no_frame".to_string(), vec![]),
        ("one_byte".to_string(), vec![0]),
        ("byte_missing".to_string(), striped(1)[1..].to_vec()),
        ("byte_over".to_string(), [striped(1), vec![0]].concat()),
        ("eight_frames".to_string(), striped(8)),
        ("eight_and_byte".to_string(), [striped(8), vec![0]].concat()),
        ("nine_frames".to_string(), striped(9)),
        ("weak".to_string(), vec![255; 2 * FRAME]),
        ("workshop".to_string(), WORKSHOP.to_vec()),
    ];
    for number in 1..=6 {
        let frames = scenes::bracket(random, SIDE, SIDE, 1 + number % 4).concat();
        inputs.push((format!("scene_{number}"), frames));
    }
    let pins = [(0, 20), (3, 18), (3, 18), (2, 23)].map(|(left, top)| pin_row(left, top));
    inputs.push(("pin_row".to_string(), pins.concat()));
    // A dark frame compares nothing, neither with the frame before it nor with the next.
    let dark = random
        .bytes(FRAME)
        .iter()
        .map(|sample| sample % 4)
        .collect();
    inputs.push(("dark".to_string(), [striped(1), dark, striped(2)].concat()));
    inputs.push(("eight_drifting".to_string(), drifting(random)));
    // Some shifts one pixel aside disagree in that pixel alone.
    let mut speck = striped(1);
    speck[FRAME - 1] = 0;
    inputs.push(("speck".to_string(), speck.repeat(2)));
    // Light from the left, then from the right: the coarsest level moves the frame.
    let ramp = |at: usize| (3 * (at % SIDE) + at / SIDE / 8) as u8;
    let right: Vec<u8> = (0..FRAME).map(ramp).collect();
    let left: Vec<u8> = right
        .chunks(SIDE)
        .flat_map(|row| row.iter().rev().copied())
        .collect();
    inputs.push(("far".to_string(), [left, right].concat()));
    let pins = [(0, 20), (3, 18)].map(|(left, body)| pins_of_part(left, body));
    inputs.push(("pins_one_pitch".to_string(), pins.concat()));
    inputs
}

/// Inputs whose report is kept at another reach than the program's too: there each of them
/// has a step that is contested, of which the program says alone.
const FARTHER: [(&str, u32); 2] = [("pins_one_pitch", 8), ("workshop", 8)];

/// The texts of these reports, each with the name of its file.
pub fn farther_texts(pairs: &[Pair]) -> Vec<(String, String)> {
    FARTHER
        .map(|(name, reach)| {
            let is_named = |pair: &&Pair| pair.0 == name;
            let (_, input, near) = pairs.iter().find(is_named).expect("an input");
            let rivalry = Rivalry { reach, ..RIVALRY };
            let text = text_at(input, &rivalry);
            assert!(text.contains("contested") && !near.contains("contested"));
            (format!("{name}.reach_{reach}.stdout"), text)
        })
        .into()
}

pub fn stacksteps_pairs(random: &mut Random) -> Vec<Pair> {
    inputs(random)
        .into_iter()
        .map(|(name, input)| {
            let output = stacksteps(&input);
            (name, input, output)
        })
        .collect()
}
