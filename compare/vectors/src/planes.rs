//! Mosaics of one board as a file, and what the program that aligns the planes of the first two
//! reads and prints: the mosaics, and the planes of both, picked.

use naive::align::Options;
use naive::gray::Frame;
use naive::mosaic;
use naive::report::{ALONE, Rivalry, Room, report};
use naive::shrink::Shrink;
use trials::frames::Frames;
use trials::inputs::Random;

const SIZE: (usize, usize) = (65, 63);
/// Where the mosaics are cut out of the board: each by twice the step of its planes away from the
/// first.
const CORNERS: [(usize, usize); 3] = [(20, 24), (26, 20), (18, 30)];
/// That of the second.
const STEP: [i32; 2] = [3, -2];

const OPTIONS: Options = Options {
    bits: 4,
    tolerance: 4,
    shrink: Shrink::Average,
};
const RIVALRY: Rivalry = Rivalry {
    reach: 8,
    floor: 400,
    margin: 20,
};

const NAMES: [&str; 4] = [
    "even rows, even columns",
    "even rows, odd columns",
    "odd rows, even columns",
    "odd rows, odd columns",
];

/// Squares of 8 by 8 pixels, of whose light each plane sees two to four quarters: a colour.
fn mosaics(random: &mut Random) -> [Vec<u8>; 3] {
    let squares = random.bytes(16 * 16);
    CORNERS.map(|(left, top)| {
        let pixels = (0..SIZE.1).flat_map(|y| (0..SIZE.0).map(move |x| (x, y)));
        let sample = |(x, y)| {
            let square = squares[(top + y) / 8 * 16 + (left + x) / 8];
            let quarters = [4, 3, 3, 2][2 * (y % 2) + x % 2];
            (u32::from(square) * quarters / 4) as u8
        };
        pixels.map(sample).collect()
    })
}

/// All of them, one image behind another.
pub fn file(random: &mut Random) -> Vec<u8> {
    let images = mosaics(random).map(|mosaic| {
        let frame = Frame::new(&mosaic, SIZE.0, SIZE.1);
        naive::pgm::write(frame, usize::MAX).expect("a frame")
    });
    images.concat()
}

pub fn input_and_output(random: &mut Random) -> (Vec<u8>, Vec<u8>) {
    let [first, second, _] = mosaics(random);
    let mosaics = [first, second];
    let apart = mosaics.each_ref().map(|mosaic| {
        let planes = mosaic::take_apart(mosaic, SIZE.0, SIZE.1, mosaic.len());
        planes.expect("a mosaic")
    });
    let layout = mosaic::layout(SIZE.0, SIZE.1).expect("a size");
    let (mut input, mut output) = (mosaics.concat(), String::new());
    for (name, plane) in NAMES.iter().zip(layout.in_order()) {
        let picked = apart.each_ref().map(|planes| plane.part(planes).to_vec());
        input.extend(picked.concat());
        let size = (plane.width, plane.height);
        let frames = Frames::alike(picked.into(), size, 50, 0);
        let room = Room {
            shifts: 4,
            verdicts: 2,
            scratch: frames.scratch(OPTIONS.bits),
            records: usize::MAX,
        };
        let report = report(frames.stack(), &OPTIONS, &RIVALRY, room).expect("a stack");
        assert_eq!(report.shifts[2..], STEP, "each plane moves as the board");
        let not = if report.verdicts[1] == ALONE {
            ""
        } else {
            " not"
        };
        output += &format!(
            "{name}: {} by {} from {}, moved as the mosaic,{not} alone, rivals {}, as of the planes lent directly\n",
            plane.width,
            plane.height,
            plane.start,
            report.records.len()
        );
    }
    output += "both mosaics are put together again\n";
    (input, output.into_bytes())
}
