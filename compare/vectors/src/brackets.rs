//! Brackets as PGM files for the command `hall`: made-up scenes under a camera that moves by
//! whole pixels.

use naive::gray::Frame;
use trials::camera::scene::{FINE, Scene};
use trials::camera::{Bracket, Shot};
use trials::inputs::Random;

const SHOT: Shot = Shot {
    scene: Scene::Pins(8),
    width: 64,
    height: 64,
    tremble: 3,
    is_whole: true,
    noise: 2,
    exposures: &[8, 16, 32],
    black: 0,
};

/// How far each frame has to move to sit on the one before it, which README tells of the pins.
const MOVES: [[i64; 2]; 3] = [[0, 0], [-3, -1], [2, 1]];

/// Each file's name and its bytes.
pub fn files(random: &mut Random) -> [(&'static str, Vec<u8>); 2] {
    let pins = SHOT.taken(random);
    let moves: Vec<_> = pins
        .moves
        .iter()
        .map(|by| by.map(|points| points / FINE))
        .collect();
    assert_eq!(moves, MOVES, "the moves of the pins");
    let board = Shot {
        scene: Scene::Board,
        exposures: &[8, 16, 32, 64],
        ..SHOT
    };
    [
        ("pins.pgm", file(&pins)),
        ("board.pgm", file(&board.taken(random))),
    ]
}

/// A bracket's frames, one image behind another.
fn file(bracket: &Bracket) -> Vec<u8> {
    let samples = bracket.width * bracket.height;
    let images = bracket.frames.chunks(samples).map(|frame| {
        let frame = Frame::new(frame, bracket.width, bracket.height);
        naive::pgm::write(frame, usize::MAX).expect("a frame")
    });
    images.collect::<Vec<_>>().concat()
}
