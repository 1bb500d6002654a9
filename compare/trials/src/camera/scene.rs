//! What lies under the camera: how bright each point of an endless plane is.

use crate::inputs::Random;

/// Points to the side of a pixel, so that a move by a quarter of a pixel is one by whole
/// points. All that follows is in points where it does not say pixels.
pub const FINE: i64 = 4;

/// The kind of scene; pitches are in pixels.
#[derive(Clone, Copy)]
pub enum Scene {
    /// Rows of equal pins in light that changes from row to row. No end is in view.
    Pins(i64),
    /// The same, and the rows end in view.
    PinsWithEnd(i64),
    /// Bright squares at hashed places of a grid, on a grainy board.
    Pads,
    /// Blots two pixels wide of any brightness, as solder paste has them.
    Rough,
    /// A board in tiles: pins, pads, strips of copper or nothing but grain.
    Board,
    /// A dark part with one corner in view, its edges soft.
    Corner,
    /// A dark part with one straight edge in view.
    Edge,
    /// Nothing but fine grain.
    Flat,
}

impl Scene {
    pub fn name(self) -> String {
        match self {
            Scene::Pins(pitch) => format!("pins, pitch {pitch}"),
            Scene::PinsWithEnd(pitch) => format!("pins, pitch {pitch}, an end in view"),
            Scene::Pads => "pads".into(),
            Scene::Rough => "rough".into(),
            Scene::Board => "board".into(),
            Scene::Corner => "even, a corner".into(),
            Scene::Edge => "even, an edge".into(),
            Scene::Flat => "even, nothing".into(),
        }
    }

    /// How bright a point is, 0 to 127. What can end does so at the point (0, 0).
    pub fn light(self, seed: u64, x: i64, y: i64) -> i64 {
        let grain = |most: i64| blot(seed, 2, x, y).rem_euclid(2 * most + 1) - most;
        match self {
            Scene::Pins(pitch) => pins(pitch, x, y) + grain(2),
            Scene::PinsWithEnd(pitch) if x < 0 => pins(pitch, x, y) + grain(2),
            Scene::PinsWithEnd(_) => board(y) + grain(2),
            Scene::Pads => pads(seed, x, y) + grain(12),
            Scene::Rough => 20 + blot(seed, 2, x, y).rem_euclid(90),
            Scene::Board => {
                let tile = blot(!seed, TILE, x, y);
                match tile.rem_euclid(5) {
                    0 => pins(tile.rem_euclid(17) + 5, x, y) + grain(6),
                    1 | 2 => pads(seed, x, y) + grain(12),
                    3 => copper(seed, x, y) + grain(8),
                    _ => board(y) + grain(6),
                }
            }
            Scene::Corner => soft(x.max(y)) + grain(3),
            Scene::Edge => soft(x) + grain(3),
            Scene::Flat => 50 + grain(3),
        }
    }
}

/// The sides of a board's tiles, in pixels.
const TILE: i64 = 48;

/// Half of each pitch bright, 28 of each 40 rows.
fn pins(pitch: i64, x: i64, y: i64) -> i64 {
    let on_pin = 2 * x.rem_euclid(pitch * FINE) < pitch * FINE;
    let in_row = y.rem_euclid(40 * FINE) < 28 * FINE;
    board(y) + if on_pin && in_row { 60 } else { 0 }
}

/// Bare board: its light rises and falls once in 40 rows, by 20.
fn board(y: i64) -> i64 {
    25 + (y.rem_euclid(40 * FINE) - 20 * FINE).abs() / FINE
}

/// A third of the places have a pad, with a pixel between two of them.
fn pads(seed: u64, x: i64, y: i64) -> i64 {
    let grid = 5 + (seed % 8) as i64;
    let inner = |at: i64| at.rem_euclid(grid * FINE) >= FINE;
    let is_pad = blot(!seed, grid, x, y).rem_euclid(3) == 0;
    35 + if is_pad && inner(x) && inner(y) {
        60
    } else {
        0
    }
}

/// Strips of any width that run across the rows or along them.
fn copper(seed: u64, x: i64, y: i64) -> i64 {
    let along = if seed.is_multiple_of(2) { x } else { y };
    35 + if blot(seed, 3, along, 0).rem_euclid(3) == 0 {
        50
    } else {
        0
    }
}

/// From dark at negative numbers to bright, over four pixels.
fn soft(depth: i64) -> i64 {
    20 + 70 * (depth + 2 * FINE).clamp(0, 4 * FINE) / (4 * FINE)
}

/// Any number, the same throughout a square of so many pixels.
fn blot(seed: u64, pixels: i64, x: i64, y: i64) -> i64 {
    let side = pixels * FINE;
    let place = ((x.div_euclid(side) as u64) << 32) ^ (y.div_euclid(side) as u64 & 0xFFFF_FFFF);
    (Random::new(seed ^ place).word() >> 1) as i64
}
