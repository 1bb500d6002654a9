//! Frames like those of a nozzle camera: pins, pads, gradients, noise, flat and
//! clipped frames, taken at several exposures and positions.

use crate::inputs::Random;

/// What lies under the camera: a brightness for every place of an endless plane.
enum Scene {
    /// Rows of equal pins, `thick` of each `pitch` columns bright, `long` of each
    /// `apart` rows, under light that changes from row to row.
    Pins {
        pitch: i64,
        thick: i64,
        apart: i64,
        long: i64,
    },
    /// Bright squares at hashed places of a grid, on a grainy board.
    Pads {
        grid: i64,
        seed: u64,
    },
    Gradient {
        right: i64,
        down: i64,
    },
    Noise {
        seed: u64,
    },
    Flat {
        level: i64,
    },
}

impl Scene {
    fn any(random: &mut Random) -> Self {
        match random.below(12) {
            0..5 => {
                let pitch = random.pick(&[2, 3, 4, 5, 7, 8, 10, 16, 25, 32, 64]);
                let apart = random.between(6, 60);
                Scene::Pins {
                    pitch,
                    thick: random.between(1, pitch - 1),
                    apart,
                    long: random.between(2, apart - 1),
                }
            }
            5..9 => Scene::Pads {
                grid: random.between(3, 24),
                seed: random.word(),
            },
            9 => Scene::Gradient {
                right: random.between(-3, 3),
                down: random.between(-5, 5),
            },
            10 => Scene::Noise {
                seed: random.word(),
            },
            _ => Scene::Flat {
                level: random.between(0, 255),
            },
        }
    }

    fn light(&self, x: i64, y: i64) -> i64 {
        let lit = |bright, shade: i64| if bright { 140 + shade } else { 30 + shade };
        match *self {
            Scene::Pins {
                pitch,
                thick,
                apart,
                long,
            } => {
                let on_pin = x.rem_euclid(pitch) < thick && y.rem_euclid(apart) < long;
                lit(on_pin, y.rem_euclid(40))
            }
            Scene::Pads { grid, seed } => {
                let cell = hash(!seed, x.div_euclid(grid), y.div_euclid(grid));
                let inner = x.rem_euclid(grid) > 0 && y.rem_euclid(grid) > 0;
                lit(
                    inner && cell.is_multiple_of(3),
                    (hash(seed, x, y) % 60) as i64,
                )
            }
            Scene::Gradient { right, down } => (128 + right * x + down * y).rem_euclid(256),
            Scene::Noise { seed } => (hash(seed, x, y) % 256) as i64,
            Scene::Flat { level } => level,
        }
    }

    /// The distance after which the scene looks the same along a row.
    fn pitch(&self) -> i64 {
        match *self {
            Scene::Pins { pitch, .. } => pitch,
            _ => 1,
        }
    }
}

fn hash(seed: u64, x: i64, y: i64) -> u64 {
    Random::new(seed ^ ((x as u64) << 32) ^ (y as u64 & 0xFFFF_FFFF)).word()
}

/// Frames of one scene. Each lies off the one before by whole pitches, by an odd
/// amount or not at all, at an exposure of its own that may clip either end.
pub fn bracket(random: &mut Random, width: usize, height: usize, count: usize) -> Vec<Vec<u8>> {
    let scene = Scene::any(random);
    let noise = random.pick(&[0, 0, 1, 4, 20]);
    let (mut left, mut top) = (random.between(-100, 100), random.between(-100, 100));
    (0..count)
        .map(|_| {
            left += match random.below(5) {
                0 => 0,
                1 | 2 => scene.pitch() * random.between(-3, 3),
                _ => random.between(-9, 9),
            };
            top += random.pick(&[0, 1]) * random.between(-6, 6);
            let gain = random.pick(&[10, 14, 16, 16, 16, 20, 26]);
            let black = match random.one_in(12) {
                true => random.pick(&[-300, -90, 120, 300]),
                false => random.pick(&[0, 0, -10, 12]),
            };

            let mut frame = Vec::with_capacity(width * height);
            for y in 0..height as i64 {
                for x in 0..width as i64 {
                    let light = scene.light(x + left, y + top) * gain / 16;
                    let sample = light + black + random.between(-noise, noise);
                    frame.push(sample.clamp(0, 255) as u8);
                }
            }
            frame
        })
        .collect()
}

/// Noise, and the same noise that sits on it once it is moved by (x, y).
pub fn noise_moved(
    random: &mut Random,
    (width, height): (usize, usize),
    (x, y): (i32, i32),
) -> [Vec<u8>; 2] {
    let scene = Scene::Noise {
        seed: random.word(),
    };
    [(0, 0), (i64::from(x), i64::from(y))].map(|(left, top)| {
        (0..width * height)
            .map(|at| scene.light((at % width) as i64 + left, (at / width) as i64 + top) as u8)
            .collect()
    })
}

/// Even rows of pins without noise.
pub fn pin_rows(width: usize, height: usize) -> Vec<u8> {
    let scene = Scene::Pins {
        pitch: 16,
        thick: 6,
        apart: 40,
        long: 24,
    };
    (0..width * height)
        .map(|at| scene.light((at % width) as i64, (at / width) as i64) as u8)
        .collect()
}

pub fn frame(random: &mut Random, width: usize, height: usize) -> Vec<u8> {
    bracket(random, width, height, 1).remove(0)
}
