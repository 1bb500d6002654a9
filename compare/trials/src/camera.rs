//! A camera over a scene: what its frames hold when they are taken one after another
//! while the nozzle trembles. How far each lies off the one before is known.

pub mod scene;

use crate::inputs::Random;
use scene::{FINE, Scene};

/// How brackets are taken.
#[derive(Clone, Copy)]
pub struct Shot {
    pub scene: Scene,
    pub width: usize,
    pub height: usize,
    /// The most pixels that two frames lie apart, on either axis.
    pub tremble: i64,
    /// Whether they lie apart by whole pixels, else by quarters.
    pub is_whole: bool,
    /// What the sensor adds: the standard deviation in steps of grey.
    pub noise: i64,
    /// Each frame's exposure in eighths; at 8 the scenes have samples of 17 to 109.
    pub exposures: &'static [i64],
    /// What the camera takes off every sample.
    pub black: i64,
}

/// The samples of all frames, and by how many points each lies off the one before.
pub struct Bracket {
    pub width: usize,
    pub height: usize,
    pub frames: Vec<u8>,
    pub moves: Vec<[i64; 2]>,
}

impl Shot {
    pub fn taken(&self, random: &mut Random) -> Bracket {
        let seed = random.word();
        // What ends at (0, 0) does so in the middle of the first frame.
        let mut at = [self.width, self.height].map(|side| {
            let side = side as i64 * FINE;
            -random.between(side / 4, 3 * side / 4)
        });
        let (mut frames, mut moves) = (Vec::new(), Vec::new());
        for (number, &exposure) in self.exposures.iter().enumerate() {
            let moved = match number {
                0 => [0; 2],
                _ => [0; 2].map(|_: i64| self.moved(random)),
            };
            at = [at[0] + moved[0], at[1] + moved[1]];
            moves.push(moved);
            self.expose(seed, at, exposure, random, &mut frames);
        }
        Bracket {
            width: self.width,
            height: self.height,
            frames,
            moves,
        }
    }

    fn moved(&self, random: &mut Random) -> i64 {
        let unit = if self.is_whole { FINE } else { 1 };
        let most = self.tremble * FINE / unit;
        unit * random.between(-most, most)
    }

    /// Each sample is the mean of its pixel's points, exposed, with noise, clipped.
    fn expose(
        &self,
        seed: u64,
        [left, top]: [i64; 2],
        exposure: i64,
        random: &mut Random,
        frames: &mut Vec<u8>,
    ) {
        for y in 0..self.height as i64 {
            for x in 0..self.width as i64 {
                let mut light = 0;
                for down in 0..FINE {
                    for right in 0..FINE {
                        let (x, y) = (left + FINE * x + right, top + FINE * y + down);
                        light += self.scene.light(seed, x, y);
                    }
                }
                let exposed = light * exposure / (8 * FINE * FINE);
                let sample = exposed - self.black + noise(random, self.noise);
                frames.push(sample.clamp(0, 255) as u8);
            }
        }
    }
}

/// Near enough to a normal distribution: the sum of four even ones.
fn noise(random: &mut Random, deviation: i64) -> i64 {
    let word = random.word();
    let parts = (0..4).map(|part| (word >> (16 * part) & 0xFFFF) as i64);
    let off = parts.sum::<i64>() - 2 * 0xFFFF; // of deviation 37,837
    (deviation * off + 37_837 / 2).div_euclid(37_837)
}
