//! Planes as the aligner's frames, where they stand in the list that mosaics were taken apart
//! into: they have the answers of the same frames picked out of the mosaics pixel by pixel.

use std::array;

use naive::align::Step;
use port::mosaic::{layout, take_apart};
use port::search::shift;
use port::{Exposure, Options, Plane, Rivalry, Scratch, Shift, Stack};
use trials::frames::Frames;
use trials::inputs::{Random, options, rivalry, size};
use trials::matches::NINE;
use trials::{Outcome, same, scenes};

use super::Size;
use crate::report::{Asked, report_agrees};
use crate::search::step;
use crate::whole::{Reported, as_lent};

/// The size of a plane of a mosaic: planes 0 and 1 have the even rows, 0 and 2 the even columns.
fn sides((width, height): Size, plane: usize) -> Size {
    ((width + 1 - plane % 2) / 2, (height + 1 - plane / 2) / 2)
}

/// The places in a mosaic of a plane's samples, row by row.
fn places((width, height): Size, plane: usize) -> impl Iterator<Item = usize> {
    let (rows, columns) = (plane / 2..height, plane % 2..width);
    let row = move |y| columns.clone().step_by(2).map(move |x| y * width + x);
    rows.step_by(2).flat_map(row)
}

/// Mosaics of one size, as they are and taken apart.
struct Taken {
    size: Size,
    mosaics: Vec<Vec<u8>>,
    /// The planes of all, one behind another.
    planes: Vec<u8>,
    layout: [Plane; 4],
}

impl Taken {
    fn apart(size: Size, mosaics: Vec<Vec<u8>>) -> Result<Self, String> {
        let told = |refused| format!("{size:?} is refused by {refused}");
        let mut planes = vec![0; mosaics.len() * size.0 * size.1];
        let mut rest = &mut planes[..];
        for mosaic in &mosaics {
            let (front, behind) = rest.split_at_mut(mosaic.len());
            let status = take_apart(mosaic, size.0, size.1, front);
            if status != 0 {
                return Err(told(status));
            }
            rest = behind;
        }
        let layout = layout(size.0, size.1).map_err(told)?;
        Ok(Self {
            size,
            mosaics,
            planes,
            layout: layout.in_order(),
        })
    }

    /// The planes of a mosaic in the list of all.
    fn of(&self, mosaic: usize) -> &[u8] {
        let area = self.size.0 * self.size.1;
        &self.planes[mosaic * area..][..area]
    }

    /// A plane of a mosaic, picked.
    fn picked(&self, mosaic: usize, plane: usize) -> Vec<u8> {
        let places = places(self.size, plane);
        places.map(|place| self.mosaics[mosaic][place]).collect()
    }

    /// The same plane of all mosaics as a stack: its parts joined.
    fn one_plane(
        &self,
        random: &mut Random,
        asked: &Terms,
        plane: usize,
    ) -> Result<Reported, String> {
        let all = 0..self.mosaics.len();
        let at = self.layout[plane];
        let joined: Vec<&[u8]> = all.clone().map(|mosaic| at.part(self.of(mosaic))).collect();
        let picked = all.map(|mosaic| self.picked(mosaic, plane)).collect();
        let picked = (picked, sides(self.size, plane));
        asked.hold(random, &joined.concat(), (at.width, at.height), picked)
    }

    /// The planes of all mosaics as a stack, as they stand: with even sides all are of one size.
    fn all_planes(&self, random: &mut Random, asked: &Terms) -> Result<Reported, String> {
        let all = 0..self.mosaics.len();
        let picked = all.flat_map(|mosaic| (0..4).map(move |plane| self.picked(mosaic, plane)));
        let picked = (picked.collect(), sides(self.size, 0));
        let at = self.layout[0];
        asked.hold(random, &self.planes, (at.width, at.height), picked)
    }

    /// The step of a plane between the first two mosaics, both parts where they stand.
    fn step(&self, random: &mut Random, asked: &Terms, plane: usize) -> Result<Step, String> {
        let options = &asked.options;
        let (width, height) = sides(self.size, plane);
        let need = Scratch::of_step(width, height, options.bits);
        let (mut bytes, mut words) = (vec![0; need.bytes], vec![0; need.words]);
        let ([mut x, mut y], mut comparisons) = ([0; 2], 0);
        let exposure = |mosaic| {
            let frame = self.layout[plane].frame(self.of(mosaic));
            Exposure::new(frame, asked.percentile)
        };
        let status = shift(
            exposure(0),
            exposure(1),
            options,
            (&mut bytes, &mut words),
            (&mut x, &mut y),
            &mut comparisons,
            &mut [0; 5],
        );
        let in_place = Step {
            shift: Shift::new(x, y),
            comparisons,
        };

        let picked = [0, 1].map(|mosaic| self.picked(mosaic, plane));
        let picked = picked.each_ref().map(|frame| &frame[..]);
        let (sizes, percentiles) = ([(width, height); 2], [asked.percentile; 2]);
        let picked = step(random, picked, sizes, percentiles, options, (need, need))?;
        let input = format!("plane {plane} of {:?}, {asked:?}", self.size);
        let (in_place, picked) = ((status, in_place), (0, picked));
        same(input, ("in place", &in_place), ("picked", &picked))?;
        Ok(in_place.1)
    }
}

/// How planes are asked about.
#[derive(Debug)]
struct Terms {
    options: Options,
    percentile: u8,
    rivalry: Rivalry,
}

impl Terms {
    /// Frames of one size, one behind another, have the shifts and the report of those that were
    /// picked, which are the naive ones and the original's: answers with the report.
    fn hold(
        &self,
        random: &mut Random,
        samples: &[u8],
        (width, height): Size,
        (picked, sides): (Vec<Vec<u8>>, Size),
    ) -> Result<Reported, String> {
        let count = picked.len();
        let picked = Frames::alike(picked, sides, self.percentile, random.below(count));
        let taken = Stack {
            samples,
            widths: &vec![width; count],
            heights: &vec![height; count],
            ..picked.stack()
        };
        let input = format!("{picked}, {self:?}");
        let (options, rivalry) = (self.options, self.rivalry);
        let report = as_lent(&input, ("taken", taken), picked.stack(), &options, &rivalry)?;
        let asked = Asked::new(random, picked, options, rivalry);
        report_agrees(random, &asked, false)?;
        Ok(report)
    }
}

/// Two to four mosaics of a scene, of any size, or with even sides.
pub fn scene(random: &mut Random, case: usize) -> Outcome {
    let even = case.is_multiple_of(2);
    let (mut width, mut height) = size(random, 60);
    if even {
        (width, height) = (width / 2 * 2, height / 2 * 2);
    }
    let count = 2 + random.below(3);
    let mosaics = scenes::bracket(random, width, height, count);
    let taken = Taken::apart((width, height), mosaics)?;
    let (options, percentile) = options(random);
    let reach = random.below(4) as u32;
    let asked = Terms {
        options,
        percentile,
        rivalry: rivalry(random, reach, (width / 2, height / 2)),
    };
    for plane in 0..4 {
        _ = taken.one_plane(random, &asked, plane)?;
        _ = taken.step(random, &asked, plane)?;
    }
    if even {
        _ = taken.all_planes(random, &asked)?;
    }
    Ok(())
}

/// Each candidate of the coarser of one or two levels, moved as a whole or plane by plane, with
/// each side even or odd.
pub const MOVED: usize = 9 * 2 * 2 * 4;

/// Noise moved so that each plane's step is known: all planes by the same, where the mosaic is
/// moved by twice as much, or each by something else.
pub fn moved(random: &mut Random, case: usize) -> Outcome {
    let (candidate, coarsest) = (case % 9, case / 9 % 2);
    let as_a_whole = (case / 18).is_multiple_of(2);
    let odd = [case / 36 % 2, case / 72 % 2];
    // On fewer pixels another candidate may match by chance, see `matches::moved`.
    let [width, height] = odd.map(|odd| ((40 + random.below(16)) << (coarsest + 1)) + 2 + odd);
    let size = (width, height);
    let candidates: [usize; 4] = match as_a_whole {
        true => [candidate; 4],
        false => array::from_fn(|plane| (candidate + 2 * plane) % 9),
    };
    let steps = candidates.map(|candidate| {
        let (x, y) = NINE[candidate];
        (x << coarsest, y << coarsest)
    });
    let mosaics = match as_a_whole {
        true => scenes::noise_moved(random, size, (2 * steps[0].0, 2 * steps[0].1)),
        false => planted(random, size, steps),
    };
    let taken = Taken::apart(size, mosaics.into())?;

    let asked = Terms {
        options: Options {
            bits: coarsest as u32 + 1,
            tolerance: 20,
            ..options(random).0
        },
        percentile: 50,
        // Every shift within reach is a rival, but for the eight around the step.
        rivalry: Rivalry {
            reach: 2,
            floor: 0,
            margin: u32::MAX,
        },
    };
    let input = format!("{size:?}, {asked:?}");
    for plane in 0..4 {
        let found = taken.step(random, &asked, plane)?;
        let (x, y) = steps[plane];
        let meant = Step {
            shift: Shift::new(x, y),
            comparisons: (candidates[plane] + 1 + coarsest) as u64,
        };
        same(&input, ("port", &found), ("meant", &meant))?;
        let report = taken.one_plane(random, &asked, plane)?;
        let rivals = asked.rivalry.most_rivals();
        same(&input, ("rivals", &report.count), ("meant", &rivals))?;
    }
    if odd == [0, 0] {
        _ = taken.all_planes(random, &asked)?;
    }
    Ok(())
}

/// Two mosaics whose planes are noise, each moved by a step of its own.
fn planted(random: &mut Random, size: Size, steps: [(i32, i32); 4]) -> [Vec<u8>; 2] {
    let mut mosaics = [(); 2].map(|()| vec![0; size.0 * size.1]);
    for (plane, step) in steps.into_iter().enumerate() {
        let noise = scenes::noise_moved(random, sides(size, plane), step);
        for (mosaic, noise) in mosaics.iter_mut().zip(noise) {
            for (place, sample) in places(size, plane).zip(noise) {
                mosaic[place] = sample;
            }
        }
    }
    mosaics
}
