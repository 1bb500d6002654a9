//! The shifts within reach of a frame's step, and how much each of them disagrees.

use naive::difference::Counts;
use port::Shift;

use crate::asked::Asked;
use crate::packed::Packed;
use crate::stepped::Stepped;

/// What a shift is to a step.
#[derive(Clone, Copy, Debug, PartialEq, Eq)]
pub enum Mark {
    Step,
    Rival,
    None,
}

/// A shift of a window.
pub struct Seen {
    pub counts: Counts,
    /// Whether it compares as many pixels as the floor asks for.
    pub is_enough: bool,
    pub mark: Mark,
}

pub struct Window {
    pub step: Shift,
    pub reach: i32,
    /// Row by row.
    pub shifts: Vec<Seen>,
}

impl Window {
    pub fn of(asked: &Asked, stepped: &Stepped) -> Self {
        let [neighbour, target] = [stepped.on, stepped.frame].map(|frame| Packed::of(asked, frame));
        let step = stepped.step;
        let reach = asked.rivalry.reach as i32;
        let window = |at: i32| at - reach..=at + reach;
        let all = window(step.y).flat_map(|y| window(step.x).map(move |x| Shift::new(x, y)));
        let floor = u64::from(asked.rivalry.floor);

        // Rivals stand row by row too.
        let mut rivals = stepped.rivals.iter().peekable();
        let shifts = all.map(|shift| {
            let counts = neighbour.counts(&target, shift);
            let is_rival = rivals.next_if(|rival| Shift::new(rival.x, rival.y) == shift);
            Seen {
                counts,
                is_enough: counts.compared >= floor,
                mark: match is_rival {
                    _ if shift == step => Mark::Step,
                    Some(_) => Mark::Rival,
                    None => Mark::None,
                },
            }
        });
        let shifts = shifts.collect();
        assert!(rivals.peek().is_none(), "every rival lies in the window");
        Self {
            step,
            reach,
            shifts,
        }
    }

    pub fn side(&self) -> usize {
        2 * self.reach as usize + 1
    }

    /// The least and the most that a shift disagrees in, of those that compare enough.
    pub fn least_and_most(&self) -> [u64; 2] {
        let seen = self.shifts.iter().filter(|seen| seen.is_enough);
        let disagreeing = seen.map(|seen| seen.counts.disagreeing);
        let least = disagreeing.clone().min().unwrap_or(0);
        [least, disagreeing.max().unwrap_or(least)]
    }
}

#[cfg(test)]
pub mod tests {
    use naive::report::{Report, Room as Lengths, report};
    use port::report::Room;
    use port::{Options, RECORD_BYTES, Rivalry, Scratch, Stack};
    use trials::camera::Shot;
    use trials::camera::scene::Scene;
    use trials::inputs::Random;

    use super::*;

    /// Two frames of pins with rivals, and shifts that compare too little.
    pub fn example<T>(made: impl FnOnce(&Asked, &Report, &Stepped) -> T) -> T {
        let shot = Shot {
            scene: Scene::Pins(8),
            width: 40,
            height: 30,
            tremble: 3,
            is_whole: true,
            noise: 2,
            exposures: &[8, 16],
            black: 0,
        };
        let bracket = shot.taken(&mut Random::new(4));
        let asked = Asked {
            stack: Stack {
                samples: &bracket.frames,
                widths: &[40; 2],
                heights: &[30; 2],
                percentiles: &[50; 2],
                reference: 1,
            },
            options: Options {
                bits: 2,
                ..Options::USUAL
            },
            rivalry: Rivalry {
                reach: 9,
                floor: 400,
                margin: 10,
            },
        };
        let mut room = Room::new(asked.stack, asked.options.bits, &asked.rivalry);
        assert_eq!(room.ask(asked.stack, &asked.options, &asked.rivalry), 0);
        let report = room.told();
        let stepped = Stepped::of(&asked, &report, 0).expect("it steps");
        made(&asked, &report, &stepped)
    }

    /// With no floor and any margin, the naive report has a record of every shift but the eight
    /// next to the step.
    fn all_shifts(asked: &Asked) -> Report {
        let rivalry = Rivalry {
            floor: 0,
            margin: u32::MAX,
            ..asked.rivalry
        };
        let room = Lengths {
            shifts: 4,
            verdicts: 2,
            scratch: Scratch::of_step(40, 30, asked.options.bits),
            records: RECORD_BYTES * rivalry.most_rivals(),
        };
        report(asked.stack, &asked.options, &rivalry, room).expect("a report")
    }

    #[test]
    fn every_shift_has_its_counts_and_its_mark() {
        example(|asked, _, stepped| {
            let window = Window::of(asked, stepped);
            assert_eq!(window.shifts.len(), 19 * 19);
            let records = all_shifts(asked).records;
            assert_eq!(records.len(), 19 * 19 - 8);
            let mut marked = [0; 4];
            for record in records {
                let [right, down] = [record.x - stepped.step.x, record.y - stepped.step.y];
                let seen = &window.shifts[((down + 9) * 19 + right + 9) as usize];
                let counts = seen.counts;
                assert_eq!(counts.disagreeing, record.disagreeing.into());
                assert_eq!(counts.compared, record.compared.into());
                let is_rival =
                    counts.compared >= 400 && counts.disagreeing <= stepped.counts.disagreeing + 10;
                let (expected, kind) = match (right, down) {
                    (0, 0) => (Mark::Step, 0),
                    _ if is_rival => (Mark::Rival, 1),
                    _ => (Mark::None, 2),
                };
                assert_eq!(seen.mark, expected, "{right} right and {down} down");
                assert_eq!(seen.is_enough, counts.compared >= 400);
                marked[kind] += 1;
                marked[3] += usize::from(!seen.is_enough);
            }
            assert!(marked.iter().all(|&count| count > 0), "{marked:?}");
        });
    }
}
