//! The answers of port, original and naive on a stack, and whether they are the same.

use std::thread;

use naive::geometry::Crop;
use naive::report::{Report, Room as Lengths, report as naive_report};
use port::refusals::{RECORD_SPACE_TOO_SHORT, SCRATCH_TOO_SHORT};
use port::report::Room;
use port::{Frame, RECORD_BYTES, Record, Scratch, Shift};
use trials::original::{gray, has_one, options_of};
use trials::recount;

use crate::asked::Asked;
use crate::bracket::Bracket;
use crate::people::{pair, verdict};
use crate::refused;
use crate::watch::timed;

pub const PORT: &str = "port";
pub const ORIGINAL: &str = "original";
/// What is asked where the frames are cut at several percentiles, of which the original
/// takes one for all: its halving, packing and counting, each frame at its own.
pub const ITS_PARTS: &str = "original's parts";
pub const NAIVE: &str = "naive";
pub const REPORT: &str = "report";

/// What somebody gave, and in how many nanoseconds.
type Timed<T> = (T, f64);

/// Who answered, and the shift list.
pub struct Told {
    pub by: &'static str,
    pub shifts: Vec<i32>,
}

/// What the naive reading was asked for.
#[derive(Clone, Copy, PartialEq, Eq)]
pub enum Naive {
    Report,
    /// Its report would take too long.
    Shifts,
    /// So would its shifts.
    None,
    /// The user did not want it.
    LeftOut,
}

pub struct Answers {
    /// The port's, the original's and, where it was asked, the naive one.
    pub told: Vec<Told>,
    pub naive: Naive,
    /// The port's.
    pub report: Report,
    /// Where the naive report is another than the port's.
    pub report_differs: Option<String>,
    /// Who took how many nanoseconds.
    pub times: Vec<(&'static str, f64)>,
}

/// How many pixels the naive reading counts in some five seconds, each at one shift.
const NAIVE_PIXELS: usize = 1_200_000_000;
/// A search costs as much as this many shifts at full size: nine at each level, and levels that
/// are halved, cut and taken apart into bits.
const OF_SEARCH: usize = 60;

impl Naive {
    /// As much as takes seconds.
    pub fn up_to_seconds(asked: &Asked) -> Self {
        let (width, height) = asked.size();
        let pixels = width * height * (asked.frames() - 1);
        let window = (2 * asked.rivalry.reach as usize + 1).pow(2);
        let is_short = |shifts: usize| pixels.saturating_mul(shifts) <= NAIVE_PIXELS;
        if is_short(window + OF_SEARCH) {
            Naive::Report
        } else if is_short(OF_SEARCH) {
            Naive::Shifts
        } else {
            Naive::None
        }
    }
}

/// Why the port refuses a stack, if it does. It is lent no scratch and no room for records,
/// which it looks at last.
pub fn check(asked: &Asked, bracket: &Bracket) -> Result<(), String> {
    let Asked {
        stack,
        options,
        rivalry,
    } = asked;
    let mut room = Room::without_scratch(*stack);
    match room.ask(*stack, options, rivalry) {
        0 | SCRATCH_TOO_SHORT | RECORD_SPACE_TOO_SHORT => Ok(()),
        refusal => Err(refused::sentence(refusal, room.values(), bracket)),
    }
}

impl Answers {
    /// The answers of all on a stack that is not refused. The port has a thread of its own
    /// beside the original's.
    pub fn of(asked: &Asked, has_naive: bool) -> Self {
        let (original, (port, (report, report_time))) = thread::scope(|scope| {
            let of_port = scope.spawn(|| of_port(asked));
            let original = of_original(asked);
            (original, of_port.join().expect("the port answers"))
        });
        let mut answers = Self {
            told: Vec::new(),
            naive: match has_naive {
                true => Naive::up_to_seconds(asked),
                false => Naive::LeftOut,
            },
            report,
            report_differs: None,
            times: Vec::new(),
        };
        answers.add(PORT, port);
        answers.add(
            match has_one(asked.stack.percentiles) {
                true => ORIGINAL,
                false => ITS_PARTS,
            },
            original,
        );
        answers.times.push((REPORT, report_time));
        answers.add_naive(asked);
        answers
    }

    fn add(&mut self, by: &'static str, (shifts, time): Timed<Vec<i32>>) {
        self.told.push(Told { by, shifts });
        self.times.push((by, time));
    }

    fn add_naive(&mut self, asked: &Asked) {
        let Asked {
            stack,
            options,
            rivalry,
        } = *asked;
        let (width, height) = asked.size();
        let scratch = Scratch::of_step(width, height, options.bits);
        let room = Lengths {
            shifts: 2 * asked.frames(),
            verdicts: asked.frames(),
            scratch,
            records: RECORD_BYTES * rivalry.most_rivals() * asked.frames(),
        };
        let (shifts, time) = match self.naive {
            Naive::None | Naive::LeftOut => return,
            Naive::Shifts => timed("the naive reading's shifts", || {
                naive::align::align_stack(stack, &options, room.shifts, scratch)
            }),
            Naive::Report => {
                let (report, time) = timed("the naive reading's report", || {
                    naive_report(stack, &options, &rivalry, room)
                });
                let shifts = report.map(|report| {
                    self.report_differs = difference(&self.report, &report);
                    report.shifts
                });
                (shifts, time)
            }
        };
        let shifts = shifts.expect("what the port accepts is accepted");
        self.add(NAIVE, (shifts, time));
    }

    /// Where the shifts are not the same, the first such frame and each answer; then where
    /// the reports are not.
    pub fn difference(&self) -> Option<String> {
        let of_frame = |shifts: &[i32], frame: usize| [shifts[2 * frame], shifts[2 * frame + 1]];
        let in_report = (REPORT, &self.report.shifts);
        let in_all = self.told.iter().map(|told| (told.by, &told.shifts));
        let all: Vec<_> = in_all.chain([in_report]).collect();
        for frame in 0..self.report.verdicts.len() {
            let each = all.iter().map(|(by, shifts)| (by, of_frame(shifts, frame)));
            if each
                .clone()
                .any(|(_, shift)| shift != of_frame(&self.report.shifts, frame))
            {
                let said = each.map(|(by, [x, y])| format!("{by} {x},{y}"));
                let said: Vec<String> = said.collect();
                return Some(format!("frame {frame} differs: {}", said.join("; ")));
            }
        }
        self.report_differs.clone()
    }
}

/// Where the naive report is another than the port's, but for the shifts: the first frame's
/// verdict, then the first record, then the crop.
fn difference(port: &Report, naive: &Report) -> Option<String> {
    let both = |port: String, naive: String| format!("port {port}; naive {naive}");
    for (frame, (own, other)) in port.verdicts.iter().zip(&naive.verdicts).enumerate() {
        if own != other {
            let said = both(verdict(*own).into(), verdict(*other).into());
            return Some(format!("the verdict on frame {frame} differs: {said}"));
        }
    }
    for at in 0..port.records.len().max(naive.records.len()) {
        let [own, other] = [port, naive].map(|report| report.records.get(at));
        if own != other {
            let said = both(record(own), record(other));
            return Some(format!("a record differs: {said}"));
        }
    }
    let crop = |crop: Crop| format!("{} {} {} {}", crop.x, crop.y, crop.width, crop.height);
    let said = both(crop(port.crop), crop(naive.crop));
    (port.crop != naive.crop).then(|| format!("the crop differs: {said}"))
}

fn record(record: Option<&Record>) -> String {
    let Some(record) = record else {
        return "none".into();
    };
    let at = pair(Shift::new(record.x, record.y));
    let (frame, disagreeing, compared) = (record.frame, record.disagreeing, record.compared);
    format!("frame {frame} at {at}, {disagreeing} of {compared}")
}

/// The port's shifts and its report.
fn of_port(asked: &Asked) -> (Timed<Vec<i32>>, Timed<Report>) {
    let Asked {
        stack,
        options,
        rivalry,
    } = asked;
    let mut room = Room::new(*stack, options.bits, rivalry);
    let (status, time) = timed("the port", || room.align(*stack, options));
    assert_eq!(status, 0, "a stack that is not refused is aligned");
    let shifts = (room.shifts().to_vec(), time);
    let (status, time) = timed("the report", || room.ask(*stack, options, rivalry));
    assert_eq!(status, 0, "a stack that is not refused is reported on");
    (shifts, (room.told(), time))
}

/// The original's answer, of frames that are its own before the clock starts.
fn of_original(asked: &Asked) -> Timed<Vec<i32>> {
    let stack = asked.stack;
    if !has_one(stack.percentiles) {
        return timed("the original's parts", || {
            recount::align_stack(stack, &asked.options)
        });
    }
    let (width, height) = asked.size();
    let frame = |frame| gray(Frame::new(asked.samples(frame), width, height));
    let frames: Vec<_> = (0..asked.frames()).map(frame).collect();
    let options = options_of(&asked.options, stack.percentiles);
    let (shifts, time) = timed("the original", || {
        mtb_align::align_stack(&frames, stack.reference, &options)
    });
    let shifts = shifts.expect("a stack that is not refused is aligned");
    (
        shifts.iter().flat_map(|shift| [shift.x, shift.y]).collect(),
        time,
    )
}

#[cfg(test)]
mod tests {
    use port::{ALONE, CONTESTED, REFERENCE};

    use super::*;

    fn report() -> Report {
        let record = |x| Record {
            frame: 1,
            x,
            y: 2,
            disagreeing: 3,
            compared: 400,
        };
        Report {
            shifts: vec![0, 0, 1, 2],
            verdicts: vec![REFERENCE, CONTESTED],
            crop: Crop {
                x: 1,
                y: 2,
                width: 3,
                height: 4,
            },
            records: vec![record(1), record(9)],
        }
    }

    fn answers(shifts: &[(&'static str, [i32; 4])], naive: &Report) -> Answers {
        let told = |&(by, shifts): &(&'static str, [i32; 4])| Told {
            by,
            shifts: shifts.to_vec(),
        };
        Answers {
            told: shifts.iter().map(told).collect(),
            naive: Naive::Report,
            report: report(),
            report_differs: difference(&report(), naive),
            times: vec![],
        }
    }

    const SAME: [i32; 4] = [0, 0, 1, 2];

    #[test]
    fn a_frame_that_differs_is_named_with_each_answer() {
        let all = [(PORT, SAME), (ORIGINAL, SAME), (NAIVE, SAME)];
        assert_eq!(answers(&all, &report()).difference(), None);
        for (at, by) in [PORT, ORIGINAL, NAIVE].into_iter().enumerate() {
            for (place, frame) in [(0, 0), (1, 0), (2, 1), (3, 1)] {
                let mut all = all;
                all[at].1[place] += 5;
                let said = answers(&all, &report()).difference().expect("a difference");
                let shift =
                    |shifts: &[i32]| format!("{},{}", shifts[2 * frame], shifts[2 * frame + 1]);
                assert!(
                    said.starts_with(&format!("frame {frame} differs: ")),
                    "{said}"
                );
                assert!(
                    said.contains(&format!("{by} {}", shift(&all[at].1))),
                    "{said}"
                );
                assert!(said.contains(&format!("report {}", shift(&SAME))), "{said}");
            }
        }
    }

    #[test]
    fn reports_that_differ_are_told() {
        let all = [(PORT, SAME), (ORIGINAL, SAME), (NAIVE, SAME)];
        let said = |naive: &Report| answers(&all, naive).difference().expect("a difference");
        let mut naive = report();
        naive.verdicts[1] = ALONE;
        assert_eq!(
            said(&naive),
            "the verdict on frame 1 differs: port contested; naive alone"
        );
        let mut naive = report();
        naive.records.pop();
        assert_eq!(
            said(&naive),
            "a record differs: port frame 1 at 9,2, 3 of 400; naive none"
        );
        for is_first in [true, false] {
            let mut naive = report();
            let record = &mut naive.records[1];
            *match is_first {
                true => &mut record.disagreeing,
                false => &mut record.compared,
            } += 1;
            assert!(
                said(&naive).starts_with("a record differs: port frame 1 at 9,2, 3 of 400; naive")
            );
        }
        let mut naive = report();
        naive.crop.height += 1;
        assert_eq!(
            said(&naive),
            "the crop differs: port 1 2 3 4; naive 1 2 3 5"
        );
    }
}
