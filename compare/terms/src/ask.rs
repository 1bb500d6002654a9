//! A report asked of the port, and whether its answers are true.

use brackets::asked::Asked;
use naive::report::Report;
use port::report::Room;
use port::{ALONE, CONTESTED, Options, Record, Rivalry, Shrink, Stack, WEAK};
use trials::camera::Bracket;
use trials::camera::scene::FINE;

/// What a caller chooses.
#[derive(Clone, Copy)]
pub struct Terms {
    pub bits: u32,
    pub tolerance: u8,
    /// Of the first frame, and of every other.
    pub percentiles: [u8; 2],
    pub reach: u32,
    pub floor: u32,
    pub margin: u32,
}

/// What the report says of a frame.
#[derive(Clone, Copy)]
pub struct Answer {
    pub verdict: Verdict,
    /// How far from the step its farthest rival lies, on the longer axis.
    pub farthest: i32,
    /// Whether the step is the move since the frame before.
    pub is_right: bool,
    /// Whether it is, but for the pixel next door.
    pub is_next_door: bool,
    /// Whether the total shift is the move since the reference.
    pub is_total_right: bool,
}

#[derive(Clone, Copy, PartialEq, Eq)]
pub enum Verdict {
    Alone,
    Contested,
    Weak,
}

/// What is made of the report of a bracket, whose first frame is the reference.
pub fn of_report<T>(
    bracket: &Bracket,
    terms: &Terms,
    made: impl FnOnce(&Asked, &Report) -> T,
) -> T {
    let count = bracket.moves.len();
    let [first, others] = terms.percentiles;
    let mut percentiles = vec![others; count];
    percentiles[0] = first;
    let asked = Asked {
        stack: Stack {
            samples: &bracket.frames,
            widths: &vec![bracket.width; count],
            heights: &vec![bracket.height; count],
            percentiles: &percentiles,
            reference: 0,
        },
        options: Options {
            bits: terms.bits,
            tolerance: terms.tolerance,
            shrink: Shrink::Average,
        },
        rivalry: Rivalry {
            reach: terms.reach,
            floor: terms.floor,
            margin: terms.margin,
        },
    };
    let mut room = Room::new(asked.stack, terms.bits, &asked.rivalry);
    let status = room.ask(asked.stack, &asked.options, &asked.rivalry);
    assert_eq!(status, 0, "the report is refused");
    made(&asked, &room.told())
}

/// The answers on all frames of a bracket but the first.
pub fn ask(bracket: &Bracket, terms: &Terms) -> Vec<Answer> {
    of_report(bracket, terms, |_, report| answers(bracket, report))
}

fn answers(bracket: &Bracket, report: &Report) -> Vec<Answer> {
    let totals: Vec<[i32; 2]> = report.shifts.chunks(2).map(|at| [at[0], at[1]]).collect();
    let mut moved = [0; 2];
    (1..totals.len())
        .map(|frame| {
            let step = [0, 1].map(|axis| totals[frame][axis] - totals[frame - 1][axis]);
            moved = [0, 1].map(|axis| moved[axis] + bracket.moves[frame][axis]);
            let distance =
                |rival: &Record| (rival.x - step[0]).abs().max((rival.y - step[1]).abs());
            let of_frame = report.records.iter();
            let of_frame = of_frame.filter(|rival| rival.frame == frame as u32);
            Answer {
                verdict: match report.verdicts[frame] {
                    ALONE => Verdict::Alone,
                    CONTESTED => Verdict::Contested,
                    WEAK => Verdict::Weak,
                    other => panic!("a frame has the verdict {other}"),
                },
                farthest: of_frame.map(distance).max().unwrap_or(0),
                is_right: is_within(step, bracket.moves[frame], 1),
                is_next_door: is_within(step, bracket.moves[frame], 2),
                is_total_right: is_within(totals[frame], moved, 1),
            }
        })
        .collect()
}

/// Whether a shift is less than so many pixels from the move on each axis. Less than one
/// is the move rounded down or up, of a move by whole pixels the move itself.
fn is_within(shift: [i32; 2], points: [i64; 2], pixels: i64) -> bool {
    let off = |axis: usize| (i64::from(shift[axis]) * FINE - points[axis]).abs();
    off(0) < pixels * FINE && off(1) < pixels * FINE
}
