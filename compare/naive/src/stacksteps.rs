//! The program `stacksteps`, from its standard input to its standard output.

use crate::align::{Options, Scratch, Stack};
use crate::report::{RECORD_BYTES, Report, Rivalry, Room, report};

const SIDE: usize = 64;
const MOST_FRAMES: usize = 8;
pub const OPTIONS: Options = Options::USUAL;
/// Of every frame.
pub const PERCENTILE: u8 = 50;
pub const RIVALRY: Rivalry = Rivalry {
    reach: 1,
    floor: 1,
    margin: 0,
};

/// The text for 64 by 64 frames, one after another.
pub fn stacksteps(input: &[u8]) -> String {
    text_at(input, &RIVALRY)
}

/// The same with another reach, floor or margin than the program's.
pub fn text_at(input: &[u8], rivalry: &Rivalry) -> String {
    let count = input.len() / (SIDE * SIDE);
    if !input.len().is_multiple_of(SIDE * SIDE) || count > MOST_FRAMES {
        return "bad input\n".to_string();
    }
    let stack = Stack {
        samples: input,
        widths: &vec![SIDE; count],
        heights: &vec![SIDE; count],
        percentiles: &vec![PERCENTILE; count],
        reference: 0,
    };
    let room = Room {
        shifts: 2 * count,
        verdicts: count,
        scratch: Scratch::of_step(SIDE, SIDE, OPTIONS.bits),
        records: rivalry.most_rivals() * count * RECORD_BYTES, // all that can be found
    };
    match report(stack, &OPTIONS, rivalry, room) {
        Ok(report) => text(&report),
        Err(refusal) => format!("refused {}\n", refusal.number),
    }
}

fn text(report: &Report) -> String {
    let crop = report.crop;
    let mut text = format!(
        "frames {} crop {} {} {} {}\n",
        report.verdicts.len(),
        crop.x,
        crop.y,
        crop.width,
        crop.height
    );
    for (frame, (&verdict, shift)) in report
        .verdicts
        .iter()
        .zip(report.shifts.chunks(2))
        .enumerate()
    {
        let records: Vec<_> = report
            .records
            .iter()
            .filter(|record| record.frame as usize == frame)
            .collect();
        let name = ["reference", "weak", "alone", "contested"][usize::from(verdict)];
        let (x, y) = (shift[0], shift[1]);
        text += &format!("{frame} {x} {y} {name} {}\n", records.len());
        for record in records {
            text += &format!(
                "{} {} {} {} {}\n",
                record.frame, record.x, record.y, record.disagreeing, record.compared
            );
        }
    }
    text
}
