//! Stacks whose lists are all in order, with the port's answer as a value.

use port::report::{Report, report};
use port::search::align_stack;
use port::{Options, RECORD_BYTES, Rivalry, Scratch, Stack};
use trials::same;

/// All that a report writes, its scratch apart.
#[derive(PartialEq, Debug)]
pub struct Reported {
    pub shifts: Vec<i32>,
    pub verdicts: Vec<u8>,
    pub records: Vec<u8>,
    pub crop: [usize; 4],
    pub count: usize,
}

fn scratch(stack: Stack, options: &Options) -> (Vec<u8>, Vec<u64>) {
    let need = Scratch::of_step(stack.widths[0], stack.heights[0], options.bits);
    (vec![0; need.bytes], vec![0; need.words])
}

/// The report of a stack with room for all records, or the number of its refusal.
pub fn reported(stack: Stack, options: &Options, rivalry: &Rivalry) -> Result<Reported, u32> {
    let frames = stack.widths.len();
    let (mut bytes, mut words) = scratch(stack, options);
    let mut written = Reported {
        shifts: vec![0; 2 * frames],
        verdicts: vec![0; frames],
        records: vec![0; (frames - 1) * rivalry.most_rivals() * RECORD_BYTES],
        crop: [0; 4],
        count: 0,
    };
    let lent = Report {
        shifts: &mut written.shifts,
        verdicts: &mut written.verdicts,
        records: &mut written.records,
        crop: written.crop.each_mut(),
        count: &mut written.count,
    };
    let scratch = (&mut bytes[..], &mut words[..]);
    match report(stack, options, rivalry, lent, scratch, &mut [0; 5]) {
        0 => Ok(written),
        refused => Err(refused),
    }
}

/// The shifts of a stack, or the number of its refusal.
fn stepped(stack: Stack, options: &Options) -> Result<Vec<i32>, u32> {
    let (mut bytes, mut words) = scratch(stack, options);
    let mut shifts = vec![0; 2 * stack.widths.len()];
    let scratch = (&mut bytes[..], &mut words[..]);
    match align_stack(stack, options, &mut shifts, scratch, &mut [0; 5]) {
        0 => Ok(shifts),
        refused => Err(refused),
    }
}

/// A stack, by the name of where it comes from, has the shifts and the report of the same frames
/// lent as they were made: answers with that report.
pub fn as_lent(
    input: &str,
    (from, stack): (&str, Stack),
    lent: Stack,
    options: &Options,
    rivalry: &Rivalry,
) -> Result<Reported, String> {
    let [stack, lent] = [stack, lent].map(|stack| {
        let shifts = stepped(stack, options);
        (shifts, reported(stack, options, rivalry))
    });
    same(input, (from, &stack), ("lent", &lent))?;
    match lent {
        (Ok(_), Ok(report)) => Ok(report),
        refused => Err(format!("{input}: the frames are refused: {refused:?}")),
    }
}
