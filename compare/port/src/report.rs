//! The report of a stack.

use naive::geometry::Crop;
use naive::refusals::FARTHEST_REACH;

use crate::search::align_stack;
use crate::{Options, RECORD_BYTES, Record, Rivalry, Scratch, Shrink, Stack, Values};

/// What a report writes, the scratch apart.
pub struct Report<'a> {
    pub shifts: &'a mut [i32],
    pub verdicts: &'a mut [u8],
    pub records: &'a mut [u8],
    /// Left, top, width and height.
    pub crop: [&'a mut usize; 4],
    /// The number of records.
    pub count: &'a mut usize,
}

/// After an accepted call and one refused by 10, the scratch that it needs holds
/// anything.
pub fn report(
    stack: Stack,
    options: &Options,
    rivalry: &Rivalry,
    written: Report,
    (bytes, words): (&mut [u8], &mut [u64]),
    values: &mut Values,
) -> u32 {
    unsafe extern "C" {
        fn mtb_report(
            widths: *const usize,
            widths_length: usize,
            heights: *const usize,
            heights_length: usize,
            percentiles: *const u8,
            percentiles_length: usize,
            samples: *const u8,
            samples_length: usize,
            reference: usize,
            bits: u32,
            tolerance: u8,
            subsampled: bool,
            reach: u32,
            floor: u32,
            margin: u32,
            shifts: *mut i32,
            shifts_length: usize,
            verdicts: *mut u8,
            verdicts_length: usize,
            records: *mut u8,
            records_length: usize,
            bytes: *mut u8,
            bytes_length: usize,
            words: *mut u64,
            words_length: usize,
            left: *mut usize,
            top: *mut usize,
            wide: *mut usize,
            high: *mut usize,
            count: *mut usize,
            values: *mut Values,
        ) -> u32;
    }
    let [left, top, wide, high] = written.crop;
    unsafe {
        mtb_report(
            stack.widths.as_ptr(),
            stack.widths.len(),
            stack.heights.as_ptr(),
            stack.heights.len(),
            stack.percentiles.as_ptr(),
            stack.percentiles.len(),
            stack.samples.as_ptr(),
            stack.samples.len(),
            stack.reference,
            options.bits,
            options.tolerance,
            matches!(options.shrink, Shrink::Subsample),
            rivalry.reach,
            rivalry.floor,
            rivalry.margin,
            written.shifts.as_mut_ptr(),
            written.shifts.len(),
            written.verdicts.as_mut_ptr(),
            written.verdicts.len(),
            written.records.as_mut_ptr(),
            written.records.len(),
            bytes.as_mut_ptr(),
            bytes.len(),
            words.as_mut_ptr(),
            words.len(),
            left,
            top,
            wide,
            high,
            written.count,
            values,
        )
    }
}

/// What a report is lent, owned: enough for every report of the stack that it is made for.
pub struct Room {
    shifts: Vec<i32>,
    verdicts: Vec<u8>,
    records: Vec<u8>,
    bytes: Vec<u8>,
    words: Vec<u64>,
    crop: [usize; 4],
    count: usize,
    values: Values,
}

impl Room {
    pub fn new(stack: Stack, bits: u32, rivalry: &Rivalry) -> Self {
        let count = stack.widths.len();
        let need = match count {
            0 | 1 => Scratch::NONE,
            _ => Scratch::of_step(stack.widths[0], stack.heights[0], bits),
        };
        let reach = rivalry.reach.min(FARTHEST_REACH);
        let most = Rivalry { reach, ..*rivalry }.most_rivals() * count.saturating_sub(1);
        Self {
            records: vec![0; RECORD_BYTES * most],
            bytes: vec![0; need.bytes],
            words: vec![0; need.words],
            ..Self::without_scratch(stack)
        }
    }

    /// Enough for what is looked at before scratch and records.
    pub fn without_scratch(stack: Stack) -> Self {
        let count = stack.widths.len();
        Self {
            shifts: vec![0; 2 * count],
            verdicts: vec![0; count],
            records: vec![],
            bytes: vec![],
            words: vec![],
            crop: [0; 4],
            count: 0,
            values: [0; 5],
        }
    }

    /// The call alone, for whoever times it.
    pub fn ask(&mut self, stack: Stack, options: &Options, rivalry: &Rivalry) -> u32 {
        let written = Report {
            shifts: &mut self.shifts,
            verdicts: &mut self.verdicts,
            records: &mut self.records,
            crop: self.crop.each_mut(),
            count: &mut self.count,
        };
        let scratch = (&mut self.bytes[..], &mut self.words[..]);
        report(stack, options, rivalry, written, scratch, &mut self.values)
    }

    /// The stack's shifts alone, with the same scratch.
    pub fn align(&mut self, stack: Stack, options: &Options) -> u32 {
        let scratch = (&mut self.bytes[..], &mut self.words[..]);
        align_stack(stack, options, &mut self.shifts, scratch, &mut self.values)
    }

    pub fn shifts(&self) -> &[i32] {
        &self.shifts
    }

    /// What a refused call told besides its number.
    pub fn values(&self) -> &Values {
        &self.values
    }

    /// What an accepted call wrote.
    pub fn told(&self) -> naive::report::Report {
        let [x, y, width, height] = self.crop.map(|side| side as u64);
        let records = self.records[..RECORD_BYTES * self.count].chunks(RECORD_BYTES);
        naive::report::Report {
            shifts: self.shifts.clone(),
            verdicts: self.verdicts.clone(),
            crop: Crop {
                x,
                y,
                width,
                height,
            },
            records: records.map(record).collect(),
        }
    }
}

/// A record's five numbers, low bytes first.
fn record(bytes: &[u8]) -> Record {
    let field = |at: usize| bytes[4 * at..][..4].try_into().expect("four bytes");
    Record {
        frame: u32::from_le_bytes(field(0)),
        x: i32::from_le_bytes(field(1)),
        y: i32::from_le_bytes(field(2)),
        disagreeing: u32::from_le_bytes(field(3)),
        compared: u32::from_le_bytes(field(4)),
    }
}
