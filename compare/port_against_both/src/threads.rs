//! Every call on a thread that has no more room than the header says is enough, on
//! the smallest frame and on the largest with all its levels.

use std::thread;

use port::refusals::LONGEST_SIDE;
use port::report::{Report, report};
use port::{
    Bitmap, Exposure, Frame, Options, Pair, RECORD_BYTES, Rivalry, Scratch, Shift, Stack,
    words_per_row,
};
use port::{counts, files, frames, levels, mosaic, moves, search};
use trials::inputs::Random;
use trials::recount;
use trials::{Outcome, same};

use crate::files::writes::file_of;

/// The bytes of such a thread's stack, what the system takes of them included.
const ROOM: usize = 98_304;
const SIDES: [usize; 2] = [1, LONGEST_SIDE];

const OPTIONS: Options = Options {
    bits: 64,
    ..Options::USUAL
};
/// Of the first frame and of the second.
const PERCENTILES: [u8; 2] = [83, 17];
/// Every shift within reach is a rival, but for the eight around the step.
const RIVALRY: Rivalry = Rivalry {
    reach: 2,
    floor: 0,
    margin: u32::MAX,
};

/// Says that the room was enough; else the program ends by the name of the call.
pub fn run() -> Outcome {
    for side in SIDES {
        every_call(side)?;
    }
    let [least, most] = SIDES;
    print!("every call accepted on a thread of {ROOM} bytes, ");
    println!("at {least} by {least} and {most} by {most}");
    Ok(())
}

/// Runs a call on a thread of its own. It answers with its status, or with 0 where it
/// has none and answers rightly.
fn on_thread(name: &str, call: impl FnOnce() -> u32 + Send) -> Outcome {
    let status = thread::scope(|scope| {
        let narrow = thread::Builder::new().name(name.into()).stack_size(ROOM);
        let started = narrow.spawn_scoped(scope, call).expect("a thread");
        started.join().expect("no call panics")
    });
    match status {
        0 => Ok(()),
        refused => Err(format!("{name} on a thread of {ROOM} bytes: {refused}")),
    }
}

/// Noise, so that no step is like another.
fn every_call(side: usize) -> Outcome {
    let area = side * side;
    let rgb = Random::new(1).bytes(3 * area);
    let (reference, rest) = rgb.split_at(area);
    let [reference, target] = [reference, &rest[..area]].map(|f| Frame::new(f, side, side));
    let mut out = vec![0; area];
    on_thread("from_rgb", || frames::from_rgb(&rgb, side, side, &mut out))?;
    on_thread("shrink2", || {
        let halved = &mut out[..(side / 2) * (side / 2)];
        frames::shrink2(reference, OPTIONS.shrink, halved)
    })?;
    let shift = Shift::new(5, -3);
    on_thread("shifted", || moves::shifted(reference, shift, &mut out))?;

    on_thread("take_apart", || {
        mosaic::take_apart(reference.samples, side, side, &mut out)
    })?;
    let planes = naive::mosaic::take_apart(reference.samples, side, side, area);
    let (port, naive) = (&out, &planes.expect("a mosaic"));
    same("take_apart on a thread", ("port", port), ("naive", naive))?;
    let mut back = vec![0; area];
    on_thread("put_together", || {
        mosaic::put_together(&out, side, side, &mut back)
    })?;
    let (port, meant) = (&back[..], reference.samples);
    same("put_together on a thread", ("port", port), ("meant", meant))?;
    drop(back);
    let mut lists = [[0; 4]; 3];
    on_thread("planes", || mosaic::planes(side, side, lists.each_mut()))?;
    let naive = naive::mosaic::layout(side, side).expect("a size");
    let port = mosaic::by_name(lists);
    same("planes on a thread", ("port", &port), ("naive", &naive))?;

    let whole = file_of(reference);
    let (mut file, mut length) = (vec![0; whole.len()], 0);
    on_thread("write_pgm", || {
        files::write_pgm(reference, &mut file, &mut length)
    })?;
    let (port, meant) = ((length, &file), (whole.len(), &whole));
    same("write_pgm on a thread", ("port", &port), ("meant", &meant))?;
    drop(whole);

    let mut image = [0; 4];
    on_thread("read_pgm", || files::read_pgm(&file, 0, image.each_mut()))?;
    let meant = [side, side, file.len() - area, file.len()];
    same("read_pgm on a thread", ("port", &image), ("meant", &meant))?;
    let [mut widths, mut heights, mut next] = [[0]; 3];
    on_thread("read_stack", || {
        let (sides, next) = ((&mut widths, &mut heights), &mut next[0]);
        files::read_stack(&file, 0, sides.0, sides.1, &mut out, next)
    })?;
    let laid = ([widths[0], heights[0], next[0]], &out[..]);
    let meant = ([side, side, file.len()], reference.samples);
    same("read_stack on a thread", ("port", &laid), ("meant", &meant))?;
    drop(file);

    let [mut x, mut y] = [0; 2];
    on_thread("doubled", || moves::doubled(shift, &mut x, &mut y))?;
    on_thread("offset", || moves::offset(shift, 1, 1, &mut x, &mut y))?;
    let mut crop = [0; 4];
    on_thread("common_crop", || {
        moves::common_crop(&[5, -3], side, side, crop.each_mut())
    })?;

    let mut cut = 0;
    on_thread("threshold", || {
        frames::threshold(reference, PERCENTILES[0], &mut cut)
    })?;
    let need = Scratch::of_step(side, side, OPTIONS.bits);
    let (mut bytes, mut words) = (vec![0; need.bytes], vec![0; need.words]);
    let mut maps: Vec<&mut [u64]> = words.chunks_mut(need.words / 4).collect();
    let exposures = [(reference, PERCENTILES[0]), (target, PERCENTILES[1])];
    let exposures = exposures.map(|(frame, percentile)| Exposure::new(frame, percentile));
    for (exposure, maps) in exposures.into_iter().zip(maps.chunks_mut(2)) {
        let [threshold, exclusion] = maps else {
            unreachable!("two bitmaps a frame")
        };
        on_thread("compute_bitmaps", || {
            frames::compute_bitmaps(
                exposure.frame,
                exposure.percentile,
                OPTIONS.tolerance,
                threshold,
                exclusion,
            )
        })?;
    }
    let last = side - 1;
    on_thread("set", || frames::set(maps[0], side, side, last, last, true))?;
    let bitmap = Bitmap::new(maps[0], side, side);
    let mut pixel = false;
    on_thread("get", || frames::get(bitmap, last, last, &mut pixel))?;
    let mut total = 0;
    on_thread("count_ones", || frames::count_ones(bitmap, &mut total))?;
    let mut start = 0;
    on_thread("row", || {
        let length = frames::row(bitmap, last, &mut start);
        u32::from(length != words_per_row(side))
    })?;
    let [mut disagreeing, mut compared] = [0; 2];
    let mut values = [0; 5];
    on_thread("disagreement", || {
        let [reference, target] = [0, 2].map(|first: usize| Pair {
            threshold: maps[first],
            exclusion: maps[first + 1],
            width: side,
            height: side,
        });
        let counts = (&mut disagreeing, &mut compared);
        counts::disagreement(reference, target, shift, counts.0, counts.1, &mut values)
    })?;

    on_thread("pyramid", || {
        levels::pyramid(reference, OPTIONS.bits, OPTIONS.shrink, &mut bytes)
    })?;
    let mut in_scratch = false;
    on_thread("level", || {
        let last = recount::levels(side, side, OPTIONS.bits);
        let slots = (&mut in_scratch, &mut start);
        let length = levels::level(reference, OPTIONS.bits, &bytes, last, slots.0, slots.1);
        u32::from(length != (side >> last) * (side >> last))
    })?;
    let [mut of_bytes, mut of_words] = [0; 2];
    on_thread("scratch", || {
        levels::scratch(side, side, OPTIONS.bits, &mut of_bytes, &mut of_words)
    })?;

    let mut comparisons = 0;
    on_thread("shift", || {
        let (scratch, slots) = ((&mut bytes[..], &mut words[..]), (&mut x, &mut y));
        let (slot, values) = (&mut comparisons, &mut values);
        let [reference, target] = exposures;
        search::shift(reference, target, &OPTIONS, scratch, slots, slot, values)
    })?;
    let stack = Stack {
        samples: &rgb[..2 * area],
        widths: &[side; 2],
        heights: &[side; 2],
        percentiles: &PERCENTILES,
        reference: 0,
    };
    let mut shifts = [0; 4];
    on_thread("align_stack", || {
        let scratch = (&mut bytes[..], &mut words[..]);
        search::align_stack(stack, &OPTIONS, &mut shifts, scratch, &mut values)
    })?;
    let mut verdicts = [0; 2];
    let mut records = [0; RIVALRY.most_rivals() * RECORD_BYTES];
    let mut count = 0;
    on_thread("report", || {
        let written = Report {
            shifts: &mut shifts,
            verdicts: &mut verdicts,
            records: &mut records,
            crop: crop.each_mut(),
            count: &mut count,
        };
        let scratch = (&mut bytes[..], &mut words[..]);
        report(stack, &OPTIONS, &RIVALRY, written, scratch, &mut values)
    })
}
