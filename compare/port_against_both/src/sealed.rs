//! Refused calls whose outputs lie where nothing can be read or written, so that they
//! may hold anything, or nothing yet.

use std::cell::Cell;
use std::ffi::c_void;
use std::io::Write;

use port::refusals::{
    COORDINATE_OUTSIDE, HEADER_MALFORMED, HIGHEST_PERCENTILE, HIGHEST_VALUE_OTHER, MOST_FRAMES,
    NO_PERCENTILE, NO_SUCH_REFERENCE, PADDING_SET, PIXEL_OUTSIDE, RECORD_SPACE_TOO_SHORT,
    SAMPLES_MISSING, SCRATCH_TOO_SHORT, SIDE_TOO_LONG, SIZES_DIFFER, TOO_MANY_FRAMES, WRONG_LENGTH,
};
use port::report::{Report, report};
use port::{
    Bitmap, Exposure, Frame, Options, Pair, RECORD_BYTES, Rivalry, Shift, Shrink, Stack, Values,
};
use port::{counts, files, frames, levels, mosaic, moves, search};
use trials::Outcome;
use trials::inputs::TOO_LONG;

/// A stretch of memory that is closed to reading and writing.
struct Sealed {
    next: Cell<*mut u8>,
}

impl Sealed {
    fn new() -> Self {
        unsafe extern "C" {
            fn mmap(
                at: *mut c_void,
                length: usize,
                protection: i32,
                flags: i32,
                file: i32,
                offset: i64,
            ) -> *mut c_void;
        }
        const CLOSED: i32 = 0; // PROT_NONE
        const OWN: i32 = 0x22; // MAP_PRIVATE and MAP_ANONYMOUS on Linux
        let memory = unsafe { mmap(std::ptr::null_mut(), 1 << 20, CLOSED, OWN, -1, 0) };
        assert_ne!(memory.addr(), usize::MAX, "no memory to seal");
        Self {
            next: Cell::new(memory.cast()),
        }
    }

    /// A list of its own, which is only passed on.
    fn list<T>(&self, length: usize) -> &'static mut [T] {
        let at = self.next.get();
        self.next.set(at.wrapping_add(4096));
        unsafe { std::slice::from_raw_parts_mut(at.cast(), length) }
    }

    fn one<T>(&self) -> &'static mut T {
        &mut self.list(1)[0]
    }

    fn array<const N: usize>(&self) -> &'static mut [usize; N] {
        self.list(N).try_into().expect("as many of them")
    }

    fn values(&self) -> &'static mut Values {
        self.array()
    }
}

const OPTIONS: Options = Options::USUAL;
/// The second entry is no percentile.
const OVER: [u8; 2] = [50, HIGHEST_PERCENTILE + 1];
/// Seventeen rivals in a pair.
const RIVALRY: Rivalry = Rivalry {
    reach: 2,
    floor: 0,
    margin: 0,
};

/// Names each call before it is made: where an output is touched, the program ends.
pub fn run() -> Outcome {
    let sealed = &Sealed::new();
    let samples = [7; 32];
    let frame = Frame::new(&samples[..16], 4, 4);
    let small = Frame::new(&samples[..9], 3, 3);
    let stack_at = |percentiles: &'static [u8], reference| Stack {
        samples: &samples,
        widths: &[4; 2],
        heights: &[4; 2],
        percentiles,
        reference,
    };
    let stack = |reference| stack_at(&[50; 2], reference);
    let pair = |words, width| Pair {
        threshold: words,
        exclusion: words,
        width,
        height: 1,
    };
    let far = Shift::new(i32::MAX, 0);
    let four = || [(); 4].map(|()| sealed.one());
    let scratch = |bytes| (sealed.list(bytes), sealed.list(16));
    let written = |shifts, records| Report {
        shifts: sealed.list(shifts),
        verdicts: sealed.list(2),
        records: sealed.list(records),
        crop: four(),
        count: sealed.one(),
    };
    let records = RIVALRY.most_rivals() * RECORD_BYTES;
    let reported = |stack, written, scratch: (&mut [u8], &mut [u64]), values: &mut Values| {
        report(stack, &OPTIONS, &RIVALRY, written, scratch, values)
    };
    let shifted = |target, percentile, bytes, values: &mut Values| {
        let (reference, target) = (Exposure::new(frame, 50), Exposure::new(target, percentile));
        let (step, count) = ((sealed.one(), sealed.one()), sealed.one());
        search::shift(
            reference,
            target,
            &OPTIONS,
            scratch(bytes),
            step,
            count,
            values,
        )
    };
    let aligned = |stack, bytes, values: &mut Values| {
        search::align_stack(stack, &OPTIONS, sealed.list(4), scratch(bytes), values)
    };
    let read = |file: &[u8]| files::read_pgm(file, 0, four());
    let read_stack = |file: &[u8], images, samples| {
        let (sides, samples) = (
            (sealed.list(images), sealed.list(images)),
            sealed.list(samples),
        );
        files::read_stack(file, 0, sides.0, sides.1, samples, sealed.one())
    };

    let write = |frame, room| files::write_pgm(frame, sealed.list(room), sealed.one());
    let laid = |width, height| {
        let lists = [(); 3].map(|()| sealed.array());
        mosaic::planes(width, height, lists)
    };

    let calls: [(&str, u32, &dyn Fn() -> u32); 56] = [
        ("from_rgb", SIDE_TOO_LONG, &|| {
            frames::from_rgb(&[], TOO_LONG, 0, sealed.list(0))
        }),
        ("from_rgb", WRONG_LENGTH, &|| {
            frames::from_rgb(&samples[..3], 1, 1, sealed.list(2))
        }),
        ("shrink2", WRONG_LENGTH, &|| {
            frames::shrink2(frame, Shrink::Average, sealed.list(5))
        }),
        ("threshold", NO_PERCENTILE, &|| {
            frames::threshold(frame, HIGHEST_PERCENTILE + 1, sealed.one())
        }),
        ("compute_bitmaps", NO_PERCENTILE, &|| {
            frames::compute_bitmaps(
                frame,
                HIGHEST_PERCENTILE + 1,
                4,
                sealed.list(4),
                sealed.list(4),
            )
        }),
        ("get", PIXEL_OUTSIDE, &|| {
            frames::get(Bitmap::new(&[1], 3, 1), 3, 0, sealed.one())
        }),
        ("set", PIXEL_OUTSIDE, &|| {
            frames::set(sealed.list(1), 3, 1, 3, 0, true)
        }),
        ("count_ones", PADDING_SET, &|| {
            frames::count_ones(Bitmap::new(&[8], 3, 1), sealed.one())
        }),
        ("doubled", COORDINATE_OUTSIDE, &|| {
            moves::doubled(far, sealed.one(), sealed.one())
        }),
        ("offset", COORDINATE_OUTSIDE, &|| {
            moves::offset(far, 1, 0, sealed.one(), sealed.one())
        }),
        ("shifted", WRONG_LENGTH, &|| {
            moves::shifted(frame, far, sealed.list(15))
        }),
        ("common_crop", WRONG_LENGTH, &|| {
            moves::common_crop(&[5], 4, 4, four())
        }),
        ("disagreement", PADDING_SET, &|| {
            let (one, other) = (pair(&[7], 3), pair(&[8], 3));
            counts::disagreement(one, other, far, sealed.one(), sealed.one(), sealed.values())
        }),
        ("disagreement", SIZES_DIFFER, &|| {
            let (one, other) = (pair(&[7], 3), pair(&[7], 4));
            counts::disagreement(one, other, far, sealed.one(), sealed.one(), &mut [0; 5])
        }),
        ("pyramid", SCRATCH_TOO_SHORT, &|| {
            levels::pyramid(frame, 6, Shrink::Average, sealed.list(3))
        }),
        ("scratch", SIDE_TOO_LONG, &|| {
            levels::scratch(TOO_LONG, 1, 6, sealed.one(), sealed.one())
        }),
        ("shift", NO_PERCENTILE, &|| {
            shifted(frame, HIGHEST_PERCENTILE + 1, 8, sealed.values())
        }),
        ("shift", SCRATCH_TOO_SHORT, &|| {
            shifted(frame, 50, 7, sealed.values())
        }),
        ("shift", SIZES_DIFFER, &|| {
            shifted(small, 50, 8, &mut [0; 5])
        }),
        ("align_stack", WRONG_LENGTH, &|| {
            aligned(stack_at(&[50], 0), 8, sealed.values())
        }),
        ("align_stack", NO_PERCENTILE, &|| {
            aligned(stack_at(&OVER, 0), 8, sealed.values())
        }),
        ("align_stack", SCRATCH_TOO_SHORT, &|| {
            aligned(stack(0), 7, sealed.values())
        }),
        ("align_stack", NO_SUCH_REFERENCE, &|| {
            aligned(stack(2), 8, &mut [0; 5])
        }),
        ("report", WRONG_LENGTH, &|| {
            let stack = stack_at(&[50; 3], 0);
            reported(stack, written(4, records), scratch(8), sealed.values())
        }),
        ("report", NO_PERCENTILE, &|| {
            let stack = stack_at(&OVER, 0);
            reported(stack, written(4, records), scratch(8), sealed.values())
        }),
        ("report", WRONG_LENGTH, &|| {
            reported(stack(0), written(3, records), scratch(8), sealed.values())
        }),
        ("report", SCRATCH_TOO_SHORT, &|| {
            reported(stack(0), written(4, records), scratch(7), sealed.values())
        }),
        ("report", NO_SUCH_REFERENCE, &|| {
            reported(stack(2), written(4, records), scratch(8), &mut [0; 5])
        }),
        ("report", RECORD_SPACE_TOO_SHORT, &|| {
            let scratch = (&mut [0; 8][..], &mut [0; 16][..]);
            reported(stack(0), written(4, records - 1), scratch, &mut [0; 5])
        }),
        ("report", RECORD_SPACE_TOO_SHORT, &|| {
            let scratch = (&mut [0; 8][..], &mut [0; 16][..]);
            reported(stack(0), written(4, 0), scratch, &mut [0; 5])
        }),
        ("read_pgm", HEADER_MALFORMED, &|| read(b"P5 1 1 255")),
        ("read_pgm", SIDE_TOO_LONG, &|| read(b"P5 1 8193 255\n")),
        ("read_pgm", HIGHEST_VALUE_OTHER, &|| read(b"P5 1 1 254\n0")),
        ("read_pgm", SAMPLES_MISSING, &|| read(b"P5 1 2 255\n0")),
        ("read_stack", TOO_MANY_FRAMES, &|| {
            read_stack(b"P5 1 2 255\n01", MOST_FRAMES + 1, 2)
        }),
        ("read_stack", HEADER_MALFORMED, &|| {
            read_stack(b"P5 1 2 255\n01P", 2, 3)
        }),
        ("read_stack", SIDE_TOO_LONG, &|| {
            read_stack(b"P5 1 2 255\n01P5 8193 0 255\n", 2, 2)
        }),
        ("read_stack", HIGHEST_VALUE_OTHER, &|| {
            read_stack(b"P5 1 2 255\n01P5 1 1 1\n0", 2, 3)
        }),
        ("read_stack", SAMPLES_MISSING, &|| {
            read_stack(b"P5 1 2 255\n01P5 1 2 255\n0", 2, 4)
        }),
        ("read_stack", WRONG_LENGTH, &|| {
            read_stack(b"P5 1 2 255\n01P5 1 2 255\n01", 2, 3)
        }),
        ("read_stack", WRONG_LENGTH, &|| {
            let (sides, samples) = ((sealed.list(1), sealed.list(2)), sealed.list(2));
            files::read_stack(
                b"P5 1 2 255\n01",
                0,
                sides.0,
                sides.1,
                samples,
                sealed.one(),
            )
        }),
        ("write_pgm", SIDE_TOO_LONG, &|| {
            write(Frame::new(&[], TOO_LONG, 0), 100)
        }),
        ("write_pgm", SIDE_TOO_LONG, &|| {
            write(Frame::new(&samples[..1], 1, TOO_LONG), 0)
        }),
        ("write_pgm", WRONG_LENGTH, &|| {
            write(Frame::new(&samples[..15], 4, 4), 100)
        }),
        ("write_pgm", WRONG_LENGTH, &|| {
            let header = b"P5\n4 4\n255\n".len();
            write(frame, header + 15)
        }),
        ("write_pgm", WRONG_LENGTH, &|| write(frame, 0)),
        ("take_apart", SIDE_TOO_LONG, &|| {
            mosaic::take_apart(&samples[..1], TOO_LONG, 1, sealed.list(1))
        }),
        ("take_apart", SIDE_TOO_LONG, &|| {
            mosaic::take_apart(&[], 0, TOO_LONG, sealed.list(0))
        }),
        ("take_apart", WRONG_LENGTH, &|| {
            mosaic::take_apart(&samples[..15], 4, 4, sealed.list(16))
        }),
        ("take_apart", WRONG_LENGTH, &|| {
            mosaic::take_apart(&samples[..16], 4, 4, sealed.list(17))
        }),
        ("put_together", SIDE_TOO_LONG, &|| {
            mosaic::put_together(&[], TOO_LONG, 0, sealed.list(0))
        }),
        ("put_together", SIDE_TOO_LONG, &|| {
            mosaic::put_together(&samples[..1], 1, TOO_LONG, sealed.list(1))
        }),
        ("put_together", WRONG_LENGTH, &|| {
            mosaic::put_together(&samples[..17], 4, 4, sealed.list(16))
        }),
        ("put_together", WRONG_LENGTH, &|| {
            mosaic::put_together(&samples[..16], 4, 4, sealed.list(15))
        }),
        ("planes", SIDE_TOO_LONG, &|| laid(TOO_LONG, 4)),
        ("planes", SIDE_TOO_LONG, &|| laid(4, TOO_LONG)),
    ];
    print!("refused without a touch of an output:");
    for (call, number, made) in calls {
        print!(" {call} by {number};");
        std::io::stdout().flush().expect("there is an output");
        let status = made();
        if status != number {
            return Err(format!(" refused by {status}"));
        }
    }
    println!();
    Ok(())
}
