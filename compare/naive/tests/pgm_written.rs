//! Greymaps as they are written: byte by byte, refused, and read again.

use naive::Refusal;
use naive::gray::Frame;
use naive::pgm::{read, write};
use trials::inputs::Random;
use trials::pgm::file;

const SEED: u64 = 5;

/// The file of a frame, or the number of its refusal, in a buffer of this length.
fn in_room(samples: &[u8], width: usize, height: usize, room: usize) -> Result<Vec<u8>, u32> {
    let number = |refusal: Refusal| {
        assert_eq!(refusal.values, [] as [u64; 0]);
        refusal.number
    };
    write(Frame::new(samples, width, height), room).map_err(number)
}

/// The same in more room than any file here takes.
fn file_of(samples: &[u8], width: usize, height: usize) -> Result<Vec<u8>, u32> {
    in_room(samples, width, height, usize::MAX)
}

#[test]
fn small_frames() {
    let files: [(&[u8], usize, usize, &[u8]); 9] = [
        (b"x", 1, 1, b"P5\n1 1\n255\nx"),
        (b"abcdef", 3, 2, b"P5\n3 2\n255\nabcdef"),
        (b"abcdef", 2, 3, b"P5\n2 3\n255\nabcdef"),
        (b"", 0, 0, b"P5\n0 0\n255\n"),
        (b"", 0, 7, b"P5\n0 7\n255\n"),
        (b"", 7, 0, b"P5\n7 0\n255\n"),
        (b"", 8192, 0, b"P5\n8192 0\n255\n"),
        (b"", 0, 8192, b"P5\n0 8192\n255\n"),
        (b"\n\0#\xff", 1, 4, b"P5\n1 4\n255\n\n\0#\xff"),
    ];
    for (samples, width, height, file) in files {
        let written = file_of(samples, width, height);
        assert_eq!(written.as_deref(), Ok(file), "{width} by {height}");
    }
}

/// Sides of one to four digits, and the last before and the first behind a further digit.
#[test]
fn headers_by_length() {
    for (width, height, header) in [
        (9, 10, "P5\n9 10\n255\n"),
        (10, 9, "P5\n10 9\n255\n"),
        (99, 100, "P5\n99 100\n255\n"),
        (100, 99, "P5\n100 99\n255\n"),
        (999, 1000, "P5\n999 1000\n255\n"),
        (1000, 999, "P5\n1000 999\n255\n"),
        (8192, 101, "P5\n8192 101\n255\n"),
        (1010, 8192, "P5\n1010 8192\n255\n"),
    ] {
        let samples = Random::new(SEED).bytes(width * height);
        let written = file_of(&samples, width, height).expect("a frame");
        assert!(written.starts_with(header.as_bytes()), "{header:?}");
        assert!(written[header.len()..] == samples, "{header:?}");
    }
}

#[test]
fn every_side() {
    for side in 0..=8192 {
        let (wide, high) = (file_of(&[], side, 0), file_of(&[], 0, side));
        assert_eq!(wide, Ok(format!("P5\n{side} 0\n255\n").into_bytes()));
        assert_eq!(high, Ok(format!("P5\n0 {side}\n255\n").into_bytes()));
    }
}

#[test]
fn a_buffer_is_as_long_as_the_file_or_longer() {
    let file = b"P5\n3 2\n255\nabcdef";
    for room in 0..file.len() {
        assert_eq!(in_room(b"abcdef", 3, 2, room), Err(2), "{room}");
    }
    for room in [file.len(), file.len() + 1, 1000, usize::MAX] {
        let written = in_room(b"abcdef", 3, 2, room);
        assert_eq!(written.as_deref(), Ok(&file[..]), "{room}");
    }
    assert_eq!(in_room(b"", 0, 0, 10), Err(2));
    assert_eq!(in_room(b"", 0, 0, 11), Ok(b"P5\n0 0\n255\n".to_vec()));
}

#[test]
fn samples_fill_the_size() {
    for samples in ["", "abcde", "abcdefg", "abcdefabcdef"] {
        for room in [0, 16, 17, 18, 1000] {
            let written = in_room(samples.as_bytes(), 3, 2, room);
            assert_eq!(written, Err(2), "{samples} in {room}");
        }
    }
    assert_eq!(file_of(b"x", 0, 0), Err(2));
    assert_eq!(file_of(b"x", 0, 8192), Err(2));
    assert_eq!(file_of(b"x", 8192, 8192), Err(2));
}

/// With samples and a buffer that would do, or one of them wrong; some of the products are
/// small in 64 bits.
#[test]
fn a_side_over_the_limit_goes_first() {
    let most = usize::MAX;
    for (width, height) in [
        (8193, 0),
        (0, 8193),
        (8193, 1),
        (1, 8193),
        (8193, 8193),
        (1 << 32, 1 << 32),
        ((1 << 63) + 3, 2),
        (6, (1 << 63) + 1),
        (most, most),
        (most, 0),
    ] {
        for samples in [0, 1, 6, 8193] {
            for room in [0, 17, 9000] {
                let written = in_room(&vec![7; samples], width, height, room);
                assert_eq!(written, Err(1), "{width} by {height}, {samples}, {room}");
            }
        }
    }
}

/// An image that is read, written and read again has its size and its samples still; it is
/// then written as before, and in no more bytes than it had.
#[test]
fn what_is_written_is_read() {
    let random = &mut Random::new(SEED);
    for _ in 0..4000 {
        let (file, at, images) = file(random, 1);
        let image = images[0];
        let samples = &file[image.start..image.next];
        let written = file_of(samples, image.width, image.height).expect("an image");
        assert!(written.len() <= image.next - at, "{}", file.escape_ascii());

        let again = read(&written, 0).expect("a file");
        assert_eq!((again.width, again.height), (image.width, image.height));
        assert_eq!(&written[again.start..], samples);
        assert_eq!(again.next, written.len());
        assert_eq!(file_of(samples, again.width, again.height), Ok(written));
    }
}

/// Two frames have the same file exactly if size and samples are the same.
#[test]
fn a_file_is_of_one_frame() {
    let mut frames = Vec::new();
    for (width, height) in (0..=12).flat_map(|width| (0..=12).map(move |height| (width, height))) {
        for first in [0, 1] {
            let mut samples = vec![0; width * height];
            samples
                .iter_mut()
                .take(1)
                .for_each(|sample| *sample = first);
            let file = file_of(&samples, width, height).expect("a frame");
            frames.push((file, (samples, width, height)));
        }
    }
    for (file, frame) in &frames {
        for (other_file, other) in &frames {
            assert_eq!(file == other_file, frame == other, "{frame:?}, {other:?}");
        }
    }
}
