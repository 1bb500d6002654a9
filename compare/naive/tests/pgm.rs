//! Greymaps: what is read and what is refused, case by case.

use naive::Refusal;
use naive::align::{Scratch, Stack, align_stack};
use naive::pgm::{Laid, read, read_stack};
use naive::stacksteps::{OPTIONS, PERCENTILE};

fn number(refusal: Refusal) -> u32 {
    assert_eq!(refusal.values, [] as [u64; 0]);
    refusal.number
}

/// The answer for the image at the front of these bytes: width, height, start, next.
fn front(file: impl AsRef<[u8]>) -> Result<[usize; 4], u32> {
    at(file.as_ref(), 0)
}

fn at(file: &[u8], place: usize) -> Result<[usize; 4], u32> {
    let image = read(file, place).map_err(number)?;
    Ok([image.width, image.height, image.start, image.next])
}

/// A header with one sample behind it, read as an image of this size.
fn assert_one_sample(header: &str) {
    let length = header.len();
    let read = Ok([1, 1, length, length + 1]);
    assert_eq!(front(header.to_string() + "x"), read, "{header:?}");
}

#[test]
fn a_plain_image() {
    assert_eq!(front("P5 3 2 255\nabcdef"), Ok([3, 2, 11, 17]));
    assert_eq!(front("P5 3 2 255\nabcdef and more"), Ok([3, 2, 11, 17]));
    assert_eq!(at(b"anything P5 3 2 255\nabcdef", 9), Ok([3, 2, 20, 26]));
}

#[test]
fn each_of_four_bytes_is_white_space() {
    for white in [" ", "\t", "\r", "\n"] {
        assert_one_sample(&["P5", "1", "1", "255", ""].join(white));
        let two = white.repeat(2);
        assert_one_sample(&(["P5", "1", "1", "255"].join(&two) + white));
    }
    assert_one_sample("P5\r\n \t1 \t1\n\n\r\r255\t");
}

#[test]
fn a_comment_alone_is_white_space() {
    assert_eq!(front("P5#c\n3#c\n2 255\nabcdef"), Ok([3, 2, 15, 21]));
    assert_one_sample("P5#\n1#\n1#\n255\n");
    assert_one_sample("P5#a\n#b\n1 #c\n 1\n#d\n255 ");
}

#[test]
fn a_comment_goes_through_the_line_feed() {
    assert_one_sample("P5 # 7 # 8 P5 9 9 255 \n1 1 255\n");
    assert_one_sample("P5 #\0\x0b\u{85}\n1 1 255\n");
    assert_eq!(front("P5 #\n3 2 255\nabcdef"), Ok([3, 2, 13, 19]));
}

#[test]
fn a_carriage_return_does_not_end_a_comment() {
    assert_eq!(front("P5 #\r3\n2 2 255\nabcd"), Ok([2, 2, 15, 19]));
    assert_one_sample("P5 #c\r\n1 1 255\n");
    assert_eq!(front("P5 #c\r1 1 255\rx"), Err(13));
}

#[test]
fn a_comment_without_its_line_feed() {
    for file in ["P5#", "P5 #c", "P5 3#c", "P5 3 2#", "P5 3 2 #255 abcdef"] {
        assert_eq!(front(file), Err(13), "{file}");
    }
}

#[test]
fn a_comment_ends_a_number() {
    assert_eq!(front("P5 1#c\n2 255\nab"), Ok([1, 2, 13, 15]));
    assert_eq!(front("P5 1#c\n2 3 255\nab"), Err(14));
}

#[test]
fn one_white_space_byte_ends_the_header() {
    for first in [" ", "\t", "\r", "\n", "#", "0", "\x0b", "x"] {
        for last in [" ", "\t", "\r", "\n"] {
            let file = ["P5 2 1 255", last, first, "y"].concat();
            assert_eq!(front(&file), Ok([2, 1, 11, 13]), "{file:?}");
        }
    }
    assert_eq!(front("P5 1 1 255\r\n"), Ok([1, 1, 11, 12]));
    assert_eq!(front("P5 1 1 255\n#"), Ok([1, 1, 11, 12]));
}

#[test]
fn nothing_else_ends_the_header() {
    for byte in (0..=255u8).filter(|byte| !b" \t\r\n".contains(byte)) {
        let file = [&b"P5 1 1 255"[..], &[byte], b"\nxyz"].concat();
        let highest_is_longer = byte.is_ascii_digit();
        let answer = Err(if highest_is_longer { 14 } else { 13 });
        assert_eq!(front(&file), answer, "{byte}");
    }
    for file in ["P5 1 1 255", "P5 1 1 255#", "P5 1 1 255#c\n", "P5 0 0 255"] {
        assert_eq!(front(file), Err(13), "{file:?}");
    }
}

#[test]
fn nothing_but_the_magic_begins_an_image() {
    for magic in [
        "", "P", "5", "P1", "P2", "P4", "P6", "P7", "p5", "Q5", "5P", "P 5", " P5", "\nP5",
        "#\nP5", "P5x", "P53", "P05", "P#\n5",
    ] {
        let file = magic.to_string() + " 1 1 255\nx";
        assert_eq!(front(&file), Err(13), "{file:?}");
    }
    assert_eq!(front("P53 2 255\nabcdef"), Err(13));
}

#[test]
fn numbers_are_digits() {
    for word in [
        "", "-1", "+1", "1.", "1.0", "0x1", "1e0", "1_0", "1,", "x", "one", "\u{661}", "\u{ff11}",
        "\0", "1\0", "\x0b1", "1\x0c", "\u{a0}1", "'1'",
    ] {
        for place in 0..3 {
            let mut words = ["1", "1", "255"];
            words[place] = word;
            let file = format!("P5 {}\n", words.join(" "));
            assert_eq!(front(&file), Err(13), "{file:?}");
        }
    }
}

#[test]
fn leading_zeros_are_read() {
    assert_eq!(front("P5 003 02 0255\nabcdef"), Ok([3, 2, 15, 21]));
    let zeros = "0".repeat(10_000);
    let file = format!("P5 {zeros}3 {zeros}2 {zeros}255\nabcdef");
    assert_eq!(front(file), Ok([3, 2, 30_011, 30_017]));
    assert_eq!(front(format!("P5 {zeros}8193 0 255\n")), Err(1));
    assert_eq!(front(format!("P5 1 1 {zeros}\nx")), Err(14));
}

/// 3 and 255 past 2^16, 2^32, 2^64 and 2^128, and any number of digits.
#[test]
fn numbers_do_not_wrap() {
    let (three, highest) = (
        [
            "65539",
            "4294967299",
            "18446744073709551619",
            "340282366920938463463374607431768211459",
        ],
        [
            "511",
            "65791",
            "4294967551",
            "18446744073709551871",
            "340282366920938463463374607431768211711",
        ],
    );
    let nines = "9".repeat(10_000);
    for side in three.into_iter().chain([&nines[..]]) {
        assert_eq!(front(format!("P5 {side} 2 255\nabcdef")), Err(1), "{side}");
        assert_eq!(front(format!("P5 2 {side} 255\nabcdef")), Err(1), "{side}");
    }
    for value in highest.into_iter().chain([&nines[..]]) {
        let file = format!("P5 3 2 {value}\nabcdef");
        assert_eq!(front(file), Err(14), "{value}");
    }
}

#[test]
fn sides_up_to_the_limit() {
    assert_eq!(front("P5 8192 0 255\n"), Ok([8192, 0, 14, 14]));
    assert_eq!(front("P5 0 8192 255\n"), Ok([0, 8192, 14, 14]));
    let row = [&b"P5 8192 1 255\n"[..], &[7; 8192]].concat();
    assert_eq!(front(row), Ok([8192, 1, 14, 8206]));
    for side in ["8193", "8200", "9000", "10000", "08193"] {
        assert_eq!(front(format!("P5 {side} 0 255\n")), Err(1), "{side}");
        assert_eq!(front(format!("P5 0 {side} 255\n")), Err(1), "{side}");
    }
}

#[test]
fn sides_of_zero() {
    assert_eq!(front("P5 0 0 255\n"), Ok([0, 0, 11, 11]));
    assert_eq!(front("P5 0 2 255\nabc"), Ok([0, 2, 11, 11]));
    assert_eq!(front("P5 2 000 255\n"), Ok([2, 0, 13, 13]));
}

#[test]
fn highest_values_other_than_255() {
    for value in [
        "0", "00", "1", "2", "25", "55", "254", "256", "2550", "2255", "65535",
    ] {
        let file = format!("P5 1 1 {value}\nx");
        assert_eq!(front(file), Err(14), "{value}");
    }
}

#[test]
fn samples_are_there_or_missing() {
    for samples in 0..6 {
        let file = "P5 3 2 255\n".to_string() + &"a".repeat(samples);
        assert_eq!(front(file), Err(15), "{samples}");
    }
    assert_eq!(front("P5 8192 8192 255\nabc"), Err(15));
}

#[test]
fn a_malformed_header_goes_first_then_sides_then_the_highest_value() {
    for (file, answer) in [
        ("P5 9000 x", 13),
        ("P5 9000 2 255", 13),
        ("P5 9000 2 65535#\n", 13),
        ("P5 9000 2 65535", 13),
        ("P5 3 2 65535", 13),
        ("P5 9000 2 65535\n", 1),
        ("P5 2 9000 255\n", 1),
        ("P5 3 2 65535\n", 14),
        ("P5 3 2 255\nabcde", 15),
    ] {
        assert_eq!(front(file), Err(answer), "{file:?}");
    }
}

#[test]
fn places_past_the_end() {
    let file = b"P5 1 1 255\nx";
    for place in [1, 11, 12, 13, 1 << 32, usize::MAX - 11, usize::MAX] {
        assert_eq!(at(file, place), Err(13), "{place}");
    }
    for place in [0, 1, usize::MAX] {
        assert_eq!(at(b"", place), Err(13), "{place}");
    }
}

/// Two images, one directly behind the other, and a third behind a line feed.
const FILE: &[u8] = b"P5 3 2 255\nabcdefP5#c\n1 2 255 xy\nP5 0 0 255\n";

#[test]
fn several_images() {
    assert_eq!(at(FILE, 0), Ok([3, 2, 11, 17]));
    assert_eq!(at(FILE, 17), Ok([1, 2, 30, 32]));
    assert_eq!(at(FILE, 32), Err(13), "white space is no part of an image");
    assert_eq!(at(FILE, 33), Ok([0, 0, 44, 44]));
    assert_eq!(at(FILE, 44), Err(13));
}

fn laid(
    file: &[u8],
    place: usize,
    widths: usize,
    heights: usize,
    samples: usize,
) -> Result<Laid, u32> {
    read_stack(file, place, widths, heights, samples).map_err(number)
}

fn lists(widths: &[usize], heights: &[usize], samples: &[u8], next: usize) -> Result<Laid, u32> {
    Ok(Laid {
        widths: widths.to_vec(),
        heights: heights.to_vec(),
        samples: samples.to_vec(),
        next,
    })
}

#[test]
fn images_are_laid_out_as_a_stack() {
    let both = lists(&[3, 1], &[2, 2], b"abcdefxy", 32);
    assert_eq!(laid(FILE, 0, 2, 2, 8), both);
    assert_eq!(laid(FILE, 0, 1, 1, 6), lists(&[3], &[2], b"abcdef", 17));
    assert_eq!(laid(FILE, 17, 1, 1, 2), lists(&[1], &[2], b"xy", 32));
    assert_eq!(laid(FILE, 33, 1, 1, 0), lists(&[0], &[0], b"", 44));
    assert_eq!(laid(FILE, 0, 3, 3, 8), Err(13));
}

#[test]
fn no_image() {
    for place in [0, 5, 43, 44] {
        assert_eq!(laid(FILE, place, 0, 0, 0), lists(&[], &[], b"", place));
        assert_eq!(laid(FILE, place, 0, 0, 1), Err(2));
    }
    for place in [45, usize::MAX] {
        assert_eq!(laid(FILE, place, 0, 0, 0), Err(13));
        assert_eq!(laid(FILE, place, 0, 0, 1), Err(13));
        assert_eq!(laid(FILE, place, 1, 1, 0), Err(13));
    }
    assert_eq!(laid(b"", 0, 0, 0, 0), lists(&[], &[], b"", 0));
}

#[test]
fn sixteen_images_and_no_more() {
    let many = b"P5 1 1 255\nx".repeat(17);
    let sixteen = lists(&[1; 16], &[1; 16], &[b'x'; 16], 16 * 12);
    assert_eq!(laid(&many, 0, 16, 16, 16), sixteen);
    assert_eq!(laid(&many, 0, 17, 17, 17), Err(6));
    assert_eq!(laid(&many, 0, 17, 16, 16), Err(6));
    assert_eq!(laid(&many, 0, 16, 17, 16), Err(6));
    assert_eq!(laid(&many, usize::MAX, 17, 17, 17), Err(6));
    assert_eq!(laid(&many, 0, usize::MAX, 1, 1), Err(6));
}

#[test]
fn list_lengths_of_a_stack() {
    for (widths, heights) in [(2, 1), (1, 2), (0, 1), (1, 0), (16, 15)] {
        assert_eq!(laid(FILE, 0, widths, heights, 8), Err(2));
        assert_eq!(laid(FILE, usize::MAX, widths, heights, 8), Err(2));
    }
    for samples in [0, 7, 9, usize::MAX] {
        assert_eq!(laid(FILE, 0, 2, 2, samples), Err(2), "{samples}");
    }
}

/// The first image that is refused answers, all of them before the length of the samples.
#[test]
fn the_first_image_that_is_refused() {
    let refused = [
        ("P5 3 x", 13),
        ("P5 8193 0 65535\n", 1),
        ("P5 0 2 254\n", 14),
        ("P5 3 2 255\nabcde", 15),
    ];
    for (image, answer) in refused {
        assert_eq!(laid(image.as_bytes(), 0, 1, 1, 9), Err(answer));
        let behind = "P5 1 1 255\nx".to_string() + image;
        assert_eq!(laid(behind.as_bytes(), 0, 2, 2, 9), Err(answer));
    }
    for (later, _) in refused {
        let both = "P5 0 2 254\n".to_string() + later;
        assert_eq!(laid(both.as_bytes(), 0, 2, 2, 9), Err(14), "{both:?}");
    }
}

/// Four frames that Netpbm cut out of one scene, each one column farther right and two
/// rows farther up than the one before, and each brighter.
#[test]
fn a_bracket_from_one_file() {
    let file = include_bytes!("../../vectors/data/netpbm/bracket.pgm");
    let laid = laid(file, 0, 4, 4, 4 * 32 * 20).expect("four images");
    assert_eq!(laid.next, file.len());
    let stack = Stack {
        samples: &laid.samples,
        widths: &laid.widths,
        heights: &laid.heights,
        percentiles: &[PERCENTILE; 4],
        reference: 0,
    };
    let scratch = Scratch::of_step(32, 20, OPTIONS.bits);
    let shifts = align_stack(stack, &OPTIONS, 8, scratch);
    assert_eq!(shifts, Ok(vec![0, 0, 1, -2, 2, -4, 3, -6]));
}
