//! Netpbm's binary greymaps (P5): the header is four words of its lines, each line without
//! its comment. A number stays a text of digits until its length says that it is small.

use crate::gray::Frame;
use crate::refusals::{
    HEADER_MALFORMED, HIGHEST_VALUE_OTHER, LONGEST_SIDE, MOST_FRAMES, Refusal, SAMPLES_MISSING,
    SIDE_TOO_LONG, TOO_MANY_FRAMES, WRONG_LENGTH, check_sides, refuse_if,
};

/// An image of a file: its size, where its samples start, and the place behind them.
#[derive(Clone, Copy, Debug, PartialEq, Eq)]
pub struct Image {
    pub width: usize,
    pub height: usize,
    pub start: usize,
    pub next: usize,
}

/// A header's three numbers, without leading zeros, and its length with the white space
/// byte that ends it.
struct Header {
    numbers: [String; 3],
    length: usize,
}

fn is_white(byte: &u8) -> bool {
    b" \t\r\n".contains(byte)
}

/// The words of a text, each with the place behind it. What a line has from its first #
/// on, the line feed with it, is a comment; words stand between comments and white space.
fn words(text: &[u8]) -> impl Iterator<Item = (&[u8], usize)> {
    let mut behind_line = 0;
    let lines = text.split_inclusive(|&byte| byte == b'\n');
    let words = lines.flat_map(move |line| {
        let mut place = behind_line;
        behind_line += line.len();
        let before_comment = line.split(|&byte| byte == b'#').next().unwrap_or_default();
        before_comment.split(is_white).map(move |word| {
            let end = place + word.len();
            place = end + 1;
            (word, end)
        })
    });
    words.filter(|(word, _)| !word.is_empty())
}

/// The digits of a number from its first other than 0 on; nothing for 0.
fn number(word: &[u8]) -> Option<String> {
    let digits = str::from_utf8(word).ok()?;
    let all = digits.bytes().all(|byte| byte.is_ascii_digit());
    all.then(|| digits.trim_start_matches('0').to_string())
}

/// The header that the text begins with: P5 and three numbers, the last one directly
/// before a white space byte, which no comment stands for.
fn header(text: &[u8]) -> Option<Header> {
    let words: Vec<_> = words(text).take(4).collect();
    let [(b"P5", 2), (width, _), (height, _), (highest, end)] = words[..] else {
        return None;
    };
    text.get(end).filter(|byte| is_white(byte))?;
    Some(Header {
        numbers: [number(width)?, number(height)?, number(highest)?],
        length: end + 1,
    })
}

/// The side that a number is, if it is not over the limit: a longer one is greater, and
/// of two as long the later by text.
fn side(digits: &str) -> Option<usize> {
    let limit = LONGEST_SIDE.to_string();
    let within = (digits.len(), digits) <= (limit.len(), &limit);
    within.then(|| format!("0{digits}").parse().expect("a number"))
}

/// The image whose header stands at a place: 13, 1, 14, 15.
pub fn read(file: &[u8], at: usize) -> Result<Image, Refusal> {
    let rest = file.get(at..).unwrap_or_default();
    let Some(header) = header(rest) else {
        return Err(Refusal::new(HEADER_MALFORMED, &[]));
    };
    let [width, height, highest] = &header.numbers;
    let (Some(width), Some(height)) = (side(width), side(height)) else {
        return Err(Refusal::new(SIDE_TOO_LONG, &[]));
    };
    refuse_if(highest != "255", HIGHEST_VALUE_OTHER)?;
    let samples = rest[header.length..].len();
    refuse_if(samples < width * height, SAMPLES_MISSING)?;

    let start = at + header.length;
    Ok(Image {
        width,
        height,
        start,
        next: start + width * height,
    })
}

/// The images of a file as a stack's lists, and the place behind the last of them.
#[derive(Clone, Debug, PartialEq, Eq)]
pub struct Laid {
    pub widths: Vec<usize>,
    pub heights: Vec<usize>,
    pub samples: Vec<u8>,
    pub next: usize,
}

/// As many images, one directly behind another, as the width list is long: 6, 2; 13 for
/// the place; 13, 1, 14, 15 of each image; 2. The last three are the lengths of the lists.
pub fn read_stack(
    file: &[u8],
    at: usize,
    widths: usize,
    heights: usize,
    samples: usize,
) -> Result<Laid, Refusal> {
    refuse_if(
        widths > MOST_FRAMES || heights > MOST_FRAMES,
        TOO_MANY_FRAMES,
    )?;
    refuse_if(heights != widths, WRONG_LENGTH)?;
    refuse_if(at > file.len(), HEADER_MALFORMED)?;

    let mut laid = Laid {
        widths: Vec::new(),
        heights: Vec::new(),
        samples: Vec::new(),
        next: at,
    };
    for _ in 0..widths {
        let image = read(file, laid.next)?;
        laid.widths.push(image.width);
        laid.heights.push(image.height);
        laid.samples.extend(&file[image.start..image.next]);
        laid.next = image.next;
    }
    refuse_if(samples != laid.samples.len(), WRONG_LENGTH)?;
    Ok(laid)
}

/// The digits of a number: its last one behind those of its tenth, unless it is the only one.
fn digits(number: usize) -> Vec<u8> {
    let last = b'0' + (number % 10) as u8;
    match number / 10 {
        0 => vec![last],
        tenth => [digits(tenth), vec![last]].concat(),
    }
}

/// A frame as the file of one image: 1, 2. `room` is the length of a buffer, which then begins
/// with it.
pub fn write(frame: Frame, room: usize) -> Result<Vec<u8>, Refusal> {
    check_sides(&[frame.width, frame.height])?;
    refuse_if(!frame.is_whole(), WRONG_LENGTH)?;
    let [width, height] = [frame.width, frame.height].map(digits);
    let parts = [
        b"P5\n",
        &width[..],
        b" ",
        &height[..],
        b"\n255\n",
        frame.samples,
    ];
    let file = parts.concat();
    refuse_if(room < file.len(), WRONG_LENGTH)?;
    Ok(file)
}
