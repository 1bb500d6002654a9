//! Greymaps made from the grammar: read as made, cut, damaged, and all short ones.

use std::collections::BTreeMap;

use naive::Refusal;
use naive::pgm::{Image, Laid, read, read_stack};
use trials::inputs::Random;
use trials::pgm::{WHITE, fault_sets, faulty, file, image};

const SEED: u64 = 5;

fn refused<T>(number: u32) -> Result<T, Refusal> {
    Err(Refusal::new(number, &[]))
}

/// Files of 1 to 17 images, several of each.
fn files(random: &mut Random, each: usize) -> Vec<(Vec<u8>, usize, Vec<Image>)> {
    (0..17 * each)
        .map(|case| file(random, 1 + case % 17))
        .collect()
}

#[test]
fn images_are_read_as_made() {
    for (file, at, images) in files(&mut Random::new(SEED), 150) {
        let mut place = at;
        for image in images {
            assert_eq!(read(&file, place), Ok(image), "{place} of {file:?}");
            place = image.next;
        }
    }
}

#[test]
fn stacks_are_laid_out_as_made() {
    for (file, at, images) in files(&mut Random::new(SEED), 40) {
        for count in 0..=images.len() {
            let images = &images[..count];
            let samples = images.iter().map(|image| &file[image.start..image.next]);
            let laid = Laid {
                widths: images.iter().map(|image| image.width).collect(),
                heights: images.iter().map(|image| image.height).collect(),
                samples: samples.collect::<Vec<_>>().concat(),
                next: images.last().map_or(at, |image| image.next),
            };
            let length = laid.samples.len();
            let ask = |samples| read_stack(&file, at, count, count, samples);
            if count > 16 {
                assert_eq!(ask(length), refused(6));
                continue;
            }
            assert_eq!(ask(length), Ok(laid), "{at} of {file:?}");
            assert_eq!(ask(length + 1), refused(2));
            if length > 0 {
                assert_eq!(ask(length - 1), refused(2));
            }
        }
    }
}

/// Within the header 13, within the samples 15; a later end does not matter.
#[test]
fn every_cut_of_a_file() {
    let random = &mut Random::new(SEED);
    for case in 0..400 {
        let (file, at, images) = file(random, 1 + case % 3);
        let mut place = at;
        for image in images {
            for end in at..=file.len() {
                let answer = match end {
                    _ if end < image.start => refused(13),
                    _ if end < image.next => refused(15),
                    _ => Ok(image),
                };
                assert_eq!(read(&file[..end], place), answer, "{end} of {file:?}");
            }
            place = image.next;
        }
    }
}

/// No other header begins at the place of one, whatever stands behind it.
#[test]
fn what_stands_behind_a_header() {
    let random = &mut Random::new(SEED);
    for _ in 0..4000 {
        let made = image(random);
        let mut file = made.bytes.clone();
        for byte in &mut file[made.header..] {
            *byte = random.pick(b"0123456789 \t\r\n#P5");
        }
        file.extend(image(random).bytes);
        assert_eq!(read(&file, 0), Ok(made.image(0)), "{file:?}");
    }
}

/// The first of an image's faults in the order of the checks, alone and behind images.
#[test]
fn faults_alone_and_together() {
    let random = &mut Random::new(SEED);
    let sets = fault_sets();
    for (case, faults) in sets.iter().cycle().take(600 * sets.len()).enumerate() {
        let bytes = faulty(random, faults);
        let answer = refused(faults[0]);
        assert_eq!(read(&bytes, 0), answer, "{faults:?} of {bytes:?}");

        let (mut file, at, images) = file(random, case % 5 + 1);
        let last = images[images.len() - 1];
        file.truncate(last.next);
        file.extend(bytes);
        assert_eq!(read(&file, last.next), answer);
        let count = images.len() + 1;
        let asked = read_stack(&file, at, count, count, case);
        assert_eq!(asked, refused(faults[0]));
    }
}

/// A header with every kind of part, and below each byte what it is: magic, a gap's
/// white space, a comment's start, inside and end, a digit of one of the three, the last.
const HEADER: &[u8] = b"P5 #c\r9 P5\n\t0013#\n 12\r#x#\n 0255\r";
const KINDS: &[u8] = b"mmg#ccccccegWWWW#egHHg#cceg1111l";

/// What the digits of a header are read as, behind which there are enough samples.
fn by_digits(header: &[u8]) -> Result<[usize; 2], u32> {
    let [width, height, highest] = [b'W', b'H', b'1'].map(|kind| {
        let digits = header.iter().zip(KINDS).filter(|(_, of)| **of == kind);
        let digits: Vec<u8> = digits.map(|(byte, _)| *byte).collect();
        let text = str::from_utf8(&digits).expect("digits");
        text.parse::<usize>().expect("digits")
    });
    match (width.max(height), highest) {
        (8193.., _) => Err(1),
        (_, 255) => Ok([width, height]),
        _ => Err(14),
    }
}

/// Every byte in turn replaced by all others of which the grammar tells what they do: one
/// that no header has, another white space byte, another digit, anything in a comment.
#[test]
fn a_header_with_a_byte_changed() {
    assert_eq!(HEADER.len(), KINDS.len());
    let behind = vec![7; 13 * 10_000];
    let mut changed = 0;
    for (place, byte) in (0..HEADER.len()).flat_map(|place| (0..=255).map(move |b| (place, b))) {
        let mut header = HEADER.to_vec();
        header[place] = byte;
        let strange = !byte.is_ascii_digit() && !WHITE.contains(&byte) && byte != b'#';
        let answer = match KINDS[place] {
            _ if byte == HEADER[place] => by_digits(HEADER),
            b'm' => Err(13),
            b'c' if byte != b'\n' => by_digits(HEADER),
            b'g' | b'l' if WHITE.contains(&byte) => by_digits(HEADER),
            b'W' | b'H' | b'1' if byte.is_ascii_digit() => by_digits(&header),
            b'g' | b'#' | b'l' | b'W' | b'H' | b'1' if strange => Err(13),
            b'l' if byte == b'#' => Err(13),
            _ => continue,
        };
        changed += 1;
        let file = [&header[..], &behind].concat();
        let read = read(&file, 0).map(|image| {
            assert_eq!(image.start, HEADER.len());
            assert_eq!(image.next, image.start + image.width * image.height);
            [image.width, image.height]
        });
        let numbered = read.map_err(|refusal| refusal.number);
        assert_eq!(numbered, answer, "{place} is {byte}");
    }
    assert!(changed > 6000, "{changed}");
}

/// The bytes of the short headers; white space has two of them.
const LETTERS: [u8; 6] = *b" \n#25x";

/// The grammar of what stands behind P5.
#[derive(Clone, Copy, PartialEq)]
enum Symbol {
    Byte(u8),
    Gap,
    Piece,
    Inside,
    Number,
    White,
}
use Symbol::{Byte, Gap, Inside, Number, Piece, White};

const HEADER_PARTS: [Symbol; 7] = [Gap, Number, Gap, Number, Gap, Number, White];

fn productions(symbol: Symbol) -> Vec<Vec<Symbol>> {
    match symbol {
        Byte(_) => Vec::new(),
        Gap => vec![vec![Piece], vec![Piece, Gap]],
        Piece => vec![vec![White], vec![Byte(b'#'), Inside, Byte(b'\n')]],
        Inside => {
            let more = [b' ', b'#', b'2', b'5', b'x'].map(|byte| vec![Byte(byte), Inside]);
            [vec![vec![]], more.to_vec()].concat()
        }
        Number => [b'2', b'5']
            .into_iter()
            .flat_map(|digit| [vec![Byte(digit)], vec![Byte(digit), Number]])
            .collect(),
        White => vec![vec![Byte(b' ')], vec![Byte(b'\n')]],
    }
}

/// All that these symbols derive behind a text, as far as it fits.
fn derive(symbols: &[Symbol], text: &[u8], fits: &dyn Fn(&[u8]) -> bool, found: &mut Vec<Vec<u8>>) {
    let Some((&first, rest)) = symbols.split_first() else {
        found.push(text.to_vec());
        return;
    };
    if let Byte(byte) = first {
        let longer = [text, &[byte]].concat();
        if fits(&longer) {
            derive(rest, &longer, fits, found);
        }
    }
    for production in productions(first) {
        derive(&[&production[..], rest].concat(), text, fits, found);
    }
}

/// Every header whose first bytes are free, as many as asked for, and then go on as the
/// tail does: what stands behind P5, and its three numbers.
fn headers(free: usize, tail: &[u8]) -> Vec<(Vec<u8>, Vec<usize>)> {
    let fits = |text: &[u8]| tail.starts_with(text.get(free..).unwrap_or_default());
    let mut headers = vec![(Vec::new(), Vec::new())];
    for part in HEADER_PARTS {
        let mut longer = Vec::new();
        for (text, numbers) in headers {
            let mut found = Vec::new();
            derive(&[part], &text, &fits, &mut found);
            for derived in found {
                let mut numbers: Vec<usize> = numbers.clone();
                if part == Number {
                    let digits = str::from_utf8(&derived[text.len()..]).expect("digits");
                    numbers.push(digits.parse().expect("digits"));
                }
                longer.push((derived, numbers));
            }
        }
        headers = longer;
    }
    headers
}

/// All strings of this length over the letters.
fn strings(length: usize) -> Vec<Vec<u8>> {
    (0..length).fold(vec![Vec::new()], |shorter, _| {
        let longer = |text: Vec<u8>| LETTERS.map(|byte| [&text[..], &[byte]].concat());
        shorter.into_iter().flat_map(longer).collect()
    })
}

#[test]
fn all_short_headers() {
    let samples = [b'x'; 30];
    let mut accepted = 0;
    for tail in ["255\n", " 255\n2 255\n5 5 255\n", "55\n2 5 255\n"] {
        let tail = [tail.as_bytes(), &samples].concat();
        for free in 0..=6 {
            let mut answers = BTreeMap::new();
            for (header, numbers) in headers(free, &tail) {
                let text = header[..free].to_vec();
                let &[width, height, highest] = &numbers[..] else {
                    panic!("three numbers");
                };
                let start = 2 + header.len();
                let image = Image {
                    width,
                    height,
                    start,
                    next: start + width * height,
                };
                let answer = match () {
                    _ if width.max(height) > 8192 => refused(1),
                    _ if highest != 255 => refused(14),
                    _ if image.next > 2 + free + tail.len() => refused(15),
                    _ => Ok(image),
                };
                let other = answers.insert(text, answer);
                assert_eq!(other, None, "two headers");
            }
            for text in strings(free) {
                let file = [b"P5", &text[..], &tail].concat();
                let answer = answers.remove(&text).unwrap_or(refused(13));
                accepted += usize::from(answer.is_ok());
                assert_eq!(read(&file, 0), answer, "{:?}", file.escape_ascii());
            }
            assert_eq!(answers.len(), 0);
        }
    }
    assert!(accepted > 1000, "{accepted}");
}
