//! Mosaics taken apart and put together: by hand, every small size, both ways back, refusals,
//! and planes as frames.

use std::array;

use naive::Refusal;
use naive::align::{Exposure, Options, Scratch, shift};
use naive::geometry::Shift;
use naive::mosaic::{Plane, Planes, layout, put_together, take_apart};
use trials::inputs::{Random, SIZES_OVER};
use trials::scenes;

const SEED: u64 = 7;

type Size = (usize, usize);

fn number(refusal: Refusal) -> u32 {
    assert_eq!(refusal.values, [] as [u64; 0]);
    refusal.number
}

fn apart(mosaic: &[u8], (width, height): Size, room: usize) -> Result<Vec<u8>, u32> {
    take_apart(mosaic, width, height, room).map_err(number)
}

fn together(planes: &[u8], (width, height): Size, room: usize) -> Result<Vec<u8>, u32> {
    put_together(planes, width, height, room).map_err(number)
}

/// Start, width and height of the four planes.
type Laid = [(usize, usize, usize); 4];

/// The samples of a mosaic and those of its planes, and how these lie.
type Known<'a> = (Size, &'a [u8], &'a [u8], Laid);

fn laid(size: Size) -> Laid {
    let planes = layout(size.0, size.1).expect("sides within the limit");
    let laid = |plane: Plane| (plane.start, plane.width, plane.height);
    planes.in_order().map(laid)
}

#[test]
fn by_hand() {
    let known: [Known; 11] = [
        (
            (3, 3),
            &[1, 2, 3, 4, 5, 6, 7, 8, 9],
            &[1, 3, 7, 9, 2, 8, 4, 6, 5],
            [(0, 2, 2), (4, 1, 2), (6, 2, 1), (8, 1, 1)],
        ),
        (
            (1, 3),
            &[1, 2, 3],
            &[1, 3, 2],
            [(0, 1, 2), (2, 0, 2), (2, 1, 1), (3, 0, 1)],
        ),
        (
            (3, 1),
            &[1, 2, 3],
            &[1, 3, 2],
            [(0, 2, 1), (2, 1, 1), (3, 2, 0), (3, 1, 0)],
        ),
        (
            (1, 1),
            &[1],
            &[1],
            [(0, 1, 1), (1, 0, 1), (1, 1, 0), (1, 0, 0)],
        ),
        (
            (2, 2),
            &[1, 2, 3, 4],
            &[1, 2, 3, 4],
            [(0, 1, 1), (1, 1, 1), (2, 1, 1), (3, 1, 1)],
        ),
        (
            (4, 2),
            &[1, 2, 3, 4, 5, 6, 7, 8],
            &[1, 3, 2, 4, 5, 7, 6, 8],
            [(0, 2, 1), (2, 2, 1), (4, 2, 1), (6, 2, 1)],
        ),
        (
            (2, 4),
            &[1, 2, 3, 4, 5, 6, 7, 8],
            &[1, 5, 2, 6, 3, 7, 4, 8],
            [(0, 1, 2), (2, 1, 2), (4, 1, 2), (6, 1, 2)],
        ),
        (
            (3, 2),
            &[1, 2, 3, 4, 5, 6],
            &[1, 3, 2, 4, 6, 5],
            [(0, 2, 1), (2, 1, 1), (3, 2, 1), (5, 1, 1)],
        ),
        (
            (0, 5),
            &[],
            &[],
            [(0, 0, 3), (0, 0, 3), (0, 0, 2), (0, 0, 2)],
        ),
        (
            (5, 0),
            &[],
            &[],
            [(0, 3, 0), (0, 2, 0), (0, 3, 0), (0, 2, 0)],
        ),
        ((0, 0), &[], &[], [(0, 0, 0); 4]),
    ];
    for (size, mosaic, planes, meant) in known {
        assert_eq!(laid(size), meant, "{size:?}");
        let (there, back) = (
            apart(mosaic, size, mosaic.len()),
            together(planes, size, planes.len()),
        );
        assert_eq!(there.as_deref(), Ok(planes), "{size:?}");
        assert_eq!(back.as_deref(), Ok(mosaic), "{size:?}");
    }
}

#[test]
fn planes_by_name() {
    let plane = |start, width, height| Plane {
        start,
        width,
        height,
    };
    let meant = Planes {
        even_even: plane(0, 51, 41),
        even_odd: plane(51 * 41, 50, 41),
        odd_even: plane(51 * 41 + 50 * 41, 51, 40),
        odd_odd: plane(51 * 41 + 50 * 41 + 51 * 40, 50, 40),
    };
    assert_eq!(layout(101, 81), Ok(meant));
    let longest = laid((8192, 8192));
    let quarter = |number| (number << 24, 4096, 4096);
    assert_eq!(longest, array::from_fn(quarter));
}

/// All samples differ, so each is found by its value: once, at the place of its plane's row and
/// column.
#[test]
fn every_small_size() {
    for (width, height) in (0..=5).flat_map(|width| (0..=5).map(move |height| (width, height))) {
        let (size, area) = ((width, height), width * height);
        let mosaic: Vec<u8> = (100..).take(area).collect();
        let planes = apart(&mosaic, size, area).expect("a mosaic");
        assert_eq!(planes.len(), area);
        assert_eq!(together(&planes, size, area).as_ref(), Ok(&mosaic));
        let other_way = together(&mosaic, size, area).expect("planes");
        assert_eq!(apart(&other_way, size, area).as_ref(), Ok(&mosaic));

        for (x, y) in (0..width).flat_map(|x| (0..height).map(move |y| (x, y))) {
            let sample = mosaic[y * width + x];
            let (start, wide, _) = laid(size)[2 * (y % 2) + x % 2];
            let place = start + y / 2 * wide + x / 2;
            let found: Vec<usize> = (0..area).filter(|&at| planes[at] == sample).collect();
            assert_eq!(found, [place], "{size:?}, column {x}, row {y}");
            // The other way round the samples of the mosaic are those of the planes.
            assert_eq!(other_way[y * width + x], mosaic[place]);
        }
    }
}

/// About a word's width, with odd and even sides, and at the limit.
const SIZES: [Size; 15] = [
    (63, 63),
    (63, 64),
    (64, 63),
    (64, 64),
    (64, 65),
    (65, 64),
    (65, 65),
    (65, 2),
    (3, 64),
    (101, 81),
    (8192, 1),
    (1, 8192),
    (8192, 3),
    (8191, 2),
    (3, 8191),
];

#[test]
fn both_ways_back() {
    let random = &mut Random::new(SEED);
    for size in SIZES {
        let list = random.bytes(size.0 * size.1);
        let there = apart(&list, size, list.len()).expect("a mosaic");
        assert!(
            together(&there, size, list.len()) == Ok(list.clone()),
            "{size:?}"
        );
        let there = together(&list, size, list.len()).expect("planes");
        assert!(apart(&there, size, list.len()) == Ok(list), "{size:?}");
    }
}

/// The number of each pixel in place of its sample, low byte and high byte apart: the planes
/// have every number once.
#[test]
fn every_sample_is_found_once() {
    for size in SIZES {
        let numbers = 0..size.0 * size.1;
        let [low, high] = [0, 8].map(|bits| -> Vec<u8> {
            let bytes: Vec<u8> = numbers.clone().map(|n| (n >> bits) as u8).collect();
            apart(&bytes, size, bytes.len()).expect("a mosaic")
        });
        let found = low.iter().zip(&high);
        let found = found.map(|(&low, &high)| usize::from(high) << 8 | usize::from(low));
        let mut found: Vec<usize> = found.collect();
        found.sort_unstable();
        assert!(found.into_iter().eq(numbers), "{size:?}");
    }
}

/// Lists of these lengths are refused alike, whichever is the mosaic's.
fn refused(size: Size, lengths: [usize; 2], meant: u32) {
    let [one, other] = lengths;
    let list = vec![7; one];
    assert_eq!(
        apart(&list, size, other),
        Err(meant),
        "{size:?} {lengths:?}"
    );
    assert_eq!(
        together(&list, size, other),
        Err(meant),
        "{size:?} {lengths:?}"
    );
}

#[test]
fn lengths_are_exact() {
    for (width, height) in [(3, 2), (2, 2), (1, 1), (65, 63), (8192, 1), (1, 8192)] {
        let area = width * height;
        for wrong in [area - 1, area + 1, 0, 2 * area] {
            refused((width, height), [wrong, area], 2);
            refused((width, height), [area, wrong], 2);
            refused((width, height), [wrong, wrong], 2);
        }
        refused((width, height), [area - 1, area + 1], 2);
    }
    for size in [(0, 0), (0, 3), (8192, 0), (0, 8192)] {
        refused(size, [1, 0], 2);
        refused(size, [0, 1], 2);
    }
    refused((8192, 8192), [0, 0], 2);
}

/// With lists that the size asks for, in 32 or 64 bits too, or one of them wrong, or both.
#[test]
fn a_side_over_the_limit_goes_first() {
    for (width, height) in SIZES_OVER {
        assert_eq!(layout(width, height).map_err(number), Err(1));
        for one in [0, 1, 6, 8193] {
            for other in [0, 1, 6, 8193] {
                refused((width, height), [one, other], 1);
            }
        }
    }
    for size in [(8192, 8192), (8192, 0), (0, 8192)] {
        assert!(layout(size.0, size.1).is_ok());
    }
}

/// One behind another the parts are the list; a plane of any other fields is read without a
/// slip.
#[test]
fn parts() {
    let random = &mut Random::new(SEED);
    for size in SIZES.into_iter().chain([(0, 3), (1, 1), (1, 3)]) {
        let planes = random.bytes(size.0 * size.1);
        let layout = layout(size.0, size.1).expect("sides within the limit");
        let parts = layout.in_order().map(|plane| plane.part(&planes));
        assert_eq!(parts.concat(), planes);
        for (plane, part) in layout.in_order().into_iter().zip(parts) {
            assert_eq!(part.len(), plane.width * plane.height);
            let sides = (plane.frame(&planes).width, plane.frame(&planes).height);
            assert_eq!(sides, (plane.width, plane.height));
        }
    }

    let list = random.bytes(12);
    let most = usize::MAX;
    let numbers = [0, 1, 3, 4, 8, 9, 12, 13, 8192, 8193, 1 << 32, 1 << 63, most];
    for start in numbers {
        for width in numbers {
            for height in numbers {
                let plane = Plane {
                    start,
                    width,
                    height,
                };
                let sides = width.max(height) <= 8192;
                let end = start as u128 + width as u128 * height as u128;
                let meant: &[u8] = match sides && end <= 12 {
                    true => &list[start..start + width * height],
                    false => &[],
                };
                assert_eq!(plane.part(&list), meant, "{plane:?}");
            }
        }
    }
}

/// Moved by twice as much, each plane is found moved by so much.
#[test]
fn planes_move_by_half() {
    let random = &mut Random::new(SEED);
    for (width, height) in [(160, 120), (161, 121), (160, 121)] {
        for (x, y) in [(1, 0), (0, -1), (-1, 1), (1, 1)] {
            let mosaics = scenes::noise_moved(random, (width, height), (2 * x, 2 * y));
            let [reference, target] =
                mosaics.map(|mosaic| apart(&mosaic, (width, height), mosaic.len()).expect("one"));
            for plane in layout(width, height).expect("sides").in_order() {
                let [reference, target] =
                    [&reference, &target].map(|planes| Exposure::new(plane.frame(planes), 50));
                let options = Options {
                    bits: 1,
                    ..Options::USUAL
                };
                let scratch = Scratch::of_step(plane.width, plane.height, options.bits);
                let step = shift(reference, target, &options, scratch).expect("two frames");
                assert_eq!(step.shift, Shift::new(x, y), "{plane:?}");
            }
        }
    }
}
