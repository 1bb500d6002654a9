//! The program's printed example, and its other texts.

use naive::report::Rivalry;
use naive::stacksteps::{RIVALRY, stacksteps, text_at};

/// A frame whose rows hold 24 bytes 0, 16 bytes 100 and 24 bytes 200.
fn stripes() -> Vec<u8> {
    [[0u8; 24].as_slice(), &[100; 16], &[200; 24]]
        .concat()
        .repeat(64)
}

const EXAMPLE: &str = "\
frames 2 crop 0 0 64 64
0 0 0 reference 0
1 0 0 alone 1
1 0 0 0 3072
";

#[test]
fn the_printed_example() {
    assert_eq!(stacksteps(&stripes().repeat(2)), EXAMPLE);
}

/// Shifts of up to 16 columns disagree in none: of 48 trusted columns two are lost for
/// each, and of 64 rows one for each row.
const EXAMPLE_AT_REACH_2: &str = "\
frames 2 crop 0 0 64 64
0 0 0 reference 0
1 0 0 contested 17
1 -2 -2 0 2728
1 -1 -2 0 2852
1 0 -2 0 2976
1 1 -2 0 2852
1 2 -2 0 2728
1 -2 -1 0 2772
1 2 -1 0 2772
1 -2 0 0 2816
1 0 0 0 3072
1 2 0 0 2816
1 -2 1 0 2772
1 2 1 0 2772
1 -2 2 0 2728
1 -1 2 0 2852
1 0 2 0 2976
1 1 2 0 2852
1 2 2 0 2728
";

#[test]
fn the_example_at_reach_2() {
    let rivalry = Rivalry {
        reach: 2,
        ..RIVALRY
    };
    let text = text_at(&stripes().repeat(2), &rivalry);
    assert_eq!(text, EXAMPLE_AT_REACH_2);
}

#[test]
fn one_frame() {
    let text = "frames 1 crop 0 0 64 64\n0 0 0 reference 0\n";
    assert_eq!(stacksteps(&stripes()), text);
}

#[test]
fn no_frame_is_refused() {
    assert_eq!(stacksteps(&[]), "refused 5\n");
}

#[test]
fn incomplete_and_ninth_frames() {
    for length in [1, 4095, 4097, 8 * 4096 + 1, 9 * 4096] {
        assert_eq!(stacksteps(&vec![0; length]), "bad input\n", "{length}");
    }
    assert!(stacksteps(&vec![0; 8 * 4096]).starts_with("frames 8 "));
}

/// A cut of 256 with every sample within the tolerance compares nothing.
#[test]
fn a_frame_of_255s_is_weak() {
    let text = "frames 2 crop 0 0 64 64\n0 0 0 reference 0\n1 0 0 weak 0\n";
    assert_eq!(stacksteps(&vec![255; 2 * 4096]), text);
}
