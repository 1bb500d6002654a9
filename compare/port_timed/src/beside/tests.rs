//! Made runs of two sides, and what is to be said of them.

use super::*;

/// A space is a tab, and `~` a space.
fn lines(lines: &[&str]) -> String {
    lines
        .iter()
        .map(|line| line.replace(' ', "\t").replace('~', " ") + "\n")
        .collect()
}

fn beside(before: &[&str], after: &[&str]) -> Beside {
    merged(&lines(before), &lines(after)).expect("all lines are cases")
}

fn refused(before: &[&str], after: &[&str]) -> String {
    let merged = merged(&lines(before), &lines(after));
    merged.err().expect("a line is no case")
}

#[test]
fn a_plain_line_is_read_as_it_was_written() {
    let line = "align_stack of 3\t64\t48\tpins\t2.5\t1234.500\t3.125";
    assert_eq!(plain(&parsed(line).expect("a case")), line);
}

#[test]
fn a_quarter_of_the_runs_counts() {
    let runs = |times: &[f64]| quarter(times.to_vec());
    assert_eq!(runs(&[7.0]), 7.0);
    assert_eq!(runs(&[9.0, 3.0, 8.0, 4.0]), 3.0);
    assert_eq!(runs(&[9.0, 3.0, 8.0, 4.0, 7.0]), 4.0);
    let all: Vec<f64> = (1..=32).rev().map(f64::from).collect();
    assert_eq!(runs(&all), 8.0);
}

#[test]
fn both_sides_are_held_to_the_lesser_time_of_the_original() {
    let beside = beside(
        &["shift 64 64 noise 2.5 90 40", "shift 64 64 noise 2.5 80 44"],
        &[
            "shift 64 64 noise 2.5 85 52",
            "shift 64 64 noise 2.5 99 50",
            "shift 64 64 noise 2.5 70 51",
        ],
    );
    let [case] = &beside.cases[..] else {
        panic!("one case");
    };
    assert_eq!(case.before.times, [70.0, 40.0]);
    assert_eq!(case.after.times, [70.0, 50.0]);
    assert_eq!(case.ratio(), 0.8);
}

#[test]
fn cases_differ_by_call_size_and_kind() {
    let run = [
        "shift 64 64 noise 2.5 90 40",
        "shift 64 64 flat 2.5 90 41",
        "shift 64 80 noise 2.5 90 42",
        "shifted 64 64 noise 1 90 43",
    ];
    let again = [run[3], run[2], run[1], run[0]];
    let cases = beside(&run, &again).cases;
    let times: Vec<f64> = cases.iter().map(|case| case.before.times[1]).collect();
    assert_eq!(times, [43.0, 42.0, 41.0, 40.0]);
    assert!(cases.iter().all(|case| case.ratio() == 1.0));
}

#[test]
fn a_case_that_one_side_lacks_is_named_and_left_out() {
    let beside = beside(
        &["get 640 480 noise 1 3 4", "old 640 480 noise 1 3 9"],
        &["get 640 480 noise 1 3 4", "new 64 64 flat 1 3 1"],
    );
    assert_eq!(beside.cases.len(), 1);
    let said = beside.said();
    assert!(said.contains("\ncases timed on both sides: 1\nmean ratio 1.000, least 1.000\n"));
    assert!(said.contains("\ntimed before alone: old 640x480 noise\n"));
    assert!(said.contains("\ntimed after alone: new 64x64 flat\n"));
}

#[test]
fn a_kind_that_a_size_lacks_leaves_its_columns_empty() {
    let run = [
        "get 64 64 noise 1 3 4",
        "get 64 64 flat 1 3 4",
        "get 80 80 flat 1 3 4",
    ];
    let said = beside(&run, &run).said();
    let row = |size: &str| said.lines().find(|line| line.starts_with(size));
    let [whole, part] = ["64x64", "80x80"].map(|size| row(size).expect("a row"));
    assert_eq!(whole.len(), part.len());
    assert_eq!(part[32..65].trim(), "");
    assert_eq!(part[65..], whole[65..]);
}

#[test]
fn a_line_that_is_no_case_is_named() {
    let good = "get 640 480 noise 1 3 4";
    for bad in [
        "",
        "get 640 480 noise 1 3",
        "get 640 480 noise 1 3 4 5",
        "get 640 -480 noise 1 3 4",
        "get 640 480 noise one 3 4",
        "get 640 480 noise 1 0 4",
        "get 640 480 noise 1 3 NaN",
    ] {
        let text = bad.replace(' ', "\t");
        assert_eq!(
            refused(&[good], &[good, bad, good]),
            format!("after, line 2 is no timed case: {text}")
        );
        assert_eq!(
            refused(&[bad], &[good]),
            format!("before, line 1 is no timed case: {text}")
        );
    }
}

#[test]
fn packing_alone_comes_of_the_merged_times() {
    let beside = beside(
        &[
            "threshold 64 64 noise 1 50 60",
            "compute_bitmaps 64 64 noise 2.5 200 100",
            "threshold 64 64 noise 1 50 70",
            "compute_bitmaps 64 64 noise 2.5 210 90",
        ],
        &[
            "threshold 64 64 noise 1 50 60",
            "compute_bitmaps 64 64 noise 2.5 190 80",
        ],
    );
    let packing = beside.cases.last().expect("three cases");
    assert_eq!(beside.cases.len(), 3);
    assert_eq!(packing.after.call, "packing alone");
    assert_eq!(packing.before.times, [190.0, 30.0]);
    assert_eq!(packing.after.times, [190.0, 20.0]);
}

#[test]
fn losses_and_goals_are_told_by_the_printed_decimals() {
    let before = [
        "slower 64 64 noise 1 300 100",
        "even 64 64 noise 1 300 100",
        "lost 64 64 noise 2.5 2496 1000",
        "won 64 64 noise 2.5 2490 1000",
    ];
    let after = [
        "slower 64 64 noise 1 300 102.15",
        "even 64 64 noise 1 300 102.05",
        "lost 64 64 noise 2.5 2496 1001",
        "won 64 64 noise 2.5 2490 990",
    ];
    let said = beside(&before, &after).said();
    let end = "\
below 0.98: slower 64x64 noise, ratio 0.979
goal met before and missed now: lost 64x64 noise, goal 2.5, original to port 2.50 before, 2.49 now
goal missed before and met now: won 64x64 noise, goal 2.5, original to port 2.49 before, 2.52 now
";
    assert!(said.ends_with(end), "{said}");
    assert_eq!(said.matches('<').count(), 1);
    assert!(said.contains(" 0.979<\n") && said.contains(" 0.980 \n"));

    let said = beside(&before, &before).said();
    let end = "\
timed before alone: none
timed after alone: none
below 0.98: none
goal met before and missed now: none
goal missed before and met now: none
";
    assert!(said.ends_with(end), "{said}");
}

fn again(before: &[&str], after: &[&str]) -> Vec<&'static str> {
    beside(before, after).again().expect("all are of a call")
}

#[test]
fn calls_with_a_slower_case_are_timed_again_in_their_order() {
    let before = [
        "set 640 480 noise 1 300 100",
        "disagreement~at~64 64 64 noise 1 300 100",
        "shift 64 64 noise 1 300 100",
        "shrink2~subsample 64 64 noise 1 300 100",
        "shrink2~average 64 64 noise 1 300 100",
        "shrink2~average 64 64 flat 1 300 100",
        "shifted 64 64 noise 1 300 100",
    ];
    let after = [
        "set 640 480 noise 1 300 103",
        "disagreement~at~64 64 64 noise 1 300 102.15",
        "shift 64 64 noise 1 300 102.05",
        "shrink2~subsample 64 64 noise 1 300 110",
        "shrink2~average 64 64 noise 1 300 110",
        "shrink2~average 64 64 flat 1 300 90",
        "shifted 64 64 noise 1 300 50",
    ];
    assert_eq!(
        again(&before, &after),
        ["shrink2", "disagreement", "pixels"]
    );
    // Later runs that find no loss end it.
    let found = [&after[..], &before[..]].concat();
    assert_eq!(again(&before, &found), [""; 0]);
}

#[test]
fn a_lost_goal_is_timed_again_and_a_won_one_is_not() {
    let met = "align_stack~of~3 64 64 noise 2.5 2496 1000";
    let missed = "align_stack~of~3 64 64 noise 2.5 2496 1001";
    assert_eq!(again(&[met], &[missed]), ["align_stack"]);
    assert_eq!(again(&[missed], &[met]), [""; 0]);
    assert_eq!(again(&[missed], &[missed]), [""; 0]);
}

#[cfg(c_peer)]
#[test]
fn a_reader_is_held_to_its_peer() {
    let met = "read_pgm~64~KB~comment 64 64 flat 1 1000 1000";
    let missed = "read_pgm~64~KB~comment 64 64 flat 1 1000 1010";
    let said = beside(&[met], &[missed]).said();
    let told = "missed now: read_pgm 64 KB comment 64x64 flat, goal 1, \
                C peer to port 1.00 before, 0.99 now\n";
    assert!(said.contains(told), "{said}");
    assert_eq!(again(&[met], &[missed]), ["read_pgm"]);
    // The commit before may have no reader.
    assert_eq!(again(&[], &[missed]), [""; 0]);
}

#[test]
fn a_loss_of_packing_alone_has_compute_bitmaps_timed_again() {
    let whole = "compute_bitmaps 64 64 noise 2.5 400 100";
    let again = again(
        &["threshold 64 64 noise 1 50 50", whole],
        &["threshold 64 64 noise 1 50 48", whole],
    );
    assert_eq!(again, ["compute_bitmaps"]);
}

#[test]
fn nothing_is_timed_again_without_a_loss() {
    let run = ["get 640 480 noise 1 3 4", "report~at~16 64 64 flat 2.5 9 4"];
    assert_eq!(again(&run, &run), [""; 0]);
    assert_eq!(again(&[], &[]), [""; 0]);
}

#[test]
fn a_case_of_no_call_is_named() {
    let run = ["get 640 480 noise 1 3 4", "got 640 480 noise 1 3 4"];
    let error = beside(&run, &run).again().expect_err("there is no got");
    assert_eq!(error, "of no call: got 640x480 noise");
}
