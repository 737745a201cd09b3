//! The cases that documents 01 and 02 state, and their settled readings.

mod common;

use common::printed_by_both;
use reference::answer::{printed, rounded, Method};
use reference::outcome::{End, Exact, Failure, Quick, Side, Verdict, Window};
use reference::sense::Sense;
use reference::{brute, fast};
use std::io::Write;
use std::process::{Command, Stdio};

fn job_a(bounds: &str, zoom: &str) -> String {
    format!(
        "(job (size 8) (window 4) (cut 2) (gap 1) (bounds {bounds}) (zoom {zoom}))\n\
         (rect 3 3 5 5)\n(fill 0 0 2)\n(end)\n"
    )
}

fn window(area: u64, x: u64, y: u64) -> Window {
    Window { area, x, y }
}

/// Both extremes, after a check that both methods find the same.
fn exact(file: &str) -> Exact {
    let job = fast::read(file.as_bytes()).unwrap();
    let exact = fast::exact_run(&job, &fast::metal_cover(&job));
    assert_eq!(exact, brute::exact_run(&job, &brute::Grid::new(&job)));
    exact
}

/// The quick run for the greatest, after a check that both methods find the same.
fn greatest(file: &str) -> Quick {
    let job = fast::read(file.as_bytes()).unwrap();
    let (sense, exact) = (Sense::Greatest, exact(file));
    let quick = fast::quick_run(&job, &fast::metal_cover(&job), sense, &exact);
    let grid = brute::Grid::new(&job);
    assert_eq!(quick, brute::quick_run(&job, &grid, sense, &exact));
    quick
}

/// Checks the three lines that show windows, which have no regard to kinds: all
/// shapes as in the file, then the first one a dummy, then all.
fn assert_windows(file: &str, lines: [&str; 3]) {
    for dummies in [0, 1, file.len()] {
        let file = file.replacen("rect", "dummy", dummies);
        let printed = printed_by_both(file.as_bytes());
        let shown: Vec<&str> = printed.lines().take(3).collect();
        assert_eq!(shown, lines, "{file}");
    }
}

/// Checks the run for the least on a job with several accuracies and levels:
/// each row has these two, and then the line.
fn assert_least(file: impl Fn(&str) -> String, rows: &[&str]) {
    for row in rows {
        let (zoom, line) = row.split_once(": ").unwrap();
        let printed = printed_by_both(file(zoom).as_bytes());
        assert_eq!(printed.lines().nth(2), Some(line), "{row}");
    }
}

/// The verdict, after a check that both methods find the same.
fn verdict(file: &str) -> Verdict {
    let job = fast::read(file.as_bytes()).unwrap();
    let verdict = fast::verdict(&job, &fast::metal_cover(&job));
    assert_eq!(verdict, brute::verdict(&job, &brute::Grid::new(&job)));
    verdict
}

fn failure(side: Side, column: u64, row: u64) -> Failure {
    Failure { side, column, row }
}

const ANSWER_A: &str = "(exact (max 4 1 1 1) (min 1 0 0 1))\n\
                        (zoom met (levels 2) (floor 4 2 2 1) (ceiling 4) (kept 0))\n\
                        (zoommin exact (levels 4) (low 1) (high 1 0 0 1) (kept 0))\n\
                        (density 2500)\n\
                        (positions 0 25 0)\n\
                        (fill safe)\n";

#[test]
fn answer_of_job_a() {
    let job = job_a("0 5000", "0 6");
    assert_eq!(printed_by_both(job.as_bytes()), ANSWER_A);
}

#[test]
fn the_program_prints_answers_and_refusals() {
    let job = job_a("0 5000", "0 6");
    assert_eq!(printed_by_program(&job), ANSWER_A);
    assert_eq!(printed_by_program(&job[1..]), "(refused 2 1)\n");
    assert_eq!(printed_by_program(""), "(refused 12 1)\n");
    assert_eq!(printed_by_program(&"x".repeat(60_001)), "(refused 1 0)\n");
}

fn printed_by_program(job: &str) -> String {
    let mut program = Command::new(env!("CARGO_BIN_EXE_reference"))
        .stdin(Stdio::piped())
        .stdout(Stdio::piped())
        .spawn()
        .unwrap();
    let mut input = program.stdin.take().unwrap();
    input.write_all(job.as_bytes()).unwrap();
    drop(input);
    String::from_utf8(program.wait_with_output().unwrap().stdout).unwrap()
}

#[test]
fn a1_areas() {
    let job = fast::read(job_a("0 5000", "0 6").as_bytes()).unwrap();
    let (cover, grid) = (fast::metal_cover(&job), brute::Grid::new(&job));
    for (at, area) in [(0, 1), (1, 4)] {
        assert_eq!(cover.area([at, at, at + 4, at + 4]), area);
        assert_eq!(grid.area(at..at + 4, at..at + 4), area);
    }
}

#[test]
fn a2_extremes() {
    let exact = exact(&job_a("0 5000", "0 6"));
    assert_eq!(exact.max, window(4, 1, 1));
    assert_eq!(exact.min, window(1, 0, 0));
}

#[test]
fn a3_level_0() {
    let expected = Quick {
        sense: Sense::Greatest,
        end: End::Stopped,
        levels: 1,
        named: window(1, 0, 0),
        limit: 4,
        kept: 3,
    };
    assert_eq!(greatest(&job_a("0 5000", "0 1")), expected);
}

#[test]
fn a4_level_1() {
    let expected = Quick {
        sense: Sense::Greatest,
        end: End::Met,
        levels: 2,
        named: window(4, 2, 2),
        limit: 4,
        kept: 0,
    };
    assert_eq!(greatest(&job_a("0 5000", "0 6")), expected);
    assert_eq!(greatest(&job_a("0 5000", "0 2")), expected);
}

#[test]
fn a5_fillable_areas() {
    let job = fast::read(job_a("0 5000", "0 6").as_bytes()).unwrap();
    for areas in [fast::fillable_areas(&job), brute::fillable_areas(&job)] {
        assert_eq!(areas.len(), 16);
        assert_eq!((areas[0], areas[4 + 1]), (4, 0));
    }
}

#[test]
fn a6_to_a8_verdicts() {
    let under = |upper| verdict(&job_a(upper, "0 6"));
    assert_eq!(under("0 5000"), Verdict::Safe);
    assert_eq!(
        under("0 2500"),
        Verdict::Undecided(failure(Side::Over, 0, 0))
    );
    assert_eq!(under("0 2000"), Verdict::Broken(failure(Side::Over, 1, 1)));
}

#[test]
fn k_the_ends_are_tried() {
    let file = "(job (size 10) (window 9) (cut 9) (gap 0) (bounds 0 10000) (zoom 0 6))\n\
                (rect 4 4 6 6)\n(end)\n";
    assert_eq!(exact(file).max, window(4, 0, 0));
}

#[test]
fn z_no_rectangle() {
    assert_windows(
        "(job (size 8) (window 4) (cut 2) (gap 1) (bounds 0 5000) (zoom 0 6))\n(end)\n",
        [
            "(exact (max 0 0 0 0) (min 0 0 0 0))",
            "(zoom met (levels 1) (floor 0 0 0 0) (ceiling 0) (kept 0))",
            "(zoommin met (levels 1) (low 0) (high 0 0 0 0) (kept 0))",
        ],
    );
}

const HEAD: &str = "(job (size 8) (window 4) (cut 2) (gap 1) (bounds 0 5000) (zoom 0 6))\n";

/// Checks the refusal of a head with these lines after it.
fn refused_after_head(rest: &str, number: u32, line: u32) {
    refused(&format!("{HEAD}{rest}"), number, line);
}

fn refused(file: &str, number: u32, line: u32) {
    let expected = format!("(refused {number} {line})\n");
    assert_eq!(printed_by_both(file.as_bytes()), expected, "{file:?}");
}

#[test]
fn spelling() {
    for rect in [
        "(rect 12345678901234 0 1 1)",
        "(rect 00 0 1 1)",
        "(rect 01 0 2 1)",
        "(rect +0 0 1 1)",
        "(rect -0 0 1 1)",
        "(rect 0  0 1 1)",
        "(rect 0 0 1 1) ",
        " (rect 0 0 1 1)",
        "(rect 0 0 1 1 )",
        "(rect 0 0 1 1)\r",
        "(rect 0\t0 1 1)",
        "(rect 0 0 1 1)\0",
        "(Rect 0 0 1 1)",
        "(rect 0 0 1)",
        "(rect 0 0 1 1 1)",
        "(rect 0 0 1 )",
        "(rect # 0 1 1)",
        "(rect 0 0 1 ١)",
        "(rect 0 0 1 1",
        "",
        "(job)",
        "(end )",
    ] {
        refused_after_head(&format!("{rect}\n(end)\n"), 2, 2);
    }
    refused_after_head("(rect 9999999999999 0 1 1)\n(end)\n", 3, 2);
    refused_after_head("(rect 0000000001 0 1 1)\n(end)\n", 2, 2);
}

#[test]
fn lowest_fault_of_a_line() {
    // A second head: a range, then the turn, never disagreement.
    refused_after_head(&HEAD.replace("size 8", "size 0"), 3, 2);
    refused_after_head(&HEAD.replace("window 4", "window 9"), 4, 2);
    // After the end.
    refused_after_head("(end)\n(rect 0 0 1 1\n", 2, 3);
    refused_after_head("(end)\n(fill 64 0 1)\n", 3, 3);
    refused_after_head("(end)\n(fill 63 0 1)\n", 4, 3);
    // A rectangle after a fill: the range, then the turn, then its corners.
    refused_after_head("(fill 0 0 1)\n(rect 0 0 1000001 1)\n", 3, 3);
    refused_after_head("(fill 0 0 1)\n(rect 1 1 1 1)\n", 4, 3);
    // A fill of an absent tile or too large, before the head.
    refused("(fill 0 0 1)\n", 4, 1);
    refused("(rect 5 5 1 1)\n", 4, 1);
    // A tile filled twice, the second time too much.
    refused_after_head("(fill 0 0 1)\n(fill 0 0 99)\n", 10, 3);
}

#[test]
fn a_257th_shape_is_held_to_its_corners_first() {
    let words = ["rect", "dummy"];
    let unit_square = |square: u64| {
        let (x, y) = (square % 16, square / 16);
        let word = words[(x + y) as usize % 2];
        format!("({word} {x} {y} {} {})\n", x + 1, y + 1)
    };
    let squares: String = (0..256).map(unit_square).collect();
    let head = HEAD.replace("size 8", "size 16");
    for word in words {
        refused(&format!("{head}{squares}({word} 0 0 17 1)\n"), 6, 258);
        refused(&format!("{head}{squares}({word} 0 0 1 1)\n"), 8, 258);
    }
    refused(&format!("{head}{squares}"), 12, 258);
}

#[test]
fn earliest_line_counts() {
    refused_after_head("(rect 0 0 9 1)\n(rect 0 0 1 1\n", 6, 2);
    refused_after_head("(rect 0 0 1 1)\n(rect 0 0 1 1)\nx", 9, 3);
    refused_after_head("(rect 0 0 1 1)\nx", 2, 3);
    refused_after_head("(rect 0 0 1 1)\n", 12, 3);
}

#[test]
fn exact_takes_a_level_of_its_own() {
    let odd = |levels: u64| {
        format!(
            "(job (size 9) (window 3) (cut 3) (gap 0) (bounds 0 10000) (zoom 0 {levels}))\n\
             (rect 4 4 7 7)\n(end)\n"
        )
    };
    let one = greatest(&odd(1));
    assert_eq!((one.end, one.levels), (End::Stopped, 1));
    let two = greatest(&odd(2));
    assert_eq!((two.end, two.levels, two.kept), (End::Exact, 2, 0));
    assert_eq!((two.named, two.limit), (window(9, 4, 4), 9));
    assert_eq!(greatest(&odd(6)), two);
}

#[test]
fn a_window_is_halved_at_most_four_times() {
    let file = "(job (size 40) (window 32) (cut 32) (gap 0) (bounds 0 10000) (zoom 0 6))\n\
                (rect 3 3 36 36)\n(end)\n";
    let quick = greatest(file);
    assert_eq!((quick.end, quick.levels), (End::Exact, 6));
    assert_eq!((quick.named, quick.limit), (window(1024, 4, 4), 1024));
    let row = "0 6: (zoommin exact (levels 6) (low 784) (high 784 8 8 1) (kept 0))";
    assert_least(|_| file.to_string(), &[row]);
}

#[test]
fn zero_floor_and_positive_ceiling_is_not_met() {
    let file = "(job (size 7) (window 3) (cut 3) (gap 0) (bounds 0 10000) (zoom 1000 1))\n\
                (rect 6 6 7 7)\n(end)\n";
    let quick = greatest(file);
    assert_eq!((quick.named.area, quick.limit), (0, 1));
    assert_eq!((quick.end, quick.kept), (End::Stopped, 1));
}

/// A job of these sides, with accuracy and levels, and these rectangles.
fn drawn(size: u64, window: u64, zoom: &str, rects: &[&str]) -> String {
    let sides = format!("(size {size}) (window {window}) (cut {window})");
    let rects: Vec<String> = rects.iter().map(|r| format!("(rect {r})\n")).collect();
    let rects = rects.concat();
    format!("(job {sides} (gap 0) (bounds 0 10000) (zoom {zoom}))\n{rects}(end)\n")
}

#[test]
fn least_of_job_a() {
    // Shrunk windows are empty at level 0, and have 1 at four of the nine starts
    // of level 1: as much as the high end, so that these are not kept.
    assert_least(
        |zoom| job_a("0 5000", zoom),
        &[
            "0 1: (zoommin stopped (levels 1) (low 0) (high 1 0 0 1) (kept 4))",
            "0 2: (zoommin stopped (levels 2) (low 0) (high 1 0 0 1) (kept 5))",
            "0 3: (zoommin stopped (levels 3) (low 0) (high 1 0 0 1) (kept 9))",
            "0 4: (zoommin exact (levels 4) (low 1) (high 1 0 0 1) (kept 0))",
            "0 6: (zoommin exact (levels 4) (low 1) (high 1 0 0 1) (kept 0))",
        ],
    );
}

#[test]
fn least_of_a_covered_layout() {
    // Level 0 has 0 and 16, which no accuracy meets; level 1 has 4 and 16, which
    // takes more than 1000, and level 2 has 9 and 16: at least 389.
    assert_least(
        |zoom| drawn(8, 4, zoom, &["0 0 8 8"]),
        &[
            "1000 1: (zoommin stopped (levels 1) (low 0) (high 16 0 0 1) (kept 4))",
            "1000 2: (zoommin stopped (levels 2) (low 4) (high 16 0 0 1) (kept 9))",
            "1000 3: (zoommin met (levels 3) (low 9) (high 16 0 0 1) (kept 25))",
            "389 6: (zoommin met (levels 3) (low 9) (high 16 0 0 1) (kept 25))",
            "388 3: (zoommin stopped (levels 3) (low 9) (high 16 0 0 1) (kept 25))",
            "388 6: (zoommin exact (levels 4) (low 16) (high 16 0 0 1) (kept 0))",
        ],
    );
}

#[test]
fn least_met_with_equal_ends() {
    // All metal lies in the quarter that level 1 leaves of the window.
    assert_least(
        |zoom| drawn(8, 8, zoom, &["4 4 8 8"]),
        &["0 6: (zoommin met (levels 2) (low 16) (high 16 0 0 1) (kept 0))"],
    );
}

#[test]
fn least_is_replaced_by_a_smaller_one() {
    // Bars in columns 0, 1, 4, 6 and 7: of them the windows at 0 and 4 have two
    // and three, that at 2 has one. At level 2 the shrunk windows at 0, 1 and 2
    // have one, those at 3 and 4 two.
    assert_least(
        |zoom| drawn(8, 4, zoom, &["0 0 2 8", "4 0 5 8", "6 0 8 8"]),
        &[
            "0 1: (zoommin stopped (levels 1) (low 0) (high 8 0 0 1) (kept 4))",
            "0 2: (zoommin stopped (levels 2) (low 0) (high 4 2 0 1) (kept 6))",
            "167 6: (zoommin met (levels 3) (low 3) (high 4 2 0 1) (kept 15))",
            "166 6: (zoommin exact (levels 4) (low 4) (high 4 2 0 1) (kept 0))",
        ],
    );
    // Here only the search finds the one at 1.
    assert_least(
        |zoom| drawn(5, 3, zoom, &["0 0 1 5", "2 0 3 5"]),
        &["0 6: (zoommin exact (levels 2) (low 3) (high 3 1 0 1) (kept 0))"],
    );
}

#[test]
fn least_of_an_earlier_level_stays_on_a_tie() {
    // Level 0 finds the window at 4. Those at 1, 2 and 3 have no less: level 1
    // sees that at 2, level 2 sees all, and the search finds that at 1.
    let upright = |zoom: &str| drawn(8, 4, zoom, &["0 0 2 8", "5 0 6 8"]);
    assert_eq!(exact(&upright("0 6")).min, window(4, 1, 0));
    assert_least(
        upright,
        &[
            "0 1: (zoommin stopped (levels 1) (low 0) (high 4 4 0 1) (kept 4))",
            "0 2: (zoommin stopped (levels 2) (low 0) (high 4 4 0 1) (kept 9))",
            "0 3: (zoommin stopped (levels 3) (low 0) (high 4 4 0 1) (kept 25))",
            "0 6: (zoommin exact (levels 4) (low 4) (high 4 4 0 1) (kept 0))",
        ],
    );
    // The same on the other axis.
    assert_least(
        |zoom| drawn(8, 4, zoom, &["0 0 8 2", "0 5 8 6"]),
        &["0 6: (zoommin exact (levels 4) (low 4) (high 4 0 4 1) (kept 0))"],
    );
}

#[test]
fn each_quick_run_ends_on_its_own() {
    let square = |zoom: &str| drawn(9, 3, zoom, &["4 4 7 7"]);
    assert_eq!(greatest(&square("0 6")).levels, 2);
    assert_least(
        square,
        &["0 6: (zoommin met (levels 1) (low 0) (high 0 0 0 0) (kept 0))"],
    );
    // The run for the greatest is met, with 4 and 4, and gives the density.
    let stopped = "(zoommin stopped (levels 2) (low 0) (high 1 0 0 1) (kept 5))\n(density 2500)\n";
    assert!(printed_by_both(job_a("0 5000", "0 2").as_bytes()).contains(stopped));
}

#[test]
fn shapes_that_touch_do_not_count() {
    // Nine windows side by side, the middle one free: it is touched on all
    // sides and corners, the first one on two sides.
    let ring = [
        "0 0 2 2", "2 0 4 2", "4 0 6 2", "0 2 2 4", "4 2 6 4", "0 4 2 6", "2 4 4 6", "4 4 6 6",
    ];
    assert_windows(
        &drawn(6, 2, "0 6", &ring),
        [
            "(exact (max 4 0 0 1) (min 0 2 2 0))",
            "(zoom exact (levels 3) (floor 4 0 0 1) (ceiling 4) (kept 0))",
            "(zoommin met (levels 1) (low 0) (high 0 2 2 0) (kept 0))",
        ],
    );
}

#[test]
fn a_shape_around_the_window_counts() {
    assert_windows(
        &drawn(8, 4, "0 6", &["1 1 7 7"]),
        [
            "(exact (max 16 1 1 1) (min 9 0 0 1))",
            "(zoom exact (levels 4) (floor 16 2 2 1) (ceiling 16) (kept 0))",
            "(zoommin exact (levels 4) (low 9) (high 9 0 0 1) (kept 0))",
        ],
    );
}

#[test]
fn several_shapes_under_a_window() {
    // The window at 2 2 has the middle shape and one square of each other. That
    // at 1 1 has as much, the middle shape and one other, and is found later.
    let five = |zoom: &str| {
        let corners = ["1 1 3 3", "5 1 7 3", "1 5 3 7", "5 5 7 7"];
        drawn(8, 4, zoom, &[&corners[..], &["3 3 5 5"]].concat())
    };
    assert_windows(
        &five("0 6"),
        [
            "(exact (max 8 1 1 2) (min 5 0 0 2))",
            "(zoom exact (levels 4) (floor 8 2 2 5) (ceiling 8) (kept 0))",
            "(zoommin exact (levels 4) (low 5) (high 5 0 0 2) (kept 0))",
        ],
    );
    assert_windows(
        &five("0 1"),
        [
            "(exact (max 8 1 1 2) (min 5 0 0 2))",
            "(zoom stopped (levels 1) (floor 5 0 0 2) (ceiling 20) (kept 3))",
            "(zoommin stopped (levels 1) (low 0) (high 5 0 0 2) (kept 4))",
        ],
    );
}

#[test]
fn shapes_are_those_of_the_window_named() {
    // Level 0 finds two shapes at 4 4, which stay beside the one at 1 0; and for
    // the least it finds the free window at 0 4, which is not the first.
    assert_windows(
        &drawn(8, 4, "0 6", &["1 0 5 1", "4 4 6 5", "4 6 6 7"]),
        [
            "(exact (max 4 1 0 1) (min 0 0 1 0))",
            "(zoom exact (levels 4) (floor 4 4 4 2) (ceiling 4) (kept 0))",
            "(zoommin met (levels 1) (low 0) (high 0 0 4 0) (kept 0))",
        ],
    );
    // The windows at 1 0 and at 4 0 each have one column of metal, of which the
    // first is in two pieces; level 0 finds the other.
    assert_windows(
        &drawn(8, 4, "0 6", &["0 0 2 2", "0 2 2 8", "5 0 6 8"]),
        [
            "(exact (max 8 0 0 2) (min 4 1 0 2))",
            "(zoom exact (levels 4) (floor 8 0 0 2) (ceiling 8) (kept 0))",
            "(zoommin exact (levels 4) (low 4) (high 4 4 0 1) (kept 0))",
        ],
    );
}

/// Checks a density, and the floor and ceiling that it comes from.
fn assert_density(file: &str, floor_and_ceiling: (u64, u64), density: u64) {
    assert_eq!(greatest(file).bracket(), floor_and_ceiling, "{file}");
    let line = format!("(density {density})");
    let printed = printed_by_both(file.as_bytes());
    assert_eq!(printed.lines().nth(3), Some(line.as_str()), "{file}");
}

#[test]
fn a_half_goes_to_the_even_neighbour() {
    // The rows of request 4: 312.5 and 937.5.
    assert_density(&drawn(8, 8, "0 6", &["0 0 2 1"]), (2, 2), 312);
    assert_density(&drawn(8, 8, "0 6", &["0 0 3 2"]), (6, 6), 938);
    // Stopped with two ends that differ: 1562.5 and 937.5.
    assert_density(&job_a("0 5000", "0 1"), (1, 4), 1562);
    assert_density(&drawn(8, 4, "0 1", &["3 0 5 1"]), (1, 2), 938);
}

#[test]
fn the_smallest_halves() {
    // Under a window of 100 the density is half of floor and ceiling together.
    // From the one start only the bloated window has what lies beyond 100.
    for (rect, floor_and_ceiling, density) in [
        ("124 124 125 125", (0, 1), 0),
        ("99 0 101 1", (1, 2), 2),
        ("98 0 101 1", (2, 3), 2),
        ("97 0 101 1", (3, 4), 4),
    ] {
        let file = drawn(125, 100, "0 1", &[rect]).replace("cut 100", "cut 4");
        assert_density(&file, floor_and_ceiling, density);
    }
}

#[test]
fn what_is_no_half_goes_to_the_nearest() {
    // Under a window of 3 these are 4444 and 8 parts of 18, and 555 and 10.
    assert_density(&drawn(3, 3, "0 6", &["0 0 2 2"]), (4, 4), 4444);
    assert_density(&drawn(7, 3, "0 1", &["6 6 7 7"]), (0, 1), 556);
}

#[test]
fn density_is_not_capped() {
    assert_density(&drawn(8, 4, "0 1", &["0 0 8 8"]), (16, 64), 25_000);
    // 12812.5 and 15937.5.
    assert_density(&drawn(8, 4, "0 1", &["0 0 5 5"]), (16, 25), 12_812);
    assert_density(&drawn(8, 4, "0 1", &["0 0 7 5"]), (16, 35), 15_938);
}

/// Of all whole numbers just one is within half of the quotient, and even if it
/// is at a half: the rounded one.
#[test]
fn rounding_has_one_right_answer() {
    for denominator in 1..=48_u64 {
        for numerator in 0..=480_u64 {
            let is_right = |whole: &u64| {
                let distance = 2 * numerator.abs_diff(whole * denominator);
                distance < denominator || (distance == denominator && whole.is_multiple_of(2))
            };
            let right: Vec<u64> = (0..=numerator).filter(is_right).collect();
            assert_eq!(right, [rounded(numerator, denominator)]);
        }
    }
}

#[test]
fn met_may_keep_starts() {
    let file = "(job (size 8) (window 4) (cut 2) (gap 1) (bounds 0 10000) (zoom 1000 6))\n\
                (rect 0 0 4 4)\n(rect 4 0 5 2)\n(end)\n";
    let quick = greatest(file);
    assert_eq!((quick.end, quick.levels, quick.kept), (End::Met, 1, 1));
}

#[test]
fn one_tile_windows_have_empty_shrunk_ones() {
    let file = |lower: u64| {
        format!(
            "(job (size 4) (window 2) (cut 1) (gap 0) (bounds {lower} 10000) (zoom 0 6))\n\
             (fill 0 0 1)\n(fill 1 0 1)\n(fill 0 1 1)\n(fill 1 1 1)\n(end)\n"
        )
    };
    let first = failure(Side::Under, 0, 0);
    assert_eq!(verdict(&file(0)), Verdict::Safe);
    assert_eq!(verdict(&file(1)), Verdict::Undecided(first));
    assert_eq!(verdict(&file(2500)), Verdict::Undecided(first));
    assert_eq!(verdict(&file(2501)), Verdict::Broken(first));
}

#[test]
fn broken_looks_at_standard_windows_alone() {
    let file = |upper: u64| {
        format!(
            "(job (size 8) (window 4) (cut 2) (gap 0) (bounds 0 {upper}) (zoom 0 6))\n\
             (rect 4 4 8 8)\n(end)\n"
        )
    };
    let over = |column, row| failure(Side::Over, column, row);
    assert_eq!(verdict(&file(4999)), Verdict::Broken(over(2, 1)));
    // The bloated window at 1 1 fails as well, and before the one named.
    assert_eq!(verdict(&file(9999)), Verdict::Broken(over(2, 2)));
    assert_eq!(verdict(&file(10_000)), Verdict::Safe);
}

#[test]
fn covered_squares_are_not_fillable_without_a_gap() {
    let file = "(job (size 4) (window 2) (cut 1) (gap 0) (bounds 0 10000) (zoom 0 6))\n\
                (rect 0 0 1 1)\n(fill 0 0 P)\n(end)\n";
    assert!(fast::read(file.replace('P', "3").as_bytes()).is_ok());
    refused(&file.replace('P', "4"), 11, 3);
}

/// Job A with its shape a dummy.
fn job_a_of_dummy(gaps: &str, bounds: &str) -> String {
    job_a(bounds, "0 6")
        .replace("rect", "dummy")
        .replace("gap 1", &format!("gap {gaps}"))
}

#[test]
fn a_dummy_is_metal() {
    // In every one of these the dummy has the gap that the drawn square has in
    // job A, and no drawn metal is there to have the other.
    for gaps in ["1", "1 1", "0 1", "1000000 1"] {
        let answer = printed_by_both(job_a_of_dummy(gaps, "0 5000").as_bytes());
        assert_eq!(answer, ANSWER_A, "{gaps}");
    }
    // So the bounds take in the dummy: cases A7 and A8.
    let over = |column, row| failure(Side::Over, column, row);
    let under = |bounds| verdict(&job_a_of_dummy("9 1", bounds));
    assert_eq!(under("0 2500"), Verdict::Undecided(over(0, 0)));
    assert_eq!(under("0 2000"), Verdict::Broken(over(1, 1)));
}

/// Fillable area of each tile, after a check that both methods find the same.
fn fillable(file: &str) -> Vec<u64> {
    let job = fast::read(file.as_bytes()).unwrap();
    let areas = fast::fillable_areas(&job);
    assert_eq!(areas, brute::fillable_areas(&job), "{file}");
    areas
}

#[test]
fn each_kind_has_a_gap_of_its_own() {
    // Job A's square, 3 to 5, is kept off from 2 to 6 by a gap of 1 and from 1 to
    // 7 by one of 2. Tile 1 1 is 2 to 4: with no gap it lacks one square, else it
    // has none. Tile 0 0 is 0 to 2: it has all but for a gap of 2, which takes the
    // square at 1 1.
    for (word, gaps, in_0_0, in_1_1) in [
        ("rect", "1 0", 4, 0),
        ("rect", "0 1", 4, 3),
        ("rect", "2 0", 3, 0),
        ("rect", "0 2", 4, 3),
        ("dummy", "1", 4, 0),
        ("dummy", "1 0", 4, 3),
        ("dummy", "0 1", 4, 0),
        ("dummy", "2 0", 4, 3),
        ("dummy", "0 2", 3, 0),
    ] {
        let head = HEAD.replace("gap 1", &format!("gap {gaps}"));
        let file = |rest: &str| format!("{head}({word} 3 3 5 5)\n{rest}(end)\n");
        let areas = fillable(&file(""));
        assert_eq!((areas[0], areas[4 + 1]), (in_0_0, in_1_1), "{word} {gaps}");
        let amount = |column, amount| file(&format!("(fill {column} {column} {amount})\n"));
        assert!(fast::read(amount(0, in_0_0).as_bytes()).is_ok());
        refused(&amount(0, in_0_0 + 1), 11, 3);
        refused(&amount(1, in_1_1 + 1), 11, 3);
    }
}

#[test]
fn both_gaps_in_one_layout() {
    // Drawn metal along the left edge, up to 1, and a dummy along the right, from
    // 7 on: left are the columns from 1 + B to before 7 - D. Tiles are 2 wide, so
    // a column in a tile is 2 squares of it.
    for (gaps, row) in [
        ("0", [2, 4, 4, 2]),
        ("2", [0, 2, 2, 0]),
        ("2 3", [0, 2, 0, 0]),
        ("3 2", [0, 0, 2, 0]),
        ("1 3", [0, 4, 0, 0]),
        ("3 1", [0, 0, 4, 0]),
        ("0 5", [2, 0, 0, 0]),
        ("5 0", [0, 0, 0, 2]),
        ("0 6", [0, 0, 0, 0]),
        ("2 4", [0, 0, 0, 0]),
    ] {
        let head = HEAD.replace("gap 1", &format!("gap {gaps}"));
        let file = format!("{head}(rect 0 0 1 8)\n(dummy 7 0 8 8)\n(end)\n");
        assert_eq!(fillable(&file), row.repeat(4), "{gaps}");
    }
}

#[test]
fn a_gap_on_one_axis_is_enough() {
    // A dummy in the corner, up to 2, with a gap of 3: what it keeps off ends at 5
    // on both axes. Tile 2 2 is 4 to 6, of which the square at 4 4 has a gap of 2
    // across and down; the three others have 3 on an axis.
    let head = HEAD.replace("gap 1", "gap 0 3");
    let areas = fillable(&format!("{head}(dummy 0 0 2 2)\n(end)\n"));
    assert_eq!(areas[..4], [0, 0, 2, 4]);
    assert_eq!(areas[2 * 4..3 * 4], [2, 2, 3, 4]);
}

/// Whether a unit square takes fill that is so far across and down from a shape
/// with this gap; at its four corners the answer must be the same. Each square is
/// a tile, and the other kind has the widest gap, but no shapes.
fn takes_fill(word: &str, gap: u64, across: u64, down: u64) -> bool {
    let gaps = match word {
        "rect" => format!("{gap} 1000000"),
        _ => format!("1000000 {gap}"),
    };
    let head =
        format!("(job (size 18) (window 18) (cut 18) (gap {gaps}) (bounds 0 10000) (zoom 0 6))");
    let is_accepted = |x: u64, y: u64| {
        let file = format!("{head}\n({word} 8 8 10 10)\n(fill {x} {y} 1)\n(end)\n");
        printed_by_both(file.as_bytes()) != "(refused 11 3)\n"
    };
    let [left, right] = [7 - across, 10 + across];
    let [below, above] = [7 - down, 10 + down];
    let first = is_accepted(left, below);
    for (x, y) in [(left, above), (right, below), (right, above)] {
        assert_eq!(is_accepted(x, y), first, "{word} {gaps} at {x} {y}");
    }
    first
}

#[test]
fn corner_gaps_are_round() {
    for (gap, across, down, far_enough) in [
        // The row of request 6: 9 and 9 are 18, and 16 are asked.
        (4, 3, 3, true),
        (4, 3, 2, false),
        (4, 2, 2, false),
        (4, 3, 0, false),
        (4, 4, 0, true),
        // 16 and 9 are 25, which is just what is asked.
        (5, 4, 3, true),
        (5, 3, 3, false),
        (5, 4, 2, false),
        (5, 4, 0, false),
        (5, 5, 0, true),
        // Up to 3 no square is far enough by both axes that is not by one.
        (3, 2, 2, false),
        (3, 3, 0, true),
        (2, 1, 1, false),
        (2, 2, 0, true),
        (1, 0, 0, false),
        (1, 1, 0, true),
    ] {
        for word in ["rect", "dummy"] {
            for (across, down) in [(across, down), (down, across)] {
                let takes = takes_fill(word, gap, across, down);
                assert_eq!(takes, far_enough, "{word} {gap} {across} {down}");
            }
        }
    }
}

#[test]
fn without_a_gap_all_that_is_uncovered_is_fillable() {
    for word in ["rect", "dummy"] {
        assert!(takes_fill(word, 0, 0, 0), "{word}");
    }
    // The shape's own squares, and those that touch its sides and corners.
    let head = HEAD.replace("(cut 2) (gap 1)", "(cut 4) (gap 0)");
    let areas = fillable(&format!("{head}(rect 3 3 4 5)\n(end)\n"));
    let covered = [3 * 8 + 3, 4 * 8 + 3];
    let expected = (0..64).map(|square| u64::from(!covered.contains(&square)));
    assert_eq!(areas, expected.collect::<Vec<_>>());
}

#[test]
fn each_shape_is_kept_clear_of_by_itself() {
    // The square at 4 4 is 3 across and 3 down from both, on opposite sides. If the
    // second comes nearer on either axis, the first one being as far does not help.
    let head = "(job (size 9) (window 9) (cut 9) (gap 4 4) (bounds 0 10000) (zoom 0 6))";
    let areas = |second: &str| {
        let file = format!("{head}\n(rect 0 0 1 1)\n(dummy {second})\n(end)\n");
        fillable(&file)
    };
    assert_eq!(areas("8 8 9 9")[4 * 9 + 4], 1);
    assert_eq!(areas("7 8 8 9")[4 * 9 + 4], 0);
    assert_eq!(areas("8 7 9 8")[4 * 9 + 4], 0);
}

#[test]
fn dummies_do_not_count_as_free_without_a_gap() {
    let file = "(job (size 4) (window 2) (cut 1) (gap 5 0) (bounds 0 10000) (zoom 0 6))\n\
                (dummy 0 0 1 1)\n(fill 0 0 P)\n(end)\n";
    assert!(fast::read(file.replace('P', "3").as_bytes()).is_ok());
    refused(&file.replace('P', "4"), 11, 3);
}

#[test]
fn faults_of_a_dummy() {
    // Among the shapes, wherever it stands, and nowhere else.
    refused_after_head("(dummy 0 0 1 1)\n(rect 1 0 2 1)\n(dummy 0 1 1 2)\n", 12, 5);
    refused("(dummy 0 0 1 1)\n", 4, 1);
    refused_after_head("(fill 0 0 1)\n(dummy 5 5 4 4)\n", 4, 3);
    refused_after_head("(end)\n(dummy 0 0 1 1)\n", 4, 3);
    // Its numbers, its corners, and what it overlaps or what overlaps it.
    refused_after_head("(dummy 0 0 1000001 1)\n", 3, 2);
    refused_after_head("(fill 0 0 1)\n(dummy 0 0 1000001 1)\n", 3, 3);
    refused_after_head("(dummy 4 4 4 5)\n", 6, 2);
    refused_after_head("(dummy 7 7 8 9)\n", 6, 2);
    refused_after_head("(rect 0 0 2 2)\n(dummy 1 1 3 3)\n", 9, 3);
    refused_after_head("(dummy 0 0 2 2)\n(rect 1 1 3 3)\n", 9, 3);
    refused_after_head("(dummy 0 0 2 2)\n(dummy 1 1 3 3)\n", 9, 3);
    refused_after_head("(dummy 0 0 2 2)\n(rect 2 2 3 3)\n(rect 0 2 2 3)\n", 12, 5);
    // Its spelling.
    refused_after_head("(dummy 0 0 1)\n", 2, 2);
    refused_after_head("(Dummy 0 0 1 1)\n", 2, 2);
}

#[test]
fn gaps_of_a_head() {
    let head = |gap: &str| HEAD.replace("(gap 1)", gap);
    for good in ["(gap 0)", "(gap 0 0)", "(gap 1000000 0)", "(gap 0 1000000)"] {
        refused(&head(good), 12, 2);
    }
    for outside in [
        "(gap 1 1000001)",
        "(gap 1000001 1)",
        "(gap 1 9999999999999)",
    ] {
        refused(&head(outside), 3, 1);
        // Before disagreement, and in a second head before its turn.
        refused(&head(outside).replace("window 4", "window 9"), 3, 1);
        refused_after_head(&head(outside), 3, 2);
    }
    for misspelled in [
        "(gap )",
        "(gap 1 )",
        "(gap 1  2)",
        "(gap 1 2 3)",
        "(gap 1 02)",
    ] {
        refused(&head(misspelled), 2, 1);
    }
    refused(&head("(gap 1 12345678901234)"), 2, 1);
    refused(&head("(gap 1 2)").replace("window 4", "window 9"), 5, 1);
    refused_after_head(&head("(gap 1 2)"), 4, 2);
    refused_after_head(&head("(gap 1 2)").replace("window 4", "window 9"), 4, 2);
}

#[test]
fn numbers_have_up_to_13_digits() {
    // For every number alike, whatever its range: 13 digits are a number, 14 none.
    for (digits, fault) in [
        ("12345678901", 3),
        ("999999999999", 3),
        ("1000000000000", 3),
        ("9999999999999", 3),
        ("10000000000000", 2),
        ("12345678901234", 2),
    ] {
        for number in ["size 8", "window 4", "cut 2", "gap 1"] {
            let (name, _) = number.split_once(' ').unwrap();
            refused(&HEAD.replace(number, &format!("{name} {digits}")), fault, 1);
        }
        for (numbers, place) in [("0 5000", 0), ("0 5000", 1), ("0 6", 0), ("0 6", 1)] {
            let mut pair: Vec<&str> = numbers.split(' ').collect();
            pair[place] = digits;
            refused(&HEAD.replace(numbers, &pair.join(" ")), fault, 1);
        }
        refused_after_head(&format!("(rect 0 0 1 {digits})\n"), fault, 2);
        refused_after_head(&format!("(dummy {digits} 0 1 1)\n"), fault, 2);
        refused_after_head(&format!("(fill {digits} 0 1)\n"), fault, 2);
    }
    // The greatest amount has 13 digits: it is in its range, but too much here.
    refused_after_head("(fill 0 0 1000000000000)\n", 11, 2);
    refused_after_head("(fill 0 0 1000000000001)\n", 3, 2);
    refused_after_head("(fill 0 0 10000000000000)\n", 2, 2);
}

/// What the program prints for a layout of these sides with bounds 0 5000, these
/// shapes and fills, which is too large to count squares.
fn printed_large(size: u64, window: u64, cut: u64, lines: &str) -> String {
    let file = format!(
        "(job (size {size}) (window {window}) (cut {cut}) (gap 1000) (bounds 0 5000) (zoom 0 6))\n\
         {lines}(end)\n"
    );
    printed(Method::Fast, file.as_bytes())
}

/// Job A magnified by 63,000, its fill as well. The window can be halved four times
/// now, so that the exact level of the run for the least is the sixth; windows and
/// verdict are as they were.
#[test]
fn job_a_at_504_000_a_side() {
    let expected = "(exact (max 15876000000 63000 63000 1) (min 3969000000 0 0 1))\n\
                    (zoom met (levels 2) (floor 15876000000 126000 126000 1) (ceiling 15876000000) (kept 0))\n\
                    (zoommin exact (levels 6) (low 3969000000) (high 3969000000 0 0 1) (kept 0))\n\
                    (density 2500)\n\
                    (positions 0 63504504001 0)\n\
                    (fill safe)\n";
    let rect = "(rect 189000 189000 315000 315000)\n";
    let fill = "(fill 0 0 7938000000)\n";
    assert_eq!(
        printed_large(504_000, 252_000, 2, &format!("{rect}{fill}")),
        expected
    );
}

#[test]
fn the_largest_layout_can_be_filled_to_the_last_square() {
    let fill =
        |amount: &str| printed_large(1_000_000, 1_000_000, 1, &format!("(fill 0 0 {amount})\n"));
    // Nothing is barred, so that all of 1,000,000 x 1,000,000 can be filled.
    assert!(fill("1000000000000").ends_with("(fill broken over 0 0)\n"));
    assert_eq!(fill("1000000000001"), "(refused 3 2)\n");
    assert_eq!(fill("10000000000000"), "(refused 2 2)\n");
    assert!(fill("12345678901").ends_with("(fill safe)\n"));
    // A bound of 5000 is half of that.
    assert!(fill("500000000001").ends_with("(fill broken over 0 0)\n"));
    assert!(fill("500000000000").ends_with("(fill safe)\n"));
    // A unit square with a gap of 1000 takes some of it away.
    let square = "(rect 0 0 1 1)\n(fill 0 0 1000000000000)\n";
    assert_eq!(
        printed_large(1_000_000, 1_000_000, 1, square),
        "(refused 11 3)\n"
    );
}

/// An amount beyond the tile is one in its range: 65,535 x 65,535 and one more.
#[test]
fn a_layout_of_65_535_a_side() {
    let print = |lines: &str| printed_large(65_535, 65_535, 1, lines);
    assert!(print("(fill 0 0 4294836225)\n").ends_with("(fill broken over 0 0)\n"));
    assert_eq!(print("(fill 0 0 4294836226)\n"), "(refused 11 2)\n");
    let whole = print("(rect 0 0 65535 65535)\n");
    assert!(whole.starts_with("(exact (max 4294836225 0 0 1) (min 4294836225 0 0 1))\n"));
    assert_eq!(print("(rect 0 0 65536 65535)\n"), "(refused 6 2)\n");
}

#[test]
fn sides_and_corners_up_to_1_000_000() {
    let whole = "(rect 0 0 1000000 1000000)\n";
    let answer = printed_large(1_000_000, 1_000_000, 1, whole);
    assert!(answer.starts_with("(exact (max 1000000000000 0 0 1) (min 1000000000000 0 0 1))\n"));
    assert!(answer.contains("\n(density 10000)\n"));
    assert_eq!(
        printed_large(1_000_001, 1_000_000, 1, ""),
        "(refused 3 1)\n"
    );
    assert_eq!(
        printed_large(1_000_000, 1_000_001, 1, ""),
        "(refused 3 1)\n"
    );
    for (corners, fault) in [
        ("0 0 1000001 1", 3),
        ("0 0 1 1000001", 3),
        ("1000001 0 1 1", 3),
        ("0 1000001 1 1", 3),
        ("1000000 0 1 1", 6),
        ("0 1000000 1 1", 6),
        ("0 0 65536 1", 6),
    ] {
        for word in ["rect", "dummy"] {
            refused_after_head(&format!("({word} {corners})\n"), fault, 2);
        }
    }
}

/// At the first level the window in the corner has a square of 500,000 a side, and
/// the bloated one a strip of 1,000 more: 2 thousandths, which an accuracy of 1
/// just meets. One square more is too much.
#[test]
fn accuracy_at_the_widest_layout() {
    let line = |zoom: &str, square: &str| {
        let file = format!(
            "(job (size 1000000) (window 500000) (cut 1) (gap 0) (bounds 0 10000) (zoom {zoom}))\n\
             (rect 0 0 500000 500000)\n(rect 500000 0 501000 500000)\n{square}(end)\n"
        );
        let text = printed(Method::Fast, file.as_bytes());
        text.lines().nth(1).unwrap().to_string()
    };
    let met = "(zoom met (levels 1) (floor 250000000000 0 0 1) (ceiling 250500000000) (kept 1))";
    assert_eq!(line("1 6", ""), met);
    assert_eq!(line("0 1", ""), met.replace("met", "stopped"));
    let more =
        "(zoom stopped (levels 1) (floor 250000000000 0 0 1) (ceiling 250500000001) (kept 1))";
    let square = "(rect 999999 999999 1000000 1000000)\n";
    assert_eq!(line("1 1", square), more);
    assert_eq!(line("2 1", square), more.replace("stopped", "met"));
}
