//! Jobs at the limits, and answer buffers at theirs.

mod common;

use common::printed_by_both;
use reference::answer::{answer, printed, Answer, Method, Reply, ANSWER_ROOM};
use reference::generate::{
    boundary_jobs, cautious_areas, large_job, large_jobs, LargeJob, Random, SHORTER_SIDE,
};
use reference::job::{Job, Kind, Refusal, LARGEST_SIDE};
use reference::outcome::{
    End, Exact, Failure, Outcome, Positions, Quick, Shown, Side, Verdict, Window,
};
use reference::sense::Sense;
use reference::{brute, fast};
use std::sync::LazyLock;

#[test]
fn acceptance_and_refusal_at_the_limits() {
    for case in boundary_jobs() {
        let result = fast::read(&case.job);
        assert_eq!(
            result.as_ref().err(),
            case.refusal.as_ref(),
            "{}",
            case.name
        );
        let counted = |job: &Job| job.size <= brute::LARGEST_SIDE;
        if result.is_ok_and(|job| counted(&job)) {
            printed_by_both(&case.job);
        }
    }
}

#[test]
fn file_lengths_are_as_named() {
    assert_eq!(boundary_job("60,000 bytes").len(), 60_000);
    assert_eq!(boundary_job("60,001 bytes").len(), 60_001);
}

fn boundary_job(name: &str) -> Vec<u8> {
    let named = boundary_jobs().into_iter().find(|case| case.name == name);
    named.unwrap().job
}

#[test]
fn as_many_shapes_under_a_window_as_may_stand() {
    let expected = "(exact (max 256 0 0 256) (min 256 0 0 256))\n\
                    (zoom met (levels 1) (floor 256 0 0 256) (ceiling 256) (kept 0))\n\
                    (zoommin exact (levels 6) (low 256) (high 256 0 0 256) (kept 0))\n\
                    (density 10000)\n\
                    (positions 0 1 0)\n\
                    (fill safe)\n";
    for mixture in ["drawn", "dummies", "mixed"] {
        let job = boundary_job(&format!("256 shapes under one window, {mixture}"));
        assert_eq!(printed_by_both(&job), expected, "{mixture}");
    }
}

#[test]
fn accuracy_0_and_1000() {
    let file = |zoom: &str| {
        format!(
            "(job (size 8) (window 4) (cut 2) (gap 1) (bounds 0 5000) (zoom {zoom}))\n\
             (rect 0 0 4 4)\n(rect 4 0 5 2)\n(end)\n"
        )
    };
    let line = |zoom| {
        let text = printed_by_both(file(zoom).as_bytes());
        text.lines().nth(1).unwrap().to_string()
    };
    let met = "(zoom met (levels 1) (floor 16 0 0 1) (ceiling 18) (kept 1))";
    assert_eq!(line("1000 6"), met);
    // 1000 x 18 = (1000 + 2 x 62.5) x 16: the least accuracy that meets is 63.
    assert_eq!(line("63 6"), met);
    assert_ne!(line("62 6"), met);
    let exact = "(zoom exact (levels 4) (floor 16 0 0 1) (ceiling 16) (kept 0))";
    assert_eq!(line("0 6"), exact);
}

#[test]
fn window_as_large_as_the_layout() {
    for cut in [1, 2, 4, 8] {
        let file = format!(
            "(job (size 8) (window 8) (cut {cut}) (gap 1) (bounds 0 5000) (zoom 0 6))\n\
             (rect 3 3 5 5)\n(end)\n"
        );
        let expected = "(exact (max 4 0 0 1) (min 4 0 0 1))\n\
                        (zoom met (levels 1) (floor 4 0 0 1) (ceiling 4) (kept 0))\n\
                        (zoommin met (levels 3) (low 4) (high 4 0 0 1) (kept 0))\n\
                        (density 625)\n\
                        (positions 0 1 0)\n\
                        (fill safe)\n";
        assert_eq!(printed_by_both(file.as_bytes()), expected);
    }
}

#[test]
fn one_square_off_a_half_of_a_wide_window() {
    for (name, density) in [
        ("density 312.5 less one square", 312),
        ("density 312.5", 312),
        ("density 312.5 and one square", 313),
        ("density 937.5 less one square", 937),
        ("density 937.5", 938),
        ("density 937.5 and one square", 938),
    ] {
        let printed = printed(Method::Fast, &boundary_job(name));
        let line = format!("(density {density})");
        assert_eq!(printed.lines().nth(3), Some(line.as_str()), "{name}");
    }
}

/// Checks under, within and over of boundary jobs by their names.
fn assert_positions(cases: &[(&str, [u64; 3])]) {
    for (name, [under, within, over]) in cases {
        let printed = printed(Method::Fast, &boundary_job(name));
        let line = format!("(positions {under} {within} {over})");
        assert_eq!(printed.lines().nth(4), Some(line.as_str()), "{name}");
    }
}

#[test]
fn positions_that_are_all_alike() {
    for (layout, all) in [
        ("most positions", 984_376 * 984_376),
        ("one position", 1),
        ("windows of one square", 64 * 64),
    ] {
        let name = |rest: &str| format!("{layout}, {rest}");
        let [under, within, over] = [[all, 0, 0], [0, all, 0], [0, 0, all]];
        for (rest, counts) in [
            ("no metal, bounds 0 0", within),
            ("no metal, bounds 0 10000", within),
            ("no metal, bounds 1 9999", under),
            ("no metal, bounds 10000 10000", under),
            ("metal all over, bounds 0 0", over),
            ("metal all over, bounds 0 10000", within),
            ("metal all over, bounds 1 9999", over),
            ("metal all over, bounds 10000 10000", within),
        ] {
            assert_positions(&[(&name(rest), counts)]);
        }
    }
}

/// No head that is accepted has more positions than that of the job with the most.
#[test]
fn most_positions_are_as_named() {
    let sides =
        (1..=64_u64).flat_map(|tiles| (1..=tiles).map(move |cut| (1_000_000 / tiles, tiles, cut)));
    let on_an_axis = sides.map(|(tile, tiles, cut)| tile * (tiles - cut) + 1);
    assert_eq!(on_an_axis.max(), Some(984_376));
}

/// With one square more, the windows that have the metal but for it are one column.
#[test]
fn positions_one_square_off_a_bound() {
    let all = 600_001 * 600_001;
    let (across, down) = (200_001, 200_001);
    let holding = across * down;
    assert_positions(&[
        ("a quarter of the one window less one square", [1, 0, 0]),
        ("a quarter of the one window", [0, 1, 0]),
        ("a quarter of the one window and one square", [0, 0, 1]),
        ("a quarter of many windows less one square", [all, 0, 0]),
        ("a quarter of many windows", [all - holding, holding, 0]),
        (
            "a quarter of many windows and one square",
            [all - holding, down, holding - down],
        ),
    ]);
}

const SMALL: &[u8] = b"(job (size 8) (window 4) (cut 2) (gap 1) (bounds 0 5000) (zoom 0 6))\n\
                       (rect 3 3 5 5)\n(fill 0 0 2)\n(end)\n";

#[test]
fn buffers_of_every_length() {
    let text = printed(Method::Fast, SMALL);
    for length in 0..text.len() + 20 {
        for method in [Method::Brute, Method::Fast] {
            let mut buffer = vec![b'#'; length];
            let reply = Answer::new(method, SMALL).write(&mut buffer);
            if length < text.len() {
                assert_eq!(
                    reply,
                    Reply::Refused {
                        number: 13,
                        line: 0
                    }
                );
                assert!(buffer.iter().all(|&byte| byte == b'#'));
            } else {
                assert_eq!(reply, Reply::Accepted(text.len()));
                let (front, behind) = buffer.split_at(text.len());
                assert_eq!(front, text.as_bytes());
                assert!(behind.iter().all(|&byte| byte == b'#'));
            }
        }
    }
}

/// Even if each number were the longest there is.
#[test]
fn room_for_every_answer() {
    const MOST: u64 = u64::MAX;
    let shown = Shown {
        window: Window {
            area: MOST,
            x: MOST,
            y: MOST,
        },
        shapes: MOST,
    };
    let quick = |sense| Quick {
        sense,
        end: End::Stopped,
        levels: MOST,
        named: shown,
        limit: MOST,
        kept: MOST,
    };
    let longest = Outcome {
        exact: Exact {
            max: shown,
            min: shown,
        },
        greatest: quick(Sense::Greatest),
        least: quick(Sense::Least),
        density: MOST,
        positions: Positions {
            under: MOST,
            within: MOST,
            over: MOST,
        },
        verdict: Verdict::Undecided(Failure {
            side: Side::Under,
            column: MOST,
            row: MOST,
        }),
    };
    assert!(longest.to_string().len() <= ANSWER_ROOM);
}

#[test]
fn refused_files_write_nothing() {
    for case in boundary_jobs() {
        let mut buffer = [b'#'; ANSWER_ROOM];
        let reply = answer(&case.job, &mut buffer);
        if let Some(Refusal { number, line }) = case.refusal {
            assert_eq!(reply, Reply::Refused { number, line }, "{}", case.name);
            assert_eq!(buffer, [b'#'; ANSWER_ROOM], "{}", case.name);
            // A fault of the file counts before the buffer's.
            assert_eq!(answer(&case.job, &mut []), reply, "{}", case.name);
        }
    }
}

#[test]
fn large_jobs_are_accepted() {
    let mut random = Random::new(77);
    let fixed = LARGE_JOBS.iter().map(|large| large.job.clone());
    let jobs: Vec<Vec<u8>> = fixed
        .chain((0..40).map(|_| large_job(&mut random)))
        .collect();
    for job in jobs {
        let mut buffer = [0; ANSWER_ROOM];
        let reply = answer(&job, &mut buffer);
        assert!(matches!(reply, Reply::Accepted(_)), "{reply:?}");
    }
}

/// Made once, since the areas of some take a while.
static LARGE_JOBS: LazyLock<Vec<LargeJob>> = LazyLock::new(|| large_jobs(LARGEST_SIDE));

/// One of the heaviest jobs, by its name.
fn heaviest_job(name: &str) -> Job {
    named(&LARGE_JOBS, name)
}

fn named(jobs: &[LargeJob], name: &str) -> Job {
    let large = jobs.iter().find(|large| large.name == name);
    fast::read(&large.unwrap().job).unwrap()
}

fn filled(job: &Job) -> usize {
    job.fills.iter().filter(|&&amount| amount > 0).count()
}

#[test]
fn heaviest_jobs_are_as_heavy_as_can_be() {
    let read = heaviest_job;
    let windows = [("N/64", 64), ("N/8", 8), ("N/2", 2), ("N", 1)];
    let sides = windows.map(|(name, part)| {
        let job = read(&format!("different sides, W = {name}"));
        assert_eq!(
            (job.size, part * job.window),
            (1_000_000, 1_000_000),
            "{name}"
        );
        job
    });
    let starts = read("most starts");
    assert_eq!((starts.tiles(), starts.window % 16), (64, 0));
    let wide = read("wide windows");
    assert_eq!(4 * wide.window, wide.size);
    for job in sides.iter().chain([&starts, &wide]) {
        let cover = fast::metal_cover(job);
        assert_eq!(job.shapes.len(), 256);
        assert!(cover.column_cuts().len() >= 512 && cover.row_cuts().len() >= 512);
    }
    let tiles = read("most tiles");
    assert_eq!(tiles.fills.len(), 4096);
    assert!(filled(&tiles) > 3800);
    let both = read("bars and fills");
    assert_eq!((both.shapes.len(), both.tiles()), (256, 64));
    assert!(filled(&both) > 3500);
    assert_eq!(Method::Fast.outcome(&both).verdict, Verdict::Safe);
}

/// Both gaps have a hand in what their tiles can take.
#[test]
fn heaviest_jobs_with_dummies_have_many_of_both_kinds() {
    for (name, enough) in [("bars and dummies", 3500), ("gaps that differ", 2200)] {
        let job = heaviest_job(name);
        let of_kind = |kind| job.shapes.iter().filter(|shape| shape.kind == kind).count();
        assert_eq!(Kind::BOTH.map(of_kind), [170, 86], "{name}");
        assert!(filled(&job) > enough, "{name}: {}", filled(&job));
        let fillable = fast::fillable_areas(&job);
        for one_gap in [job.gap, job.dummy_gap] {
            let alike = Job {
                gap: one_gap,
                dummy_gap: one_gap,
                ..job.clone()
            };
            assert_ne!(fillable, fast::fillable_areas(&alike), "{name}");
        }
    }
    let bars = heaviest_job("bars and dummies");
    assert_eq!(Method::Fast.outcome(&bars).verdict, Verdict::Safe);
}

/// Each has as many fills as fit in its file, or as there are tiles with room, and
/// so many tiles with more room than square corners would leave.
#[test]
fn heaviest_jobs_by_gap_have_many_fills_and_arcs() {
    let smaller = large_jobs(SHORTER_SIDE);
    for (name, gap, fills, gaining) in [
        ("gap of 0", 0, 3400, 0),
        ("gap of 1,000", 1000, 3400, 1100),
        ("gap of 15,000", 15_000, 3400, 2200),
        ("gap of 31,000", 31_000, 3000, 3000),
        ("gap of 250,000", 250_000, 2100, 190),
        ("gap of 1,000,000", 1_000_000, 690, 690),
        ("gap of 1,000, one tile", 1000, 1, 1),
        ("gap of 15,000, one tile", 15_000, 1, 1),
        ("gap of 250,000, one tile", 250_000, 1, 1),
        ("gap of 250,000, diagonal", 250_000, 1800, 800),
    ] {
        let large = LARGE_JOBS.iter().find(|large| large.name == name).unwrap();
        let job = fast::read(&large.without_fills()).unwrap();
        assert_eq!((job.gap, job.shapes.len()), (gap, 256), "{name}");
        let tiles = if name.ends_with("one tile") { 1 } else { 64 };
        assert_eq!((job.size, job.tiles()), (1_000_000, tiles), "{name}");
        let lines = large.job.split(|&byte| byte == b'\n');
        let filled = lines.filter(|line| line.starts_with(b"(fill")).count();
        assert!(filled >= fills, "{name}: {filled}");
        // These take long at full size.
        let jobs = match name {
            "gap of 1,000,000" | "gap of 250,000, diagonal" => &smaller,
            _ => &*LARGE_JOBS,
        };
        let job = named(jobs, name);
        let areas = fast::fillable_areas(&job);
        let pairs = areas.iter().zip(cautious_areas(&job));
        let gains = pairs.filter(|(area, cautious)| *area > cautious).count();
        assert!(gains >= gaining, "{name}: {gains}");
    }
}

/// Without one of these shapes more would be left: other shapes do not bar all that
/// it bars.
#[test]
fn heaviest_jobs_by_gap_need_many_of_their_shapes() {
    for (name, least) in [
        ("gap of 250,000", 16),
        ("gap of 250,000, diagonal", 11),
        ("gap of 1,000,000", 10),
    ] {
        let job = heaviest_job(name);
        let room = |job: &Job| fast::fillable_areas(job).iter().sum::<u64>();
        let with_all = room(&job);
        let is_needed = |place: &usize| {
            let mut without = job.clone();
            without.shapes.remove(*place);
            room(&without) > with_all
        };
        let sampled = (0..job.shapes.len()).step_by(16);
        let needed = sampled.filter(is_needed).count();
        assert!(needed >= least, "{name}: {needed} of 16");
    }
}

#[test]
fn heaviest_jobs_by_bounds_have_positions_at_them() {
    let positions = |name: &str| {
        let job = heaviest_job(name);
        (fast::positions(&job, &fast::metal_cover(&job)), job)
    };
    // The windows that hold all of the rectangle are over the bound, by one square.
    let (one, job) = positions("one rectangle");
    assert_eq!((job.size, job.shapes.len()), (1_000_000, 1));
    let [x1, y1, x2, y2] = job.shapes[0].corners;
    let [width, height] = [x2 - x1, y2 - y1];
    assert_eq!(width * height, job.greatest_kept() + 1);
    let holding = (job.window - width + 1) * (job.window - height + 1);
    assert_eq!(one.over, holding);
    assert!(one.under > holding && one.within > holding, "{one}");
    // All windows have the same area, which is one square more than the bound.
    let (bars, job) = positions("bars at a bound");
    let exact = fast::exact_run(&job, &fast::metal_cover(&job));
    assert_eq!(
        [exact.max.area, exact.min.area],
        [job.greatest_kept() + 1; 2]
    );
    assert_eq!((bars.over, job.lower), (job.positions(), job.upper));
    for name in [
        "bounds under bars",
        "bounds, small windows",
        "bounds, wide windows",
    ] {
        let (found, job) = positions(name);
        assert_eq!(job.shapes.len(), 256, "{name}");
        for count in [found.under, found.within, found.over] {
            assert!(4 * count > job.positions(), "{name}: {found}");
        }
    }
}

#[test]
fn quick_runs_of_the_heaviest_jobs() {
    quick_runs(&LARGE_JOBS);
    quick_runs(&large_jobs(SHORTER_SIDE));
}

/// Levels and starts of the quick runs, which are as many at every side.
fn quick_runs(jobs: &[LargeJob]) {
    let runs = |name: &str, levels: u64| {
        let job = named(jobs, name);
        let Outcome {
            greatest, least, ..
        } = Method::Fast.outcome(&Job { levels, ..job });
        [greatest, least]
    };
    let ends = |name| runs(name, 6).map(|quick| (quick.end, quick.levels));
    assert_eq!(ends("most starts"), [(End::Exact, 6), (End::Exact, 6)]);
    assert_eq!(ends("soon met"), [(End::Met, 2), (End::Met, 3)]);
    assert_eq!(ends("windows alike"), [(End::Exact, 6), (End::Exact, 6)]);
    assert_eq!(ends("bars and fills"), [(End::Exact, 6), (End::Exact, 6)]);
    // The starts on an axis at each level, of which only the last in the last
    // row is ever left out, its bloated window being cut off on both sides.
    for (level, across) in [64, 127, 253, 505, 1009].into_iter().enumerate() {
        let kept = runs("windows alike", level as u64 + 1).map(|quick| quick.kept);
        assert_eq!(kept, [across * across - 1, across * across]);
    }
    // No start of the last level is passed over, since those before are all kept.
    let [_, least] = runs("bars and fills", 4);
    assert_eq!(least.kept, 505 * 505);
}
