//! Window positions at the limits: as many as there can be and one alone, and
//! areas one square off a bound.

use super::{accepted, bytes_of, one_square_off, BoundaryJob, Line};
use crate::job::Kind;

/// A file with this size, tile side and cut, these bounds and shapes, and no fill.
fn file([size, tile, cut]: [u64; 3], [lower, upper]: [u64; 2], shapes: &[Line]) -> Vec<u8> {
    let head = Line::Head([size, tile * cut, cut, 0, lower, upper, 0, 6], None);
    bytes_of(&[&[head], shapes, &[Line::End]].concat())
}

/// Size, tile side and cut. No legal head has more positions than the first.
const LAYOUTS: [(&str, [u64; 3]); 3] = [
    ("most positions", [1_000_000, 15_625, 1]),
    ("one position", [1_000_000, 1_000_000, 1]),
    ("windows of one square", [64, 1, 1]),
];

const BOUNDS: [[u64; 2]; 4] = [[0, 0], [0, 10_000], [1, 9999], [10_000, 10_000]];

/// All positions of a layout are alike: without metal, or covered wholly.
pub(super) fn all_alike() -> Vec<BoundaryJob> {
    let mut jobs = Vec::new();
    for (name, layout) in LAYOUTS {
        let [size, ..] = layout;
        let whole = Line::shape(Kind::Drawn, [0, 0, size, size]);
        for (metal, shapes) in [("no metal", &[][..]), ("metal all over", &[whole])] {
            for bounds in BOUNDS {
                let [lower, upper] = bounds;
                let name = format!("{name}, {metal}, bounds {lower} {upper}");
                jobs.push(accepted(name, file(layout, bounds, shapes)));
            }
        }
    }
    jobs
}

/// A square of metal that is a quarter of a wide window, which both bounds are, and
/// one square less and more: under one window as large as the layout, and under
/// many windows that hold it.
pub(super) fn one_square_off_a_bound() -> Vec<BoundaryJob> {
    let around = |name: &'static str, layout: [u64; 3], at: u64| {
        let half = layout[1] * layout[2] / 2;
        one_square_off([at, at], [half, half])
            .into_iter()
            .map(move |(difference, metal)| {
                let name = format!("a quarter of {name}{difference}");
                accepted(name, file(layout, [2500, 2500], &metal))
            })
    };
    let one = around("the one window", [1_000_000, 1_000_000, 1], 0);
    let many = around("many windows", [1_000_000, 20_000, 20], 300_000);
    one.chain(many).collect()
}
