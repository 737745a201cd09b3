//! Kinds for boxes that are to be shapes.

use super::random::Random;
use crate::job::{Kind, Shape};

/// Drawn metal in these boxes.
pub(super) fn drawn(boxes: Vec<[u64; 4]>) -> Vec<Shape> {
    let shape = |corners| Shape {
        kind: Kind::Drawn,
        corners,
    };
    boxes.into_iter().map(shape).collect()
}

/// Metal in these boxes: half of the times drawn metal alone, else a mixture of
/// both kinds or dummies alone.
pub(super) fn of_random_kinds(random: &mut Random, boxes: Vec<[u64; 4]>) -> Vec<Shape> {
    let dummies = random.pick(&[0, 0, 0, 20, 50, 100]);
    let mut shapes = drawn(boxes);
    for shape in &mut shapes {
        if random.percent(dummies) {
            shape.kind = Kind::Dummy;
        }
    }
    shapes
}

/// A shape of either kind with these corners.
pub(super) fn of_random_kind(random: &mut Random, corners: [u64; 4]) -> Shape {
    Shape {
        kind: random.pick(&Kind::BOTH),
        corners,
    }
}
