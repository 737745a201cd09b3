//! The lines of a job file as values.

use crate::job::{Job, Kind, Shape};

/// A well spelled line with any numbers.
#[derive(Clone, Copy, PartialEq, Eq)]
pub enum Line {
    /// Size, window, cut, gap, both bounds, accuracy and levels; beside them the
    /// dummy gap, if the head states it.
    Head([u64; 8], Option<u64>),
    Shape(Shape),
    Fill([u64; 3]),
    End,
}

impl Line {
    pub(super) fn shape(kind: Kind, corners: [u64; 4]) -> Line {
        Line::Shape(Shape { kind, corners })
    }

    /// Corners of a shape's line.
    pub(super) fn corners(&self) -> Option<[u64; 4]> {
        match self {
            Line::Shape(shape) => Some(shape.corners),
            _ => None,
        }
    }

    fn text(&self) -> String {
        match self {
            Line::Head([n, w, r, b, l, u, e, v], dummy_gap) => {
                let gaps = dummy_gap.map_or(format!("{b}"), |d| format!("{b} {d}"));
                format!(
                    "(job (size {n}) (window {w}) (cut {r}) (gap {gaps}) (bounds {l} {u}) (zoom {e} {v}))\n"
                )
            }
            Line::Shape(shape) => {
                let ([x1, y1, x2, y2], word) = (shape.corners, word(shape.kind));
                format!("({word} {x1} {y1} {x2} {y2})\n")
            }
            Line::Fill([i, j, p]) => format!("(fill {i} {j} {p})\n"),
            Line::End => "(end)\n".to_string(),
        }
    }
}

/// The word that a shape's line begins with.
fn word(kind: Kind) -> &'static str {
    match kind {
        Kind::Drawn => "rect",
        Kind::Dummy => "dummy",
    }
}

/// The lines as a file.
pub fn bytes_of(lines: &[Line]) -> Vec<u8> {
    lines
        .iter()
        .map(Line::text)
        .collect::<String>()
        .into_bytes()
}

/// The file of a job, its fills in the order of the tiles. The head states the
/// dummy gap only where it must.
pub(super) fn lines_of(job: &Job) -> Vec<Line> {
    let head = [
        job.size,
        job.window,
        job.cut,
        job.gap,
        job.lower,
        job.upper,
        job.accuracy,
        job.levels,
    ];
    let tiles = job.tiles();
    let fills = job
        .fills
        .iter()
        .zip(0..)
        .filter(|&(&amount, _)| amount > 0)
        .map(|(&amount, tile)| Line::Fill([tile % tiles, tile / tiles, amount]));
    let dummy_gap = (job.dummy_gap != job.gap).then_some(job.dummy_gap);
    let mut lines = vec![Line::Head(head, dummy_gap)];
    lines.extend(job.shapes.iter().copied().map(Line::Shape));
    lines.extend(fills);
    lines.push(Line::End);
    lines
}
