//! Covered areas of boxes in a layout, by compressed coordinates.

/// The union of some boxes in a square layout, cut along all their sides into
/// cells that are covered wholly or not at all.
///
/// Each table has one row of cells and one column more than the layout, both
/// empty, so that the layout's far edges are places like all others.
pub struct Cover {
    columns: Vec<u64>,
    rows: Vec<u64>,
    /// Covered height of each column below each row cut, row by row.
    below: Vec<u64>,
    /// 1 for a covered cell, 0 for another, row by row.
    covered: Vec<u64>,
}

/// A place on the x axis: a column of cells and the distance into it.
#[derive(Clone, Copy)]
struct Place {
    column: usize,
    offset: u64,
}

/// A stretch of the x axis.
pub(crate) struct Span {
    from: Place,
    to: Place,
}

/// A horizontal strip of the layout: for each column of cells the covered
/// area left of it and the covered height in it.
pub(crate) struct Strip(Vec<(u64, u64)>);

impl Strip {
    /// Covered area of the strip within the span.
    #[inline]
    pub(crate) fn area(&self, span: &Span) -> u64 {
        self.left_of(span.to) - self.left_of(span.from)
    }

    #[inline]
    fn left_of(&self, place: Place) -> u64 {
        let (left, height) = self.0[place.column];
        left + place.offset * height
    }
}

impl Cover {
    /// The union of boxes X1 Y1 X2 Y2 that lie in a layout of this size.
    pub(crate) fn new(size: u64, boxes: &[[u64; 4]]) -> Cover {
        let columns = cuts(size, boxes.iter().flat_map(|b| [b[0], b[2]]));
        let rows = cuts(size, boxes.iter().flat_map(|b| [b[1], b[3]]));
        let covered = covered_cells(&columns, &rows, boxes);
        let below = heights_below(&covered, columns.len(), &rows);
        Cover {
            columns,
            rows,
            below,
            covered,
        }
    }

    /// All x where the cover may change, with 0 and the size.
    pub fn column_cuts(&self) -> &[u64] {
        &self.columns
    }

    /// All y where the cover may change, with 0 and the size.
    pub fn row_cuts(&self) -> &[u64] {
        &self.rows
    }

    /// The stretch from `left` to before `right`, for use with many strips.
    pub(crate) fn span(&self, left: u64, right: u64) -> Span {
        Span {
            from: self.place(left),
            to: self.place(right),
        }
    }

    /// The strip from `bottom` to before `top`.
    pub(crate) fn strip(&self, bottom: u64, top: u64) -> Strip {
        let heights = self.heights(top).zip(self.heights(bottom));
        let widths = self.columns.windows(2).map(|pair| pair[1] - pair[0]);
        let mut left = 0;
        let column = |((high, low), width)| {
            let height: u64 = high - low;
            let area_left = left;
            left += width * height;
            (area_left, height)
        };
        let edge = std::iter::once(0);
        Strip(heights.zip(widths.chain(edge)).map(column).collect())
    }

    /// Covered area of one box.
    pub fn area(&self, [x1, y1, x2, y2]: [u64; 4]) -> u64 {
        self.strip(y1, y2).area(&self.span(x1, x2))
    }

    /// Covered areas of all tiles of this side, row by row.
    pub(crate) fn tile_areas(&self, side: u64, tiles: u64) -> Vec<u64> {
        let spans: Vec<Span> = (0..tiles)
            .map(|column| self.span(column * side, (column + 1) * side))
            .collect();
        let row_areas = |row: u64| {
            let strip = self.strip(row * side, (row + 1) * side);
            spans
                .iter()
                .map(|span| strip.area(span))
                .collect::<Vec<_>>()
        };
        (0..tiles).flat_map(row_areas).collect()
    }

    fn place(&self, x: u64) -> Place {
        let column = cell_at(&self.columns, x);
        Place {
            column,
            offset: x - self.columns[column],
        }
    }

    /// Covered height of each column below `y`.
    fn heights(&self, y: u64) -> impl Iterator<Item = u64> + '_ {
        let row = cell_at(&self.rows, y);
        let offset = y - self.rows[row];
        let cells = row * self.columns.len()..(row + 1) * self.columns.len();
        self.below[cells.clone()]
            .iter()
            .zip(&self.covered[cells])
            .map(move |(below, covered)| below + covered * offset)
    }
}

/// The cell that begins at or before the position.
fn cell_at(cuts: &[u64], position: u64) -> usize {
    cuts.partition_point(|&cut| cut <= position) - 1
}

/// The sides and the layout's edges, each once, in rising order.
fn cuts(size: u64, sides: impl Iterator<Item = u64>) -> Vec<u64> {
    let mut cuts: Vec<u64> = sides.chain([0, size]).collect();
    cuts.sort_unstable();
    cuts.dedup();
    cuts
}

/// Marks the cells by adding up the boxes' corner differences, so that boxes
/// which overlap cost no more than others.
fn covered_cells(columns: &[u64], rows: &[u64], boxes: &[[u64; 4]]) -> Vec<u64> {
    let mut depths = corner_differences(columns, rows, boxes);
    for row in depths.chunks_exact_mut(columns.len()) {
        add_up_row(row);
    }
    add_up_columns(&mut depths, columns.len());
    let is_covered = |depth: i32| u64::from(depth > 0);
    depths.into_iter().map(is_covered).collect()
}

/// 1 more at the lower left and the upper right corner of each box, 1 less at
/// the others: added up along rows and columns, each cell's number of boxes.
fn corner_differences(columns: &[u64], rows: &[u64], boxes: &[[u64; 4]]) -> Vec<i32> {
    let width = columns.len();
    let mut differences = vec![0; width * rows.len()];
    for &[x1, y1, x2, y2] in boxes {
        let (left, right) = (cell_at(columns, x1), cell_at(columns, x2));
        let (bottom, top) = (cell_at(rows, y1), cell_at(rows, y2));
        differences[bottom * width + left] += 1;
        differences[bottom * width + right] -= 1;
        differences[top * width + left] -= 1;
        differences[top * width + right] += 1;
    }
    differences
}

/// Adds to each cell of a row all cells before it.
fn add_up_row(row: &mut [i32]) {
    for column in 1..row.len() {
        row[column] += row[column - 1];
    }
}

/// Adds to each cell all cells of its column below it.
fn add_up_columns(cells: &mut [i32], width: usize) {
    for cell in width..cells.len() {
        cells[cell] += cells[cell - width];
    }
}

/// Covered height of each column below each row cut, row by row.
fn heights_below(covered: &[u64], width: usize, rows: &[u64]) -> Vec<u64> {
    let mut below = vec![0; covered.len()];
    for (row, pair) in rows.windows(2).enumerate() {
        let height = pair[1] - pair[0];
        for cell in row * width..(row + 1) * width {
            below[cell + width] = below[cell] + covered[cell] * height;
        }
    }
    below
}
