//! The reader: from the bytes of a job file to a [`Job`] or its first fault.

/// Most bytes a job file may have.
pub(crate) const LARGEST_FILE: usize = 60_000;
/// Most shapes a job may have, drawn ones and dummies together.
pub(crate) const MOST_SHAPES: usize = 256;
/// Most tiles along one side of the layout.
pub(crate) const MOST_TILES: u64 = 64;
/// Longest side of a layout.
pub const LARGEST_SIDE: u64 = 1_000_000;
/// Greatest amount that a fill may ask for.
pub(crate) const LARGEST_AMOUNT: u64 = 1_000_000_000_000;

/// Most digits of a number. The greatest amount has as many.
const MOST_DIGITS: usize = 13;
const MOST_HALVINGS: u64 = 4;

/// The least and greatest value of each number of a form, in file order.
pub(crate) type Ranges<const K: usize> = [(u64, u64); K];

const SIDE: (u64, u64) = (1, LARGEST_SIDE);
/// Of the gap to drawn metal and of that to dummies.
pub(crate) const GAP: (u64, u64) = (0, LARGEST_SIDE);
const CORNER: (u64, u64) = (0, LARGEST_SIDE);
const BOUND: (u64, u64) = (0, 10_000);
const TILE: (u64, u64) = (0, MOST_TILES - 1);

/// Of a head's numbers but the dummy gap, which it need not state.
pub(crate) const HEAD_RANGES: Ranges<8> =
    [SIDE, SIDE, (1, 64), GAP, BOUND, BOUND, (0, 1000), (1, 6)];
pub(crate) const CORNER_RANGES: Ranges<4> = [CORNER; 4];
pub(crate) const FILL_RANGES: Ranges<3> = [TILE, TILE, (1, LARGEST_AMOUNT)];

/// Where the metal of a shape comes from. Only the gap that fill leaves to it
/// depends on that.
#[derive(Clone, Copy, Debug, PartialEq, Eq)]
pub enum Kind {
    /// Drawn with the layout.
    Drawn,
    /// Left by an earlier fill pass.
    Dummy,
}

impl Kind {
    pub const BOTH: [Kind; 2] = [Kind::Drawn, Kind::Dummy];
}

/// A rectangle of metal.
#[derive(Clone, Copy, Debug, PartialEq, Eq)]
pub struct Shape {
    pub kind: Kind,
    /// X1 Y1 X2 Y2.
    pub corners: [u64; 4],
}

/// A job that was read without a fault.
#[derive(Clone, Debug, Default)]
pub struct Job {
    /// Side of the layout.
    pub size: u64,
    /// Side of the window.
    pub window: u64,
    /// Tiles across one window.
    pub cut: u64,
    /// Least gap between fill and drawn metal.
    pub gap: u64,
    /// Least gap between fill and dummies.
    pub dummy_gap: u64,
    /// Lower density bound in ten-thousandths.
    pub lower: u64,
    /// Upper density bound in ten-thousandths.
    pub upper: u64,
    /// Accuracy of the quick runs in thousandths.
    pub accuracy: u64,
    /// Levels each quick run may do.
    pub levels: u64,
    /// The metal, in file order.
    pub shapes: Vec<Shape>,
    /// Fill amount of each tile, row by row; 0 where none is given.
    pub fills: Vec<u64>,
}

impl Job {
    /// Corners of each shape, for whatever takes all metal alike.
    pub fn boxes(&self) -> impl Iterator<Item = [u64; 4]> + '_ {
        self.shapes.iter().map(|shape| shape.corners)
    }

    /// Least gap between fill and a shape of this kind.
    pub fn gap_to(&self, kind: Kind) -> u64 {
        match kind {
            Kind::Drawn => self.gap,
            Kind::Dummy => self.dummy_gap,
        }
    }

    /// Side of a tile.
    pub fn tile_side(&self) -> u64 {
        self.window / self.cut
    }

    /// Tiles along one side of the layout.
    pub fn tiles(&self) -> u64 {
        self.size / self.tile_side()
    }

    /// The last window position on an axis.
    pub fn last_position(&self) -> u64 {
        self.size - self.window
    }

    /// How many window positions there are.
    pub fn positions(&self) -> u64 {
        let on_an_axis = self.last_position() + 1;
        on_an_axis * on_an_axis
    }

    /// The last tile column or row at which a window starts.
    pub(crate) fn last_tile_start(&self) -> u64 {
        self.tiles() - self.cut
    }

    /// How often a quick run halves the window side.
    pub(crate) fn halvings(&self) -> u64 {
        u64::from(self.window.trailing_zeros()).min(MOST_HALVINGS)
    }

    /// Whether the ends of a bracket are as close as the accuracy asks.
    pub(crate) fn is_met(&self, low: u64, high: u64) -> bool {
        1000 * high <= (1000 + 2 * self.accuracy) * low
    }

    /// The greatest lower bound that a window sum keeps.
    pub fn bound_at(&self, sum: u64) -> u64 {
        10_000 * sum / (self.window * self.window)
    }

    /// Whether a window sum keeps the upper bound.
    pub fn keeps_upper(&self, sum: u64) -> bool {
        10_000 * sum <= self.upper * self.window * self.window
    }

    /// Whether a window sum keeps the lower bound.
    pub fn keeps_lower(&self, sum: u64) -> bool {
        10_000 * sum >= self.lower * self.window * self.window
    }

    /// The least sum that keeps the lower bound.
    pub fn least_kept(&self) -> u64 {
        (self.lower * self.window * self.window).div_ceil(10_000)
    }

    /// The greatest sum that keeps the upper bound.
    pub fn greatest_kept(&self) -> u64 {
        self.upper * self.window * self.window / 10_000
    }

    /// A head that states no dummy gap means the one it states for both.
    fn from_head(head: [u64; 8], dummy_gap: Option<u64>) -> Job {
        let [size, window, cut, gap, lower, upper, accuracy, levels] = head;
        Job {
            size,
            window,
            cut,
            gap,
            dummy_gap: dummy_gap.unwrap_or(gap),
            lower,
            upper,
            accuracy,
            levels,
            ..Job::default()
        }
    }

    fn head_agrees(&self) -> bool {
        self.window <= self.size
            && self.window.is_multiple_of(self.cut)
            && self.size.is_multiple_of(self.tile_side())
            && self.tiles() <= MOST_TILES
            && self.lower <= self.upper
    }
}

/// The faults by their numbers.
pub(crate) enum Fault {
    TooLong = 1,
    Spelling = 2,
    Range = 3,
    Turn = 4,
    Head = 5,
    Corners = 6,
    NoSuchTile = 7,
    TooManyShapes = 8,
    Overlap = 9,
    FilledTwice = 10,
    TooMuchFill = 11,
    NoEnd = 12,
    ShortBuffer = 13,
}

/// Number and line of the first fault.
#[derive(Debug, PartialEq, Eq)]
pub struct Refusal {
    pub number: u32,
    pub line: u32,
}

impl Refusal {
    pub(crate) fn new(fault: Fault, line: usize) -> Refusal {
        Refusal {
            number: fault as u32,
            line: line as u32,
        }
    }
}

/// Reads a job file. `fillable_areas` gives the fillable area of every tile,
/// row by row, of a job whose shapes are complete.
pub(crate) fn read_with(
    bytes: &[u8],
    fillable_areas: impl Fn(&Job) -> Vec<u64>,
) -> Result<Job, Refusal> {
    if bytes.len() > LARGEST_FILE {
        return Err(Refusal::new(Fault::TooLong, 0));
    }
    let mut reader = Reader {
        stage: Stage::Head,
        job: Job::default(),
        fillable: Vec::new(),
        fillable_areas,
    };
    let mut number = 1;
    for line in bytes.split_inclusive(|&byte| byte == b'\n') {
        reader
            .take_line(line)
            .map_err(|fault| Refusal::new(fault, number))?;
        number += 1;
    }
    match reader.stage {
        Stage::Ended => Ok(reader.job),
        _ => Err(Refusal::new(Fault::NoEnd, number)),
    }
}

/// What may come next: the head; shapes and all after them; fills and the
/// end; nothing.
#[derive(Clone, Copy, PartialEq, Eq)]
enum Stage {
    Head,
    Shapes,
    Fills,
    Ended,
}

struct Reader<A> {
    stage: Stage,
    job: Job,
    /// Empty until the first fill asks for it.
    fillable: Vec<u64>,
    fillable_areas: A,
}

impl<A: Fn(&Job) -> Vec<u64>> Reader<A> {
    /// Takes a line together with its line feed. The checks stand in the order
    /// of the fault numbers.
    fn take_line(&mut self, line: &[u8]) -> Result<(), Fault> {
        let text = line.strip_suffix(b"\n").ok_or(Fault::Spelling)?;
        let form = Form::spelled(text).ok_or(Fault::Spelling)?;
        refuse_if(!form.is_in_range(), Fault::Range)?;
        refuse_if(!form.is_in_turn(self.stage), Fault::Turn)?;
        match form {
            Form::Head(head, dummy_gap) => self.take_head(Job::from_head(head, dummy_gap)),
            Form::Shape(shape) => self.take_shape(shape),
            Form::Fill(fill) => self.take_fill(fill),
            Form::End => {
                self.stage = Stage::Ended;
                Ok(())
            }
        }
    }

    /// Takes a job that has its head's numbers alone.
    fn take_head(&mut self, mut job: Job) -> Result<(), Fault> {
        refuse_if(!job.head_agrees(), Fault::Head)?;
        job.fills = vec![0; (job.tiles() * job.tiles()) as usize];
        self.job = job;
        self.stage = Stage::Shapes;
        Ok(())
    }

    fn take_shape(&mut self, shape: Shape) -> Result<(), Fault> {
        let [x1, y1, x2, y2] = shape.corners;
        let size = self.job.size;
        let bad_corners = x1 >= x2 || y1 >= y2 || x2 > size || y2 > size;
        refuse_if(bad_corners, Fault::Corners)?;
        refuse_if(self.job.shapes.len() == MOST_SHAPES, Fault::TooManyShapes)?;
        let overlaps = |standing: [u64; 4]| overlap(&standing, &shape.corners);
        refuse_if(self.job.boxes().any(overlaps), Fault::Overlap)?;
        self.job.shapes.push(shape);
        Ok(())
    }

    fn take_fill(&mut self, [column, row, amount]: [u64; 3]) -> Result<(), Fault> {
        self.stage = Stage::Fills;
        let tiles = self.job.tiles();
        refuse_if(column >= tiles || row >= tiles, Fault::NoSuchTile)?;
        let tile = (row * tiles + column) as usize;
        refuse_if(self.job.fills[tile] > 0, Fault::FilledTwice)?;
        if self.fillable.is_empty() {
            self.fillable = (self.fillable_areas)(&self.job);
        }
        refuse_if(amount > self.fillable[tile], Fault::TooMuchFill)?;
        self.job.fills[tile] = amount;
        Ok(())
    }
}

fn refuse_if(faulty: bool, fault: Fault) -> Result<(), Fault> {
    if faulty {
        Err(fault)
    } else {
        Ok(())
    }
}

/// Whether two rectangles share a unit square.
pub(crate) fn overlap(a: &[u64; 4], b: &[u64; 4]) -> bool {
    a[0] < b[2] && b[0] < a[2] && a[1] < b[3] && b[1] < a[3]
}

/// A line as spelled, its numbers not yet judged.
enum Form {
    /// All numbers but the dummy gap, and that one if it is stated.
    Head([u64; 8], Option<u64>),
    Shape(Shape),
    Fill([u64; 3]),
    End,
}

impl Form {
    fn spelled(text: &[u8]) -> Option<Form> {
        Form::spelled_head(text)
            .or_else(|| Form::spelled_shape(text))
            .or_else(|| numbers(text, b"(fill # # #)").map(Form::Fill))
            .or_else(|| numbers(text, b"(end)").map(|[]| Form::End))
    }

    fn spelled_head(text: &[u8]) -> Option<Form> {
        const ONE_GAP: &[u8] = b"(job (size #) (window #) (cut #) (gap #) (bounds # #) (zoom # #))";
        const BOTH_GAPS: &[u8] =
            b"(job (size #) (window #) (cut #) (gap # #) (bounds # #) (zoom # #))";
        let with_both_gaps = |[n, w, r, b, d, l, u, e, v]: [u64; 9]| {
            let others = [n, w, r, b, l, u, e, v];
            Form::Head(others, Some(d))
        };
        numbers(text, ONE_GAP)
            .map(|head| Form::Head(head, None))
            .or_else(|| numbers(text, BOTH_GAPS).map(with_both_gaps))
    }

    fn spelled_shape(text: &[u8]) -> Option<Form> {
        let spelled = |spelling: &[u8], kind| {
            let shape = |corners| Form::Shape(Shape { kind, corners });
            numbers(text, spelling).map(shape)
        };
        spelled(b"(rect # # # #)", Kind::Drawn).or_else(|| spelled(b"(dummy # # # #)", Kind::Dummy))
    }

    fn is_in_range(&self) -> bool {
        match self {
            Form::Head(head, dummy_gap) => {
                let gap_in_range = |gap| in_ranges(&[gap], &[GAP]);
                in_ranges(head, &HEAD_RANGES) && dummy_gap.is_none_or(gap_in_range)
            }
            Form::Shape(shape) => in_ranges(&shape.corners, &CORNER_RANGES),
            Form::Fill(fill) => in_ranges(fill, &FILL_RANGES),
            Form::End => true,
        }
    }

    fn is_in_turn(&self, stage: Stage) -> bool {
        match self {
            Form::Head(..) => stage == Stage::Head,
            Form::Shape(_) => stage == Stage::Shapes,
            Form::Fill(_) | Form::End => matches!(stage, Stage::Shapes | Stage::Fills),
        }
    }
}

fn in_ranges<const K: usize>(values: &[u64; K], ranges: &Ranges<K>) -> bool {
    values
        .iter()
        .zip(ranges)
        .all(|(value, (least, greatest))| (least..=greatest).contains(&value))
}

/// The numbers of `text` where `spelling` has `#`, if all else is the same.
fn numbers<const K: usize>(text: &[u8], spelling: &[u8]) -> Option<[u64; K]> {
    let mut found = [0; K];
    let mut places = found.iter_mut();
    let mut rest = text;
    for part in spelling {
        if *part == b'#' {
            (*places.next()?, rest) = leading_number(rest)?;
        } else {
            rest = rest.strip_prefix(&[*part])?;
        }
    }
    rest.is_empty().then_some(found)
}

/// A number at the front of `text`, and what follows it.
fn leading_number(text: &[u8]) -> Option<(u64, &[u8])> {
    let length = text.iter().take_while(|byte| byte.is_ascii_digit()).count();
    let (digits, rest) = text.split_at(length);
    let well_spelled = match digits {
        [] | [b'0', _, ..] => false,
        _ => length <= MOST_DIGITS,
    };
    let append = |value: u64, digit: &u8| 10 * value + u64::from(digit - b'0');
    well_spelled.then(|| (digits.iter().fold(0, append), rest))
}
