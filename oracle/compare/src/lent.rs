//! An area that is lent to a call: each cell holds a value of its own, and there is a border on
//! both sides that the call must not touch.

pub trait Cell: Copy + PartialEq {
    fn mark(seed: u32, at: usize) -> Self;
}

impl Cell for u32 {
    /// Never 0, so that a cell which must be left zero was not so before.
    fn mark(seed: u32, at: usize) -> Self {
        (seed ^ (at as u32).wrapping_mul(0x9E37_79B9)) | 1
    }
}

impl Cell for u8 {
    fn mark(seed: u32, at: usize) -> Self {
        (u32::mark(seed, at) >> 24) as u8
    }
}

const BORDER: usize = 64;

pub struct Lent<C> {
    cells: Vec<C>,
    seed: u32,
    from: usize,
    length: usize,
}

impl<C: Cell> Lent<C> {
    /// Where the area begins in memory varies with the seed, too.
    pub fn new(seed: u32, length: usize) -> Self {
        let from = BORDER + seed as usize % 8;
        let marks = (0..from + length + BORDER).map(|at| C::mark(seed, at));
        Self {
            cells: marks.collect(),
            seed,
            from,
            length,
        }
    }

    pub fn cells(&mut self) -> &mut [C] {
        &mut self.cells[self.from..self.from + self.length]
    }

    /// Whether the area's first cells hold these values, and all others what they held before.
    pub fn holds(&self, first: &[C]) -> bool {
        let end = self.from + first.len();
        let kept = |at: &usize| self.cells[*at] == C::mark(self.seed, *at);
        first.len() <= self.length
            && self.cells[self.from..end] == *first
            && (0..self.from)
                .chain(end..self.cells.len())
                .all(|at| kept(&at))
    }
}
