//! Distances and lists of readings, in areas that this crate makes. The library reads its own results back: this module keeps what it tells.
#![forbid(unsafe_code)]

use std::borrow::Cow;
use std::fmt;

use crate::raw::{self, Listed, ReadBack};
use crate::units::weight;
use crate::{Cost, Link, Refusal, Sheet};

/// The distances of a sheet's nodes: one value per node, `None` for an unreached one, up to the highest node that is reached or that a
/// link from a reached node leads to. The two differ where that link is barred: it reaches nothing. Without a start there are no values.
/// Refusals 5 and 6.
pub fn distances(sheet: &Sheet) -> Result<Vec<Option<f32>>, Refusal> {
    let mut areas = Areas::new();
    areas.find_distances(sheet)?;
    Ok(areas.values)
}

/// The n cheapest readings of a sheet, n up to 64, cheapest first. Refusals 5 to 7.
///
/// The list has n readings, or all where the sheet has fewer, and no reading that is left out costs less than one on it. A run over what is
/// barred is no reading.
///
/// For every smaller n, from 1, the costs listed are the first of these, or all where there are fewer, as is proved; and the best reading,
/// that of n = 1, costs what heads every list. A shorter list may hold other readings of its last cost; of each lower cost it holds the same.
/// [`List::front`] tells for each count whether that is open.
pub fn list(sheet: &Sheet, n: u32) -> Result<List<'_>, Refusal> {
    let mut areas = Areas::new();
    let listed = areas.make(sheet, n)?;
    let mut result = areas.result;
    result.truncate(listed.result_len(sheet.trailer()));
    result.shrink_to_fit();
    Ok(List {
        sheet,
        n,
        listed,
        result: Cow::Owned(result),
        read: Cow::Owned(areas.read),
    })
}

/// A work area and a result area that grow as a sheet needs them and are kept, with what was read back from the result, so that calls in
/// a loop allocate only where a sheet needs more than those before it. What a call leaves in them does not touch the next.
///
/// For n = 64 and a sheet at the limits the two take about 34 MB each.
#[derive(Default)]
pub struct Areas {
    work: Vec<u32>,
    result: Vec<u8>,
    values: Vec<Option<f32>>,
    read: ReadList,
}

impl Areas {
    /// Areas without room; the first call makes it.
    pub fn new() -> Areas {
        Areas::default()
    }

    /// As [`distances`], in these areas.
    pub fn distances(
        &mut self,
        sheet: &Sheet,
    ) -> Result<impl ExactSizeIterator<Item = Option<f32>> + '_, Refusal> {
        self.find_distances(sheet)?;
        Ok(self.values.iter().copied())
    }

    /// As [`list`], in these areas, which the list borrows.
    pub fn list<'a>(&'a mut self, sheet: &'a Sheet, n: u32) -> Result<List<'a>, Refusal> {
        let listed = self.make(sheet, n)?;
        Ok(List {
            sheet,
            n,
            listed,
            result: Cow::Borrowed(&self.result[..listed.result_len(sheet.trailer())]),
            read: Cow::Borrowed(&self.read),
        })
    }

    fn find_distances(&mut self, sheet: &Sheet) -> Result<(), Refusal> {
        // n = 1 needs the same slots, and its result has more bytes for each node than a distance
        self.fit(sheet, 1);
        let count = raw::shortest_distance(sheet.bytes(), &mut self.work, &mut self.result)?;
        self.values.clear();
        for node in 0..count {
            let cost = raw::distance_in(&self.result, count, node, sheet.unit())?;
            self.values
                .push(cost.map(|cost| weight(cost, sheet.unit())));
        }
        Ok(())
    }

    fn make(&mut self, sheet: &Sheet, n: u32) -> Result<Listed, Refusal> {
        self.fit(sheet, n);
        let listed = raw::shortest_path(sheet.bytes(), n, &mut self.work, &mut self.result)?;
        self.read.fill(sheet, n, &self.result, listed)?;
        Ok(listed)
    }

    // Neither 20 nor 21 can come in areas of this size. Where the counts or n are refused the areas stay as they are: the call that
    // follows tests the whole sheet, and its number is the one that counts. A longer area is made anew, not grown: nothing in the
    // old one is needed, and zeros are had cheaply.
    fn fit(&mut self, sheet: &Sheet, n: u32) {
        let counts = (sheet.node_count(), sheet.link_count(), sheet.final_count());
        let Ok(needed) = raw::areas_of(counts.0, counts.1, counts.2, n) else {
            return;
        };
        if self.work.len() < needed.words() {
            self.work = vec![0; needed.words()];
        }
        if self.result.len() < needed.bytes {
            self.result = vec![0; needed.bytes];
        }
    }
}

impl fmt::Debug for Areas {
    fn fmt(&self, f: &mut fmt::Formatter<'_>) -> fmt::Result {
        f.debug_struct("Areas")
            .field("words", &self.work.len())
            .field("bytes", &self.result.len())
            .finish()
    }
}

// A list as the library reads it back: the runs of its readings, one behind the other, and for each where its run begins and what else
// is told of it. Each call tests the sheet anew, so that a reading is read back once and kept.
#[derive(Clone, Default)]
struct ReadList {
    runs: Vec<u32>,
    told: Vec<(usize, ReadBack)>,
}

impl ReadList {
    // The library is proved to read its own answers back. A refusal here would be a fault in this crate or in memory, and goes to the
    // caller as any other: a list with a gap must not look like a whole one.
    fn fill(
        &mut self,
        sheet: &Sheet,
        n: u32,
        result: &[u8],
        listed: Listed,
    ) -> Result<(), Refusal> {
        self.runs.clear();
        self.told.clear();
        for k in 0..raw::readings(result, n, listed)? {
            let first = self.runs.len();
            // links climb, so that a reading has fewer of them than there are nodes
            self.runs.resize(first + sheet.node_count() as usize, 0);
            let run = &mut self.runs[first..];
            let told = raw::reading(sheet.bytes(), n, result, listed, k, run)?;
            self.runs.truncate(first + told.links);
            self.told.push((first, told));
        }
        Ok(())
    }
}

/// A list of readings, cheapest first.
#[derive(Clone)]
pub struct List<'a> {
    sheet: &'a Sheet,
    n: u32,
    listed: Listed,
    result: Cow<'a, [u8]>,
    read: Cow<'a, ReadList>,
}

impl List<'_> {
    /// The n that it was made for; there may be fewer readings.
    pub fn n(&self) -> u32 {
        self.n
    }

    /// How many entries the search has taken; 0 for n below 2, and where there is no reading.
    pub fn taken(&self) -> u32 {
        self.listed.taken
    }

    /// How many readings there are.
    pub fn len(&self) -> usize {
        self.read.told.len()
    }

    /// Whether there are none.
    pub fn is_empty(&self) -> bool {
        self.len() == 0
    }

    /// The readings, cheapest first.
    pub fn readings(
        &self,
    ) -> impl ExactSizeIterator<Item = Reading<'_>> + DoubleEndedIterator + '_ {
        self.first(self.n).readings()
    }

    /// The reading at a place, from 0, or none past the last.
    pub fn reading(&self, place: usize) -> Option<Reading<'_>> {
        self.first(self.n).reading(place)
    }

    /// The first `count` readings, or all where there are fewer. None for a count above the [`n`](List::n) that the list was made for: a
    /// longer list may hold more than this one tells.
    ///
    /// Its costs are those of the list for that count, as is proved. Whether its readings are sure to be, too, tells [`Front::may_differ`].
    ///
    /// ```
    /// use yeldmur::{list, Refusal, Sheet};
    ///
    /// # fn main() -> Result<(), Refusal> {
    /// let sheet: Sheet = "0 1 1 1 1\n0 2 2 2 0.5\n1 3 3 3 0.25\n1 2 5 5\n2 3 4 4 0.75\n3 0.5\n".parse()?;
    /// let long = list(&sheet, 3)?; // costs 112, 112 and 144
    /// let front = long.front(1).unwrap();
    /// assert_eq!((front.len(), front.reading(0).unwrap().cost()), (1, 112));
    /// assert!(front.may_differ()); // another reading costs as much
    /// assert!(!long.front(2).unwrap().may_differ()); // the third is dearer
    /// assert!(!long.front(3).unwrap().may_differ()); // the list itself
    /// assert!(long.front(4).is_none());
    /// # Ok(())
    /// # }
    /// ```
    pub fn front(&self, count: u32) -> Option<Front<'_>> {
        (count <= self.n).then(|| self.first(count))
    }

    /// The machine that holds the readings, laid out as a sheet, with the trailer of the sheet that is listed. [`Sheet::read`] takes it; its
    /// links do not climb.
    pub fn machine(&self) -> &[u8] {
        &self.result[..self.listed.machine_len(self.sheet.trailer())]
    }

    /// The whole answer: the bytes of the machine, then a word for each link of it.
    pub fn result(&self) -> &[u8] {
        &self.result
    }

    // The front for a count up to n.
    fn first(&self, count: u32) -> Front<'_> {
        let (told, behind) = self.read.told.split_at(self.len().min(count as usize));
        // one behind the front may be listed in the place of one that costs as much
        let may_differ = match (told.last(), behind.first()) {
            (Some(last), Some(next)) => last.1.cost == next.1.cost,
            _ => false,
        };
        Front {
            sheet: self.sheet,
            n: count,
            runs: &self.read.runs,
            told,
            may_differ,
        }
    }
}

impl fmt::Debug for List<'_> {
    fn fmt(&self, f: &mut fmt::Formatter<'_>) -> fmt::Result {
        f.debug_struct("List")
            .field("n", &self.n())
            .field("taken", &self.taken())
            .field("readings", &self.readings().collect::<Vec<_>>())
            .finish_non_exhaustive()
    }
}

/// The front of a list, as [`List::front`] gives it: its first readings, cheapest first.
#[derive(Clone, Copy)]
pub struct Front<'a> {
    sheet: &'a Sheet,
    n: u32,
    runs: &'a [u32],
    told: &'a [(usize, ReadBack)],
    may_differ: bool,
}

impl<'a> Front<'a> {
    /// The count that it was made for; there may be fewer readings.
    pub fn n(&self) -> u32 {
        self.n
    }

    /// How many readings there are.
    pub fn len(&self) -> usize {
        self.told.len()
    }

    /// Whether there are none.
    pub fn is_empty(&self) -> bool {
        self.told.is_empty()
    }

    /// The readings, cheapest first.
    pub fn readings(
        &self,
    ) -> impl ExactSizeIterator<Item = Reading<'a>> + DoubleEndedIterator + 'a {
        let front = *self;
        front.told.iter().map(move |told| front.reading_of(told))
    }

    /// The reading at a place, from 0, or none past the last.
    pub fn reading(&self, place: usize) -> Option<Reading<'a>> {
        let told = self.told.get(place)?;
        Some(self.reading_of(told))
    }

    /// Whether the list for this count may hold other readings than these: whether the one behind them, on the list that this is the front
    /// of, costs as much as the last of them. Where it is false that list holds just these, as is proved; where it is true it holds as many
    /// of that cost, and of each lower cost the same. The order of those that cost the same is each list's own; [`list`] for this count tells.
    ///
    /// ```
    /// use yeldmur::{list, Refusal, Sheet};
    ///
    /// # fn main() -> Result<(), Refusal> {
    /// // a line of three nodes, each final, and all weights 0: so much costs each reading
    /// let sheet: Sheet = "0 1 1 1\n1 2 2 2\n0\n1\n2\n".parse()?;
    /// assert_eq!(sheet.bytes().len(), 88);
    /// let (best, two) = (list(&sheet, 1)?, list(&sheet, 2)?);
    /// let front = two.front(1).unwrap();
    /// assert!(front.may_differ());
    /// assert!(front.reading(0).unwrap().numbers().eq([0])); // by link 0
    /// assert_eq!(best.reading(0).unwrap().numbers().len(), 0); // the one without links, which the list for 2 has second
    /// assert_eq!(two.reading(1).unwrap().numbers().len(), 0);
    /// # Ok(())
    /// # }
    /// ```
    pub fn may_differ(&self) -> bool {
        self.may_differ
    }

    fn reading_of(&self, &(first, told): &(usize, ReadBack)) -> Reading<'a> {
        Reading {
            sheet: self.sheet,
            numbers: &self.runs[first..first + told.links],
            told,
        }
    }
}

impl fmt::Debug for Front<'_> {
    fn fmt(&self, f: &mut fmt::Formatter<'_>) -> fmt::Result {
        f.debug_struct("Front")
            .field("n", &self.n())
            .field("may_differ", &self.may_differ())
            .field("readings", &self.readings().collect::<Vec<_>>())
            .finish()
    }
}

/// One reading of a list: a way from the start of its sheet to a final node.
#[derive(Clone, Copy)]
pub struct Reading<'a> {
    sheet: &'a Sheet,
    numbers: &'a [u32],
    told: ReadBack,
}

impl<'a> Reading<'a> {
    /// What it costs, in the sheet's own unit: the sum of the weights of its links and of the final weight. Readings of sheets in different
    /// units compare by [`cost_with_unit`](Reading::cost_with_unit).
    pub fn cost(&self) -> i32 {
        self.told.cost
    }

    /// The same with the unit. It is shown as a decimal number, exactly.
    pub fn cost_with_unit(&self) -> Cost {
        Cost {
            units: self.told.cost,
            unit: self.sheet.unit(),
        }
    }

    /// The node where it ends, a final one.
    pub fn end(&self) -> u32 {
        self.told.end
    }

    /// The numbers of its links in the sheet, from the start on. There may be none.
    pub fn numbers(&self) -> impl ExactSizeIterator<Item = u32> + DoubleEndedIterator + 'a {
        self.numbers.iter().copied()
    }

    /// Its links as the sheet has them, from the start on. There may be none.
    pub fn links(&self) -> impl ExactSizeIterator<Item = Link> + DoubleEndedIterator + 'a {
        let sheet = self.sheet;
        self.numbers().map(move |number| sheet.link_at(number))
    }

    // Whether it is a reading of this sheet, or of one with the same bytes.
    pub(crate) fn is_of(&self, sheet: &Sheet) -> bool {
        std::ptr::eq(self.sheet, sheet) || self.sheet == sheet
    }
}

impl fmt::Debug for Reading<'_> {
    fn fmt(&self, f: &mut fmt::Formatter<'_>) -> fmt::Result {
        f.debug_struct("Reading")
            .field("cost", &self.cost())
            .field("numbers", &self.numbers)
            .field("end", &self.end())
            .finish()
    }
}
