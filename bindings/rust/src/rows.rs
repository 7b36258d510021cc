//! Text rows: a sheet as lines that people write and read.
#![forbid(unsafe_code)]

use std::fmt;
use std::str::FromStr;

use crate::raw;
use crate::{Refusal, Sheet};

impl Sheet {
    /// The sheet that text rows give, in the form that OpenFst and rustfst read. It has the shorter trailer. Refusals 8, then 1 and 4, and 21
    /// where there is no memory for the sheet.
    ///
    /// A row is a link, by its source, next node, input label, output label and weight, or a final node with its weight; a weight that
    /// is left out is 0. The first row's first node is the start, and nodes run to the highest number named.
    /// Spaces and tabs part fields, and a newline ends each row, the last too. Weights are digits, perhaps with a minus sign before and
    /// a point and one to six digits after; they are taken exactly. `Infinity`, in this spelling alone, is [`BARRED`](crate::BARRED).
    ///
    /// ```
    /// use yeldmur::{Refusal, Sheet};
    ///
    /// let sheet = Sheet::from_rows(b"0 1 7 8 -1.5\n1 0.25\n")?;
    /// assert_eq!((sheet.node_count(), sheet.start()), (2, Some(0)));
    /// assert_eq!(sheet.link(0).unwrap().weight, -1.5);
    /// assert_eq!(sheet.final_weight(1), Some(0.25));
    ///
    /// assert_eq!(Sheet::from_rows(b"0 1 7\n"), Err(Refusal::Rows)); // three fields
    /// assert_eq!(Sheet::from_rows(b"0 0.3\n"), Err(Refusal::Weight)); // no whole number of sixty-fourths
    /// # Ok::<(), Refusal>(())
    /// ```
    ///
    /// A short text can give a long sheet: 12 bytes for each node up to the highest one. [`raw::rows_sheet_bytes`] tells how long,
    /// from the text alone.
    pub fn from_rows(text: &[u8]) -> Result<Sheet, Refusal> {
        let mut bytes = area(raw::rows_sheet_bytes(text)?)?;
        raw::rows_to_sheet(text, &mut bytes)?;
        Sheet::read(bytes)
    }

    /// The text rows of a sheet, which convert to that very sheet. Refusal 9 where it has none, as with the longer trailer.
    ///
    /// The start's rows come first, then the others' by rising node, and a node's links before its final row. One tab stands between
    /// fields, numbers are in their shortest form, a weight of 0 is left out, and a barred one is `Infinity`.
    ///
    /// ```
    /// use yeldmur::{Refusal, Sheet};
    ///
    /// let sheet = Sheet::from_rows(b" 2  0  7 7  -01.50\n0\n2 0\n")?;
    /// assert_eq!(sheet.to_rows()?, b"2\t0\t7\t7\t-1.5\n2\n0\n");
    ///
    /// let empty = Sheet::write(&[], &[], None)?;
    /// assert_eq!(empty.to_rows(), Err(Refusal::NoRows));
    /// # Ok::<(), Refusal>(())
    /// ```
    pub fn to_rows(&self) -> Result<Vec<u8>, Refusal> {
        let mut text = area(raw::sheet_rows_bytes(self.bytes())?)?;
        raw::sheet_to_rows(self.bytes(), &mut text)?;
        Ok(text)
    }
}

// A row may name any node, so that a few bytes can ask for gigabytes: where they are not there, the result area is too short.
fn area(bytes: usize) -> Result<Vec<u8>, Refusal> {
    let mut area = Vec::new();
    area.try_reserve_exact(bytes)
        .map_err(|_| Refusal::ResultArea)?;
    area.resize(bytes, 0);
    Ok(area)
}

/// As [`Sheet::from_rows`].
impl FromStr for Sheet {
    type Err = Refusal;

    fn from_str(text: &str) -> Result<Sheet, Refusal> {
        Sheet::from_rows(text.as_bytes())
    }
}

/// The text rows of [`Sheet::to_rows`]. For a sheet that has none, the words of refusal 9.
// An error would have `to_string` panic, and no text at all would look like a success. The words are no rows: read back they are refused.
impl fmt::Display for Sheet {
    fn fmt(&self, f: &mut fmt::Formatter<'_>) -> fmt::Result {
        match self.to_rows() {
            Ok(text) => f.write_str(&String::from_utf8_lossy(&text)),
            Err(refusal) => refusal.fmt(f),
        }
    }
}
