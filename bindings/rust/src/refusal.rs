//! The refusals, with the numbers and words of the requirements, and those of the calls that read answers back.
#![forbid(unsafe_code)]

use std::error::Error;
use std::fmt;

/// Why a call was refused. Tests go by number over the whole sheet, so that a sheet with more than one
/// fault gets the lowest number; but 14 comes right after 1, and is among 1 to 4, 1 to 6 and 1 to 7 wherever
/// these are named, and 8, of a text, before all others. Of two sheets all of the first's tests come before
/// those of the second, and 10 to 12 after both; 13, of a sheet and a node, comes after 6. N is the number of
/// nodes of a sheet, T that of its links.
#[derive(Clone, Copy, Debug, PartialEq, Eq, Hash)]
#[non_exhaustive]
pub enum Refusal {
    /// 1: length, offsets, a count or offset too big for its field, marks, an absent final's weight field
    /// or the sum of link counts is not as laid out under either trailer.
    Layout,
    /// 2: start neither below N nor none.
    Start,
    /// 3: next node not below N.
    Next,
    /// 4: a weight that is neither on the grid nor [`BARRED`](crate::BARRED). The grid is k/64, or k/256 where that is the
    /// sheet's unit, for a whole k from -8,192 to 8,192; NaN, negative infinity and negative zero are off it.
    Weight,
    /// 5: N above 2,048 or T above 16,384.
    Limits,
    /// 6: a link that does not lead to a higher node.
    Climb,
    /// 7: n above 64.
    Count,
    /// 8: a text without rows, a row that cannot be read or a second final row for a node.
    Rows,
    /// 9: a sheet that has no rows. A sheet has rows if it has the shorter trailer, its start is present and has
    /// a link or a mark, and its last node has a link, a mark or a link to it.
    NoRows,
    /// 10: of two sheets, a link of either, reached or not, whose input label is 0 or is not its output label.
    Labels,
    /// 11: what two sheets both allow has more than 2,048 nodes or 16,384 links.
    Product,
    /// 12: the weights of two links with one label, or of two final nodes, have a finite sum off the grid, more than 8,192
    /// units either way.
    Sum,
    /// 13: a machine that does not narrow to node c. It narrows to c if c is below N, the start is present and not above c, no
    /// node below c is final and no link leads from below c to above it; reached or not, barred or not.
    Narrow,
    /// 14: a unit that is neither 64 nor 256; or of two sheets the second has another unit than the first.
    Unit,
    /// 20: work area shorter than needed.
    WorkArea,
    /// 21: result area shorter than this very answer.
    ResultArea,
    /// 30: a result that is no answer: it cannot be read back as the list, or the distances, that it is said to hold.
    NoAnswer,
    /// 31: no reading, distance, link or node has this number.
    Absent,
}

const ALL: [Refusal; 18] = [
    Refusal::Layout,
    Refusal::Start,
    Refusal::Next,
    Refusal::Weight,
    Refusal::Limits,
    Refusal::Climb,
    Refusal::Count,
    Refusal::Rows,
    Refusal::NoRows,
    Refusal::Labels,
    Refusal::Product,
    Refusal::Sum,
    Refusal::Narrow,
    Refusal::Unit,
    Refusal::WorkArea,
    Refusal::ResultArea,
    Refusal::NoAnswer,
    Refusal::Absent,
];

impl Refusal {
    /// Its number.
    pub fn number(self) -> u32 {
        match self {
            Refusal::Layout => 1,
            Refusal::Start => 2,
            Refusal::Next => 3,
            Refusal::Weight => 4,
            Refusal::Limits => 5,
            Refusal::Climb => 6,
            Refusal::Count => 7,
            Refusal::Rows => 8,
            Refusal::NoRows => 9,
            Refusal::Labels => 10,
            Refusal::Product => 11,
            Refusal::Sum => 12,
            Refusal::Narrow => 13,
            Refusal::Unit => 14,
            Refusal::WorkArea => 20,
            Refusal::ResultArea => 21,
            Refusal::NoAnswer => 30,
            Refusal::Absent => 31,
        }
    }

    /// The refusal that has a number, or none where no call here gives it.
    pub fn from_number(number: u32) -> Option<Refusal> {
        ALL.into_iter().find(|refusal| refusal.number() == number)
    }

    /// What it means.
    pub fn words(self) -> &'static str {
        match self {
            Refusal::Layout => {
                "length, offsets, a count or offset too big for its field, marks, \
                 an absent final's weight field or the sum of link counts is not as laid out under either trailer"
            }
            Refusal::Start => "start neither below N nor none",
            Refusal::Next => "next node not below N",
            Refusal::Weight => "a weight off the grid",
            Refusal::Limits => "N above 2,048 or T above 16,384",
            Refusal::Climb => "a link that does not lead to a higher node",
            Refusal::Count => "n above 64",
            Refusal::Rows => {
                "a text without rows, a row that cannot be read or a second final row for a node"
            }
            Refusal::NoRows => "a sheet that has no rows",
            Refusal::Labels => "a label that is 0 or differs between input and output",
            Refusal::Product => "a product above 2,048 nodes or 16,384 links",
            Refusal::Sum => "a finite sum off the grid",
            Refusal::Narrow => "a machine that does not narrow to the node",
            Refusal::Unit => "a unit that is neither 64 nor 256, or two sheets of unequal unit",
            Refusal::WorkArea => "work area shorter than needed",
            Refusal::ResultArea => "result area shorter than this very answer",
            Refusal::NoAnswer => "a result that is no answer",
            Refusal::Absent => "no reading, distance, link or node has this number",
        }
    }
}

impl fmt::Display for Refusal {
    fn fmt(&self, f: &mut fmt::Formatter<'_>) -> fmt::Result {
        write!(f, "refused {}: {}", self.number(), self.words())
    }
}

impl Error for Refusal {}
