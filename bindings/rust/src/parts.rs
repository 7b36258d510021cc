//! The two parts of a sheet that narrows to a node.
#![forbid(unsafe_code)]

use std::ops::Range;

use crate::raw;
use crate::{Reading, Refusal, Sheet, LINK_LIMIT, NODE_LIMIT};

/// One of the two parts of a sheet.
#[derive(Clone, Debug, PartialEq, Eq)]
pub struct Part {
    sheet: Sheet,
    numbers: Range<u32>,
}

impl Part {
    /// The part as a sheet of its own. The searches accept it.
    pub fn sheet(&self) -> &Sheet {
        &self.sheet
    }

    /// The same, without a copy.
    pub fn into_sheet(self) -> Sheet {
        self.sheet
    }

    /// For each link of the part in order its number in the whole sheet.
    pub fn numbers(&self) -> impl ExactSizeIterator<Item = u32> + DoubleEndedIterator {
        self.numbers.clone()
    }

    /// The number in the whole sheet of a link of the part, or none past the last.
    pub fn number(&self, link: u32) -> Option<u32> {
        self.numbers().nth(link as usize)
    }
}

/// The two parts of a sheet.
#[derive(Clone, Debug, PartialEq, Eq)]
pub struct Parts {
    /// The nodes up to the one where they meet.
    pub first: Part,
    /// The nodes from that one on.
    pub second: Part,
}

impl Parts {
    /// The links, by their numbers in the whole sheet, of a reading of the first part and then one of the second. These are a reading of
    /// the whole, which costs the sum of the two costs; its end is that of the second, counted from the node where the parts meet.
    ///
    /// None where a reading is of another sheet than that part.
    pub fn join(&self, first: Reading<'_>, second: Reading<'_>) -> Option<Vec<u32>> {
        if !(first.is_of(&self.first.sheet) && second.is_of(&self.second.sheet)) {
            return None;
        }
        let first = first.numbers().map(|link| self.first.number(link));
        let second = second.numbers().map(|link| self.second.number(link));
        first.chain(second).collect()
    }
}

/// The two parts of a sheet at node c, as where preheat ends and the bake begins: the machine must narrow to c. Refusals 5, 6 and 13.
///
/// The first part has the nodes up to c and the links that leave those below c; c is final in it, at weight 0, and has no links. The
/// second has the nodes from c on and their links, and starts at c; its nodes count from c, which keeps its mark, weight and links there.
/// Both keep the order of links and the sheet's trailer. The machine narrows to c if c is one of its nodes, the start is present and not above c, no node below c is
/// final and no link leads from below c to above it, reached or not, barred or not.
///
/// For every n from 1 to 64 the costs of the sheet's list are the n least sums of one cost from each part's list for n, or all of them where
/// there are fewer.
///
/// ```
/// use yeldmur::{list, split, Refusal, Sheet};
///
/// let whole = Sheet::from_rows(b"0 1 7 7 1\n0 1 8 8 0.5\n1 2 7 7 0.25\n1 2 9 9 2\n2 0.5\n")?;
/// let parts = split(&whole, 1)?;
/// let (preheat, bake) = (list(parts.first.sheet(), 2)?, list(parts.second.sheet(), 2)?);
/// let costs = |list: &yeldmur::List| list.readings().map(|r| r.cost()).collect::<Vec<i32>>();
/// assert_eq!((costs(&preheat), costs(&bake)), (vec![32, 64], vec![48, 160]));
/// assert_eq!(costs(&list(&whole, 2)?), [80, 112]); // 32 + 48 and 64 + 48; then 32 + 160 and 64 + 160
///
/// let cheapest = parts.join(preheat.reading(0).unwrap(), bake.reading(0).unwrap());
/// assert_eq!(cheapest, Some(vec![1, 2]));
///
/// assert_eq!(split(&whole, 2).map(|parts| parts.second.sheet().node_count()), Ok(1));
/// assert_eq!(split(&whole, 3), Err(Refusal::Narrow));
/// # Ok::<(), Refusal>(())
/// ```
pub fn split(sheet: &Sheet, c: u32) -> Result<Parts, Refusal> {
    let mut area = vec![0; enough(sheet)];
    let told = raw::split(sheet.bytes(), c, &mut area)?;
    let trailer = sheet.trailer();
    let (end, from) = (told.first_len(c, trailer), told.second_at(c, trailer));
    let last = from + told.second_len(sheet.node_count(), c, trailer);
    // the words behind each part say the same numbers, as is proved
    Ok(Parts {
        first: Part {
            sheet: Sheet::read(&area[..end])?,
            numbers: 0..told.first,
        },
        second: Part {
            sheet: Sheet::read(&area[from..last])?,
            numbers: told.first..told.first + told.second,
        },
    })
}

// As many bytes as both parts have: 21 cannot come. A sheet above the limits is refused before that, so that no area is made for it.
fn enough(sheet: &Sheet) -> usize {
    let (nodes, links) = (sheet.node_count(), sheet.link_count());
    if nodes > NODE_LIMIT || links > LINK_LIMIT {
        return 0;
    }
    raw::split_len(nodes, links, sheet.trailer())
}
