//! The sheet of what two sheets both allow.
#![forbid(unsafe_code)]

use crate::layout::sheet_len;
use crate::raw;
use crate::{Refusal, Sheet, LINK_LIMIT, NODE_LIMIT};

/// The sheet of what two sheets both allow, as two probes in one oven give two machines of the same bake. Refusals 5 and 6 of the first
/// sheet, then 14 where the second's unit is not the first's, 5 and 6 of the second, then 10 to 12. It has the first's trailer.
///
/// Its node for node i of the first and j of the second is i × N + j, by the second's N. It has a link for each link of the first and
/// each of the second that has the same label, between their nodes and with the sum of their weights; a node's links stand by the first's
/// number, then the second's. A node is final if both are, and the final weights add. What is added to [`BARRED`](crate::BARRED) is
/// barred. There is no start where either sheet has none.
///
/// Its readings are the pairs of a reading of each sheet with the same labels, each pair once, and cost their sum. It climbs and is within
/// the limits, so that the searches accept it. The call takes some 390 KB of stack.
///
/// ```
/// use yeldmur::{list, two_probes, Refusal, Sheet};
///
/// let first = Sheet::from_rows(b"0 1 7 7 1\n0 1 8 8 2.5\n1 0.5\n")?;
/// let second = Sheet::from_rows(b"0 1 8 8 -0.5\n0 1 9 9\n1\n")?;
/// let both = two_probes(&first, &second)?;
/// assert_eq!((both.node_count(), both.link_count()), (4, 1));
/// let readings: Vec<(i32, u32)> = list(&both, 10)?.readings().map(|r| (r.cost(), r.end())).collect();
/// assert_eq!(readings, [(160, 3)]); // 2.5 + 0.5 and -0.5, in sixty-fourths; node 3 is 1 × 2 + 1
///
/// let two_labels = Sheet::from_rows(b"0 1 7 8\n1\n")?;
/// assert_eq!(two_probes(&first, &two_labels), Err(Refusal::Labels));
/// # Ok::<(), Refusal>(())
/// ```
pub fn two_probes(first: &Sheet, second: &Sheet) -> Result<Sheet, Refusal> {
    let mut bytes = vec![0; enough(first, second)];
    let size = raw::two_probes(first.bytes(), second.bytes(), &mut bytes)?;
    bytes.truncate(size);
    bytes.shrink_to_fit();
    Sheet::read(bytes)
}

// Neither sheet's nodes and links give more than one for each pair of them, and no answer passes the limits: in so many bytes 21
// cannot come.
fn enough(first: &Sheet, second: &Sheet) -> usize {
    let most = |one: u32, other: u32, limit: u32| {
        let pairs = u64::from(one) * u64::from(other);
        pairs.min(u64::from(limit)) as usize
    };
    let nodes = most(first.node_count(), second.node_count(), NODE_LIMIT);
    let links = most(first.link_count(), second.link_count(), LINK_LIMIT);
    sheet_len(nodes, links, first.trailer())
}
