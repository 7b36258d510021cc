//! The call that tells how long the areas must be.

use crate::checker::{self, LONG};
use crate::tally::Tally;
use yeldmur::ffi;

/// What the sizes hold before a call.
const SIZE: u64 = 0xA5C3_0F1E_7788_99AA;

/// Compares the number and both sizes. Of an accepted sheet the slots are those needed, and the
/// bytes are enough for the answer where its length is given; a refusal keeps both sizes.
pub fn compare(tally: &mut Tally, sheet: &[u8], n: u32, answer: Option<usize>) {
    let mut sizes = [SIZE; 2];
    let [slots, bytes] = &mut sizes;
    let number = ffi::areas(sheet, n, slots, bytes);
    let expected = checker::list(sheet, n);
    let told = match expected {
        0 => {
            let enough = answer.is_none_or(|length| length as u64 <= sizes[1]);
            // the counts tell no trailer, and what they give is enough for the longer one
            let less = (LONG - checker::trailer_bytes(sheet)) as u64;
            let same = of_counts(sheet, n) == [sizes[0], sizes[1] + less];
            sizes[0] == checker::list_slots(sheet, n) as u64 && enough && same
        }
        _ => sizes == [SIZE; 2],
    };
    tally.check(
        &format!("areas, n = {n}"),
        sheet,
        number == expected && told,
    );
}

/// The sizes by the counts of an accepted sheet alone.
fn of_counts(sheet: &[u8], n: u32) -> [u64; 2] {
    let [nodes, links, finals] = checker::counts(sheet);
    let mut sizes = [SIZE; 2];
    let [slots, bytes] = &mut sizes;
    assert_eq!(ffi::areas_of(nodes, links, finals, n, slots, bytes), 0);
    sizes
}
