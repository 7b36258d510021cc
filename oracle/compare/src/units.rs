//! The call that tells a sheet's unit.

use crate::checker;
use crate::tally::Tally;
use yeldmur::ffi;

/// What the unit holds before a call.
const UNIT: u32 = 0xA5C3_0F1E;

/// Compares the number and the unit. A refusal keeps the unit.
pub fn compare(tally: &mut Tally, sheet: &[u8]) {
    let mut unit = UNIT;
    let number = ffi::unit(sheet, &mut unit);
    let due = match checker::read(sheet) {
        0 => (0, checker::unit(sheet)),
        number => (number, UNIT),
    };
    tally.check("unit", sheet, (number, unit) == due);
}
