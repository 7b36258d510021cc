//! Units, costs in them, and the weight of what is barred.
#![forbid(unsafe_code)]

use std::cmp::Ordering;
use std::fmt;
use std::hash::{Hash, Hasher};

/// The weight of a link or a final node that is barred: positive infinity. A reading has a finite cost, so that none goes over such a
/// link or ends at such a node.
pub const BARRED: f32 = f32::INFINITY;

/// The unit of a sheet: its weights and costs are whole numbers of it. Without one in its trailer a sheet is in [`Of64`](Unit::Of64).
#[derive(Clone, Copy, Debug, PartialEq, Eq, Hash)]
pub enum Unit {
    /// 1/64, in which old controllers score.
    Of64,
    /// 1/256, in which new controllers do.
    Of256,
}

impl Unit {
    /// How many of it are 1: 64 or 256.
    pub const fn count(self) -> u32 {
        match self {
            Unit::Of64 => 64,
            Unit::Of256 => 256,
        }
    }

    /// The unit of which so many are 1, or none.
    pub const fn from_count(count: u32) -> Option<Unit> {
        match count {
            64 => Some(Unit::Of64),
            256 => Some(Unit::Of256),
            _ => None,
        }
    }
}

/// `1/64` or `1/256`.
impl fmt::Display for Unit {
    fn fmt(&self, f: &mut fmt::Formatter<'_>) -> fmt::Result {
        f.pad(match self {
            Unit::Of64 => "1/64",
            Unit::Of256 => "1/256",
        })
    }
}

/// A cost with its unit. Two are equal that are the same number, whatever their units are, and so they are ordered; shown, a cost is that
/// number as an exact decimal in its shortest form.
///
/// ```
/// use yeldmur::{Cost, Unit};
///
/// let fine = Cost { units: 448, unit: Unit::Of256 };
/// assert_eq!(fine.to_string(), "1.75");
/// assert_eq!(fine.as_f64(), 1.75);
/// assert_eq!(fine, Cost { units: 112, unit: Unit::Of64 });
/// assert!(fine < Cost { units: 113, unit: Unit::Of64 });
/// assert_eq!(Cost { units: -1, unit: Unit::Of256 }.to_string(), "-0.00390625");
/// ```
#[derive(Clone, Copy, Debug)]
pub struct Cost {
    /// How many units.
    pub units: i32,
    /// What they are.
    pub unit: Unit,
}

impl Cost {
    /// The same number in double precision, exactly.
    pub fn as_f64(self) -> f64 {
        f64::from(self.units) / f64::from(self.unit.count())
    }

    // How many of the finest unit it is, by which costs compare.
    fn finest(self) -> i64 {
        let of_256 = Unit::Of256.count() / self.unit.count();
        i64::from(self.units) * i64::from(of_256)
    }
}

impl PartialEq for Cost {
    fn eq(&self, other: &Cost) -> bool {
        self.finest() == other.finest()
    }
}

impl Eq for Cost {}

impl PartialOrd for Cost {
    fn partial_cmp(&self, other: &Cost) -> Option<Ordering> {
        Some(self.cmp(other))
    }
}

impl Ord for Cost {
    fn cmp(&self, other: &Cost) -> Ordering {
        self.finest().cmp(&other.finest())
    }
}

impl Hash for Cost {
    fn hash<H: Hasher>(&self, state: &mut H) {
        self.finest().hash(state);
    }
}

/// As a decimal without an exponent, such as `1.75`, `-0.00390625` or `0`; all digits, whatever precision is asked for.
impl fmt::Display for Cost {
    fn fmt(&self, f: &mut fmt::Formatter<'_>) -> fmt::Result {
        // one 256th is 390,625 hundred-millionths, so that eight digits behind the point are enough
        let (size, count) = (self.units.unsigned_abs(), self.unit.count());
        let part = size % count * (100_000_000 / count);
        let digits = format!("{}.{part:08}", size / count);
        let shortest = digits.trim_end_matches('0').trim_end_matches('.');
        f.pad_integral(self.units >= 0, "", shortest)
    }
}

/// How many units a weight or a distance is. None of [`BARRED`], which is not to be taken for a large number of them, nor of what is no
/// whole number of them: of a sheet's weights and distances by the sheet's own [`unit`](crate::Sheet::unit) none but `BARRED` is that.
///
/// ```
/// use yeldmur::{units, Unit, BARRED};
///
/// assert_eq!(units(-1.75, Unit::Of64), Some(-112));
/// assert_eq!(units(-1.75, Unit::Of256), Some(-448));
/// assert_eq!(units(0.00390625, Unit::Of256), Some(1));
/// assert_eq!(units(0.00390625, Unit::Of64), None);
/// assert_eq!(units(BARRED, Unit::Of256), None);
/// ```
pub fn units(weight: f32, unit: Unit) -> Option<i32> {
    // a power of two times as much, and so exact
    let units = weight * unit.count() as f32;
    let whole = units as i32;
    (f64::from(whole) == f64::from(units)).then_some(whole)
}

/// So many units as a weight: exactly, up to 2^24 of them, the most that a cost can be.
pub(crate) fn weight(units: i32, unit: Unit) -> f32 {
    units as f32 / unit.count() as f32
}
