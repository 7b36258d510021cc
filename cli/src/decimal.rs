//! Weights as exact decimals. Those of costs are the crate's own.
#![forbid(unsafe_code)]

use std::fmt;

use yeldmur::{units, Cost, Unit};

/// How rows write the weight of what is barred.
pub const INFINITY: &str = "Infinity";

/// A weight of a sheet in its shortest form, as rows have it: `Infinity` where it is barred.
#[derive(Clone, Copy, Debug, PartialEq)]
pub struct Weight(pub f32);

impl fmt::Display for Weight {
    fn fmt(&self, f: &mut fmt::Formatter<'_>) -> fmt::Result {
        // a whole number of the coarser unit is one of the finer, too
        let unit = Unit::Of256;
        match units(self.0, unit) {
            Some(units) => Cost { units, unit }.fmt(f),
            None => f.pad(INFINITY),
        }
    }
}

#[cfg(test)]
mod tests {
    use super::*;

    #[test]
    fn shortest_forms() {
        for (weight, text) in [
            (0.0, "0"),
            (0.5, "0.5"),
            (10.0, "10"),
            (100.0, "100"),
            (-1.75, "-1.75"),
            (1.0 / 64.0, "0.015625"),
            (-63.0 / 64.0, "-0.984375"),
            (1.0 / 256.0, "0.00390625"),
            (-1.0 / 256.0, "-0.00390625"),
            (8191.0 / 256.0, "31.99609375"),
            (-128.0, "-128"),
            (yeldmur::BARRED, "Infinity"),
        ] {
            assert_eq!(Weight(weight).to_string(), text);
        }
        assert_eq!(format!("{:>8}|", Weight(1.75)), "    1.75|");
    }

    // Read back in double precision, which has all of them exactly.
    #[test]
    fn every_weight() {
        for units in -8_192..=8_192 {
            for count in [64.0, 256.0] {
                let weight = units as f32 / count;
                let read: f64 = Weight(weight).to_string().parse().unwrap();
                assert_eq!(read * f64::from(count), f64::from(units));
            }
        }
    }
}
