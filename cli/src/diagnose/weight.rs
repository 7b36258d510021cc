//! Which weights are accepted, on the grid or barred, and why others are not.
#![forbid(unsafe_code)]

use yeldmur::{Cost, Unit, BARRED, WEIGHT_LIMIT};

use crate::decimal::INFINITY;

// The millionths of a sixty-fourth, the unit of rows.
const MILLIONTHS: u32 = 15_625;

/// The largest weight in a unit.
pub(super) fn largest(unit: Unit) -> u32 {
    WEIGHT_LIMIT as u32 / unit.count()
}

fn not_whole(unit: Unit) -> String {
    let units = match unit {
        Unit::Of64 => "sixty-fourths",
        Unit::Of256 => "256ths",
    };
    format!("is no whole number of {units}")
}

/// Why the weight of these bits is off the grid of a unit, or none where it is on it or barred.
pub(super) fn why_not_bits(bits: u32, unit: Unit) -> Option<String> {
    if bits == BARRED.to_bits() {
        return None;
    }
    let weight = f32::from_bits(bits);
    // exact in double precision
    let units = f64::from(weight) * f64::from(unit.count());
    let reason = if weight.is_nan() {
        "is no number".to_string()
    } else if bits == (-0.0f32).to_bits() {
        "is negative zero".to_string()
    } else if weight == -BARRED {
        "is negative infinity".to_string()
    } else if units.abs() > f64::from(WEIGHT_LIMIT) {
        format!("is beyond {}", largest(unit))
    } else if units.fract() != 0.0 {
        not_whole(unit)
    } else {
        return None;
    };
    Some(format!("{weight} (bits {bits:08x}) {reason}"))
}

/// A weight as a row has it, exactly.
pub(super) enum Written<'a> {
    Barred,
    Number(Number<'a>),
}

impl<'a> Written<'a> {
    /// Reads a field: a number, or `Infinity` in this spelling alone.
    pub(super) fn read(field: &'a [u8]) -> Option<Written<'a>> {
        if field == INFINITY.as_bytes() {
            return Some(Written::Barred);
        }
        Number::read(field).map(Written::Number)
    }

    /// Why it is off the grid, or none where it is on it or barred.
    pub(super) fn why_not(&self) -> Option<String> {
        match self {
            Written::Barred => None,
            Written::Number(number) => number.why_not(),
        }
    }
}

pub(super) struct Number<'a> {
    negative: bool,
    // digits before the point, without zeros in front
    ones: &'a [u8],
    millionths: u32,
}

impl<'a> Number<'a> {
    // Digits, perhaps a minus sign before, perhaps a point and one to six digits after.
    fn read(field: &'a [u8]) -> Option<Number<'a>> {
        let (negative, size) = match field.strip_prefix(b"-") {
            Some(size) => (true, size),
            None => (false, field),
        };
        let point = size.iter().position(|&byte| byte == b'.');
        let (ones, part) = match point {
            Some(at) => (&size[..at], &size[at + 1..]),
            None => (size, &b"0"[..]),
        };
        if !are_digits(ones) || !are_digits(part) || part.len() > 6 {
            return None;
        }
        let zeros = ones.iter().take_while(|&&byte| byte == b'0').count();
        let millionths = (0..6).fold(0, |sum, place| {
            10 * sum + part.get(place).map_or(0, |digit| u32::from(digit - b'0'))
        });
        Some(Number {
            negative,
            ones: &ones[zeros..],
            millionths,
        })
    }

    fn why_not(&self) -> Option<String> {
        let (unit, largest) = (Unit::Of64, largest(Unit::Of64));
        // more than three digits are beyond all limits
        let ones = match self.ones.len() {
            0..=3 => self
                .ones
                .iter()
                .fold(0, |sum, digit| 10 * sum + u32::from(digit - b'0')),
            _ => largest + 1,
        };
        if ones > largest || (ones == largest && self.millionths > 0) {
            return Some(format!("is beyond {largest}"));
        }
        let (units, over) = (self.millionths / MILLIONTHS, self.millionths % MILLIONTHS);
        if over == 0 {
            return None;
        }
        let below = (unit.count() * ones + units) as i32;
        let sign = if self.negative { -1 } else { 1 };
        let [one, other] = [below, below + 1].map(|units| {
            let units = sign * units;
            Cost { units, unit }
        });
        let reason = not_whole(unit);
        Some(format!("{reason}; {one} and {other} are the nearest"))
    }
}

/// Whether there are digits, and nothing else.
pub(super) fn are_digits(text: &[u8]) -> bool {
    !text.is_empty() && text.iter().all(u8::is_ascii_digit)
}

#[cfg(test)]
mod tests {
    use super::*;

    #[test]
    fn bits_on_the_grid() {
        for unit in [Unit::Of64, Unit::Of256] {
            for units in -8_192..=8_192 {
                let weight = units as f32 / unit.count() as f32;
                assert_eq!(why_not_bits(weight.to_bits(), unit), None);
            }
            assert_eq!(why_not_bits(BARRED.to_bits(), unit), None);
        }
        for (weight, coarse, fine) in [
            (f32::NAN, "is no number", "is no number"),
            (f32::from_bits(0x7F80_0001), "is no number", "is no number"),
            (f32::MAX, "is beyond 128", "is beyond 32"),
            (
                f32::NEG_INFINITY,
                "is negative infinity",
                "is negative infinity",
            ),
            (-0.0, "is negative zero", "is negative zero"),
            (
                0.3,
                "is no whole number of sixty-fourths",
                "is no whole number of 256ths",
            ),
            (
                f32::from_bits(1),
                "is no whole number of sixty-fourths",
                "is no whole number of 256ths",
            ),
            (128.00002, "is beyond 128", "is beyond 32"),
            (
                -8193.0 / 256.0,
                "is no whole number of sixty-fourths",
                "is beyond 32",
            ),
            (1.0 / 128.0, "is no whole number of sixty-fourths", ""),
            (33.0, "", "is beyond 32"),
        ] {
            for (unit, reason) in [(Unit::Of64, coarse), (Unit::Of256, fine)] {
                let why = why_not_bits(weight.to_bits(), unit);
                assert_eq!(why.is_none(), reason.is_empty(), "{weight} {unit}");
                assert!(
                    why.is_none_or(|why| why.ends_with(reason)),
                    "{weight} {unit}"
                );
            }
        }
    }

    #[test]
    fn written_weights() {
        for text in [
            "",
            "-",
            ".5",
            "1.",
            "1.0000000",
            "+1",
            "--1",
            "1e3",
            "1.5.0",
            "1 ",
            "infinity",
            "Infinit",
            "Infinity1",
            "-Infinity",
            "inf",
        ] {
            assert!(Written::read(text.as_bytes()).is_none(), "{text:?}");
        }
        let why_not = |text: &'static str| Written::read(text.as_bytes()).unwrap().why_not();
        for text in [
            "0",
            "-0",
            "00128.000",
            "-128",
            "0.015625",
            "0000127.984375",
            "Infinity",
        ] {
            assert_eq!(why_not(text), None, "{text}");
        }
        for text in ["128.000001", "-129", "1280", "99999999999999999999", "0999"] {
            assert_eq!(why_not(text).unwrap(), "is beyond 128", "{text}");
        }
        assert_eq!(
            why_not("-0.3").unwrap(),
            "is no whole number of sixty-fourths; -0.296875 and -0.3125 are the nearest"
        );
        assert_eq!(
            why_not("0.001").unwrap(),
            "is no whole number of sixty-fourths; 0 and 0.015625 are the nearest"
        );
    }
}
