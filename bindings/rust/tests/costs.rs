//! Costs with their units, from lists of sheets in both: how they compare, and how they are shown; and weights in units.
#![forbid(unsafe_code)]

mod common;

use std::collections::HashSet;

use common::{link, write, Random, NONE};
use yeldmur::{list, units, Cost, Link, Unit, BARRED};

const UNITS: [Unit; 2] = [Unit::Of64, Unit::Of256];

// One after the other by cost, from sheets in both units, each shown as it is.
#[test]
fn mixed_costs() {
    let of = |weights: &[f32], said: Option<Unit>| {
        let links: Vec<Link> = weights.iter().map(|&w| link(0, 7, w, 1)).collect();
        write(&links, &[None, Some(0.0)], Some(0), said).unwrap()
    };
    let old = of(&[1.75, -0.015625, 0.0], None);
    let coarse = of(&[1.765625], Some(Unit::Of64));
    let fine = of(
        &[1.75, 1.75390625, -0.00390625, -0.01953125, 32.0],
        Some(Unit::Of256),
    );
    let lists = [&old, &coarse, &fine].map(|sheet| list(sheet, 64).unwrap());
    let all = lists.iter().flat_map(|list| list.readings());
    let mut costs: Vec<Cost> = all.map(|reading| reading.cost_with_unit()).collect();
    costs.sort();
    let shown: Vec<String> = costs.iter().map(Cost::to_string).collect();
    #[rustfmt::skip]
    let due = ["-0.01953125", "-0.015625", "-0.00390625", "0", "1.75", "1.75", "1.75390625", "1.765625", "32"];
    assert_eq!(shown, due);
    let numbers: Vec<i32> = costs.iter().map(|cost| cost.units).collect();
    assert_eq!(numbers, [-5, -1, -1, 0, 112, 448, 449, 113, 8192]);
}

fn cost(units: i32, unit: Unit) -> Cost {
    Cost { units, unit }
}

// Read back in double precision, which has all of them exactly.
#[test]
fn costs_shown() {
    for unit in UNITS {
        let ends = [
            1 << 24,
            (1 << 24) - 1,
            i32::MAX,
            i32::MAX - 1,
            i32::MIN,
            i32::MIN + 1,
        ];
        let drawn = (0..20_000).map(|k| k * 107_374 - i32::MAX / 2);
        for units in (-9000..=9000).chain(ends).chain(drawn) {
            let cost = cost(units, unit);
            let shown = cost.to_string();
            let back: f64 = shown.parse().unwrap();
            assert_eq!(back * f64::from(unit.count()), f64::from(units), "{shown}");
            assert_eq!(cost.as_f64(), back);
            let shortest = !shown.contains('.') || !shown.ends_with(['0', '.']);
            assert!(shortest && shown != "-0", "{shown}");
        }
    }
}

#[test]
fn costs_in_their_shortest_form() {
    for (units, unit, shown) in [
        (0, Unit::Of256, "0"),
        (1, Unit::Of256, "0.00390625"),
        (-1, Unit::Of256, "-0.00390625"),
        (255, Unit::Of256, "0.99609375"),
        (448, Unit::Of256, "1.75"),
        (-8192, Unit::Of256, "-32"),
        (2560, Unit::Of256, "10"),
        (1, Unit::Of64, "0.015625"),
        (-112, Unit::Of64, "-1.75"),
        (8192, Unit::Of64, "128"),
        (i32::MIN, Unit::Of256, "-8388608"),
        (i32::MAX, Unit::Of256, "8388607.99609375"),
        (i32::MAX, Unit::Of64, "33554431.984375"),
    ] {
        assert_eq!(cost(units, unit).to_string(), shown);
    }
    // width as numbers have it, and no digit lost to a precision
    let one = cost(-448, Unit::Of256);
    assert_eq!(
        format!("{one:8}|{one:<8}|{one:.1}"),
        "   -1.75|-1.75   |-1.75"
    );
    assert_eq!(format!("{} {:>6}", Unit::Of64, Unit::Of256), "1/64  1/256");
}

#[test]
fn costs_compared() {
    let [coarse, fine] = UNITS;
    assert_eq!(cost(112, coarse), cost(448, fine));
    assert_ne!(cost(112, coarse), cost(112, fine));
    assert!(cost(112, coarse) > cost(447, fine) && cost(112, coarse) < cost(449, fine));
    assert!(cost(-1, coarse) < cost(-1, fine) && cost(1, coarse) > cost(1, fine));
    // four times as much is no 32-bit number
    assert!(cost(i32::MAX, coarse) > cost(i32::MAX, fine));
    assert!(cost(i32::MIN, coarse) < cost(i32::MIN, fine));
    let once: HashSet<Cost> = [cost(112, coarse), cost(448, fine), cost(112, fine)].into();
    assert_eq!(once.len(), 2);
    let mut random = Random(21);
    for _ in 0..1000 {
        let mut draw = || {
            let unit = UNITS[random.below(2) as usize];
            cost(random.below(2000) as i32 - 1000, unit)
        };
        let (one, other) = (draw(), draw());
        let due = one.as_f64().partial_cmp(&other.as_f64());
        assert_eq!(one.partial_cmp(&other), due);
        assert_eq!(one == other, due == Some(std::cmp::Ordering::Equal));
    }
}

#[test]
fn weights_in_units() {
    for unit in UNITS {
        let count = unit.count() as f32;
        assert_eq!(Unit::from_count(unit.count()), Some(unit));
        for k in (-8192..=8192).chain([1 << 24, -(1 << 24)]) {
            assert_eq!(units(k as f32 / count, unit), Some(k));
        }
        for weight in [
            0.5 / count,
            8191.5 / count,
            BARRED,
            f32::NEG_INFINITY,
            f32::NAN,
            f32::MAX,
            f32::from_bits(1),
            2147483648.0 / count,
        ] {
            assert_eq!(units(weight, unit), None, "{weight}");
        }
    }
    for count in [0, 1, 63, 65, 128, 255, 512, NONE] {
        assert_eq!(Unit::from_count(count), None);
    }
}
