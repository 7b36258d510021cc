//! The faults of what two machines both allow, where each is accepted by itself, their units are equal and their labels are no fault.
#![forbid(unsafe_code)]

use std::collections::HashMap;

use yeldmur::{units, Cost, Link, Sheet, Unit, LINK_LIMIT, NODE_LIMIT, WEIGHT_LIMIT};

use super::weight::largest;
use super::{Fault, Place};

// The second's links by label, with their numbers.
type ByLabel = HashMap<u32, Vec<(usize, Link)>>;

/// The first fault of the two together, in the order of the refusals, or none.
pub fn fault(first: &Sheet, second: &Sheet) -> Option<Fault> {
    let mut seconds = ByLabel::new();
    for (number, link) in second.links().enumerate() {
        seconds.entry(link.ilabel).or_default().push((number, link));
    }
    nodes(first, second)
        .or_else(|| links(first, &seconds))
        .or_else(|| link_sums(first, &seconds))
        .or_else(|| final_sums(first, second))
}

fn nodes(first: &Sheet, second: &Sheet) -> Option<Fault> {
    let (one, other) = (first.node_count(), second.node_count());
    let nodes = u64::from(one) * u64::from(other);
    let why = format!("{one} x {other} nodes are {nodes}, and {NODE_LIMIT} is the most");
    (nodes > u64::from(NODE_LIMIT)).then(|| Fault::new(11, Place::Whole, why))
}

fn links(first: &Sheet, seconds: &ByLabel) -> Option<Fault> {
    let partners = |link: Link| seconds.get(&link.ilabel).map_or(0, Vec::len);
    let pairs: usize = first.links().map(partners).sum();
    let why = format!("{pairs} pairs of links have one label, and {LINK_LIMIT} is the most");
    (pairs > LINK_LIMIT as usize).then(|| Fault::new(11, Place::Whole, why))
}

fn link_sums(first: &Sheet, seconds: &ByLabel) -> Option<Fault> {
    first.links().enumerate().find_map(|(number, one)| {
        let partners = seconds.get(&one.ilabel)?;
        partners.iter().find_map(|(partner, other)| {
            let sum = beyond(first.unit(), one.weight, other.weight)?;
            let why = format!(
                "link {number} of the first and link {partner} of the second, both with label {}: {sum}",
                one.ilabel
            );
            Some(Fault::new(12, Place::Whole, why))
        })
    })
}

fn final_sums(first: &Sheet, second: &Sheet) -> Option<Fault> {
    let finals = |sheet: &Sheet| -> Vec<(usize, f32)> {
        let nodes = sheet.finals().enumerate();
        nodes
            .filter_map(|(node, weight)| Some((node, weight?)))
            .collect()
    };
    let seconds = finals(second);
    finals(first).into_iter().find_map(|(node, one)| {
        seconds.iter().find_map(|&(partner, other)| {
            let sum = beyond(first.unit(), one, other)?;
            let why = format!("node {node} of the first and node {partner} of the second: {sum}");
            Some(Fault::new(12, Place::Whole, why))
        })
    })
}

// Two weights whose sum is finite and off the grid, in words. Sums of whole units are whole.
fn beyond(unit: Unit, one: f32, other: f32) -> Option<String> {
    let cost = |weight| units(weight, unit).map(|units| Cost { units, unit });
    let (one, other) = (cost(one)?, cost(other)?);
    let off = (one.units + other.units).abs() > WEIGHT_LIMIT;
    let largest = largest(unit);
    off.then(|| format!("{one} + {other} is more than {largest} either way"))
}

#[cfg(test)]
mod tests {
    use super::*;

    fn found(first: &str, second: &str) -> String {
        let [first, second] = [first, second].map(|text| text.parse().unwrap());
        let fault = fault(&first, &second);
        fault.map_or("none".to_string(), |f| format!("{} {f}", f.number))
    }

    #[test]
    fn places() {
        let many = |count: usize| "0 1 7 7\n".repeat(count);
        for (first, second, said) in [
            ("0 1 7 7 64\n1\n", "0 1 7 7 64\n1\n", "none"),
            ("0 1 7 7 Infinity\n1 128\n", "0 1 7 7 128\n1 Infinity\n", "none"),
            ("45\n", "45\n", "11 46 x 46 nodes are 2116, and 2048 is the most"),
            (
                "0 1 8 8\n0 1 7 7 128\n",
                "0 1 7 7\n1 2 7 7 0.015625\n2 200 8 8\n",
                "12 link 1 of the first and link 1 of the second, both with label 7: \
                 128 + 0.015625 is more than 128 either way",
            ),
            (
                "0 1 7 7\n1 -100\n",
                "0\n1 -28.5\n",
                "12 node 1 of the first and node 1 of the second: -100 + -28.5 is more than 128 either way",
            ),
        ] {
            assert_eq!(found(first, second), said, "{first:?} {second:?}");
        }
        assert_eq!(found(&many(128), &many(128)), "none");
        let more = "11 16512 pairs of links have one label, and 16384 is the most";
        assert_eq!(found(&many(129), &many(128)), more);
    }

    #[test]
    fn sums_of_the_finer_unit() {
        let final_at = |weight| Sheet::write_in(&[], &[Some(weight)], None, Unit::Of256).unwrap();
        assert_eq!(fault(&final_at(31.5), &final_at(0.5)), None);
        let found = fault(&final_at(32.0), &final_at(0.00390625)).unwrap();
        let said = "node 0 of the first and node 0 of the second: 32 + 0.00390625 is more than 32 either way";
        assert_eq!((found.number, found.to_string().as_str()), (12, said));
    }
}
