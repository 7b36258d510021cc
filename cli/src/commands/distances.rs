//! `distances`: the least cost of a way to each node.
#![forbid(unsafe_code)]

use yeldmur::{units, Areas, Cost, Unit};

use super::table::table;
use super::{document, line, parts_of_one, Trouble};
use crate::args::Options;
use crate::input::{Input, Source};
use crate::json::{quoted, Object};

pub(super) fn answer(
    options: &Options,
    areas: &mut Areas,
    source: &Source,
    input: &Input,
) -> Result<Vec<u8>, Trouble> {
    let sheet = input.sheet_to_search()?;
    let unit = sheet.unit();
    let cost = |distance| units(distance, unit).map(|units| Cost { units, unit });
    let costs = areas
        .distances(&sheet)?
        .map(|distance| distance.and_then(cost))
        .enumerate();
    if options.json {
        return Ok(for_programs(source, unit, costs));
    }
    Ok(for_people(unit, costs).into_bytes())
}

fn for_people(unit: Unit, costs: impl Iterator<Item = (usize, Option<Cost>)>) -> String {
    let names = ["node", "cost", parts_of_one(unit)].map(String::from);
    let nodes = costs.map(|(node, cost)| {
        let (decimal, units) = match cost {
            Some(cost) => (cost.to_string(), cost.units.to_string()),
            None => ("unreached".to_string(), String::new()),
        };
        [node.to_string(), decimal, units]
    });
    let rows: Vec<_> = std::iter::once(names).chain(nodes).collect();
    match rows.len() {
        1 => "no start, no distances\n".to_string(),
        _ => table(&rows, 3),
    }
}

fn for_programs(
    source: &Source,
    unit: Unit,
    costs: impl Iterator<Item = (usize, Option<Cost>)>,
) -> Vec<u8> {
    let nodes = costs.map(|(node, cost)| {
        Object::new()
            .value("node", node)
            .option("cost", cost.map(|cost| quoted(&cost.to_string())))
            .option("units", cost.map(|cost| cost.units))
            .end()
    });
    let document = document(source).value("unit", unit.count());
    line(document.list("distances", nodes))
}
