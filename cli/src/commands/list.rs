//! `list` and `best`: the cheapest readings, for people and for programs. Of several lists the longest is shown, and of the others what differs.
#![forbid(unsafe_code)]

use std::iter::once;

use yeldmur::{Areas, Cost, Link, List, Reading, Refusal, Sheet, Unit};

use super::table::table;
use super::{counted, document, line, parts_of_one, Trouble};
use crate::args::{Command, Counts, Options};
use crate::input::{Input, Source};
use crate::json::{quoted, Object};

// How many readings are listed where nothing is said.
const USUAL: u32 = 10;

pub(super) fn answer(
    options: &Options,
    areas: &mut Areas,
    source: &Source,
    input: &Input,
) -> Result<Vec<u8>, Trouble> {
    let unsaid = match options.command {
        Command::Best => Counts::one(1),
        _ => Counts::one(USUAL),
    };
    let counts = options.counts.as_ref().unwrap_or(&unsaid);
    let sheet = input.sheet_to_search()?;
    let lists = Lists::of(areas, &sheet, counts)?;
    if options.json {
        return Ok(for_programs(source, sheet.unit(), &lists));
    }
    Ok(for_people(sheet.unit(), &lists).into_bytes())
}

struct Lists {
    longest: Shown,
    // in the rising order of their counts, with the rows that the longest has not
    shorter: Vec<Shown>,
}

impl Lists {
    // Each count is a call of its own: what a list holds where costs tie only its own call tells.
    fn of(areas: &mut Areas, sheet: &Sheet, counts: &Counts) -> Result<Lists, Refusal> {
        let n = counts.longest();
        // the longest first: the areas that it needs do for the others
        let longest = Shown::of(n, &areas.list(sheet, n)?, |_| true);
        // at a rank all cost the same, as is proved; a row that did not would be shown, too
        let differs = |row: &Row| longest.rows.get(row.rank - 1) != Some(row);
        let mut shorter = Vec::new();
        for &n in counts.shorter() {
            shorter.push(Shown::of(n, &areas.list(sheet, n)?, differs));
        }
        Ok(Lists { longest, shorter })
    }
}

// What is shown of a list. It is kept apart from the areas that the list was made in, since the next is made there.
struct Shown {
    count: u32,
    readings: usize,
    taken: u32,
    rows: Vec<Row>,
}

impl Shown {
    fn of(count: u32, list: &List, shown: impl Fn(&Row) -> bool) -> Shown {
        let ranked = list.readings().zip(1..);
        let rows = ranked.map(|(reading, rank)| Row::of(rank, reading));
        Shown {
            count,
            readings: list.len(),
            taken: list.taken(),
            rows: rows.filter(shown).collect(),
        }
    }

    fn head(&self) -> String {
        let readings = counted(self.readings, "reading");
        format!("{readings}, {} entries taken\n", self.taken)
    }
}

// A reading of a list.
#[derive(PartialEq)]
struct Row {
    rank: usize,
    cost: Cost,
    end: u32,
    numbers: Vec<u32>,
    links: Vec<Link>,
}

impl Row {
    fn of(rank: usize, reading: Reading) -> Row {
        Row {
            rank,
            cost: reading.cost_with_unit(),
            end: reading.end(),
            numbers: reading.numbers().collect(),
            links: reading.links().collect(),
        }
    }

    fn cells(&self) -> [String; 5] {
        let labels: Vec<String> = self.links.iter().map(|l| l.ilabel.to_string()).collect();
        [
            self.rank.to_string(),
            self.cost.to_string(),
            self.cost.units.to_string(),
            self.end.to_string(),
            labels.join(" "),
        ]
    }

    fn document(&self) -> String {
        Object::new()
            .value("rank", self.rank)
            .value("cost", quoted(&self.cost.to_string()))
            .value("units", self.cost.units)
            .value("end", self.end)
            .list("links", &self.numbers)
            .list("ilabels", self.links.iter().map(|link| link.ilabel))
            .list("olabels", self.links.iter().map(|link| link.olabel))
            .end()
    }
}

fn for_people(unit: Unit, lists: &Lists) -> String {
    let Lists { longest, shorter } = lists;
    let names = ["rank", "cost", parts_of_one(unit), "end", "labels"].map(String::from);
    let rows = once(longest).chain(shorter).flat_map(|list| &list.rows);
    let cells: Vec<_> = once(names).chain(rows.map(Row::cells)).collect();
    // all rows are of one table, so that those below it are aligned, too
    let table = table(&cells, 4);
    let mut lines = table.split_inclusive('\n');
    let mut text = longest.head();
    for place in 0..=longest.readings {
        // names stand over rows alone
        text.extend(lines.next().filter(|_| longest.readings > 0));
        let ends = |list: &&Shown| longest.readings.min(list.count as usize) == place;
        for list in shorter.iter().filter(ends) {
            text += &format!("-- list for {}: {}", list.count, list.head());
        }
    }
    for list in shorter.iter().filter(|list| !list.rows.is_empty()) {
        let count = list.count;
        text += &format!("list for {count}: other readings of the same cost at these ranks:\n");
        text.extend(lines.by_ref().take(list.rows.len()));
    }
    text
}

fn for_programs(source: &Source, unit: Unit, lists: &Lists) -> Vec<u8> {
    let Lists { longest, shorter } = lists;
    let list = document(source)
        .value("unit", unit.count())
        .value("readings", longest.readings)
        .value("taken", longest.taken)
        .list("list", longest.rows.iter().map(Row::document));
    if shorter.is_empty() {
        return line(list);
    }
    let shorter = shorter.iter().map(|list| {
        Object::new()
            .value("count", list.count)
            .value("readings", list.readings)
            .value("taken", list.taken)
            .list("differ", list.rows.iter().map(Row::document))
            .end()
    });
    line(list.list("shorter", shorter))
}
