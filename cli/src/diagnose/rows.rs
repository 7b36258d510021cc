//! The faults of text rows.
#![forbid(unsafe_code)]

use std::collections::HashMap;

use yeldmur::{Unit, LINK_LIMIT, NODE_LIMIT};

use super::weight::{are_digits, Written};
use super::{Fault, Place, Tests};

// A field of a row, and the column where it begins.
#[derive(Clone, Copy)]
struct Field<'a> {
    column: usize,
    text: &'a [u8],
}

// A field that is read as a whole number: a node or a label.
#[derive(Clone, Copy)]
struct Whole {
    column: usize,
    number: u32,
}

// A row that can be read, with its number from 1.
struct Row<'a> {
    row: usize,
    // the source or the final node
    node: Whole,
    // of a link: where it leads, and its two labels
    next: Option<Whole>,
    labels: Option<[Whole; 2]>,
    weight: Option<(Field<'a>, Written<'a>)>,
}

impl Row<'_> {
    fn nodes(&self) -> impl Iterator<Item = Whole> {
        [Some(self.node), self.next].into_iter().flatten()
    }

    fn fault(&self, number: u32, column: usize, why: impl Into<String>) -> Fault {
        let row = self.row;
        Fault::new(number, Place::Text { row, column }, why)
    }
}

/// The first fault that these tests find: each test goes over the whole text before the next.
pub(super) fn fault(text: &[u8], tests: Tests) -> Option<Fault> {
    let rows = match read(text) {
        Ok(rows) => rows,
        Err(fault) => return Some(fault),
    };
    let read = number_too_high(&rows).or_else(|| off_the_grid(&rows));
    read.or_else(|| match tests {
        Tests::Search => limits(&rows).or_else(|| climb(&rows)),
        Tests::Labels => limits(&rows)
            .or_else(|| climb(&rows))
            .or_else(|| labels(&rows)),
        Tests::Second(unit) => unequal(unit)
            .or_else(|| limits(&rows))
            .or_else(|| climb(&rows)),
        Tests::Narrow(c) => limits(&rows)
            .or_else(|| climb(&rows))
            .or_else(|| narrow(&rows, c)),
        // rows that can be read give a sheet that has rows
        Tests::Rows => None,
    })
}

// All rows, or the first that cannot be read or is a node's second final row.
fn read(text: &[u8]) -> Result<Vec<Row<'_>>, Fault> {
    if text.is_empty() {
        return Err(Fault::new(8, Place::Whole, "the text is empty"));
    }
    let mut rows = Vec::new();
    let mut finals = HashMap::new();
    for (place, line) in text.split_inclusive(|&byte| byte == b'\n').enumerate() {
        let row = read_row(place + 1, line)?;
        if row.next.is_none() {
            if let Some(first) = finals.insert(row.node.number, row.row) {
                let number = row.node.number;
                let why = format!("a second final row for node {number}, which row {first} is");
                return Err(row.fault(8, row.node.column, why));
            }
        }
        rows.push(row);
    }
    Ok(rows)
}

fn read_row(row: usize, line: &[u8]) -> Result<Row<'_>, Fault> {
    let at = |(column, why): (usize, String)| Fault::new(8, Place::Text { row, column }, why);
    let (fields, weight) = parts(line).map_err(at)?;
    let numbers = fields.iter().map(number).collect::<Result<Vec<_>, _>>();
    let numbers = numbers.map_err(at)?;
    let weight = weight.map(written).transpose().map_err(at)?;
    Ok(Row {
        row,
        node: numbers[0],
        next: numbers.get(1).copied(),
        labels: numbers.get(2..4).map(|labels| [labels[0], labels[1]]),
        weight,
    })
}

type Wrong = (usize, String);

// The fields of a row that are whole numbers, one or four, and the weight where there is one.
fn parts(line: &[u8]) -> Result<(Vec<Field<'_>>, Option<Field<'_>>), Wrong> {
    let Some(line) = line.strip_suffix(b"\n") else {
        return Err((line.len() + 1, "no newline ends the last row".to_string()));
    };
    let mut fields = fields(line);
    if let Some(field) = fields.last().filter(|field| field.text.ends_with(b"\r")) {
        let why = "a carriage return: a newline alone ends a row";
        return Err((field.column + field.text.len() - 1, why.to_string()));
    }
    match fields.len() {
        0 => Err((1, "a blank row".to_string())),
        1 | 4 => Ok((fields, None)),
        2 | 5 => {
            let weight = fields.pop();
            Ok((fields, weight))
        }
        count => {
            let why = format!("{count} fields: a final row has one or two, a link four or five");
            Err((fields[count.min(6) - 1].column, why))
        }
    }
}

fn fields(line: &[u8]) -> Vec<Field<'_>> {
    let mut fields = Vec::new();
    let mut column = 1;
    for text in line.split(|&byte| byte == b' ' || byte == b'\t') {
        if !text.is_empty() {
            fields.push(Field { column, text });
        }
        column += text.len() + 1;
    }
    fields
}

fn number(field: &Field) -> Result<Whole, Wrong> {
    let column = field.column;
    if field.text.starts_with("\u{feff}".as_bytes()) {
        return Err((column, "a byte order mark, which no row has".to_string()));
    }
    if !are_digits(field.text) {
        return Err((column, format!("{} is no whole number", shown(field.text))));
    }
    let value = field.text.iter().try_fold(0u32, |value, digit| {
        value.checked_mul(10)?.checked_add(u32::from(digit - b'0'))
    });
    let high = || format!("{} is above 4294967295", shown(field.text));
    let number = value.ok_or_else(|| (column, high()))?;
    Ok(Whole { column, number })
}

fn written(field: Field) -> Result<(Field, Written), Wrong> {
    let why = || {
        let rule = "digits, perhaps a minus sign before and a point with one to six digits after, or Infinity";
        format!("{} is no weight: {rule}", shown(field.text))
    };
    let weight = Written::read(field.text).ok_or_else(|| (field.column, why()))?;
    Ok((field, weight))
}

// A field as it can be printed, cut where it is long.
fn shown(text: &[u8]) -> String {
    const MOST: usize = 40;
    let cut = &text[..text.len().min(MOST)];
    let dots = if text.len() > MOST { "..." } else { "" };
    format!("{}{dots}", cut.escape_ascii())
}

// Nodes and 16 times the links have to fit 32 bits.
fn number_too_high(rows: &[Row]) -> Option<Fault> {
    let too_high = rows.iter().find_map(|row| {
        let node = row.nodes().find(|node| node.number == u32::MAX)?;
        Some(row.fault(
            1,
            node.column,
            "node 4294967295 is one too many: no sheet counts so many",
        ))
    });
    let links = || rows.iter().filter(|row| row.next.is_some());
    too_high.or_else(|| {
        let row = links().nth(u32::MAX as usize / 16)?;
        Some(row.fault(1, 1, "no sheet has so many links"))
    })
}

fn off_the_grid(rows: &[Row]) -> Option<Fault> {
    rows.iter().find_map(|row| {
        let (field, weight) = row.weight.as_ref()?;
        let why = weight.why_not()?;
        Some(row.fault(4, field.column, format!("{} {why}", shown(field.text))))
    })
}

// Rows serve one unit alone.
fn unequal(unit: Unit) -> Option<Fault> {
    let rows = Unit::Of64;
    let why = format!("rows are of unit {rows}, and the first input's unit is {unit}");
    (unit != rows).then(|| Fault::new(14, Place::Whole, why))
}

fn limits(rows: &[Row]) -> Option<Fault> {
    let node = rows.iter().find_map(|row| {
        let node = row.nodes().find(|node| node.number >= NODE_LIMIT)?;
        let highest = NODE_LIMIT - 1;
        let why = format!("node {}, and {highest} is the highest", node.number);
        Some(row.fault(5, node.column, why))
    });
    node.or_else(|| {
        let mut links = rows.iter().filter(|row| row.next.is_some());
        let row = links.nth(LINK_LIMIT as usize)?;
        Some(row.fault(5, 1, format!("a link more than {LINK_LIMIT}, the most")))
    })
}

fn climb(rows: &[Row]) -> Option<Fault> {
    rows.iter().find_map(|row| {
        let (source, next) = (row.node.number, row.next?);
        let why = format!("leads from node {source} to node {}", next.number);
        (next.number <= source).then(|| row.fault(6, next.column, why))
    })
}

fn labels(rows: &[Row]) -> Option<Fault> {
    rows.iter().find_map(|row| {
        let [ilabel, olabel] = row.labels?;
        if ilabel.number == 0 {
            return Some(row.fault(10, ilabel.column, "the input label is 0"));
        }
        let why = format!(
            "input label {}, output label {}",
            ilabel.number, olabel.number
        );
        (ilabel.number != olabel.number).then(|| row.fault(10, olabel.column, why))
    })
}

fn narrow(rows: &[Row], c: u32) -> Option<Fault> {
    no_such_node(rows, c)
        .or_else(|| start_above(rows, c))
        .or_else(|| marked_below(rows, c))
        .or_else(|| leads_past(rows, c))
}

// The last node is the highest that is named.
fn no_such_node(rows: &[Row], c: u32) -> Option<Fault> {
    let named = rows
        .iter()
        .flat_map(|row| row.nodes().map(move |node| (row, node)));
    let (row, last) = named.reduce(|high, other| {
        let higher = other.1.number > high.1.number;
        if higher {
            other
        } else {
            high
        }
    })?;
    let why = format!(
        "node {} is the highest, and node {c} is above it",
        last.number
    );
    (last.number < c).then(|| row.fault(13, last.column, why))
}

fn start_above(rows: &[Row], c: u32) -> Option<Fault> {
    let first = rows.first()?;
    let start = first.node;
    let why = format!("the start is node {}, above node {c}", start.number);
    (c < start.number).then(|| first.fault(13, start.column, why))
}

fn marked_below(rows: &[Row], c: u32) -> Option<Fault> {
    rows.iter().find_map(|row| {
        let why = format!("node {} is final, below node {c}", row.node.number);
        let marked = row.next.is_none() && row.node.number < c;
        marked.then(|| row.fault(13, row.node.column, why))
    })
}

fn leads_past(rows: &[Row], c: u32) -> Option<Fault> {
    rows.iter().find_map(|row| {
        let (source, next) = (row.node.number, row.next?);
        let why = format!(
            "leads from node {source} past node {c} to node {}",
            next.number
        );
        (source < c && c < next.number).then(|| row.fault(13, next.column, why))
    })
}

#[cfg(test)]
mod tests {
    use super::*;

    fn found_by(text: &str, tests: Tests) -> String {
        let fault = fault(text.as_bytes(), tests);
        fault.map_or("none".to_string(), |f| format!("{} {f}", f.number))
    }

    fn found(text: &str) -> String {
        found_by(text, Tests::Search)
    }

    #[track_caller]
    fn all_found<const COUNT: usize>(cases: [(&str, &str); COUNT]) {
        for (text, said) in cases {
            assert_eq!(found(text), said, "{text:?}");
        }
    }

    #[test]
    fn labels_of_two_kinds() {
        for (text, said) in [
            ("0 1 7 7\n1\n", "none"),
            (
                "0 1 7 7\n1  2 0 0\n",
                "10 row 2, column 6: the input label is 0",
            ),
            (
                "1\n0 1 7 8 0.5\n",
                "10 row 2, column 7: input label 7, output label 8",
            ),
            (
                "0 1 7 0\n",
                "10 row 1, column 7: input label 7, output label 0",
            ),
            (
                "0 1 7 8\n1 1 0 0\n",
                "6 row 2, column 3: leads from node 1 to node 1",
            ),
        ] {
            assert_eq!(found_by(text, Tests::Labels), said, "{text:?}");
        }
        assert_eq!(found("0 1 7 8\n"), "none");
    }

    #[test]
    fn beside_a_sheet_of_the_finer_unit() {
        for (text, said) in [
            ("0 1 x 7\n", "8 row 1, column 5: x is no whole number"),
            ("0 129\n", "4 row 1, column 3: 129 is beyond 128"),
            (
                "9999\n",
                "14 rows are of unit 1/64, and the first input's unit is 1/256",
            ),
            (
                "0\n",
                "14 rows are of unit 1/64, and the first input's unit is 1/256",
            ),
        ] {
            assert_eq!(found_by(text, Tests::Second(Unit::Of256)), said, "{text:?}");
        }
        let far = found_by("9999\n", Tests::Second(Unit::Of64));
        assert_eq!(far, "5 row 1, column 1: node 9999, and 2047 is the highest");
        assert_eq!(found_by("0\n", Tests::Second(Unit::Of64)), "none");
    }

    #[test]
    fn what_does_not_narrow() {
        for (text, c, said) in [
            ("0 1 7 7\n1 2 8 8\n2\n", 1, "none"),
            ("0 1 7 7\n1\n1 2 8 8\n2\n", 1, "none"),
            ("0 1 7 7\n1 2 8 8\n2\n", 0, "none"),
            (
                "0 1 7 7\n1 2 8 8\n2\n",
                3,
                "13 row 2, column 3: node 2 is the highest, and node 3 is above it",
            ),
            (
                " 2 3 7 7\n0 3 7 7\n0\n",
                1,
                "13 row 1, column 2: the start is node 2, above node 1",
            ),
            (
                "0 2 7 7\n0 Infinity\n1\n2\n",
                1,
                "13 row 2, column 1: node 0 is final, below node 1",
            ),
            (
                "0 1 7 7\n0  2 7 7 Infinity\n2\n",
                1,
                "13 row 2, column 4: leads from node 0 past node 1 to node 2",
            ),
            (
                "0 2 7 7\n1 1 8 8\n2\n",
                1,
                "6 row 2, column 3: leads from node 1 to node 1",
            ),
        ] {
            assert_eq!(found_by(text, Tests::Narrow(c)), said, "{text:?}");
        }
    }

    #[test]
    fn rows_that_cannot_be_read() {
        all_found([
            ("", "8 the text is empty"),
            ("0\n1", "8 row 2, column 2: no newline ends the last row"),
            ("0\n \t\n1\n", "8 row 2, column 1: a blank row"),
            (
                "0 1 2\n",
                "8 row 1, column 5: 3 fields: a final row has one or two, a link four or five",
            ),
            (
                "0 1 2 3 4 5 6\n",
                "8 row 1, column 11: 7 fields: a final row has one or two, a link four or five",
            ),
            (
                "0\r\n",
                "8 row 1, column 2: a carriage return: a newline alone ends a row",
            ),
            ("0\n 1  x 1 1\n", "8 row 2, column 5: x is no whole number"),
            (
                "4294967296\n",
                "8 row 1, column 1: 4294967296 is above 4294967295",
            ),
            (
                "3\n0 1 1 1\n3 2\n",
                "8 row 3, column 1: a second final row for node 3, which row 1 is",
            ),
        ]);
    }

    #[test]
    fn other_places() {
        all_found([
            ("0 1 1 1 0.5\n1\n", "none"),
            ("0 1 1 1 Infinity\n1 Infinity\n", "none"),
            (
                "0 Infinity\n1 129\n",
                "4 row 2, column 3: 129 is beyond 128",
            ),
            (
                "0 129\n0 4294967295 1 1\n",
                "1 row 2, column 3: node 4294967295 is one too many: no sheet counts so many",
            ),
            ("0 129\n", "4 row 1, column 3: 129 is beyond 128"),
            (
                "2048 1 1 1\n",
                "5 row 1, column 1: node 2048, and 2047 is the highest",
            ),
            (
                "0\n1 1 1 1\n",
                "6 row 2, column 3: leads from node 1 to node 1",
            ),
        ]);
    }

    #[test]
    fn weights_that_cannot_be_read() {
        assert_eq!(
            found("0 1e3\n"),
            "8 row 1, column 3: 1e3 is no weight: digits, perhaps a minus sign before and a point with one to six digits after, or Infinity"
        );
        for text in ["0 inf\n", "0 infinity\n", "0 -Infinity\n"] {
            assert!(found(text).starts_with("8 row 1, column 3: "), "{text}");
        }
        assert!(found("0 \u{e9}\n").starts_with(r"8 row 1, column 3: \xc3\xa9 is no weight"));
    }

    #[test]
    fn a_link_too_many() {
        let text = "0 1 1 1\n".repeat(LINK_LIMIT as usize);
        assert_eq!(found(&text), "none");
        assert_eq!(
            found(&(text + "0 1 1 1\n")),
            "5 row 16385, column 1: a link more than 16384, the most"
        );
    }
}
