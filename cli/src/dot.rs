//! Machines in Graphviz's language.
#![forbid(unsafe_code)]

use std::fmt::Write;

use yeldmur::{Link, List, Sheet, BARRED};

use crate::decimal::Weight;

const HEAD: &str = r##"digraph machine {
  rankdir = LR;
  bgcolor = "white";
  pad = 0.2;
  nodesep = 0.45;
  ranksep = 0.75;
  fontname = "Helvetica,Arial,sans-serif";
  fontsize = 14;
  fontcolor = "#111111";
  node [shape = circle, width = 0.6, margin = 0.05, fontname = "Helvetica,Arial,sans-serif", fontsize = 14, style = filled, fillcolor = "white", color = "#333333", fontcolor = "#111111"];
  edge [fontname = "Helvetica,Arial,sans-serif", fontsize = 13, color = "#333333", fontcolor = "#111111", arrowsize = 0.8];
"##;

// Those of the first ranks; later ones have the same in darker shades.
const COLOURS: [[u32; 3]; 8] = [
    [0x0b, 0x62, 0xb8],
    [0xc2, 0x50, 0x0a],
    [0x0a, 0x8a, 0x62],
    [0xb0, 0x2e, 0x8c],
    [0x8a, 0x6d, 0x00],
    [0x2a, 0x9f, 0xd6],
    [0xd0, 0x32, 0x32],
    [0x6a, 0x4f, 0xc9],
];

/// The machine of a sheet: links by input label, or both labels where they differ, and weight; final nodes with their weights. What is barred
/// is dashed.
pub fn machine(sheet: &Sheet) -> String {
    drawn(sheet, "", |_| String::new())
}

/// The same with the links of each reading of a list in the colour of its rank, and a legend with ranks and costs.
pub fn list(sheet: &Sheet, list: &List) -> String {
    let mut places = vec![Vec::new(); sheet.link_count() as usize];
    for (place, reading) in list.readings().enumerate() {
        for number in reading.numbers() {
            places[number as usize].push(place);
        }
    }
    drawn(sheet, &legend(list), |number| coloured(&places[number]))
}

// What is added to a link by its number comes from `style`.
fn drawn(sheet: &Sheet, legend: &str, style: impl Fn(usize) -> String) -> String {
    let mut text = format!("{HEAD}{legend}");
    // a String takes all that is written to it
    if let Some(start) = sheet.start() {
        let plain = r#"[shape = plaintext, label = "start", width = 0.5, style = ""]"#;
        let _ = writeln!(text, "  start {plain};\n  start -> {start};");
    }
    for (node, weight) in sheet.finals().enumerate() {
        let _ = match weight {
            Some(weight) => writeln!(text, "  {node} [{}];", final_node(node, weight)),
            None => writeln!(text, "  {node};"),
        };
    }
    for (number, link) in sheet.links().enumerate() {
        let Link { source, next, .. } = link;
        let (label, style) = (labels(link), style(number));
        let barred = if_barred(link.weight, ", style = dashed");
        let _ = writeln!(
            text,
            r#"  {source} -> {next} [label = "{label}"{style}{barred}];"#
        );
    }
    text + "}\n"
}

fn if_barred(weight: f32, style: &str) -> &str {
    if weight == BARRED {
        style
    } else {
        ""
    }
}

fn final_node(node: usize, weight: f32) -> String {
    // every node is filled
    let barred = if_barred(weight, r#", style = "filled,dashed""#);
    format!(
        r#"shape = doublecircle, label = "{node} / {}"{barred}"#,
        Weight(weight)
    )
}

fn labels(link: Link) -> String {
    let weight = Weight(link.weight);
    if link.ilabel == link.olabel {
        format!("{} / {weight}", link.ilabel)
    } else {
        format!("{}:{} / {weight}", link.ilabel, link.olabel)
    }
}

// The colour of a reading by its place from 0: a ninth darker with each round.
fn colour(place: usize) -> String {
    let shade = 9 - (place / COLOURS.len()) as u32;
    let [red, green, blue] = COLOURS[place % COLOURS.len()].map(|part| part * shade / 9);
    format!("#{red:02x}{green:02x}{blue:02x}")
}

// A link that several readings share is drawn as one line for each.
fn coloured(places: &[usize]) -> String {
    let Some(&first) = places.first() else {
        return r##", color = "#9a9a9a", fontcolor = "#6a6a6a""##.to_string();
    };
    let colours: Vec<String> = places.iter().map(|&place| colour(place)).collect();
    let (lines, text) = (colours.join(":"), colour(first));
    format!(r#", color = "{lines}", fontcolor = "{text}", penwidth = 2.5"#)
}

fn legend(list: &List) -> String {
    if list.is_empty() {
        return "  labelloc = b;\n  label = \"no reading is listed\";\n".to_string();
    }
    let rows: String = list
        .readings()
        .enumerate()
        .map(|(place, reading)| {
            let (rank, cost) = (place + 1, reading.cost_with_unit());
            format!(
                r#"    <tr><td width="30" bgcolor="{}"></td><td align="left">rank {rank}, cost {cost} ({}/{})</td></tr>
"#,
                colour(place),
                cost.units,
                cost.unit.count()
            )
        })
        .collect();
    format!(
        "  labelloc = b;\n  label = <<table border=\"0\" cellborder=\"0\" cellspacing=\"5\" cellpadding=\"0\">\n{rows}  </table>>;\n"
    )
}

#[cfg(test)]
mod tests {
    use super::*;
    use std::collections::HashSet;

    #[test]
    fn each_rank_has_its_colour() {
        let colours: HashSet<String> = (0..64).map(colour).collect();
        assert_eq!(colours.len(), 64);
        assert_eq!(colour(0), "#0b62b8");
    }

    #[test]
    fn a_link_with_two_labels() {
        let link = Link {
            source: 0,
            ilabel: 1,
            olabel: 2,
            weight: -0.5,
            next: 1,
        };
        assert_eq!(labels(link), "1:2 / -0.5");
    }

    #[test]
    fn what_is_barred_is_dashed() {
        let sheet = Sheet::from_rows(b"0 1 7 7 Infinity\n0 1 8 8\n0 0.5\n1 Infinity\n").unwrap();
        let text = machine(&sheet);
        let drawn: Vec<&str> = text.lines().filter(|line| line.contains(" / ")).collect();
        let expected = [
            r#"  0 [shape = doublecircle, label = "0 / 0.5"];"#,
            r#"  1 [shape = doublecircle, label = "1 / Infinity", style = "filled,dashed"];"#,
            r#"  0 -> 1 [label = "7 / Infinity", style = dashed];"#,
            r#"  0 -> 1 [label = "8 / 0"];"#,
        ];
        assert_eq!(drawn, expected);
    }
}
