//! Bytes as the requirements lay them out: all fields are 32-bit, little-endian.

use crate::machine::{Form, Link, Machine, Node};
use crate::reference::{List, NONE};

fn bytes_of(words: impl IntoIterator<Item = u32>) -> Vec<u8> {
    words.into_iter().flat_map(u32::to_le_bytes).collect()
}

fn words_of(bytes: &[u8]) -> Vec<u32> {
    let word = |b: &[u8]| u32::from_le_bytes(b.try_into().unwrap());
    bytes.chunks(4).map(word).collect()
}

/// A machine as a sheet: links, nodes, trailer.
pub fn sheet(machine: &Machine) -> Vec<u8> {
    let mut words = vec![];
    for link in machine.links() {
        words.extend([link.input, link.output, link.weight.to_bits(), link.next]);
    }
    let links = words.len() as u32 / 4;
    for node in &machine.nodes {
        let bits = node.end.map_or(0, f32::to_bits);
        words.extend([node.links.len() as u32, node.end.is_some() as u32, bits]);
    }
    let start = machine.start.unwrap_or(NONE);
    words.extend([0, 16 * links, machine.nodes.len() as u32, links, start]);
    if let Form::Long(unit) = machine.form {
        words.push(unit);
    }
    bytes_of(words)
}

/// The words before the trailer, and the trailer, where these are of a sheet that ends in one of so many.
fn parted(words: &[u32], size: usize) -> Option<(&[u32], &[u32])> {
    let (fields, trailer) = words.split_at(words.len().checked_sub(size)?);
    let (nodes, links) = (trailer[2] as usize, trailer[3] as usize);
    (fields.len() == 4 * links + 3 * nodes && trailer[1] as usize == 16 * links)
        .then_some((fields, trailer))
}

/// The machine of a sheet that is laid out as it must be.
pub fn machine(sheet: &[u8]) -> Machine {
    let words = words_of(sheet);
    let (fields, trailer) = parted(&words, 5).or(parted(&words, 6)).expect("a trailer");
    let (links, nodes) = fields.split_at(4 * trailer[3] as usize);
    let mut links = links.chunks(4).map(|l| Link {
        input: l[0],
        output: l[1],
        weight: f32::from_bits(l[2]),
        next: l[3],
    });
    let node = |v: &[u32]| Node {
        links: links.by_ref().take(v[0] as usize).collect(),
        end: (v[1] == 1).then_some(f32::from_bits(v[2])),
    };
    let machine = Machine {
        nodes: nodes.chunks(3).map(node).collect(),
        start: (trailer[4] != NONE).then_some(trailer[4]),
        form: trailer.get(5).map_or(Form::Short, |unit| Form::Long(*unit)),
    };
    assert!(self::sheet(&machine) == sheet, "not a sheet");
    machine
}

/// A list as the result of a call: its machine as a sheet, then a word for each of its links.
pub fn list(list: &List) -> Vec<u8> {
    let mut bytes = sheet(&list.machine);
    bytes.extend(bytes_of(list.words.iter().copied()));
    bytes
}

/// Distances as the Rust has them: the bits of each.
pub fn distances(distances: &[f32]) -> Vec<u8> {
    bytes_of(distances.iter().map(|d| d.to_bits()))
}

/// Bytes in hexadecimal, - for none.
pub fn hex(bytes: &[u8]) -> String {
    if bytes.is_empty() {
        return "-".to_string();
    }
    bytes.iter().map(|b| format!("{b:02x}")).collect()
}

pub fn from_hex(text: &str) -> Option<Vec<u8>> {
    if text == "-" {
        return Some(vec![]);
    }
    let pair = |at| u8::from_str_radix(text.get(at..at + 2)?, 16).ok();
    (0..text.len()).step_by(2).map(pair).collect()
}
