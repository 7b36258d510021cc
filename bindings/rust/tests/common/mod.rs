//! What the tests share.
#![forbid(unsafe_code)]
// each test program uses a part of this
#![allow(dead_code)]

pub mod drawn;

use yeldmur::{raw, units, Link, Reading, Refusal, Sheet, Trailer, Unit, BARRED};

/// The word for no start and no input link.
pub const NONE: u32 = 0xFFFF_FFFF;

/// The fields of Sheet A, laid out by hand, apart from the writer.
#[rustfmt::skip]
pub const A: [u32; 37] = [
    1, 1, 0x3F80_0000, 1, // node 0, weight 1
    2, 2, 0x3F00_0000, 2, // node 0, weight 0.5
    3, 3, 0x3E80_0000, 3, // node 1, weight 0.25
    5, 5, 0x0000_0000, 2, // node 1, weight 0
    4, 4, 0x3F40_0000, 3, // node 2, weight 0.75
    2, 0, 0, // node 0
    2, 0, 0, // node 1
    1, 0, 0, // node 2
    0, 1, 0x3F00_0000, // node 3, final 0.5
    0, 80, 4, 5, 0, // trailer
];

/// Words as bytes.
pub fn bytes(words: &[u32]) -> Vec<u8> {
    words.iter().flat_map(|word| word.to_le_bytes()).collect()
}

/// The fields of Sheet A with one of them changed.
pub fn a_with(place: usize, word: u32) -> Vec<u8> {
    let mut words = A;
    words[place] = word;
    bytes(&words)
}

pub fn sheet_a() -> Sheet {
    Sheet::read(bytes(&A)).unwrap()
}

/// A link with one label on both sides.
pub fn link(source: u32, label: u32, weight: f32, next: u32) -> Link {
    Link {
        source,
        ilabel: label,
        olabel: label,
        weight,
        next,
    }
}

/// The links of Sheet A.
pub fn links_a() -> [Link; 5] {
    [
        link(0, 1, 1.0, 1),
        link(0, 2, 0.5, 2),
        link(1, 3, 0.25, 3),
        link(1, 5, 0.0, 2),
        link(2, 4, 0.75, 3),
    ]
}

/// The numbers of the links of each reading, with its cost.
pub fn numbered<'a>(readings: impl Iterator<Item = Reading<'a>>) -> Vec<(i32, Vec<u32>)> {
    readings
        .map(|reading| (reading.cost(), reading.numbers().collect()))
        .collect()
}

/// The same of the list for n.
pub fn readings(sheet: &Sheet, n: u32) -> Vec<(i32, Vec<u32>)> {
    numbered(yeldmur::list(sheet, n).unwrap().readings())
}

/// The costs of the readings on the list for n.
pub fn costs(sheet: &Sheet, n: u32) -> Vec<i32> {
    readings(sheet, n).iter().map(|reading| reading.0).collect()
}

/// The distances of a sheet as bytes, and how many there are.
pub fn distance_bytes(sheet: &Sheet) -> (u32, Vec<u8>) {
    let needed = raw::areas(sheet.bytes(), 1).unwrap();
    let (mut work, mut result) = (vec![0; needed.words()], vec![0; needed.bytes]);
    let values = raw::shortest_distance(sheet.bytes(), &mut work, &mut result).unwrap();
    result.truncate(8 * values as usize);
    (values, result)
}

/// The cost in the sheet's unit and the end of a run by the sheet's own links, which must hang together from the start to a final node, with nothing barred;
/// else none.
pub fn walked(sheet: &Sheet, run: &[u32]) -> Option<(i32, u32)> {
    let (mut node, mut cost) = (sheet.start()?, 0);
    for &number in run {
        let link = sheet.link(number)?;
        if link.source != node {
            return None;
        }
        node = link.next;
        cost += units(link.weight, sheet.unit())?;
    }
    Some((cost + units(sheet.final_weight(node)?, sheet.unit())?, node))
}

/// A sheet with the shorter trailer, or with the longer and this unit.
pub fn write(
    links: &[Link],
    finals: &[Option<f32>],
    start: Option<u32>,
    said: Option<Unit>,
) -> Result<Sheet, Refusal> {
    match said {
        None => Sheet::write(links, finals, start),
        Some(unit) => Sheet::write_in(links, finals, start, unit),
    }
}

/// The unit that a sheet's trailer says, if it says one.
pub fn said(sheet: &Sheet) -> Option<Unit> {
    (sheet.trailer() == Trailer::Long).then(|| sheet.unit())
}

/// A sheet of its links, nodes and start again, with its own trailer.
pub fn again(sheet: &Sheet) -> Sheet {
    let links: Vec<Link> = sheet.links().collect();
    let finals: Vec<Option<f32>> = sheet.finals().collect();
    write(&links, &finals, sheet.start(), said(sheet)).unwrap()
}

/// A chain of so many nodes, with one weight on every link and on the last node.
pub fn chain(nodes: u32, weight: f32) -> Sheet {
    let links: Vec<Link> = (1..nodes)
        .map(|next| link(next - 1, next, weight, next))
        .collect();
    let mut finals = vec![None; nodes as usize];
    finals[nodes as usize - 1] = Some(weight);
    Sheet::write(&links, &finals, Some(0)).unwrap()
}

/// A generator of its own (splitmix64), so that the machines are the same everywhere.
pub struct Random(pub u64);

impl Random {
    pub fn word(&mut self) -> u64 {
        self.0 = self.0.wrapping_add(0x9E37_79B9_7F4A_7C15);
        let mut x = self.0;
        x = (x ^ (x >> 30)).wrapping_mul(0xBF58_476D_1CE4_E5B9);
        x = (x ^ (x >> 27)).wrapping_mul(0x94D0_49BB_1331_11EB);
        x ^ (x >> 31)
    }

    pub fn below(&mut self, limit: u32) -> u32 {
        (self.word() % u64::from(limit)) as u32
    }

    /// A trailer: the shorter, or the longer with either unit.
    pub fn said(&mut self) -> Option<Unit> {
        [None, Some(Unit::Of64), Some(Unit::Of256)][self.below(3) as usize]
    }

    pub fn weight(&mut self, spread: u32) -> f32 {
        self.weight_in(spread, Unit::Of64)
    }

    pub fn weight_in(&mut self, spread: u32, unit: Unit) -> f32 {
        (self.below(2 * spread + 1) as f32 - spread as f32) / unit.count() as f32
    }

    /// A weight that is barred one time in four.
    pub fn weight_or_barred(&mut self, spread: u32) -> f32 {
        self.weight_or_barred_in(spread, Unit::Of64)
    }

    pub fn weight_or_barred_in(&mut self, spread: u32, unit: Unit) -> f32 {
        if self.below(4) == 0 {
            BARRED
        } else {
            self.weight_in(spread, unit)
        }
    }
}
