//! A sheet in its fields, so that each of them can be broken.

use oracle::machine::{Form, Machine};
use oracle::reference::NONE;

#[derive(Clone)]
pub struct Parts {
    pub links: Vec<[u32; 4]>,
    pub nodes: Vec<[u32; 3]>,
    /// Five fields, or six where the last is the unit.
    pub trailer: Vec<u32>,
}

/// The start's place in the trailer, and the unit's in the longer one.
pub const START: usize = 4;
pub const UNIT: usize = 5;

impl Parts {
    pub fn of(machine: &Machine) -> Self {
        let links = machine.links();
        let mut parts = Self {
            links: links
                .map(|l| [l.input, l.output, l.weight.to_bits(), l.next])
                .collect(),
            nodes: (machine.nodes.iter())
                .map(|node| {
                    let bits = node.end.map_or(0, f32::to_bits);
                    [node.links.len() as u32, node.end.is_some() as u32, bits]
                })
                .collect(),
            trailer: vec![0, 0, 0, 0, machine.start.unwrap_or(NONE)],
        };
        if let Form::Long(unit) = machine.form {
            parts.trailer.push(unit);
        }
        parts.lay_out();
        parts
    }

    /// Makes the trailer's offsets and counts those of the lists.
    pub fn lay_out(&mut self) {
        let links = self.links.len() as u32;
        let fields = [0, 16 * links, self.nodes.len() as u32, links];
        drop(self.trailer.splice(..START, fields));
    }

    /// The unit that the longer trailer states.
    pub fn unit(&self) -> Option<u32> {
        self.trailer.get(UNIT).copied()
    }

    /// The same under another trailer.
    pub fn with_unit(mut self, unit: Option<u32>) -> Self {
        self.trailer.truncate(UNIT);
        self.trailer.extend(unit);
        self
    }

    /// How many fields there are.
    pub fn len(&self) -> usize {
        4 * self.links.len() + 3 * self.nodes.len() + self.trailer.len()
    }

    /// A field by its place in the sheet.
    pub fn field(&mut self, at: usize) -> &mut u32 {
        let nodes = 4 * self.links.len();
        let trailer = nodes + 3 * self.nodes.len();
        if at < nodes {
            &mut self.links[at / 4][at % 4]
        } else if at < trailer {
            &mut self.nodes[(at - nodes) / 3][(at - nodes) % 3]
        } else {
            &mut self.trailer[at - trailer]
        }
    }

    pub fn link_words(&self) -> Vec<u32> {
        self.links.concat()
    }

    pub fn node_words(&self) -> Vec<u32> {
        self.nodes.concat()
    }

    pub fn bytes(&self) -> Vec<u8> {
        let words = [self.link_words(), self.node_words(), self.trailer.clone()].concat();
        words.into_iter().flat_map(u32::to_le_bytes).collect()
    }
}
