//! A machine as plain data: what goes into the Rust, and what comes out of it.

/// The limits of the requirements: the most nodes and links of a machine, and the most units of a weight,
/// either way.
pub const NODES: usize = 2048;
pub const LINKS: usize = 16384;
pub const UNITS: i32 = 8192;

/// How a machine's sheet ends: in a trailer of 20 bytes, whose unit is 1/64, or in one of 24 bytes, whose
/// sixth field is the unit.
#[derive(Clone, Copy, Debug, Default, PartialEq)]
pub enum Form {
    #[default]
    Short,
    Long(u32),
}

impl Form {
    /// The units of a whole.
    pub fn unit(self) -> u32 {
        match self {
            Form::Short => 64,
            Form::Long(unit) => unit,
        }
    }

    /// A weight of so many units.
    pub fn weight(self, units: i32) -> f32 {
        units as f32 / self.unit() as f32
    }

    /// The units of a weight, or of a sum of weights.
    pub fn units(self, weight: f32) -> i32 {
        if weight == BARRED {
            return INFINITE;
        }
        let units = weight * self.unit() as f32;
        assert!(
            units.fract() == 0.0 && units.abs() <= 16_777_216.0,
            "{weight}"
        );
        units as i32
    }
}

#[derive(Clone, Debug)]
pub struct Link {
    pub input: u32,
    pub output: u32,
    pub weight: f32,
    pub next: u32,
}

/// A node with its links in order, and its final weight where it has mark 1.
#[derive(Clone, Debug, Default)]
pub struct Node {
    pub links: Vec<Link>,
    pub end: Option<f32>,
}

#[derive(Clone, Debug, Default)]
pub struct Machine {
    pub nodes: Vec<Node>,
    pub start: Option<u32>,
    pub form: Form,
}

impl Machine {
    /// All links, by source and position: the place of a link here is its number.
    pub fn links(&self) -> impl Iterator<Item = &Link> {
        self.nodes.iter().flat_map(|node| &node.links)
    }

    /// Whether a link or an end is barred.
    pub fn is_barred(&self) -> bool {
        let mut ends = self.nodes.iter().filter_map(|node| node.end);
        self.links().any(|link| link.weight == BARRED) || ends.any(|end| end == BARRED)
    }

    pub fn links_mut(&mut self) -> impl Iterator<Item = &mut Link> {
        self.nodes.iter_mut().flat_map(|node| &mut node.links)
    }

    /// The same machine in another form, each weight as many of its units.
    pub fn in_form(mut self, form: Form) -> Self {
        // powers of two, so that it is exact; what is barred stays so
        let factor = self.form.unit() as f32 / form.unit() as f32;
        for node in &mut self.nodes {
            for link in &mut node.links {
                link.weight *= factor;
            }
            node.end = node.end.map(|end| end * factor);
        }
        self.form = form;
        self
    }
}

/// The weight of what is barred.
pub const BARRED: f32 = f32::INFINITY;

/// The units of an infinite weight or sum: above all others.
pub const INFINITE: i32 = i32::MAX;

/// A weight of so many sixty-fourths.
pub fn weight(units: i32) -> f32 {
    Form::Short.weight(units)
}
