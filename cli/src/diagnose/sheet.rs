//! The faults of a sheet.
#![forbid(unsafe_code)]

use yeldmur::{Trailer, Unit, LINK_LIMIT, NODE_LIMIT};

use super::weight::why_not_bits;
use super::{Fault, Place, Tests};

const NONE: u32 = 0xFFFF_FFFF;

// The fields of bytes that are long enough for the trailer.
struct Fields<'a> {
    bytes: &'a [u8],
    trailer: Trailer,
}

// A link's fields, with the node that it leaves.
struct Link {
    source: u32,
    ilabel: u32,
    olabel: u32,
    weight: u32,
    next: u32,
}

struct Node {
    links: u32,
    mark: u32,
    weight: u32,
}

impl<'a> Fields<'a> {
    // By the trailer under which they are laid out, which is one at the most. Where that is neither, by the one that fits better.
    fn of(bytes: &'a [u8]) -> Option<Fields<'a>> {
        let under = |trailer: Trailer| {
            let enough = bytes.len() >= trailer.bytes();
            enough.then_some(Fields { bytes, trailer })
        };
        let (short, long) = (under(Trailer::Short)?, under(Trailer::Long));
        let better = long.filter(|long| long.fitting() > short.fitting());
        Some(better.unwrap_or(short))
    }

    // How many of the three things are so that lay bytes out.
    fn fitting(&self) -> usize {
        let faults = [length(self), offset_of_links(self), offset_of_nodes(self)];
        faults.iter().filter(|fault| fault.is_none()).count()
    }

    // The length that the counts ask for.
    fn length(&self) -> u64 {
        let counted = 16 * u64::from(self.links()) + 12 * u64::from(self.nodes());
        counted + self.trailer.bytes() as u64
    }

    fn word(&self, at: usize) -> u32 {
        let bytes = &self.bytes[at..at + 4];
        bytes
            .iter()
            .rev()
            .fold(0, |word, &byte| word << 8 | u32::from(byte))
    }

    fn field(&self, field: usize) -> u32 {
        self.word(self.bytes.len() - self.trailer.bytes() + 4 * field)
    }

    fn nodes(&self) -> u32 {
        self.field(2)
    }

    fn links(&self) -> u32 {
        self.field(3)
    }

    fn start(&self) -> u32 {
        self.field(4)
    }

    // How many of its units are 1, whatever stands there.
    fn unit_field(&self) -> u32 {
        match self.trailer {
            Trailer::Short => 64,
            Trailer::Long => self.field(5),
        }
    }

    // None where it is another than there are.
    fn unit(&self) -> Option<Unit> {
        Unit::from_count(self.unit_field())
    }

    // Of bytes of the right length.
    fn node(&self, node: u32) -> Node {
        let at = 16 * self.links() as usize + 12 * node as usize;
        Node {
            links: self.word(at),
            mark: self.word(at + 4),
            weight: self.word(at + 8),
        }
    }

    // Of bytes that have passed test 1.
    fn each_link(&self) -> impl Iterator<Item = (u32, Link)> + '_ {
        let sources =
            (0..self.nodes()).flat_map(|node| (0..self.node(node).links).map(move |_| node));
        (0..self.links()).zip(sources).map(|(number, source)| {
            let at = 16 * number as usize;
            let link = Link {
                source,
                ilabel: self.word(at),
                olabel: self.word(at + 4),
                weight: self.word(at + 8),
                next: self.word(at + 12),
            };
            (number, link)
        })
    }

    fn each_node(&self) -> impl Iterator<Item = (u32, Node)> + '_ {
        (0..self.nodes()).map(|node| (node, self.node(node)))
    }
}

/// The first fault that these tests find, in the order of the refusals.
pub(super) fn fault(bytes: &[u8], tests: Tests) -> Option<Fault> {
    let Some(fields) = Fields::of(bytes) else {
        let why = format!("{} bytes are fewer than the 20 of a trailer", bytes.len());
        return Some(Fault::new(1, Place::Field("length"), why));
    };
    let sheet = &fields;
    let read = length(sheet)
        .or_else(|| offset_of_links(sheet))
        .or_else(|| offset_of_nodes(sheet))
        .or_else(|| marks(sheet))
        .or_else(|| sum_of_counts(sheet))
        .or_else(|| other_unit(sheet))
        .or_else(|| match tests {
            Tests::Second(unit) => unequal(sheet, unit),
            _ => None,
        })
        .or_else(|| start(sheet))
        .or_else(|| next_nodes(sheet))
        .or_else(|| link_weights(sheet))
        .or_else(|| final_weights(sheet));
    read.or_else(|| match tests {
        Tests::Search | Tests::Second(_) => limits(sheet).or_else(|| climb(sheet)),
        Tests::Labels => limits(sheet)
            .or_else(|| climb(sheet))
            .or_else(|| labels(sheet)),
        Tests::Narrow(c) => limits(sheet)
            .or_else(|| climb(sheet))
            .or_else(|| narrow(sheet, c)),
        Tests::Rows => longer_trailer(sheet)
            .or_else(|| bare_start(sheet))
            .or_else(|| bare_last(sheet)),
    })
}

fn length(sheet: &Fields) -> Option<Fault> {
    let (is, needed) = (sheet.bytes.len() as u64, sheet.length());
    let (nodes, links) = (sheet.nodes(), sheet.links());
    let trailer = match sheet.trailer {
        Trailer::Short => "trailer",
        Trailer::Long => "longer trailer",
    };
    let why =
        format!("{is} bytes, where the {trailer}'s {nodes} nodes and {links} links take {needed}");
    (is != needed).then(|| Fault::new(1, Place::Field("length"), why))
}

fn offset_of_links(sheet: &Fields) -> Option<Fault> {
    offset("offset of links", sheet.field(0), 0)
}

fn offset_of_nodes(sheet: &Fields) -> Option<Fault> {
    let begin = 16 * u64::from(sheet.links());
    offset("offset of nodes", sheet.field(1), begin)
}

fn offset(field: &'static str, is: u32, right: u64) -> Option<Fault> {
    let why = || format!("{is}, where {right} has to stand");
    (u64::from(is) != right).then(|| Fault::new(1, Place::Field(field), why()))
}

fn marks(sheet: &Fields) -> Option<Fault> {
    sheet.each_node().find_map(|(number, node)| {
        let why = if node.mark > 1 {
            format!("the mark is {}, and neither 0 nor 1", node.mark)
        } else if node.mark == 0 && node.weight != 0 {
            format!(
                "no final node, and its weight field is {:08x} and not 0",
                node.weight
            )
        } else {
            return None;
        };
        Some(Fault::new(1, Place::Node(number), why))
    })
}

fn sum_of_counts(sheet: &Fields) -> Option<Fault> {
    let sum: u64 = sheet
        .each_node()
        .map(|(_, node)| u64::from(node.links))
        .sum();
    let links = sheet.links();
    let why = format!("the nodes have {sum} in all, and the trailer {links}");
    (sum != u64::from(links)).then(|| Fault::new(1, Place::Field("link counts"), why))
}

fn other_unit(sheet: &Fields) -> Option<Fault> {
    let why = format!("{}, where 64 or 256 has to stand", sheet.unit_field());
    let other = sheet.unit().is_none();
    other.then(|| Fault::new(14, Place::Field("unit"), why))
}

fn unequal(sheet: &Fields, first: Unit) -> Option<Fault> {
    let unit = sheet.unit()?;
    let why = match sheet.trailer {
        Trailer::Short => format!("{unit} by the shorter trailer"),
        Trailer::Long => unit.to_string(),
    };
    let why = format!("{why}, and the first input's is {first}");
    (unit != first).then(|| Fault::new(14, Place::Field("unit"), why))
}

fn start(sheet: &Fields) -> Option<Fault> {
    let (start, nodes) = (sheet.start(), sheet.nodes());
    let why = format!("{start}, where there are {nodes} nodes");
    (start != NONE && start >= nodes).then(|| Fault::new(2, Place::Field("start"), why))
}

fn next_nodes(sheet: &Fields) -> Option<Fault> {
    let nodes = sheet.nodes();
    let (number, link) = sheet.each_link().find(|(_, link)| link.next >= nodes)?;
    let why = format!("leads to node {}, where there are {nodes} nodes", link.next);
    Some(Fault::new(3, Place::Link(number), why))
}

fn link_weights(sheet: &Fields) -> Option<Fault> {
    let unit = sheet.unit()?;
    sheet.each_link().find_map(|(number, link)| {
        let why = why_not_bits(link.weight, unit)?;
        Some(Fault::new(
            4,
            Place::Link(number),
            format!("its weight {why}"),
        ))
    })
}

fn final_weights(sheet: &Fields) -> Option<Fault> {
    let unit = sheet.unit()?;
    sheet.each_node().find_map(|(number, node)| {
        let why = why_not_bits(node.weight, unit)?;
        Some(Fault::new(
            4,
            Place::Node(number),
            format!("its final weight {why}"),
        ))
    })
}

fn limits(sheet: &Fields) -> Option<Fault> {
    let over = |field, count, limit| {
        let why = format!("{count}, and {limit} is the most");
        (count > limit).then(|| Fault::new(5, Place::Field(field), why))
    };
    over("nodes", sheet.nodes(), NODE_LIMIT).or_else(|| over("links", sheet.links(), LINK_LIMIT))
}

fn climb(sheet: &Fields) -> Option<Fault> {
    let (number, link) = sheet
        .each_link()
        .find(|(_, link)| link.next <= link.source)?;
    let why = format!("leads from node {} to node {}", link.source, link.next);
    Some(Fault::new(6, Place::Link(number), why))
}

fn labels(sheet: &Fields) -> Option<Fault> {
    sheet.each_link().find_map(|(number, link)| {
        let (ilabel, olabel) = (link.ilabel, link.olabel);
        let why = if ilabel == 0 {
            "its input label is 0".to_string()
        } else if ilabel != olabel {
            format!("its input label is {ilabel}, its output label {olabel}")
        } else {
            return None;
        };
        Some(Fault::new(10, Place::Link(number), why))
    })
}

fn narrow(sheet: &Fields, c: u32) -> Option<Fault> {
    start_by(sheet, c)
        .or_else(|| marked_below(sheet, c))
        .or_else(|| leads_past(sheet, c))
}

// The node is there, and the start is not above it.
fn start_by(sheet: &Fields, c: u32) -> Option<Fault> {
    let (nodes, start) = (sheet.nodes(), sheet.start());
    let (field, why) = if nodes <= c {
        ("nodes", format!("{nodes}, so that there is no node {c}"))
    } else if start == NONE {
        ("start", "there is none".to_string())
    } else if c < start {
        ("start", format!("{start}, above node {c}"))
    } else {
        return None;
    };
    Some(Fault::new(13, Place::Field(field), why))
}

fn marked_below(sheet: &Fields, c: u32) -> Option<Fault> {
    let mut below = sheet.each_node().take(c as usize);
    let (number, _) = below.find(|(_, node)| node.mark == 1)?;
    let why = format!("it is final, below node {c}");
    Some(Fault::new(13, Place::Node(number), why))
}

fn leads_past(sheet: &Fields, c: u32) -> Option<Fault> {
    let mut links = sheet.each_link();
    let (number, link) = links.find(|(_, link)| link.source < c && c < link.next)?;
    let (source, next) = (link.source, link.next);
    let why = format!("leads from node {source} past node {c} to node {next}");
    Some(Fault::new(13, Place::Link(number), why))
}

fn longer_trailer(sheet: &Fields) -> Option<Fault> {
    let why = "it has 24 bytes, and only sheets whose trailer has 20 have rows";
    (sheet.trailer == Trailer::Long).then(|| Fault::new(9, Place::Field("trailer"), why))
}

fn bare_start(sheet: &Fields) -> Option<Fault> {
    let start = sheet.start();
    if start == NONE {
        return Some(Fault::new(9, Place::Field("start"), "there is none"));
    }
    let node = sheet.node(start);
    let why = "the start has no link and no mark, so that no row begins with it";
    (node.links == 0 && node.mark == 0).then(|| Fault::new(9, Place::Node(start), why))
}

// A sheet with a start has a last node.
fn bare_last(sheet: &Fields) -> Option<Fault> {
    let last = sheet.nodes().checked_sub(1)?;
    let node = sheet.node(last);
    let named =
        node.links > 0 || node.mark == 1 || sheet.each_link().any(|(_, link)| link.next == last);
    let why = "the last node has no link, no mark and no link to it, so that no row names it";
    (!named).then(|| Fault::new(9, Place::Node(last), why))
}
