//! The tests of the requirements, from their text: by number, each over the whole sheet, with
//! numbers wide enough that no sum or product wraps. It shares no code with the library, nor with
//! what makes the sheets.

/// The most nodes and links, and the most units of a weight, either way.
const NODES: usize = 2048;
const LINKS: usize = 16384;
const UNITS: f64 = 8192.0;

/// The lengths of the two trailers.
const SHORT: usize = 20;
pub const LONG: usize = 24;

/// A sheet that is laid out as it must be.
struct Fields {
    links: Vec<[u32; 4]>,
    nodes: Vec<[u32; 3]>,
    start: u32,
    /// The unit that the longer trailer states, and 64 where it is the shorter one.
    unit: u32,
}

fn word(bytes: &[u8], at: usize) -> u32 {
    u32::from_le_bytes(bytes[at..at + 4].try_into().unwrap())
}

/// Of test 1, length and offsets under a trailer of so many bytes: its fields, where these are as they must be. The
/// length is compared as it is, so that counts too big for the sheet fail here.
fn trailer_of(sheet: &[u8], size: usize) -> Option<Vec<u32>> {
    let at = sheet.len().checked_sub(size)?;
    let fields: Vec<u32> = (at..sheet.len())
        .step_by(4)
        .map(|at| word(sheet, at))
        .collect();
    let (nodes, links) = (fields[2] as u64, fields[3] as u64);
    let long = sheet.len() as u64 == 16 * links + 12 * nodes + size as u64;
    (long && fields[0] == 0 && fields[1] as u64 == 16 * links).then_some(fields)
}

/// The fields of the one trailer that a sheet is laid out under: it is never both.
fn trailer(sheet: &[u8]) -> Option<Vec<u32>> {
    let trailers = [SHORT, LONG].map(|size| trailer_of(sheet, size));
    assert!(
        trailers.iter().flatten().count() < 2,
        "laid out under both trailers"
    );
    trailers.into_iter().flatten().next()
}

/// Test 1.
fn laid_out(sheet: &[u8]) -> Option<Fields> {
    let trailer = trailer(sheet)?;
    let (nodes, links) = (trailer[2] as u64, trailer[3] as u64);
    let (link_bytes, rest) = sheet.split_at(16 * links as usize);
    let fields = Fields {
        links: (link_bytes.chunks(16))
            .map(|link| [0, 4, 8, 12].map(|at| word(link, at)))
            .collect(),
        nodes: (rest[..12 * nodes as usize].chunks(12))
            .map(|node| [0, 4, 8].map(|at| word(node, at)))
            .collect(),
        start: trailer[4],
        unit: trailer.get(5).map_or(64, |unit| *unit),
    };
    let marked = |[_, mark, bits]: &[u32; 3]| *mark == 1 || (*mark == 0 && *bits == 0);
    let counted: u64 = fields.nodes.iter().map(|node| node[0] as u64).sum();
    (fields.nodes.iter().all(marked) && counted == links).then_some(fields)
}

/// Whether these are the bits of a whole number of units within the limit: both the widening and the
/// product are exact.
fn on_grid(bits: u32, unit: u32) -> bool {
    let units = f64::from(f32::from_bits(bits)) * f64::from(unit);
    bits != 0x8000_0000 && units.is_finite() && units.fract() == 0.0 && units.abs() <= UNITS
}

/// Positive infinity bars a link or an end, and passes test 4.
fn fits(bits: u32, unit: u32) -> bool {
    bits == 0x7F80_0000 || on_grid(bits, unit)
}

impl Fields {
    fn unit_is_one(&self) -> bool {
        self.unit == 64 || self.unit == 256
    }

    fn start_is_there(&self) -> bool {
        self.start == 0xFFFF_FFFF || (self.start as usize) < self.nodes.len()
    }

    fn next_nodes_are_there(&self) -> bool {
        (self.links.iter()).all(|link| (link[3] as usize) < self.nodes.len())
    }

    fn weights_fit(&self) -> bool {
        let ends = self.nodes.iter().filter(|node| node[1] == 1);
        let mut weights = (self.links.iter().map(|link| link[2])).chain(ends.map(|node| node[2]));
        weights.all(|bits| fits(bits, self.unit))
    }

    fn is_small(&self) -> bool {
        self.nodes.len() <= NODES && self.links.len() <= LINKS
    }

    fn climbs(&self) -> bool {
        let mut links = self.links.iter();
        for (source, node) in self.nodes.iter().enumerate() {
            let mut own = links.by_ref().take(node[0] as usize);
            if own.any(|link| link[3] as usize <= source) {
                return false;
            }
        }
        true
    }
}

/// The number of the first of these tests that fails, or 0.
fn first_failed(tests: &[(u32, &dyn Fn() -> bool)]) -> u32 {
    let failed = tests.iter().find(|(_, holds)| !holds());
    failed.map_or(0, |(number, _)| *number)
}

/// Tests 1, 14 and 2 to 4.
pub fn read(sheet: &[u8]) -> u32 {
    let Some(fields) = laid_out(sheet) else {
        return 1;
    };
    first_failed(&[
        (14, &|| fields.unit_is_one()),
        (2, &|| fields.start_is_there()),
        (3, &|| fields.next_nodes_are_there()),
        (4, &|| fields.weights_fit()),
    ])
}

/// Tests 1, 14 and 2 to 6.
pub fn distances(sheet: &[u8]) -> u32 {
    match (read(sheet), laid_out(sheet)) {
        (0, Some(fields)) => first_failed(&[(5, &|| fields.is_small()), (6, &|| fields.climbs())]),
        (number, _) => number,
    }
}

/// Tests 1, 14 and 2 to 7.
pub fn list(sheet: &[u8], n: u32) -> u32 {
    match distances(sheet) {
        0 if n > 64 => 7,
        number => number,
    }
}

/// The unit of an accepted sheet.
pub fn unit(sheet: &[u8]) -> u32 {
    laid_out(sheet).unwrap().unit
}

/// The bytes of an accepted sheet's trailer.
pub fn trailer_bytes(sheet: &[u8]) -> usize {
    4 * trailer(sheet).unwrap().len()
}

/// The work slots that distances of an accepted sheet need.
pub fn distance_slots(sheet: &[u8]) -> usize {
    laid_out(sheet).unwrap().nodes.len()
}

/// The nodes, links and final nodes of an accepted sheet.
pub fn counts(sheet: &[u8]) -> [u32; 3] {
    let fields = laid_out(sheet).unwrap();
    let finals = fields.nodes.iter().filter(|node| node[1] == 1).count();
    [fields.nodes.len(), fields.links.len(), finals].map(|count| count as u32)
}

/// The work slots that a list of an accepted sheet needs.
pub fn list_slots(sheet: &[u8], n: u32) -> usize {
    let [nodes, links, finals] = counts(sheet).map(|count| count as usize);
    match n {
        0 => 0,
        1 => nodes,
        _ => nodes + links + 2 * finals + 2 + n as usize * (links + 1),
    }
}

#[cfg(test)]
mod tests {
    use oracle::bytes::from_hex;

    /// The stored sheets have numbers that a script made from the same text: the two must agree.
    #[test]
    fn agrees_with_the_stored_sheets() {
        let stored = concat!(
            env!("CARGO_MANIFEST_DIR"),
            "/../../crates/replay_sheets/stdin"
        );
        let text = std::fs::read_to_string(stored).unwrap();
        for line in text.lines() {
            let mut fields = line.split(' ');
            let number: u32 = fields.next().unwrap().parse().unwrap();
            let sheet = from_hex(fields.next().unwrap()).unwrap();
            assert_eq!(super::read(&sheet), number, "{line}");
        }
        assert!(text.lines().count() > 1500);
    }
}
