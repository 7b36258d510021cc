//! How long the parts of a sheet are, and the word for none.
#![forbid(unsafe_code)]

/// The bytes of a link: input label, output label, weight bits, next node.
pub(crate) const LINK: usize = 16;
/// The bytes of a node: link count, final mark, final weight bits.
pub(crate) const NODE: usize = 12;
/// The bytes of a word: a field, or the number of a link.
pub(crate) const WORD: usize = 4;
/// What stands for no start.
pub(crate) const NONE: u32 = 0xFFFF_FFFF;

/// A field's value, or none where it holds the word for none.
pub(crate) fn unless_none(word: u32) -> Option<u32> {
    (word != NONE).then_some(word)
}

/// How a sheet ends. An answer that is a sheet ends as the sheet does that it is made of; of two sheets, as the first.
#[derive(Clone, Copy, Debug, PartialEq, Eq, Hash)]
pub enum Trailer {
    /// In 20 bytes: offset of links, offset of nodes, node count, link count, start. The unit is 1/64.
    Short,
    /// In 24 bytes: the same, and the unit.
    Long,
}

impl Trailer {
    /// Its bytes.
    pub const fn bytes(self) -> usize {
        match self {
            Trailer::Short => 20,
            Trailer::Long => 24,
        }
    }
}

/// The bytes of a sheet with so many nodes and links.
pub(crate) fn sheet_len(nodes: usize, links: usize, trailer: Trailer) -> usize {
    LINK * links + NODE * nodes + trailer.bytes()
}
