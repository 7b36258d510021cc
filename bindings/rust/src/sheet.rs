//! Sheets: machines of nodes and links, as bytes that have passed tests 1 to 4.
#![forbid(unsafe_code)]

use std::fmt;

use crate::layout::{sheet_len, Trailer, NONE};
use crate::raw::{self, Counts};
use crate::{Refusal, Unit};

/// A link: the node that it leaves, two labels, a weight and the node that it leads to.
#[derive(Clone, Copy, Debug, PartialEq)]
pub struct Link {
    /// The node that it leaves.
    pub source: u32,
    /// The input label.
    pub ilabel: u32,
    /// The output label.
    pub olabel: u32,
    /// The weight: k/64, or k/256 where that is the sheet's unit, for a whole k from -8,192 to 8,192, or [`BARRED`](crate::BARRED).
    pub weight: f32,
    /// The node that it leads to.
    pub next: u32,
}

/// A sheet that has passed tests 1 to 4. Its nodes and links are numbered from 0.
///
/// A sheet need not climb and may be larger than a search accepts: [`distances`](crate::distances) and
/// [`list`](crate::list) test that.
#[derive(Clone, PartialEq, Eq, Hash)]
pub struct Sheet {
    bytes: Vec<u8>,
    counts: Counts,
    unit: Unit,
    // the number of each node's first link, from which a link's source is found
    firsts: Vec<u32>,
}

impl Sheet {
    /// Takes bytes that are laid out as a sheet. Refusals 1 to 4.
    pub fn read(bytes: impl Into<Vec<u8>>) -> Result<Sheet, Refusal> {
        let bytes = bytes.into();
        let counts = raw::sheet_counts(&bytes)?;
        // the shorter trailer says no unit, which spares the whole sheet a second reading
        let unit = match counts.trailer(bytes.len()) {
            Trailer::Short => Unit::Of64,
            Trailer::Long => raw::unit(&bytes)?,
        };
        let firsts = firsts(&bytes, counts.nodes)?;
        Ok(Sheet {
            bytes,
            counts,
            unit,
            firsts,
        })
    }

    /// Writes a sheet with the shorter trailer: its links, a final weight or none for each node, and the start or none. Weights are k/64.
    /// Refusals 1 to 4.
    ///
    /// Links may come in any order of their sources. In the sheet they stand by source, and those of one node in the order
    /// given; that is the order that they are numbered in. A source that is no node is refusal 1, since no node counts
    /// that link.
    pub fn write(
        links: &[Link],
        nodes: &[Option<f32>],
        start: Option<u32>,
    ) -> Result<Sheet, Refusal> {
        let mut bytes = vec![0; sheet_len(nodes.len(), links.len(), Trailer::Short)];
        let (link_words, node_words) = (link_words(links), node_words(links, nodes));
        raw::write_sheet(&link_words, &node_words, start_word(start), &mut bytes)?;
        Sheet::read(bytes)
    }

    /// The same with the longer trailer, and weights in this unit: k/64 or k/256.
    ///
    /// ```
    /// use yeldmur::{list, Link, Refusal, Sheet, Unit};
    ///
    /// let link = Link { source: 0, ilabel: 7, olabel: 7, weight: 0.00390625, next: 1 };
    /// let fine = Sheet::write_in(&[link], &[None, Some(1.0)], Some(0), Unit::Of256)?;
    /// assert_eq!((fine.unit(), fine.bytes().len()), (Unit::Of256, 64));
    /// let list = list(&fine, 1)?;
    /// let only = list.reading(0).unwrap();
    /// assert_eq!(only.cost(), 257); // in the sheet's own unit
    /// assert_eq!(only.cost_with_unit().to_string(), "1.00390625");
    ///
    /// let coarse = Sheet::write(&[link], &[None, Some(1.0)], Some(0));
    /// assert_eq!(coarse, Err(Refusal::Weight)); // no whole number of sixty-fourths
    /// # Ok::<(), Refusal>(())
    /// ```
    pub fn write_in(
        links: &[Link],
        nodes: &[Option<f32>],
        start: Option<u32>,
        unit: Unit,
    ) -> Result<Sheet, Refusal> {
        let mut bytes = vec![0; sheet_len(nodes.len(), links.len(), Trailer::Long)];
        let (link_words, node_words) = (link_words(links), node_words(links, nodes));
        raw::write_sheet_in(
            &link_words,
            &node_words,
            start_word(start),
            unit,
            &mut bytes,
        )?;
        Sheet::read(bytes)
    }

    /// The sheet's bytes.
    pub fn bytes(&self) -> &[u8] {
        &self.bytes
    }

    /// The sheet's bytes, without a copy.
    pub fn into_bytes(self) -> Vec<u8> {
        self.bytes
    }

    /// How many nodes there are.
    pub fn node_count(&self) -> u32 {
        self.counts.nodes
    }

    /// How many links there are.
    pub fn link_count(&self) -> u32 {
        self.counts.links
    }

    /// How many nodes are final, reached or not.
    pub fn final_count(&self) -> u32 {
        self.counts.finals
    }

    /// The start, or none.
    pub fn start(&self) -> Option<u32> {
        self.counts.start
    }

    /// The unit of its weights and costs.
    pub fn unit(&self) -> Unit {
        self.unit
    }

    /// Its trailer. A sheet made by [`write`](Sheet::write) or of text rows has the shorter, one made by [`write_in`](Sheet::write_in)
    /// the longer, and what a call makes of a sheet has that of the sheet.
    pub fn trailer(&self) -> Trailer {
        self.counts.trailer(self.bytes.len())
    }

    /// The link with a number, or none past the last.
    pub fn link(&self, number: u32) -> Option<Link> {
        (number < self.link_count()).then(|| self.link_at(number))
    }

    /// The links, in the order of their numbers.
    pub fn links(&self) -> impl ExactSizeIterator<Item = Link> + DoubleEndedIterator + '_ {
        (0..self.link_count()).map(|number| self.link_at(number))
    }

    /// The final weight of a node, which may be [`BARRED`](crate::BARRED), or none where it is not final or there is no such node.
    pub fn final_weight(&self, node: u32) -> Option<f32> {
        if node < self.node_count() {
            self.final_at(node)
        } else {
            None
        }
    }

    /// For each node in order its final weight, or none where it is not final.
    pub fn finals(&self) -> impl ExactSizeIterator<Item = Option<f32>> + DoubleEndedIterator + '_ {
        (0..self.node_count()).map(|node| self.final_at(node))
    }

    pub(crate) fn link_at(&self, number: u32) -> Link {
        let [ilabel, olabel, weight_bits, next] =
            raw::link(&self.bytes, number).expect("the sheet has a link with this number");
        Link {
            source: self.source(number),
            ilabel,
            olabel,
            weight: f32::from_bits(weight_bits),
            next,
        }
    }

    fn final_at(&self, node: u32) -> Option<f32> {
        let [_, mark, weight_bits] =
            raw::node(&self.bytes, node).expect("the sheet has a node with this number");
        (mark == 1).then(|| f32::from_bits(weight_bits))
    }

    // The last node whose first link is not past this one: the nodes after it begin later, and a node without links
    // begins where the one after it does.
    fn source(&self, number: u32) -> u32 {
        self.firsts.partition_point(|&first| first <= number) as u32 - 1
    }
}

impl AsRef<[u8]> for Sheet {
    fn as_ref(&self) -> &[u8] {
        self.bytes()
    }
}

impl fmt::Debug for Sheet {
    fn fmt(&self, f: &mut fmt::Formatter<'_>) -> fmt::Result {
        f.debug_struct("Sheet")
            .field("nodes", &self.node_count())
            .field("links", &self.link_count())
            .field("start", &self.start())
            .finish_non_exhaustive()
    }
}

// The bytes have passed test 1, so that the counts add up to the link count and the sum fits.
fn firsts(bytes: &[u8], nodes: u32) -> Result<Vec<u32>, Refusal> {
    let mut next = 0;
    (0..nodes)
        .map(|node| {
            let first = next;
            next += raw::node(bytes, node)?[0];
            Ok(first)
        })
        .collect()
}

// The word for none is no node's number: moved down by one it is refused as any other start that is no node.
fn start_word(start: Option<u32>) -> u32 {
    start.map_or(NONE, |node| node.min(NONE - 1))
}

// By source, those of one node in the order given.
fn link_words(links: &[Link]) -> Vec<u32> {
    let mut sorted = links.to_vec();
    sorted.sort_by_key(|link| link.source);
    sorted
        .iter()
        .flat_map(|link| [link.ilabel, link.olabel, link.weight.to_bits(), link.next])
        .collect()
}

fn node_words(links: &[Link], nodes: &[Option<f32>]) -> Vec<u32> {
    let mut words: Vec<u32> = nodes
        .iter()
        .flat_map(|weight| match weight {
            Some(weight) => [0, 1, weight.to_bits()],
            None => [0, 0, 0],
        })
        .collect();
    for link in links {
        if let Some(count) = words.get_mut(3 * link.source as usize) {
            *count = count.saturating_add(1);
        }
    }
    words
}
