//! The library's own calls, in areas that the caller lends. Each tests all that it is given and relies on no
//! earlier call, so that any bytes may be handed over.
//!
//! Where tests 1 to 4, 1 to 6 or 1 to 7 are named, 14 is among them, right after 1.
//!
//! With refusals 1 to 20 no lent area changes. From then on, 21 included, the work slots needed are left zero and
//! those beyond keep their value. With 21 the result area keeps its bytes, and bytes past an answer keep their value.
#![forbid(unsafe_code)]

use crate::ffi;
use crate::layout::{sheet_len, unless_none, LINK, NODE, WORD};
use crate::{Refusal, Trailer, Unit};

/// The 32-bit words of a slot of the work area.
pub const SLOT: usize = 8;

/// What a list is made in: the figures that [`areas`] and [`areas_of`] give.
#[derive(Clone, Copy, Debug, PartialEq, Eq)]
pub struct Needed {
    /// The slots of the work area, of eight words each: with fewer the call is refused with 20.
    pub slots: usize,
    /// Bytes that are enough for the result: with so many the call is not refused with 21. The answer may be shorter.
    pub bytes: usize,
}

impl Needed {
    /// The words of a work area that has the slots needed.
    pub fn words(&self) -> usize {
        SLOT * self.slots
    }
}

/// What a call for a list tells besides the bytes of the result.
#[derive(Clone, Copy, Debug, PartialEq, Eq)]
pub struct Listed {
    /// The states of the list's machine.
    pub states: u32,
    /// The links of the list's machine.
    pub links: u32,
    /// The entries that the search has taken; 0 for n below 2.
    pub taken: u32,
}

impl Listed {
    /// The bytes of the machine, which stands first in the result. It has the trailer of the sheet that is listed.
    pub fn machine_len(&self, trailer: Trailer) -> usize {
        sheet_len(self.states as usize, self.links as usize, trailer)
    }

    /// The bytes of the whole answer: the machine, then a word for each of its links.
    pub fn result_len(&self, trailer: Trailer) -> usize {
        self.machine_len(trailer) + WORD * self.links as usize
    }
}

/// What the call for two parts tells besides the bytes of the result. Where the parts stand there follows from it, from the node where
/// the sheet was parted and from the sheet's trailer, which both parts have.
#[derive(Clone, Copy, Debug, PartialEq, Eq)]
pub struct Split {
    /// The links of the first part.
    pub first: u32,
    /// The links of the second part.
    pub second: u32,
}

impl Split {
    /// The bytes of the first part's sheet, which stands first in the result, where the sheet was parted at node c.
    pub fn first_len(&self, c: u32, trailer: Trailer) -> usize {
        sheet_len(c as usize + 1, self.first as usize, trailer)
    }

    /// Where the second part's sheet begins: behind the first's, and a word for each link of it.
    pub fn second_at(&self, c: u32, trailer: Trailer) -> usize {
        self.first_len(c, trailer) + WORD * self.first as usize
    }

    /// The bytes of the second part's sheet, where the whole has so many nodes. A word for each link of it follows.
    pub fn second_len(&self, nodes: u32, c: u32, trailer: Trailer) -> usize {
        sheet_len((nodes - c) as usize, self.second as usize, trailer)
    }
}

/// The bytes of both parts of a sheet with so many nodes and links and this trailer, and of their words: 20 a link, 12 a node, 12 and two
/// trailers, whatever c is. Those of the longer trailer are enough for a sheet of either.
pub fn split_len(nodes: u32, links: u32, trailer: Trailer) -> usize {
    (LINK + WORD) * links as usize + NODE * (nodes as usize + 1) + 2 * trailer.bytes()
}

/// What is told of a reading besides the numbers of its links.
#[derive(Clone, Copy, Debug, PartialEq, Eq)]
pub struct ReadBack {
    /// How many links it has: their numbers stand first in the run.
    pub links: usize,
    /// What it costs, in the sheet's own unit.
    pub cost: i32,
    /// The node where it ends.
    pub end: u32,
}

/// The counts of a sheet, and its start.
#[derive(Clone, Copy, Debug, PartialEq, Eq, Hash)]
pub struct Counts {
    /// How many nodes there are.
    pub nodes: u32,
    /// How many links there are.
    pub links: u32,
    /// How many nodes are final.
    pub finals: u32,
    /// The start, or none.
    pub start: Option<u32>,
}

impl Counts {
    /// The trailer of a sheet of so many bytes that has these counts.
    pub fn trailer(&self, sheet_bytes: usize) -> Trailer {
        let long = sheet_len(self.nodes as usize, self.links as usize, Trailer::Long);
        if sheet_bytes == long {
            Trailer::Long
        } else {
            Trailer::Short
        }
    }
}

fn told(number: u32) -> Result<(), Refusal> {
    if number == 0 {
        return Ok(());
    }
    Err(Refusal::from_number(number).expect("the library is proved to give no other number"))
}

/// Tests a byte string as a sheet: tests 1 to 4.
pub fn read_sheet(sheet: &[u8]) -> Result<(), Refusal> {
    told(ffi::read_sheet(sheet))
}

/// Writes a sheet with the shorter trailer and tells its length: tests 1 to 4, then 21. A link is four words, as a sheet has
/// them: input label, output label, weight bits, next node. A node is three: link count, final mark, final weight bits. The
/// weight bits of what is barred are 7F800000 hexadecimal, and the start is FFFFFFFF for none.
pub fn write_sheet(
    links: &[u32],
    nodes: &[u32],
    start: u32,
    result: &mut [u8],
) -> Result<usize, Refusal> {
    let mut size = 0;
    told(ffi::write_sheet(links, nodes, start, result, &mut size))?;
    Ok(size as usize)
}

/// The same with the longer trailer, and weights in this unit.
pub fn write_sheet_in(
    links: &[u32],
    nodes: &[u32],
    start: u32,
    unit: Unit,
    result: &mut [u8],
) -> Result<usize, Refusal> {
    let mut size = 0;
    told(ffi::write_sheet_in(
        links,
        nodes,
        start,
        unit.count(),
        result,
        &mut size,
    ))?;
    Ok(size as usize)
}

/// The unit of a sheet: tests 1 to 4.
pub fn unit(sheet: &[u8]) -> Result<Unit, Refusal> {
    let mut count = 0;
    told(ffi::unit(sheet, &mut count))?;
    Ok(Unit::from_count(count).expect("the library is proved to tell no other unit"))
}

/// Turns text rows into a sheet with the shorter trailer and tells its length: tests 8, 1, 4, then 21.
pub fn rows_to_sheet(text: &[u8], result: &mut [u8]) -> Result<usize, Refusal> {
    let mut size = 0;
    told(ffi::rows_to_sheet(text, result, &mut size))?;
    Ok(size as usize)
}

/// Turns a sheet into text rows and tells their length: tests 1 to 4, 9, then 21. These rows convert to that very sheet.
pub fn sheet_to_rows(sheet: &[u8], result: &mut [u8]) -> Result<usize, Refusal> {
    let mut size = 0;
    told(ffi::sheet_to_rows(sheet, result, &mut size))?;
    Ok(size as usize)
}

/// The length of the sheet that text rows give: tests 8, 1 and 4. In a result of this length [`rows_to_sheet`] refuses nothing.
pub fn rows_sheet_bytes(text: &[u8]) -> Result<usize, Refusal> {
    let mut bytes = 0;
    told(ffi::rows_sheet_bytes(text, &mut bytes))?;
    Ok(bytes as usize)
}

/// The length of the text rows that a sheet gives: tests 1 to 4 and 9. In a result of this length [`sheet_to_rows`] refuses nothing.
pub fn sheet_rows_bytes(sheet: &[u8]) -> Result<usize, Refusal> {
    let mut bytes = 0;
    told(ffi::sheet_rows_bytes(sheet, &mut bytes))?;
    Ok(bytes as usize)
}

/// Writes the distances of a sheet's nodes and tells how many there are: tests 1 to 6, then 20 and 21. A distance is two
/// words, 1 and the weight bits, or 0 and 0 for an unreached node. It needs a slot for each node.
pub fn shortest_distance(
    sheet: &[u8],
    work: &mut [u32],
    result: &mut [u8],
) -> Result<u32, Refusal> {
    let mut values = 0;
    told(ffi::shortest_distance(sheet, work, result, &mut values))?;
    Ok(values)
}

/// Writes the list of the n cheapest readings, as a machine and a word for each of its links: tests 1 to 7, then 20 and 21.
pub fn shortest_path(
    sheet: &[u8],
    n: u32,
    work: &mut [u32],
    result: &mut [u8],
) -> Result<Listed, Refusal> {
    let (mut states, mut links, mut taken) = (0, 0, 0);
    told(ffi::shortest_path(
        sheet,
        n,
        work,
        result,
        &mut states,
        &mut links,
        &mut taken,
    ))?;
    Ok(Listed {
        states,
        links,
        taken,
    })
}

/// Writes the sheet of what two sheets both allow, as [`two_probes`](crate::two_probes) has it, and tells its length: tests 1 to 6 of
/// the first sheet, 1 to 6 of the second, whose 14 is also that its unit is not the first's, then 10, 11, 12 and 21. It takes some 390 KB
/// of stack.
pub fn two_probes(first: &[u8], second: &[u8], result: &mut [u8]) -> Result<usize, Refusal> {
    let mut size = 0;
    told(ffi::two_probes(first, second, result, &mut size))?;
    Ok(size as usize)
}

/// Writes the two parts of a sheet at node c, as [`split`](crate::split) has them, each with a word for each of its links behind it, the
/// number that the link has in the whole: tests 1 to 6, then 13 and 21. [`split_len`] bytes are as many as there are.
pub fn split(sheet: &[u8], c: u32, result: &mut [u8]) -> Result<Split, Refusal> {
    let (mut first, mut second) = (0, 0);
    told(ffi::split(sheet, c, result, &mut first, &mut second))?;
    Ok(Split { first, second })
}

/// How many readings the result of [`shortest_path`] for n holds: tests 7, then 30 where the result is shorter than the counts told
/// say, or has more than n readings. No sheet tells which trailer it has, so that as many bytes are enough as with the shorter: [`reading`]
/// asks for them all. What follows the answer's bytes is not looked at.
pub fn readings(result: &[u8], n: u32, listed: Listed) -> Result<u32, Refusal> {
    let mut count = 0;
    told(ffi::readings(
        result,
        n,
        listed.states,
        listed.links,
        &mut count,
    ))?;
    Ok(count)
}

/// Reading k, from 0 and cheapest first, of the result of [`shortest_path`] on this sheet and n: tests 1 to 7, then 30 as [`readings`]
/// gives it, but by the sheet's own trailer, 31 where k is not below the count, 30 where its way leaves the result or is no reading of
/// the sheet, then 21 where the run is too short for it. The run begins with the numbers of its links;
/// [`NODE_LIMIT`](crate::NODE_LIMIT) words are always enough.
///
/// Of any result that is not refused, what is told is a reading of the sheet at its cost.
pub fn reading(
    sheet: &[u8],
    n: u32,
    result: &[u8],
    listed: Listed,
    k: u32,
    run: &mut [u32],
) -> Result<ReadBack, Refusal> {
    let (mut count, mut cost, mut end) = (0, 0, 0);
    told(ffi::reading(
        sheet,
        n,
        result,
        listed.states,
        listed.links,
        k,
        run,
        &mut count,
        &mut cost,
        &mut end,
    ))?;
    Ok(ReadBack {
        links: count as usize,
        cost,
        end,
    })
}

/// The distance of a node in sixty-fourths, or none where it is unreached, from the result of [`shortest_distance`], which told so
/// many values: tests 30 where the result is shorter than these, 31 where the node is not below their number, then 30 where its two
/// words are no distance in sixty-fourths, as they may be where the sheet's unit is another.
pub fn distance(result: &[u8], values: u32, node: u32) -> Result<Option<i32>, Refusal> {
    let (mut reached, mut cost) = (0, 0);
    told(ffi::distance(result, values, node, &mut reached, &mut cost))?;
    Ok((reached == 1).then_some(cost))
}

/// The same in this unit, the sheet's own, which the result does not say.
pub fn distance_in(
    result: &[u8],
    values: u32,
    node: u32,
    unit: Unit,
) -> Result<Option<i32>, Refusal> {
    let (mut reached, mut cost) = (0, 0);
    told(ffi::distance_in(
        result,
        values,
        node,
        unit.count(),
        &mut reached,
        &mut cost,
    ))?;
    Ok((reached == 1).then_some(cost))
}

/// Reads a sheet, tests 1 to 4, and tells its counts.
pub fn sheet_counts(sheet: &[u8]) -> Result<Counts, Refusal> {
    let (mut nodes, mut links, mut finals, mut start) = (0, 0, 0, 0);
    told(ffi::sheet_counts(
        sheet,
        &mut nodes,
        &mut links,
        &mut finals,
        &mut start,
    ))?;
    Ok(Counts {
        nodes,
        links,
        finals,
        start: unless_none(start),
    })
}

/// The four words of a link of a sheet that has passed tests 1 to 4, as [`write_sheet`] takes them: 31 past the last.
pub fn link(sheet: &[u8], number: u32) -> Result<[u32; 4], Refusal> {
    let [mut ilabel, mut olabel, mut weight_bits, mut next] = [0; 4];
    told(ffi::link(
        sheet,
        number,
        &mut ilabel,
        &mut olabel,
        &mut weight_bits,
        &mut next,
    ))?;
    Ok([ilabel, olabel, weight_bits, next])
}

/// The three words of a node of a sheet that has passed tests 1 to 4, as [`write_sheet`] takes them: 31 past the last.
pub fn node(sheet: &[u8], number: u32) -> Result<[u32; 3], Refusal> {
    let [mut links, mut mark, mut weight_bits] = [0; 3];
    told(ffi::node(
        sheet,
        number,
        &mut links,
        &mut mark,
        &mut weight_bits,
    ))?;
    Ok([links, mark, weight_bits])
}

/// The areas that a list for n is made in: tests 1 to 7. Those for n = 1 are long enough for distances, too.
pub fn areas(sheet: &[u8], n: u32) -> Result<Needed, Refusal> {
    let (mut slots, mut bytes) = (0, 0);
    told(ffi::areas(sheet, n, &mut slots, &mut bytes))?;
    Ok(needed(slots, bytes))
}

/// Areas in which no list for n is refused, nor for n = 1 the distances, of any accepted sheet, of either trailer, with at most so many
/// nodes, links and final nodes: tests 5 and 7 of these counts. It looks at no sheet; of a sheet's own counts it tells what [`areas`] tells
/// of one with the longer trailer. More final nodes than nodes count as that many nodes.
pub fn areas_of(nodes: u32, links: u32, finals: u32, n: u32) -> Result<Needed, Refusal> {
    let (mut slots, mut bytes) = (0, 0);
    told(ffi::areas_of(
        nodes, links, finals, n, &mut slots, &mut bytes,
    ))?;
    Ok(needed(slots, bytes))
}

fn needed(slots: u64, bytes: u64) -> Needed {
    Needed {
        slots: slots as usize,
        bytes: bytes as usize,
    }
}
