"""The library's own calls, in areas that the caller lends. Each tests all that it is given and relies on no
earlier call, so that any bytes may be handed over; a refusal is raised.

With refusals 1 to 20 no lent area changes. From then on, 21 included, the work slots needed are left zero and
those beyond keep their value. With 21 the result area keeps its bytes, and bytes past an answer keep their value.

What is only read is `bytes`, or an area itself. A number that does not fit 32 bits is a `ctypes.ArgumentError`.
"""
from __future__ import annotations

import ctypes
from array import array
from ctypes import byref, c_char, c_int32, c_uint32, c_uint64
from typing import Iterable, NamedTuple, Optional, Union

from ._library import library

SLOT = 8
"""The words of a slot of the work area."""

NONE = 0xFFFFFFFF
"""The start of a sheet that has none."""

SHORT_TRAILER = 20
"""The bytes of the trailer that means unit 64."""

LONG_TRAILER = 24
"""The bytes of the trailer that states its unit, 64 or 256."""

ByteArea = ctypes.Array[c_char]
WordArea = ctypes.Array[c_uint32]
Readable = Union[bytes, ByteArea]


def byte_area(size: int) -> ByteArea:
    """So many bytes, all 0."""
    return (c_char * size)()


def word_area(size: int) -> WordArea:
    """So many words, all 0."""
    return (c_uint32 * size)()


def words(values: Iterable[int]) -> WordArea:
    """The area that holds these words; one that does not fit 32 bits is an `OverflowError`."""
    held = array("I", values)
    return (c_uint32 * len(held)).from_buffer_copy(held)


def sheet_size(nodes: int, links: int, trailer: int) -> int:
    """The bytes of a sheet with a trailer of so many. An answer has the trailer of its sheet."""
    return 16 * links + 12 * nodes + trailer


def split_size(nodes: int, links: int, trailer: int) -> int:
    """The bytes of both parts of a sheet with a trailer of so many, and of a word for each link, wherever the parts
    meet."""
    return 20 * links + 12 * (nodes + 1) + 2 * trailer


class Needed(NamedTuple):
    """What a list is made in."""

    slots: int
    """The slots of the work area: with fewer the call is refused with 20."""
    bytes: int
    """Bytes that are enough for the result: with so many the call is not refused with 21."""


class Listed(NamedTuple):
    """What a call for a list tells besides the bytes of the result."""

    states: int
    links: int
    taken: int


class Split(NamedTuple):
    """How many links each of two parts has."""

    first: int
    second: int


class Told(NamedTuple):
    """What the call for a reading tells besides the numbers of its links."""

    links: int
    cost: int
    """In the sheet's own unit."""
    end: int


class Counts(NamedTuple):
    """The counts of a sheet, and its start or `NONE`."""

    nodes: int
    links: int
    finals: int
    start: int


class LinkFields(NamedTuple):
    """The fields of a link."""

    ilabel: int
    olabel: int
    weight_bits: int
    next: int


class NodeFields(NamedTuple):
    """The fields of a node."""

    links: int
    mark: int
    weight_bits: int


def read_sheet(sheet: Readable) -> None:
    """Tests bytes as a sheet: tests 1, 14 and 2 to 4."""
    library.yeldmur_read_sheet(sheet, len(sheet))


def write_sheet(links: WordArea, nodes: WordArea, start: int, result: ByteArea) -> int:
    """Writes a sheet of weights in sixty-fourths, with the shorter trailer, and tells its bytes: tests 1 to 4, then
    21. A link is four words (input label, output label, weight bits, next node), a node three (link count, final
    mark, final weight bits)."""
    size = c_uint64()
    areas = (links, len(links), nodes, len(nodes), start, result, len(result))
    library.yeldmur_write_sheet(*areas, byref(size))
    return size.value


def write_sheet_in(links: WordArea, nodes: WordArea, start: int, unit: int, result: ByteArea) -> int:
    """The same with the longer trailer, of weights in this unit, 64 or 256: tests 1, 14, 2 to 4, then 21."""
    size = c_uint64()
    areas = (links, len(links), nodes, len(nodes), start, unit, result, len(result))
    library.yeldmur_write_sheet_in(*areas, byref(size))
    return size.value


def rows_to_sheet(text: Readable, result: ByteArea) -> int:
    """Turns text rows into a sheet and tells its bytes: tests 8, 1, 4, then 21."""
    size = c_uint64()
    library.yeldmur_rows_to_sheet(text, len(text), result, len(result), byref(size))
    return size.value


def sheet_to_rows(sheet: Readable, result: ByteArea) -> int:
    """Turns a sheet into text rows and tells their bytes: tests 1, 14, 2 to 4, 9, then 21. One with the longer
    trailer has none."""
    size = c_uint64()
    library.yeldmur_sheet_to_rows(sheet, len(sheet), result, len(result), byref(size))
    return size.value


def rows_sheet_bytes(text: Readable) -> int:
    """The bytes of the sheet that text rows give: tests 8, 1 and 4."""
    size = c_uint64()
    library.yeldmur_rows_sheet_bytes(text, len(text), byref(size))
    return size.value


def sheet_rows_bytes(sheet: Readable) -> int:
    """The bytes of the text rows that a sheet gives: tests 1, 14, 2 to 4 and 9."""
    size = c_uint64()
    library.yeldmur_sheet_rows_bytes(sheet, len(sheet), byref(size))
    return size.value


def shortest_distance(sheet: Readable, work: WordArea, result: ByteArea) -> int:
    """Writes the distances of a sheet's nodes and tells how many there are: tests 1, 14, 2 to 6, 20 and 21."""
    values = c_uint32()
    areas = (sheet, len(sheet), work, len(work), result, len(result))
    library.yeldmur_shortest_distance(*areas, byref(values))
    return values.value


def shortest_path(sheet: Readable, n: int, work: WordArea, result: ByteArea) -> Listed:
    """Writes the list of the n cheapest readings: tests 1, 14, 2 to 7, 20 and 21."""
    states, links, taken = c_uint32(), c_uint32(), c_uint32()
    areas = (sheet, len(sheet), n, work, len(work), result, len(result))
    library.yeldmur_shortest_path(*areas, byref(states), byref(links), byref(taken))
    return Listed(states.value, links.value, taken.value)


def two_probes(first: Readable, second: Readable, result: ByteArea) -> int:
    """Writes the sheet of what two sheets both allow, with the first's trailer, and tells its bytes: tests 1, 14 and
    2 to 6 of the first sheet, then the same of the second, of which 14 is also a unit other than the first's, then
    10, 11, 12 and 21. It takes some 390 KB of stack."""
    size = c_uint64()
    areas = (first, len(first), second, len(second), result, len(result))
    library.yeldmur_two_probes(*areas, byref(size))
    return size.value


def split(sheet: Readable, c: int, result: ByteArea) -> Split:
    """Writes the two parts of a sheet at node c, each with a word for each of its links behind it, the number that
    the link has in the whole: tests 1, 14, 2 to 6, then 13 and 21. `split_size` bytes are as many as there are."""
    first, second = c_uint32(), c_uint32()
    areas = (sheet, len(sheet), c, result, len(result))
    library.yeldmur_split(*areas, byref(first), byref(second))
    return Split(first.value, second.value)


def readings(result: Readable, n: int, states: int, links: int) -> int:
    """How many readings the result of a list for n holds: tests 7, then 30."""
    count = c_uint32()
    library.yeldmur_readings(result, len(result), n, states, links, byref(count))
    return count.value


def reading(
    sheet: Readable, n: int, result: Readable, states: int, links: int, k: int, run: WordArea
) -> Told:
    """Reading k, from 0, of the result of a list of this sheet for n: tests 1, 14, 2 to 7, 30, 31, 30, then 21. `run`
    begins with the numbers of its links; `NODE_LIMIT` words are always enough."""
    count, cost, end = c_uint32(), c_int32(), c_uint32()
    given = (sheet, len(sheet), n, result, len(result), states, links, k)
    library.yeldmur_reading(*given, run, len(run), byref(count), byref(cost), byref(end))
    return Told(count.value, cost.value, end.value)


def distance(result: Readable, values: int, node: int) -> Optional[int]:
    """The distance of a node in sixty-fourths, or None where it is unreached, from the result of
    `shortest_distance` on a sheet of that unit, which told `values`: tests 30, 31, 30."""
    reached, cost = c_uint32(), c_int32()
    library.yeldmur_distance(result, len(result), values, node, byref(reached), byref(cost))
    return cost.value if reached.value else None


def distance_in(result: Readable, values: int, node: int, unit: int) -> Optional[int]:
    """The same in the unit of the sheet, which `unit` tells: tests 14, 30, 31, 30. The result does not say which it
    is: with another unit the cost told is another."""
    reached, cost = c_uint32(), c_int32()
    library.yeldmur_distance_in(result, len(result), values, node, unit, byref(reached), byref(cost))
    return cost.value if reached.value else None


def unit(sheet: Readable) -> int:
    """Reads a sheet, tests 1, 14 and 2 to 4, and tells how many of its units are 1: 64 or 256."""
    told = c_uint32()
    library.yeldmur_unit(sheet, len(sheet), byref(told))
    return told.value


def sheet_counts(sheet: Readable) -> Counts:
    """Reads a sheet, tests 1, 14 and 2 to 4, and tells its counts and its start."""
    nodes, links, finals, start = c_uint32(), c_uint32(), c_uint32(), c_uint32()
    told = (byref(nodes), byref(links), byref(finals), byref(start))
    library.yeldmur_sheet_counts(sheet, len(sheet), *told)
    return Counts(nodes.value, links.value, finals.value, start.value)


def link(sheet: Readable, number: int) -> LinkFields:
    """The fields of a link, of a sheet that has been read: 31 past the last."""
    ilabel, olabel, bits, following = c_uint32(), c_uint32(), c_uint32(), c_uint32()
    told = (byref(ilabel), byref(olabel), byref(bits), byref(following))
    library.yeldmur_link(sheet, len(sheet), number, *told)
    return LinkFields(ilabel.value, olabel.value, bits.value, following.value)


def node(sheet: Readable, number: int) -> NodeFields:
    """The fields of a node, of a sheet that has been read: 31 past the last."""
    links, mark, bits = c_uint32(), c_uint32(), c_uint32()
    library.yeldmur_node(sheet, len(sheet), number, byref(links), byref(mark), byref(bits))
    return NodeFields(links.value, mark.value, bits.value)


def areas(sheet: Readable, n: int) -> Needed:
    """The areas that a list for n is made in: tests 1, 14 and 2 to 7. Those for n = 1 are enough for distances, too."""
    slots, size = c_uint64(), c_uint64()
    library.yeldmur_areas(sheet, len(sheet), n, byref(slots), byref(size))
    return Needed(slots.value, size.value)


def areas_of(nodes: int, links: int, finals: int, n: int) -> Needed:
    """The same for every accepted sheet, with either trailer, of at most so many nodes, links and final nodes: tests 5
    and 7."""
    slots, size = c_uint64(), c_uint64()
    library.yeldmur_areas_of(nodes, links, finals, n, byref(slots), byref(size))
    return Needed(slots.value, size.value)
