"""Sheets: machines of nodes and links, as bytes that have passed tests 1, 14 and 2 to 4."""
from __future__ import annotations

from bisect import bisect_right
from functools import cached_property
from itertools import accumulate
from typing import Iterable, NamedTuple, Optional, Tuple, Union

from . import raw
from .weights import Weight, bits_of, units_of, weight_of

Data = bytes  # by another name, since a sheet has a property `bytes`; any other buffer is copied
Fields = Tuple[int, int, int, Weight, int]  # a link, or five values in its order


class Link(NamedTuple):
    """A link: the node that it leaves, two labels, a weight, which may be `BARRED`, and the node that it leads to."""

    source: int
    ilabel: int
    olabel: int
    weight: float
    next: int

    def units(self, unit: int) -> Optional[int]:
        """The weight in the unit of its sheet, or None where it is barred."""
        return units_of(self.weight, unit)


class Sheet:
    """A sheet that has passed tests 1, 14 and 2 to 4. Its nodes and links are numbered from 0.

    A sheet need not climb and may be larger than a search accepts: the searches test that. Two sheets are
    equal where their bytes are.

    >>> sheet = Sheet.from_rows("0 1 7 8 -1.5\\n1 0.25\\n")
    >>> sheet
    <Sheet: 2 nodes, 1 link, start 0>
    >>> sheet.link(0)
    Link(source=0, ilabel=7, olabel=8, weight=-1.5, next=1)
    >>> sheet.finals
    (None, 0.25)
    >>> Sheet.write(sheet.links, sheet.finals, sheet.start) == Sheet.read(sheet.bytes) == sheet
    True

    Its weights are in sixty-fourths. One with a longer trailer states its unit, which is 64 or 256.

    >>> finer = Sheet.write([(0, 7, 8, 1 / 256, 1)], [None, -32], 0, unit=256)
    >>> finer
    <Sheet: 2 nodes, 1 link, start 0, unit 256>
    >>> (sheet.unit, sheet.stated_unit), (finer.unit, finer.stated_unit)
    ((64, None), (256, 256))
    >>> Sheet.write(finer.links, finer.finals, finer.start, finer.stated_unit) == finer
    True
    """

    def __init__(self, data: Data) -> None:
        self._bytes = _held(data)
        self._counts = raw.sheet_counts(self._bytes)

    @classmethod
    def read(cls, data: Data) -> Sheet:
        """Takes bytes that are laid out as a sheet. Refusals 1, 14 and 2 to 4."""
        return cls(data)

    @classmethod
    def from_rows(cls, text: Union[str, Data]) -> Sheet:
        """The sheet that text rows give, of unit 64 and with the shorter trailer. Refusals 8, then 1 and 4.

        A row is a link, by its source, next node, input label, output label and weight, or a final node with
        its weight; a weight that is left out is 0. The first row's first node is the start. Spaces and tabs
        part fields, and a newline ends each row, the last too. A weight of `Infinity` bars.

        >>> Sheet.from_rows("0 1 7 8 Infinity\\n1\\n").link(0)
        Link(source=0, ilabel=7, olabel=8, weight=inf, next=1)

        A short text can give a long sheet, 12 bytes for each node up to the highest one, and so end in a
        `MemoryError`: `raw.rows_sheet_bytes` tells how long, from the text alone.
        """
        # a character beyond ASCII becomes a question mark, which is refused in every place as it would be
        data = text.encode("ascii", "replace") if isinstance(text, str) else _held(text)
        result = raw.byte_area(raw.rows_sheet_bytes(data))
        raw.rows_to_sheet(data, result)
        return cls(result.raw)

    @classmethod
    def write(
        cls,
        links: Iterable[Fields],
        finals: Iterable[Optional[Weight]],
        start: Optional[int],
        unit: Optional[int] = None,
    ) -> Sheet:
        """Writes a sheet: its links, a final weight or None for each node, and the start or None. Refusals 1 to 4.

        Without a unit its weights are in sixty-fourths and its trailer is the shorter. With one, 64 or 256, the
        trailer is the longer, which states it, and refusal 14, of any other, comes right after 1.

        A link is a `Link`, or five values in its order. Links may come in any order of their sources; in the
        sheet they stand by source, and those of one node in the order given. A source that is no node is
        refusal 1, since no node counts that link. Weights are taken exactly: any other number than k/64, or k/256
        with that unit, for a whole k up to 8,192 either way, or `BARRED`, is refusal 4. A label or a next node that
        does not fit 32 bits is an `OverflowError`.
        """
        ordered = sorted(links, key=lambda link: link[0])
        weights = list(finals)
        # the word for none is no node's number: moved down it is refused as any other start that is no node
        first = raw.NONE if start is None else min(start, raw.NONE - 1)
        words = _link_words(ordered), _node_words(ordered, weights)
        if unit is None:
            result = raw.byte_area(raw.sheet_size(len(weights), len(ordered), raw.SHORT_TRAILER))
            raw.write_sheet(*words, first, result)
        else:
            result = raw.byte_area(raw.sheet_size(len(weights), len(ordered), raw.LONG_TRAILER))
            raw.write_sheet_in(*words, first, min(unit, raw.NONE), result)
        return cls(result.raw)

    @property
    def bytes(self) -> Data:
        """The sheet's bytes."""
        return self._bytes

    @property
    def node_count(self) -> int:
        """How many nodes there are."""
        return self._counts.nodes

    @property
    def link_count(self) -> int:
        """How many links there are."""
        return self._counts.links

    @property
    def final_count(self) -> int:
        """How many nodes are final, reached or not."""
        return self._counts.finals

    @property
    def start(self) -> Optional[int]:
        """The start, or None."""
        return None if self._counts.start == raw.NONE else self._counts.start

    @cached_property
    def unit(self) -> int:
        """How many of the units in which its weights and costs are counted are 1: 64 or 256."""
        return raw.unit(self._bytes)

    @property
    def trailer(self) -> int:
        """The bytes of its trailer: 24 where it states its unit, or 20, which means 64."""
        return len(self._bytes) - raw.sheet_size(self.node_count, self.link_count, 0)

    @property
    def stated_unit(self) -> Optional[int]:
        """The unit that its trailer states, or None where that is the shorter: as `write` takes it."""
        return None if self.trailer == raw.SHORT_TRAILER else self.unit

    @cached_property
    def links(self) -> tuple[Link, ...]:
        """The links, in the order of their numbers."""
        return tuple(self.link(number) for number in range(self.link_count))

    @cached_property
    def finals(self) -> tuple[Optional[float], ...]:
        """For each node in order its final weight, which may be `BARRED`, or None where it is not final."""
        return tuple(weight_of(node.weight_bits) if node.mark else None for node in self._nodes)

    def link(self, number: int) -> Link:
        """The link with a number. Refusal 31 past the last."""
        ilabel, olabel, bits, following = raw.link(self._bytes, number)
        return Link(self._source(number), ilabel, olabel, weight_of(bits), following)

    def rows(self) -> str:
        """The text rows of the sheet, which convert to that very sheet. Refusal 9 where it has none, as one with the
        longer trailer.

        >>> print(Sheet.from_rows(" 2  0  7 7  -01.50\\n0\\n2 0\\n").rows().expandtabs(4), end="")
        2   0   7   7   -1.5
        2
        0
        """
        result = raw.byte_area(raw.sheet_rows_bytes(self._bytes))
        raw.sheet_to_rows(self._bytes, result)
        return result.raw.decode("ascii")

    @cached_property
    def _nodes(self) -> tuple[raw.NodeFields, ...]:
        return tuple(raw.node(self._bytes, node) for node in range(self.node_count))

    @cached_property
    def _firsts(self) -> list[int]:
        """The number of each node's first link, from which a link's source is found."""
        return list(accumulate((node.links for node in self._nodes), initial=0))[:-1]

    def _source(self, number: int) -> int:
        # the last node whose first link is not past this one: a node without links begins where the next does
        return bisect_right(self._firsts, number) - 1

    def __eq__(self, other: object) -> bool:
        if not isinstance(other, Sheet):
            return NotImplemented
        return self._bytes == other._bytes

    def __hash__(self) -> int:
        return hash(self._bytes)

    def __repr__(self) -> str:
        links = "1 link" if self.link_count == 1 else f"{self.link_count} links"
        nodes = "1 node" if self.node_count == 1 else f"{self.node_count} nodes"
        unit = "" if self.stated_unit is None else f", unit {self.unit}"
        return f"<Sheet: {nodes}, {links}, start {self.start}{unit}>"


def _held(data: Data) -> Data:
    # memoryview refuses a number, of which `bytes` would make so many zeros
    return data if isinstance(data, bytes) else bytes(memoryview(data))


def _link_words(links: list[Fields]) -> raw.WordArea:
    fields = ((ilabel, olabel, bits_of(w), following) for _, ilabel, olabel, w, following in links)
    return raw.words(word for link in fields for word in link)


def _node_words(links: list[Fields], finals: list[Optional[Weight]]) -> raw.WordArea:
    counts = [0] * len(finals)
    for link in links:
        if 0 <= link[0] < len(counts):
            counts[link[0]] += 1
    marks = ((0, 0) if weight is None else (1, bits_of(weight)) for weight in finals)
    return raw.words(word for count, mark in zip(counts, marks) for word in (count, *mark))
