"""Distances and lists of readings, in areas that this module makes."""
from __future__ import annotations

from dataclasses import dataclass, field
from decimal import Decimal
from typing import Iterator, Optional

from . import raw
from .limits import NODE_LIMIT
from .refusal import Refusal
from .sheet import Link, Sheet
from .weights import decimal


@dataclass(frozen=True)
class Reading:
    """One reading of a list: a way from the start of its sheet to a final node."""

    sheet: Sheet = field(repr=False)
    cost: int
    """What it costs, in the sheet's own unit: the sum of the weights of its links and of the final weight. Costs of
    sheets of two units are compared by `cost_decimal`."""
    numbers: tuple[int, ...]
    """The numbers of its links in the sheet, from the start on. There may be none."""
    end: int
    """The node where it ends."""

    @property
    def unit(self) -> int:
        """How many units of the cost are 1: 64 or 256."""
        return self.sheet.unit

    @property
    def cost_decimal(self) -> Decimal:
        """The cost as an exact decimal."""
        return decimal(self.cost, self.unit)

    @property
    def links(self) -> tuple[Link, ...]:
        """Its links as the sheet has them, from the start on. There may be none."""
        return tuple(self.sheet.link(number) for number in self.numbers)

    def __repr__(self) -> str:
        return f"Reading(cost={self.cost}, unit={self.unit}, numbers={self.numbers}, end={self.end})"


class _Readings:
    """What lists and their fronts share: a length, a way through, and a reading by its place."""

    readings: tuple[Reading, ...]

    def __len__(self) -> int:
        return len(self.readings)

    def __iter__(self) -> Iterator[Reading]:
        return iter(self.readings)

    def __getitem__(self, place: int) -> Reading:
        return self.readings[place]


@dataclass(frozen=True)
class Front(_Readings):
    """The front of a list, as `List.front` gives it: its first readings, cheapest first. It has a length, can be gone
    through, and gives a reading by its place."""

    n: int
    """The count that it was made for; there may be fewer readings."""
    readings: tuple[Reading, ...]
    may_differ: bool
    """Whether the list for this count may hold other readings than these: whether the one behind them, on the list that
    this is the front of, costs as much as the last of them. Where it is False that list holds just these, as is proved;
    where it is True it holds as many of that cost, and of each lower cost the same. The order of those that cost the
    same is each list's own; `list_readings` for this count tells."""


@dataclass(frozen=True)
class List(_Readings):
    """A list of readings, cheapest first. It has a length, can be gone through, and gives a reading by its place."""

    taken: int
    """How many entries the search has taken; 0 for n below 2, and where there is no reading."""
    readings: tuple[Reading, ...]
    n: int = field(compare=False)
    """The n that it was made for; there may be fewer readings. Lists are equal without it."""

    def front(self, count: int) -> Front:
        """The first `count` readings, or all where there are fewer. A count above the `n` that the list was made for
        is a `ValueError`, since a longer list may hold more than this one tells; so is one below 0.

        Its costs are those of the list for that count, as is proved. Whether its readings are sure to be, too, tells
        its `may_differ`.

        >>> sheet = Sheet.from_rows("0 1 1 1 1\\n0 2 2 2 0.5\\n1 3 3 3 0.25\\n1 2 5 5\\n2 3 4 4 0.75\\n3 0.5\\n")
        >>> listed = list_readings(sheet, 3)
        >>> [reading.cost for reading in listed]
        [112, 112, 144]
        >>> listed.front(1)  # another reading costs as much
        Front(n=1, readings=(Reading(cost=112, unit=64, numbers=(0, 2), end=3),), may_differ=True)
        >>> listed.front(2).may_differ, listed.front(3).may_differ  # the third is dearer; the list itself
        (False, False)
        >>> listed.front(4)
        Traceback (most recent call last):
        ValueError: a list for 3 has fronts of 0 to 3, not of 4

        The list for 1 may hold another reading than that front of the list for 2. Here three nodes stand in a line,
        each is final, and all weights are 0.

        >>> ties = Sheet.from_rows("0 1 1 1\\n1 2 2 2\\n0\\n1\\n2\\n")
        >>> [reading.numbers for reading in list_readings(ties, 2)]
        [(0,), ()]
        >>> list_readings(ties, 2).front(1)
        Front(n=1, readings=(Reading(cost=0, unit=64, numbers=(0,), end=1),), may_differ=True)
        >>> best(ties)
        Reading(cost=0, unit=64, numbers=(), end=0)
        """
        if not 0 <= count <= self.n:
            raise ValueError(f"a list for {self.n} has fronts of 0 to {self.n}, not of {count}")
        front, behind = self.readings[:count], self.readings[count:]
        # one behind the front may be listed in the place of one that costs as much
        tied = bool(front and behind) and front[-1].cost == behind[0].cost
        return Front(count, front, tied)


class Areas:
    """A work area and a result area that grow as a sheet needs them and are kept, so that calls in a loop
    allocate only where a sheet needs more than those before it. One thread at a time may use them.

    For n = 64 and a sheet at the limits the two take about 34 MB each.
    """

    def __init__(self) -> None:
        self._work = raw.word_area(0)
        self._result = raw.byte_area(0)
        self._run = raw.word_area(NODE_LIMIT)

    def list_readings(self, sheet: Sheet, n: int) -> List:
        """As `yeldmur.list_readings`, in these areas."""
        n = min(n, raw.NONE)
        self._fit(sheet, n)
        listed = raw.shortest_path(sheet.bytes, n, self._work, self._result)
        count = raw.readings(self._result, n, listed.states, listed.links)
        return List(listed.taken, tuple(self._reading(sheet, n, listed, k) for k in range(count)), n)

    def best(self, sheet: Sheet) -> Optional[Reading]:
        """As `yeldmur.best`, in these areas."""
        return next(iter(self.list_readings(sheet, 1)), None)

    def distances(self, sheet: Sheet) -> list[Optional[int]]:
        """As `yeldmur.distances`, in these areas."""
        # n = 1 needs the same slots, and its result has more bytes for each node than a distance
        self._fit(sheet, 1)
        values, unit = raw.shortest_distance(sheet.bytes, self._work, self._result), sheet.unit
        return [raw.distance_in(self._result, values, node, unit) for node in range(values)]

    def _reading(self, sheet: Sheet, n: int, listed: raw.Listed, k: int) -> Reading:
        counts = (listed.states, listed.links)
        told = raw.reading(sheet.bytes, n, self._result, *counts, k, self._run)
        return Reading(sheet, told.cost, tuple(self._run[: told.links]), told.end)

    def _fit(self, sheet: Sheet, n: int) -> None:
        """Neither 20 nor 21 can come in areas of this size. Where the counts or n are refused the areas stay as
        they are: the call that follows tests the whole sheet, and its number is the one that counts."""
        try:
            needed = raw.areas_of(sheet.node_count, sheet.link_count, sheet.final_count, n)
        except Refusal:
            return
        if len(self._work) < raw.SLOT * needed.slots:
            self._work = raw.word_area(raw.SLOT * needed.slots)
        if len(self._result) < needed.bytes:
            self._result = raw.byte_area(needed.bytes)


def list_readings(sheet: Sheet, n: int) -> List:
    """The n cheapest readings of a sheet, n up to 64, cheapest first. Refusals 5 to 7.

    The list has n readings, or all where the sheet has fewer, and no reading that is left out costs less than
    one on it. A run over what is barred is no reading.

    For every smaller n, from 1, the costs listed are the first of these, or all where there are fewer, as is proved;
    and the best reading, that of n = 1, costs what heads every list. A shorter list may hold other readings of its last
    cost; of each lower cost it holds the same. `List.front` tells for each count whether that is open.

    >>> sheet = Sheet.from_rows("0 1 1 1 1\\n0 2 2 2 0.5\\n1 3 3 3 0.25\\n1 2 5 5\\n2 3 4 4 0.75\\n3 0.5\\n")
    >>> listed = list_readings(sheet, 3)
    >>> listed.taken
    11
    >>> for reading in listed:
    ...     print(reading)
    Reading(cost=112, unit=64, numbers=(0, 2), end=3)
    Reading(cost=112, unit=64, numbers=(1, 4), end=3)
    Reading(cost=144, unit=64, numbers=(0, 3, 4), end=3)
    >>> print(listed[2].cost_decimal, [link.ilabel for link in listed[2].links])
    2.25 [1, 5, 4]

    Costs are in the sheet's own unit.

    >>> finer = Sheet.write(sheet.links, sheet.finals, sheet.start, unit=256)
    >>> for reading in list_readings(finer, 2):
    ...     print(reading, reading.cost_decimal)
    Reading(cost=448, unit=256, numbers=(0, 2), end=3) 1.75
    Reading(cost=448, unit=256, numbers=(1, 4), end=3) 1.75
    """
    return Areas().list_readings(sheet, n)


def best(sheet: Sheet) -> Optional[Reading]:
    """The cheapest reading of a sheet, or None where it has none. Refusals 5 and 6.

    It costs what heads every list of the sheet. Where several cost the same it may be another than the first of a
    longer list.

    >>> best(Sheet.from_rows("0 1 1 1 0.5\\n1 -0.25\\n"))
    Reading(cost=16, unit=64, numbers=(0,), end=1)
    >>> best(Sheet.from_rows("0 1 1 1 0.5\\n")) is None
    True
    """
    return Areas().best(sheet)


def distances(sheet: Sheet) -> list[Optional[int]]:
    """The distances of a sheet's nodes in its own unit: one value per node, None for an unreached one, up to the
    highest node that is reached or that a link from a reached node leads to. The two differ where that link is
    barred: it reaches nothing. Without a start there are no values. Refusals 5 and 6.

    >>> distances(Sheet.from_rows("0 2 1 1 0.5\\n3\\n"))
    [0, None, 32]
    >>> distances(Sheet.from_rows("0 2 1 1 0.5\\n0 3 1 1 Infinity\\n"))
    [0, None, 32, None]
    >>> distances(Sheet.write([(0, 1, 1, 1 / 256, 1)], [None, 0], 0, unit=256))
    [0, 1]
    """
    return Areas().distances(sheet)
