"""The two parts of a sheet that narrows to a node."""
from __future__ import annotations

from dataclasses import dataclass, field

from . import raw
from .limits import LINK_LIMIT, NODE_LIMIT
from .search import Reading
from .sheet import Sheet


@dataclass(frozen=True)
class Part:
    """One of the two parts of a sheet."""

    sheet: Sheet
    """The part as a sheet of its own. The searches accept it."""
    numbers: range
    """For each link of the part in order its number in the whole sheet."""

    def in_whole(self, reading: Reading) -> tuple[int, ...]:
        """The numbers in the whole sheet of the links of a reading of the part."""
        return tuple(self.numbers[link] for link in reading.numbers)


@dataclass(frozen=True)
class Parts:
    """The two parts of a sheet."""

    whole: Sheet = field(repr=False)
    """The sheet that they are parts of."""
    node: int
    """The node where they meet."""
    first: Part
    """The nodes up to that node."""
    second: Part
    """The nodes from it on."""

    def join(self, first: Reading, second: Reading) -> Reading:
        """The reading of the whole that a reading of the first part and one of the second make: its cost is the sum
        of theirs. A reading of another sheet is a `ValueError`."""
        if first.sheet != self.first.sheet or second.sheet != self.second.sheet:
            raise ValueError("no reading of the first part and one of the second")
        numbers = (*self.first.in_whole(first), *self.second.in_whole(second))
        return Reading(self.whole, first.cost + second.cost, numbers, self.node + second.end)


def split(sheet: Sheet, c: int) -> Parts:
    """The two parts of a sheet at node c, as where preheat ends and the bake begins: the machine must narrow to c.
    Refusals 5, 6 and 13.

    The first part has the nodes up to c and the links that leave those below c; c is final in it, at weight 0, and
    has no links. The second has the nodes from c on and their links, and starts at c; its nodes count from c, which
    keeps its mark, weight and links there. Both keep the order of links and the sheet's trailer. The machine narrows
    to c if c is one of its nodes, the start is present and not above c, no node below c is final and no link leads
    from below c to above it, reached or not, barred or not.

    For every n from 1 to 64 the costs of the sheet's list are the n least sums of one cost from each part's list for
    n, or all of them where there are fewer.

    >>> from yeldmur import list_readings
    >>> whole = Sheet.from_rows("0 1 7 7 1\\n0 1 8 8 0.5\\n1 2 7 7 0.25\\n1 2 9 9 2\\n2 0.5\\n")
    >>> parts = split(whole, 1)
    >>> parts
    Parts(node=1, first=Part(sheet=<Sheet: 2 nodes, 2 links, start 0>, numbers=range(0, 2)), \
second=Part(sheet=<Sheet: 2 nodes, 2 links, start 0>, numbers=range(2, 4)))
    >>> preheat, bake = list_readings(parts.first.sheet, 2), list_readings(parts.second.sheet, 2)
    >>> [reading.cost for reading in preheat], [reading.cost for reading in bake]
    ([32, 64], [48, 160])
    >>> [reading.cost for reading in list_readings(whole, 2)]  # 32 + 48 and 64 + 48
    [80, 112]
    >>> parts.join(preheat[0], bake[0])
    Reading(cost=80, unit=64, numbers=(1, 2), end=2)
    """
    c = min(c, raw.NONE)
    result = raw.byte_area(_enough(sheet))
    told = raw.split(sheet.bytes, c, result)
    end = raw.sheet_size(c + 1, told.first, sheet.trailer)
    begin = end + 4 * told.first
    last = begin + raw.sheet_size(sheet.node_count - c, told.second, sheet.trailer)
    # the words behind each part say the same numbers, as is proved
    first = Part(Sheet.read(result[:end]), range(told.first))
    second = Part(Sheet.read(result[begin:last]), range(told.first, told.first + told.second))
    return Parts(sheet, c, first, second)


def _enough(sheet: Sheet) -> int:
    """As many bytes as both parts have: 21 cannot come. A sheet above the limits is refused before that, so that no
    area is made for it."""
    if sheet.node_count > NODE_LIMIT or sheet.link_count > LINK_LIMIT:
        return 0
    return raw.split_size(sheet.node_count, sheet.link_count, sheet.trailer)
