"""The sheet of what two sheets both allow."""
from __future__ import annotations

from . import raw
from .limits import LINK_LIMIT, NODE_LIMIT
from .sheet import Sheet


def two_probes(first: Sheet, second: Sheet) -> Sheet:
    """The sheet of what two sheets both allow, as two probes in one oven give two machines of the same bake.
    Refusals 5 and 6 of the first sheet, then 14 where the second's unit is another, 5 and 6 of the second, then 10
    to 12.

    Its node for node i of the first and j of the second is i times the second's number of nodes, plus j. It has a
    link for each link of the first and each of the second that has the same label, between their nodes and with
    the sum of their weights; a node's links stand by the first's number, then the second's. A node is final if
    both are, and the final weights add. What is added to `BARRED` is barred. There is no start where either sheet
    has none. Its trailer is the first's.

    Its readings are the pairs of a reading of each sheet with the same labels, each pair once, and cost their sum.
    The searches accept it. The call takes some 390 KB of stack.

    >>> from yeldmur import list_readings
    >>> first = Sheet.from_rows("0 1 7 7 1\\n0 1 8 8 2.5\\n1 0.5\\n")
    >>> second = Sheet.from_rows("0 1 8 8 -0.5\\n0 1 9 9\\n1\\n")
    >>> both = two_probes(first, second)
    >>> both
    <Sheet: 4 nodes, 1 link, start 0>
    >>> [(reading.cost, reading.end) for reading in list_readings(both, 10)]  # 2.5 + 0.5 and -0.5, at 1 times 2 plus 1
    [(160, 3)]
    """
    result = raw.byte_area(_enough(first, second))
    size = raw.two_probes(first.bytes, second.bytes, result)
    return Sheet.read(result[:size])


def _enough(first: Sheet, second: Sheet) -> int:
    """Neither sheet's nodes and links give more than one for each pair of them, and no answer passes the limits: in
    so many bytes 21 cannot come."""
    nodes = min(first.node_count * second.node_count, NODE_LIMIT)
    links = min(first.link_count * second.link_count, LINK_LIMIT)
    return raw.sheet_size(nodes, links, first.trailer)
