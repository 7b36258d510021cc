"""Distances and lists of the cheapest readings of a machine, the machine of what two both allow, and the two parts of
one that narrows to a node, over Yeldmur's shared library.

A *sheet* is a machine of nodes and links, as bytes. Its weights are whole numbers of a unit, 1/64, or 1/256 where its
trailer says so. A *reading* is a run of links from its start to a final node;
its cost is the sum of its weights and the final weight, and is finite: no reading goes over a link or ends at a node
whose weight is `BARRED`, in rows `Infinity`. Of every sheet that it accepts, and for every n from 1 to 64, the
library is proved to list as many readings as the smaller of n and the number of readings: each once, in order of
cost, and none left out that is cheaper. It also reads the results. What this module adds, memory for the areas and
Python's numbers, is plain Python with tests.

>>> from yeldmur import Sheet, distances, list_readings
>>> sheet = Sheet.from_rows('''0 1 1 1 1
...                            0 2 2 2 0.5
...                            1 3 3 3 0.25
...                            1 2 5 5
...                            2 3 4 4 0.75
...                            3 0.5
... ''')
>>> distances(sheet)  # in the sheet's unit, here sixty-fourths
[0, 64, 32, 80]
>>> [(reading.cost, [link.ilabel for link in reading.links]) for reading in list_readings(sheet, 2)]
[(112, [1, 3]), (112, [2, 4])]

The front of a list is a value, too, by `List.front`: its costs are those of the list for its count, and it says whether
that list may hold other readings of the last cost.

Two sheets of the same bake give the sheet of what both allow, by `two_probes`: its readings are the pairs of readings
with the same labels, and cost their sum. A sheet that narrows to a node, as where preheat ends, has two parts, by
`split`: the costs of the whole's list are the least sums of one cost from each part's.

`Areas` keeps the memory for calls in a loop. `raw` has the library's calls themselves, in areas that the caller
lends.
"""
from . import raw
from .limits import LINK_LIMIT, LIST_LIMIT, NODE_LIMIT, WEIGHT_LIMIT
from .parts import Part, Parts, split
from .probes import two_probes
from .refusal import Refusal
from .search import Areas, Front, List, Reading, best, distances, list_readings
from .sheet import Link, Sheet
from .weights import BARRED, decimal

__all__ = [
    "BARRED",
    "LINK_LIMIT",
    "LIST_LIMIT",
    "NODE_LIMIT",
    "WEIGHT_LIMIT",
    "Areas",
    "Front",
    "Link",
    "List",
    "Part",
    "Parts",
    "Reading",
    "Refusal",
    "Sheet",
    "best",
    "decimal",
    "distances",
    "list_readings",
    "raw",
    "split",
    "two_probes",
]
