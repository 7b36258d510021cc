"""The refusals, with the numbers and words of the requirements."""
from __future__ import annotations

_WORDS = {
    1: "length, offsets, a count or offset too big for its field, marks, "
    "an absent final's weight field or the sum of link counts is not as laid out under either trailer",
    2: "start neither below N nor none",
    3: "next node not below N",
    4: "a weight off the grid",
    5: "N above 2,048 or T above 16,384",
    6: "a link that does not lead to a higher node",
    7: "n above 64",
    8: "a text without rows, a row that cannot be read or a second final row for a node",
    9: "a sheet that has no rows",
    10: "a label that is 0 or differs between input and output",
    11: "a product above 2,048 nodes or 16,384 links",
    12: "a finite sum off the grid",
    13: "a machine that does not narrow to the node",
    14: "a unit that is neither 64 nor 256, or two sheets of unequal unit",
    20: "work area shorter than needed",
    21: "result area shorter than this very answer",
    30: "a result that is no answer",
    31: "no reading, distance, link or node has this number",
}


class Refusal(Exception):
    """Why a call was refused: a number, here by name, and what it means in words.

    Tests go by number over the whole sheet, so that a sheet with more than one fault gets the lowest; but 14 comes
    right after 1, and 8, of a text, before all others. Of two sheets all of the first's tests come before those of
    the second, and 10 to 12 after both; where their units are unequal, 14 is the second's. 13, of a sheet and a
    node, comes after 6. N is the count of a sheet's nodes, T that of its links.

    >>> from yeldmur import Refusal, Sheet
    >>> try:
    ...     Sheet.from_rows("0 0.3\\n")  # no whole number of sixty-fourths
    ... except Refusal as refused:
    ...     print(refused, refused.number == Refusal.WEIGHT)
    refused 4: a weight off the grid True
    """

    LAYOUT = 1
    START = 2
    NEXT = 3
    WEIGHT = 4
    LIMITS = 5
    CLIMB = 6
    COUNT = 7
    ROWS = 8
    NO_ROWS = 9
    LABELS = 10
    PRODUCT = 11
    SUM = 12
    NARROW = 13
    UNIT = 14
    WORK = 20
    RESULT = 21
    NO_ANSWER = 30
    ABSENT = 31

    def __init__(self, number: int) -> None:
        super().__init__(number)
        self.number = number

    @property
    def words(self) -> str:
        """What the number means."""
        return _WORDS[self.number]

    def __str__(self) -> str:
        return f"refused {self.number}: {self.words}"
