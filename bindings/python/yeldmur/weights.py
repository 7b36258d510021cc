"""Weights and costs as numbers. A weight is k/64 for a whole k, or k/256 in a sheet of that unit, which Python's float
holds exactly, or infinity. What takes or gives a number of units takes the unit, too, 64 or 256: how many of them
are 1."""
from __future__ import annotations

import math
from ctypes import c_float, c_uint32
from decimal import Decimal
from fractions import Fraction
from typing import Optional, Union

Weight = Union[int, float, Fraction, Decimal]

BARRED = math.inf
"""The weight of a link or a final node that is barred. A reading has a finite cost, so that none goes over such a
link or ends at such a node."""

_NAN = 0x7FC00000


def decimal(units: int, unit: int) -> Decimal:
    """So many units as an exact decimal.

    >>> print(decimal(112, 64), decimal(448, 256), decimal(-1, 64), decimal(1, 256))
    1.75 1.75 -0.015625 0.00390625
    """
    return Decimal(units / unit)


def units_of(weight: float, unit: int) -> Optional[int]:
    """A weight in units; None for `BARRED`, which is not to be taken for a number of them. A weight of the finer unit
    that is no whole number of the other is a `ValueError`."""
    if weight == BARRED:
        return None
    units = int(weight * unit)
    if units != weight * unit:
        raise ValueError(f"{weight} is no whole number of units of 1/{unit}")
    return units


def weight_of(bits: int) -> float:
    """The weight that has these bits in single precision."""
    return c_float.from_buffer(c_uint32(bits)).value


def bits_of(weight: Weight) -> int:
    """The bits of a weight in single precision. Where that does not hold it exactly the weight is off the grid:
    it becomes a NaN, which the library refuses with 4, and is not rounded to a weight that it would take."""
    try:
        held = c_float(weight)  # type: ignore[arg-type]  # it takes whatever has __float__
    except OverflowError:
        return _NAN
    return c_uint32.from_buffer(held).value if held.value == weight else _NAN
