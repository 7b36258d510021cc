"""The shared library: where it is found, and what its functions take."""
from __future__ import annotations

import ctypes
import operator
import os
import sys
from ctypes import POINTER, c_char, c_char_p, c_int32, c_size_t, c_uint32, c_uint64
from pathlib import Path

from .refusal import Refusal

SONAME = "libyeldmur.so.0"


class Number:
    """A 32-bit number that is handed over; ctypes by itself would cut a longer one off."""

    @staticmethod
    def from_param(value: int) -> c_uint32:
        if not 0 <= value <= 0xFFFFFFFF:
            raise ValueError(f"{value} is no 32-bit number")
        return c_uint32(operator.index(value))


class Result:
    """An area of bytes that is written to; POINTER(c_char) would take `bytes` too, which nothing may change."""

    @staticmethod
    def from_param(value: ctypes.Array[c_char]) -> ctypes.Array[c_char]:
        if not isinstance(value, ctypes.Array) or value._type_ is not c_char:
            raise TypeError(f"{type(value).__name__} is no array of c_char")
        return value


# Areas are a pointer and a count: bytes that are only read (bytes or an array of c_char), bytes, words.
# Neither bytes nor an array of ctypes has the address NULL, also where it is empty.
_READ = (c_char_p, c_size_t)
_BYTES = (Result, c_size_t)
_WORDS = (POINTER(c_uint32), c_size_t)
# Numbers to be told.
_TOLD = POINTER(c_uint32)
_COST = POINTER(c_int32)
_LONG = POINTER(c_uint64)

TAKES = {
    "yeldmur_read_sheet": (*_READ,),
    "yeldmur_write_sheet": (*_WORDS, *_WORDS, Number, *_BYTES, _LONG),
    "yeldmur_write_sheet_in": (*_WORDS, *_WORDS, Number, Number, *_BYTES, _LONG),
    "yeldmur_rows_to_sheet": (*_READ, *_BYTES, _LONG),
    "yeldmur_sheet_to_rows": (*_READ, *_BYTES, _LONG),
    "yeldmur_rows_sheet_bytes": (*_READ, _LONG),
    "yeldmur_sheet_rows_bytes": (*_READ, _LONG),
    "yeldmur_shortest_distance": (*_READ, *_WORDS, *_BYTES, _TOLD),
    "yeldmur_shortest_path": (*_READ, Number, *_WORDS, *_BYTES, _TOLD, _TOLD, _TOLD),
    "yeldmur_two_probes": (*_READ, *_READ, *_BYTES, _LONG),
    "yeldmur_split": (*_READ, Number, *_BYTES, _TOLD, _TOLD),
    "yeldmur_readings": (*_READ, Number, Number, Number, _TOLD),
    "yeldmur_reading": (
        *(*_READ, Number, *_READ, Number, Number, Number),
        *(*_WORDS, _TOLD, _COST, _TOLD),
    ),
    "yeldmur_distance": (*_READ, Number, Number, _TOLD, _COST),
    "yeldmur_distance_in": (*_READ, Number, Number, Number, _TOLD, _COST),
    "yeldmur_unit": (*_READ, _TOLD),
    "yeldmur_sheet_counts": (*_READ, _TOLD, _TOLD, _TOLD, _TOLD),
    "yeldmur_link": (*_READ, Number, _TOLD, _TOLD, _TOLD, _TOLD),
    "yeldmur_node": (*_READ, Number, _TOLD, _TOLD, _TOLD),
    "yeldmur_areas": (*_READ, Number, _LONG, _LONG),
    "yeldmur_areas_of": (Number, Number, Number, Number, _LONG, _LONG),
}


def place() -> str:
    """The file that YELDMUR_LIBRARY names; else one beside the module or in lib/ of Python's prefix;
    else the bare name, which the system's loader looks for where libraries are installed."""
    given = os.environ.get("YELDMUR_LIBRARY")
    if given:
        return given
    folders = (Path(__file__).parent, Path(sys.prefix, "lib"))
    found = (str(folder / SONAME) for folder in folders if (folder / SONAME).is_file())
    return next(found, SONAME)


def load(path: str) -> ctypes.CDLL:
    """The library with each function declared; a function that is refused raises `Refusal`."""
    try:
        library = ctypes.CDLL(path)
    except OSError as error:
        hint = f"Yeldmur's `make` builds {SONAME}; YELDMUR_LIBRARY names its file where it is not installed"
        raise ImportError(f"{error}. {hint}") from error
    for name, takes in TAKES.items():
        if not hasattr(library, name):
            raise ImportError(f"{path} has no {name}: it is another version of Yeldmur's library")
        function = getattr(library, name)
        function.argtypes, function.restype, function.errcheck = takes, c_uint32, _told
    return library


def _told(number: int, function: object, arguments: object) -> None:
    if number:
        raise Refusal(number)


library = load(place())
