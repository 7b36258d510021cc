"""How the library is found, and that what the module says of it is what the header says."""
import ctypes
import ctypes.util
import os
import pickle
import re
import unittest
from pathlib import Path
from unittest import mock

from common import HEADER, refused

import yeldmur
from yeldmur import Refusal, Sheet, _library

KINDS = {
    "const uint8_t *": ctypes.c_char_p,
    "uint8_t *": _library.Result,
    "const uint32_t *": ctypes.POINTER(ctypes.c_uint32),
    "uint32_t *": ctypes.POINTER(ctypes.c_uint32),
    "int32_t *": ctypes.POINTER(ctypes.c_int32),
    "uint64_t *": ctypes.POINTER(ctypes.c_uint64),
    "size_t ": ctypes.c_size_t,
    "uint32_t ": _library.Number,
}


def header_takes(text):
    """For each function of the header the ctypes of its parameters."""
    functions = re.findall(r"^uint32_t (yeldmur_\w+)\(([^)]*)\);", text, re.MULTILINE)
    return {name: tuple(taken(p) for p in parameters.split(",")) for name, parameters in functions}


def taken(parameter):
    kind = re.fullmatch(r"\s*(.*?)\w+", parameter, re.DOTALL).group(1)
    return KINDS[kind]


@unittest.skipUnless(HEADER.is_file(), "the header is in Yeldmur's repository")
class Header(unittest.TestCase):
    def setUp(self):
        self.text = HEADER.read_text(encoding="utf-8")

    def test_functions(self):
        self.assertEqual(header_takes(self.text), _library.TAKES)

    def test_refusals(self):
        numbers = {name: int(n) for name, n in re.findall(r"YELDMUR_(\w+) = (\d+)", self.text)}
        self.assertEqual(numbers.pop("DONE"), 0)
        self.assertEqual({name: getattr(Refusal, name) for name in numbers}, numbers)
        for number in numbers.values():
            self.assertTrue(str(Refusal(number)).startswith(f"refused {number}: "))

    def test_limits(self):
        for name in ["NODE_LIMIT", "LINK_LIMIT", "WEIGHT_LIMIT", "LIST_LIMIT"]:
            (stated,) = re.findall(rf"#define YELDMUR_{name} (\d+)u?$", self.text, re.MULTILINE)
            self.assertEqual(getattr(yeldmur, name), int(stated))
        raw = yeldmur.raw
        for name, here in [("SLOT", raw.SLOT), ("TRAILER", raw.SHORT_TRAILER), ("LONG_TRAILER", raw.LONG_TRAILER)]:
            (stated,) = re.findall(rf"#define YELDMUR_{name} (\d+)u$", self.text, re.MULTILINE)
            self.assertEqual(here, int(stated))


class Finding(unittest.TestCase):
    def place(self, files, **variables):
        """Where the library is looked for, if these files are there."""
        with mock.patch.dict(os.environ, variables), mock.patch.object(Path, "is_file", lambda p: p.name in files):
            return _library.place()

    def test_the_variable_comes_first(self):
        self.assertEqual(self.place([_library.SONAME], YELDMUR_LIBRARY="/some/where.so"), "/some/where.so")

    def test_beside_the_module(self):
        beside = str(Path(_library.__file__).with_name(_library.SONAME))
        self.assertEqual(self.place([_library.SONAME], YELDMUR_LIBRARY=""), beside)

    def test_by_the_loader(self):
        self.assertEqual(self.place([], YELDMUR_LIBRARY=""), "libyeldmur.so.0")

    def test_no_library(self):
        with self.assertRaisesRegex(ImportError, "YELDMUR_LIBRARY"):
            _library.load("/no/such/libyeldmur.so.0")

    @unittest.skipUnless(ctypes.util.find_library("m"), "no other library is at hand")
    def test_another_library(self):
        with self.assertRaisesRegex(ImportError, "has no yeldmur_read_sheet"):
            _library.load(ctypes.util.find_library("m"))


class Refusals(unittest.TestCase):
    def test_it_says_what_and_why(self):
        with self.assertRaises(Refusal) as caught:
            Sheet.read(bytes(19))
        self.assertEqual(caught.exception.number, Refusal.LAYOUT)
        self.assertTrue(caught.exception.words.startswith("length, offsets"))
        self.assertEqual(str(Refusal(31)), "refused 31: no reading, distance, link or node has this number")

    def test_it_can_be_sent_on(self):
        sent = pickle.loads(pickle.dumps(Refusal(4)))
        self.assertEqual((sent.number, str(sent)), (4, "refused 4: a weight off the grid"))

    def test_none_is_raised_where_nothing_is_refused(self):
        self.assertEqual(refused(Sheet.from_rows, "0\n"), 0)


if __name__ == "__main__":
    unittest.main()
