"""The package declares what include/buckfleet.h declares. No library is needed."""
import ctypes
import os
import re
import unittest

from here import TOP, read
import buckfleet
from buckfleet import _library

NUMBERS = {f"uint{bits}_t": getattr(ctypes, f"c_uint{bits}") for bits in (8, 16, 32, 64)}
STRUCTURES = {
    "buckfleet_appraisal": _library.Appraisal,
    "buckfleet_book": _library.Block,
    "buckfleet_cutting": _library.Cutting,
    "buckfleet_drawn_run": _library.DrawnRun,
    "buckfleet_draws": _library.Draws,
    "buckfleet_felled": _library.Felled,
    "buckfleet_log": _library.Log,
    "buckfleet_named": _library.Named,
    "buckfleet_numbers": _library.Numbers,
    "buckfleet_pair": _library.Pair,
    "buckfleet_run": _library.Run,
    "buckfleet_standing": _library.Standing,
    "buckfleet_terms": _library.Terms,
    "buckfleet_texts": _library.Texts,
    "buckfleet_zone": _library.Zone,
}
KINDS = {**NUMBERS, **STRUCTURES, "size_t": ctypes.c_size_t, "void*": ctypes.c_void_p}

HEADER = re.sub(r"/\*.*?\*/", "", read(os.path.join(TOP, "include", "buckfleet.h")).decode(), flags=re.S)


def constants():
    """The numbers that the header names, without `BUCKFLEET_`."""
    found = re.findall(r"BUCKFLEET_(\w+) = (\d+)", HEADER) + re.findall(r"#define BUCKFLEET_(\w+) (\d+)u?\n", HEADER)
    return {name: int(number) for name, number in found}


def kind_of(declared):
    """The type of an argument. The bytes of a file are given as bytes."""
    words = declared.replace("*", " * ").split()
    if words[:3] == ["const", "uint8_t", "*"]:
        return ctypes.c_char_p
    kind = KINDS[words[1] if words[0] == "const" else words[0]]
    return ctypes.POINTER(kind) if "*" in words else kind


def fields_of(body):
    """The fields of a structure, with their types."""
    for kind, star, name, most in re.findall(r"(\w+) (\*?)(\w+)(?:\[BUCKFLEET_(\w+)\])?;", body):
        kind = KINDS[kind + star]
        yield name, kind * constants()[most] if most else kind


class Header(unittest.TestCase):
    def test_calls(self):
        declared = re.findall(r"uint8_t buckfleet_(\w+)\(([^)]*)\);", HEADER)
        wanted = {name: tuple(map(kind_of, arguments.split(","))) for name, arguments in declared}
        self.assertEqual(wanted, _library.CALLS)

    def test_structures(self):
        declared = re.findall(r"typedef struct (\w+) \{(.*?)\} \w+;", HEADER, flags=re.S)
        self.assertEqual(sorted(name for name, _ in declared), sorted(STRUCTURES))
        for name, body in declared:
            with self.subTest(name):
                self.assertEqual(list(fields_of(body)), STRUCTURES[name]._fields_)

    def test_constants(self):
        named = constants()
        for name in set(named) & set(buckfleet.__all__):
            self.assertEqual(getattr(buckfleet, name), named[name], name)
        for words in (buckfleet.RULES, buckfleet.TABLES):
            self.assertEqual([named[word.upper()] for word in words], list(range(len(words))))
        self.assertEqual([named[word.upper()] for word in buckfleet.REASONS], list(range(1, len(buckfleet.REASONS) + 1)))
        for name in ("MOST_LOGS", "NO_DEGREE", "OWN", "ANY_RULE"):
            self.assertEqual(getattr(_library, name), named[name], name)


if __name__ == "__main__":
    unittest.main()
