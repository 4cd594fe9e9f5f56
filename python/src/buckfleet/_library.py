"""Finds the shared library, declares its calls as include/buckfleet.h has them, and tests numbers before a call.

ctypes cuts off what a type can't hold: a species of 257 would go over as 1. So every number passes through `number`.
"""
from __future__ import annotations

import ctypes
import functools
import operator
import os
from collections.abc import Iterable, Sequence
from ctypes import POINTER, c_char_p, c_size_t, c_uint8, c_uint16, c_uint32, c_uint64
from typing import Any

# BUCKFLEET_VERSION of the header that this package was written for.
VERSION = 8

# How a call ended. Those up to 5 are exit statuses of the program `buckfleet`.
OK, REFUSED, SEATS, MEMORY, UNLAWFUL, READ, TOO_SMALL, CLOSED, MISUSED, FULL = range(10)

RULES = ("steady", "linear", "step", "root")
TABLES = ("classes", "postings", "logs", "degrees", "assortments", "lacking")

# Why a log can't be cut: of those that apply to it, the first is reported. The library counts them from 1.
REASONS = ("order", "assortment", "species", "start", "length", "end", "grade", "diameter", "price")

MOST_LOGS = 80
NO_DEGREE = 4294967295

# In place of a number: the instruction's own. In place of a rule: prices need follow none.
OWN = 4294967295
ANY_RULE = 255

HERE = os.path.dirname(os.path.abspath(__file__))
NONE = "there is no libbuckfleet.so: scripts/c_library of the repository builds it, and BUCKFLEET_LIBRARY may name it"


class Refused(Exception):
    """A call that was refused. `status` is the library's status, as `UNLAWFUL`; `line` is the fault line that the
    program prints, or what was wrong if there is none, as with `MISUSED` and of a call of a book."""

    def __init__(self, status: int, line: str):
        super().__init__(status, line)
        self.status = status
        self.line = line

    def __str__(self) -> str:
        return self.line


class Texts(ctypes.Structure):
    _fields_ = [("journal", c_size_t), ("report", c_size_t)]


class Numbers(ctypes.Structure):
    _fields_ = [("period", c_uint32), ("limit", c_uint32)]


class Pair(ctypes.Structure):
    _fields_ = [("first", Numbers), ("second", Numbers)]


class Run(ctypes.Structure):
    _fields_ = [("numbers", Numbers), ("rule", c_uint8)]


class Draws(ctypes.Structure):
    _fields_ = [("seed", c_uint64), ("number", c_uint16)]


class DrawnRun(ctypes.Structure):
    _fields_ = [("run", Run), ("draws", Draws)]


class Block(ctypes.Structure):
    _fields_ = [("mark", c_uint64), ("kept", ctypes.c_void_p)]


class Terms(ctypes.Structure):
    _fields_ = [("capacity", c_uint32), ("rule", c_uint8)]


class Felled(ctypes.Structure):
    _fields_ = [("harvester", c_uint32), ("number", c_uint32), ("species", c_uint8)]


class Zone(ctypes.Structure):
    _fields_ = [("start", c_uint32), ("grade", c_uint8)]


class Log(ctypes.Structure):
    _fields_ = [
        ("worth", c_uint64),
        *((name, c_uint32) for name in ("start", "length", "top", "price")),
        *((name, c_uint8) for name in ("assortment", "row", "column")),
    ]


class Cutting(ctypes.Structure):
    _fields_ = [
        ("worth", c_uint64),
        *((name, c_uint32) for name in ("position", "number", "version", "logs_number")),
        ("logs", Log * MOST_LOGS),
    ]


class Named(ctypes.Structure):
    _fields_ = [("start", c_uint32), ("length", c_uint32), ("assortment", c_uint8)]


class Appraisal(ctypes.Structure):
    _fields_ = [
        ("worth", c_uint64),
        ("best", c_uint64),
        ("log", c_size_t),
        ("version", c_uint32),
        ("reason", c_uint8),
    ]


class Standing(ctypes.Structure):
    _fields_ = [(name, c_uint32) for name in ("postings", "capacity", "version", "assortments", "classes")]


_FILE = (c_char_p, c_size_t)
_FILES = (*_FILE, POINTER(c_size_t), c_size_t)
_TEXT = (POINTER(c_uint8), c_size_t, POINTER(c_size_t))
_NUMBERS = (POINTER(c_uint32), c_size_t, POINTER(c_size_t))
_BOOK = (POINTER(Block),)
_STEM = (*_BOOK, POINTER(Felled), POINTER(c_uint16), c_size_t, POINTER(Zone), c_size_t)

# The calls by their names without `buckfleet_`, each with the types of its arguments. All answer a status.
CALLS: dict[str, tuple[Any, ...]] = {
    "buck": (*_FILE, *_FILE, *_TEXT),
    "check": (*_FILE, *_FILE, *_TEXT),
    "report": (*_FILE, *_FILE, *_TEXT),
    "view": (*_FILE, *_FILE, *_FILE, *_TEXT),
    "table": (*_FILE, *_FILE, c_uint8, *_TEXT),
    "in_turn": (*_FILES, c_uint8, POINTER(c_uint8), c_size_t, POINTER(Texts)),
    "check_with": (*_FILES, POINTER(Run), *_TEXT),
    "appraise": (*_FILES, POINTER(Numbers), *_TEXT),
    "compare": (*_FILES, POINTER(Pair), *_TEXT),
    "sweep": (*_FILES, POINTER(Run), c_size_t, POINTER(Draws), *_TEXT),
    "wishes": (*_FILES, POINTER(DrawnRun), *_TEXT),
    "tune": (*_FILES, POINTER(Run), *_TEXT),
    "open": (*_BOOK, *_FILE, POINTER(Terms)),
    "close": _BOOK,
    "cut": (*_STEM, POINTER(Cutting)),
    "preview": (*_STEM, POINTER(Cutting)),
    "price_of": (*_STEM, POINTER(Named), c_size_t, POINTER(Appraisal)),
    "retarget": (*_BOOK, c_uint32, POINTER(c_uint32), c_size_t),
    "state": (*_BOOK, POINTER(Standing)),
    "prices": (*_BOOK, *_NUMBERS),
    "targets": (*_BOOK, *_NUMBERS),
    "counts": (*_BOOK, *_NUMBERS),
    "degree": (*_BOOK, c_uint8, POINTER(c_uint32)),
    "journal": (*_BOOK, *_TEXT),
}


def place() -> str | None:
    """Returns the path of the shared library: the one that $BUCKFLEET_LIBRARY names, else the one that the package
    carries, else the one that scripts/c_library left in the repository around it."""
    named = os.environ.get("BUCKFLEET_LIBRARY")
    if named:
        return named
    carried = os.path.join(HERE, "libbuckfleet.so")
    built = os.path.join(HERE, "..", "..", "..", "out", "c", "libbuckfleet.so")
    return next((path for path in (carried, built) if os.path.exists(path)), None)


@functools.lru_cache(maxsize=None)
def library() -> Any:
    """Loads and declares the shared library. Raises `OSError` if there is none or it has calls of another version."""
    path = place()
    if path is None:
        raise OSError(NONE)
    loaded = ctypes.CDLL(path)
    if not hasattr(loaded, "buckfleet_version"):
        raise OSError(f"{path} isn't libbuckfleet.so")
    loaded.buckfleet_version.argtypes = ()
    loaded.buckfleet_version.restype = c_uint32
    version = loaded.buckfleet_version()
    if version != VERSION:
        raise OSError(f"{path} has calls of version {version}, expected {VERSION}: run scripts/c_library again")
    for name, types in CALLS.items():
        call = getattr(loaded, "buckfleet_" + name)
        call.argtypes = types
        call.restype = c_uint8
    return loaded


def number(kind: Any, value: Any, name: str) -> int:
    """Returns a whole number that a type of the library holds. Raises `ValueError` if it can't, `TypeError` if the
    number isn't whole."""
    value = operator.index(value)
    most: int = 256 ** ctypes.sizeof(kind) - 1
    if not 0 <= value <= most:
        raise ValueError(f"{name} is {value}, expected 0 to {most}")
    return int(value)


def word(given: str, words: Sequence[str], name: str) -> int:
    """Returns the index of a word among those that there are. Raises `ValueError` if it isn't one."""
    if given not in words:
        raise ValueError(f"{name} is {given!r}, expected one of {', '.join(words)}")
    return words.index(given)


def structure(kind: Any, **fields: Any) -> Any:
    """Makes a structure of numbers, by their names."""
    kinds = dict(kind._fields_)
    return kind(**{name: number(kinds[name], value, name) for name, value in fields.items()})


def numbers(kind: Any, values: Iterable[Any], name: str) -> tuple[Any, int]:
    """Makes an array of numbers for a call, and says how many there are."""
    tested = [number(kind, value, name) for value in values]
    return (kind * len(tested))(*tested), len(tested)


def text_of(call: Any, *given: Any) -> tuple[int, bytes]:
    """Returns the status and the text of a call that writes into a buffer, which grows to what the call asks for."""
    room = (c_uint8 * 1_048_576)()
    while True:
        written = c_size_t(0)
        status: int = call(*given, room, len(room), ctypes.byref(written))
        if status != TOO_SMALL:
            return status, ctypes.string_at(room, written.value)
        room = (c_uint8 * written.value)()


def line_of(text: bytes) -> str:
    """Returns the line of a fault, without its end."""
    return text.decode("utf-8", "replace").rstrip("\n")
