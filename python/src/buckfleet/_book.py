"""A book: what is cut stem by stem, as stems are felled, and the prices that follow from it."""
from __future__ import annotations

import ctypes
import threading
from collections.abc import Sequence
from ctypes import c_size_t, c_uint8, c_uint16, c_uint32
from dataclasses import dataclass
from types import TracebackType
from typing import Any, NamedTuple

from . import _library
from ._files import File, buck, bytes_of
from ._library import CLOSED, FULL, MEMORY, MISUSED, NO_DEGREE, OK, REFUSED, RULES, TOO_SMALL, Refused

# What `Refused` says of a call of a book: such a call has no fault line.
LINES = {
    REFUSED: "the stem is outside the limits",
    MEMORY: "memory",
    CLOSED: "the book is closed",
    MISUSED: "a number isn't one that the call allows",
    FULL: "the book is at its capacity",
}
TARGETS = "the targets are outside the limits, or not one for each class"


@dataclass(frozen=True)
class Stem:
    """A felled stem. `species` is 1 to 255. `samples` are its diameters in mm under bark, one for each 100 mm from the
    butt: 1 to 401 of them, each at most 1,500. `zones`, at most 100, are each a start in mm from the butt, at most
    40,000 and above the one before, and the grade from there on, 1 to 8; before the first zone the grade is 1."""

    number: int
    species: int
    samples: Sequence[int]
    zones: Sequence[tuple[int, int]] = ()


class Log(NamedTuple):
    """A log of a cutting. `start` is in mm from the butt, `length` in mm without trim, `top`, the diameter at its small
    end, in mm under bark. `price`, the price in force of its class, is in price units per m³ or per piece, as its
    assortment has it, and `worth` in millionths of the price unit. Assortments, rows and columns count from 0."""

    start: int
    length: int
    assortment: int
    row: int
    column: int
    top: int
    price: int
    worth: int


class Cutting(NamedTuple):
    """A cutting, its logs from the butt on, and where it stands in the book: `position` counts the book's postings from
    0, `number` those of its harvester from 1, and `version` is that of the prices in force, from 0. `worth`, of all
    logs together, is in millionths of the price unit."""

    logs: tuple[Log, ...]
    worth: int
    position: int
    number: int
    version: int


class Appraisal(NamedTuple):
    """What logs of a stem are worth together under the prices in force, and what the best cutting is: `worth` and
    `best` are in millionths of the price unit, and `version` is that of the prices, from 0. If a log can't be cut,
    `worth` is 0, `log` is the index of the first such log, from 0, and `reason` one of `REASONS`; if not, both are
    `None`."""

    worth: int
    best: int
    version: int
    log: int | None
    reason: str | None


class Standing(NamedTuple):
    """How far a book is. `postings` is how many cuts and new targets it has, and `capacity` how many it may have.
    `version`, that of the prices in force, is how many periods have ended. `assortments` and `classes` are how many the
    instruction has."""

    postings: int
    capacity: int
    version: int
    assortments: int
    classes: int


def _told(status: int, refused: str = LINES[REFUSED]) -> None:
    """Raises `Refused` if a call of a book didn't answer OK."""
    if status != OK:
        raise Refused(status, refused if status == REFUSED else LINES.get(status, f"status {status}"))


def _zones(zones: Sequence[tuple[int, int]]) -> tuple[Any, int]:
    """Makes the array of zones for a call, and says how many there are."""
    tested = [_library.structure(_library.Zone, start=start, grade=grade) for start, grade in zones]
    return (_library.Zone * len(tested))(*tested), len(tested)


def _shown(cutting: Any) -> Cutting:
    """Makes a cutting of the structure that the library filled."""
    logs = (Log(*(getattr(log, name) for name in Log._fields)) for log in cutting.logs[: cutting.logs_number])
    return Cutting(tuple(logs), cutting.worth, cutting.position, cutting.number, cutting.version)


class Book:
    """A book of one thread. Use it with `with`, which closes it; a book that isn't closed keeps its memory. It stays on
    the thread that opened it: a call from another raises `RuntimeError`. A call that is refused leaves the book as it
    was.

    Harvesters are 1 to 64. A list with a number for each class has them assortment by assortment and row by row.
    """

    def __init__(self, apt: File, rule: str = "steady", capacity: int = 1_000_000):
        """Opens a book by an instruction, which is read once, and by a rule, one of `RULES`. `capacity` is how many
        postings it may have, 1 to 1,000,000. Raises `Refused`: with the fault line if the instruction is refused, with
        `MISUSED` if the capacity is outside its limits."""
        self._library = _library.library()
        self._kept = _library.Block(0, None)
        # The number of a thread that has ended may be another's; what is kept for a thread ends with it.
        self._here = threading.local()
        self._here.is_opened = True
        terms = _library.structure(_library.Terms, capacity=capacity, rule=_library.word(rule, RULES, "rule"))
        instruction = bytes_of(apt)
        status = self._library.buckfleet_open(self._block(), instruction, len(instruction), ctypes.byref(terms))
        if status == REFUSED:
            buck(instruction, b"")  # it raises the line of the fault
        _told(status)

    def _block(self) -> Any:
        """The block, for a call from the book's thread."""
        if not hasattr(self._here, "is_opened"):
            raise RuntimeError("a book stays on the thread that opened it")
        return ctypes.byref(self._kept)

    def close(self) -> None:
        """Frees all memory of the book. Each later call is refused with the status `CLOSED`, but for `close`."""
        status = self._library.buckfleet_close(self._block())
        if status != CLOSED:
            _told(status)

    def __enter__(self) -> Book:
        return self

    def __exit__(
        self, kind: type[BaseException] | None, error: BaseException | None, trace: TracebackType | None
    ) -> None:
        self.close()

    def _felled(self, harvester: int, stem: Stem) -> tuple[Any, ...]:
        """Makes the block and a stem ready for a call."""
        felled = _library.structure(_library.Felled, harvester=harvester, number=stem.number, species=stem.species)
        samples, zones = _library.numbers(c_uint16, stem.samples, "sample"), _zones(stem.zones)
        return (self._block(), ctypes.byref(felled), *samples, *zones)

    def cut(self, harvester: int, stem: Stem) -> Cutting:
        """Cuts a stem: commits the first of the best cuttings under the prices in force to the book, and returns it.
        Raises `Refused` with `REFUSED` if the stem is outside its limits, `MISUSED` if the harvester is, or `FULL`."""
        cutting = _library.Cutting()
        _told(self._library.buckfleet_cut(*self._felled(harvester, stem), ctypes.byref(cutting)))
        return _shown(cutting)

    def preview(self, harvester: int, stem: Stem) -> Cutting:
        """Returns what `cut` would return now, also if the book is full. The book is as it was. Raises `Refused` as
        `cut` does otherwise."""
        cutting = _library.Cutting()
        _told(self._library.buckfleet_preview(*self._felled(harvester, stem), ctypes.byref(cutting)))
        return _shown(cutting)

    def price_of(self, harvester: int, stem: Stem, logs: Sequence[tuple[int, int, int]]) -> Appraisal:
        """Says what logs are worth, from the butt on, each a start and a length in mm, trim excluded, and an
        assortment, from 0, as `log[:3]` of a `Log`; or which of them can't be cut, and why. The book is as it was.
        Raises `Refused` as `preview` does."""
        tested = [
            _library.structure(_library.Named, start=start, length=length, assortment=assortment)
            for start, length, assortment in logs
        ]
        named = (_library.Named * len(tested))(*tested)
        told = _library.Appraisal()
        stand = self._felled(harvester, stem)
        _told(self._library.buckfleet_price_of(*stand, named, len(tested), ctypes.byref(told)))
        refused = told.reason != 0
        return Appraisal(
            told.worth,
            told.best,
            told.version,
            told.log if refused else None,
            _library.REASONS[told.reason - 1] if refused else None,
        )

    def retarget(self, harvester: int, targets: Sequence[int]) -> None:
        """Puts new targets in force for all harvesters, and ends the running period. `harvester` asks for them. They
        are in pieces, one for each class, each at most 1,000,000 and those of an assortment together at most
        1,000,000,000. Raises `Refused` with `REFUSED` if they are outside these limits, `MISUSED` if the harvester is
        outside its own, or `FULL`."""
        seat = _library.number(c_uint32, harvester, "harvester")
        wanted = _library.numbers(c_uint32, targets, "target")
        _told(self._library.buckfleet_retarget(self._block(), seat, *wanted), TARGETS)

    def standing(self) -> Standing:
        """Returns how far the book is."""
        standing = _library.Standing()
        _told(self._library.buckfleet_state(self._block(), ctypes.byref(standing)))
        return Standing(*(getattr(standing, name) for name in Standing._fields))

    def _numbers(self, call: Any) -> list[int]:
        """Returns a number for each class."""
        room = (c_uint32 * 1024)()
        while True:
            written = c_size_t(0)
            status = call(self._block(), room, len(room), ctypes.byref(written))
            if status != TOO_SMALL:
                break
            room = (c_uint32 * written.value)()
        _told(status)
        return list(room[: written.value])

    def prices(self) -> list[int]:
        """Returns the price in force of each class, in price units per m³ or per piece, as its assortment has it."""
        return self._numbers(self._library.buckfleet_prices)

    def targets(self) -> list[int]:
        """Returns the target in force of each class, in pieces."""
        return self._numbers(self._library.buckfleet_targets)

    def counts(self) -> list[int]:
        """Returns how many logs of each class were cut."""
        return self._numbers(self._library.buckfleet_counts)

    def degree(self, assortment: int) -> int | None:
        """Returns the degree of apportionment of an assortment, which is given by its index from 0, in ten-thousandths;
        `None` if nothing is wanted of it or nothing was cut. Raises `Refused` with `MISUSED` if there is no such
        assortment."""
        degree = c_uint32(0)
        place = _library.number(c_uint8, assortment, "assortment")
        _told(self._library.buckfleet_degree(self._block(), place, ctypes.byref(degree)))
        return None if degree.value == NO_DEGREE else degree.value

    def journal(self) -> bytes:
        """Returns the journal of what was cut, as the bytes of a file."""
        status, text = _library.text_of(self._library.buckfleet_journal, self._block())
        _told(status)
        return text
