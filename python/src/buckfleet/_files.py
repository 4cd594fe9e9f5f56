"""The calls over the bytes of files. They keep nothing, and may run at the same time in any threads."""
from __future__ import annotations

import ctypes
import os
import re
from collections.abc import Sequence
from ctypes import c_size_t, c_uint8
from itertools import product
from typing import Any, NamedTuple, Union

from . import _library
from ._library import ANY_RULE, MISUSED, OK, OWN, RULES, TABLES, TOO_SMALL, UNLAWFUL, Refused

# A file: its path, or its bytes.
File = Union[str, "os.PathLike[str]", bytes, bytearray, memoryview]

# What `Refused` says if a call over files has no fault line.
MISUSED_LINE = "a number isn't one that the call allows, or there are too few or too many files"

# What stands in a field of a table: nothing, a number, or a word or name.
Cell = Union[None, int, str]


def bytes_of(file: File) -> bytes:
    """Returns the bytes of a file, which are read if it is named by its path."""
    if isinstance(file, (bytes, bytearray, memoryview)):
        return bytes(file)
    with open(os.fspath(file), "rb") as opened:  # `open` alone takes a number, as that of an open file
        return opened.read()


def _pair(apt: File, other: File) -> tuple[Any, ...]:
    """Makes two files ready for a call."""
    first, second = bytes_of(apt), bytes_of(other)
    return first, len(first), second, len(second)


def _text(call: Any, *given: Any) -> bytes:
    """Returns the text of a call, or raises `Refused` with its fault line."""
    status, text = _library.text_of(call, *given)
    if status != OK:
        raise Refused(status, MISUSED_LINE if status == MISUSED else _library.line_of(text))
    return text


def buck(apt: File, stm: File) -> bytes:
    """Cuts the stems of a stem file by an instruction under its base prices, and returns the text that `buckfleet buck`
    prints."""
    return _text(_library.library().buckfleet_buck, *_pair(apt, stm))


def check(apt: File, journal: File) -> bytes:
    """Checks a journal by its instruction, and returns the line `LAWFUL` that `buckfleet check` prints. Raises
    `Refused` with the status `UNLAWFUL` and the first fault if the journal isn't lawful."""
    return _text(_library.library().buckfleet_check, *_pair(apt, journal))


def report(apt: File, journal: File) -> bytes:
    """Checks a journal as `check` does, and returns its report, the text that `buckfleet report` prints."""
    return _text(_library.library().buckfleet_report, *_pair(apt, journal))


def _name(file: File, other: str) -> bytes:
    """Returns the name of a file as it stands on a page: its path, or another word if its bytes were given."""
    return os.fsencode(other if isinstance(file, (bytes, bytearray, memoryview)) else file)


def view(apt: File, journal: File, names: tuple[str | bytes, str | bytes] | None = None) -> bytes:
    """Returns the HTML page of a journal, or of the first fault of one that isn't lawful: as `buckfleet view`. `names`
    are the names of the two files on the page; if they aren't given, the paths, or `instruction` and `journal`. Raises
    `ValueError` if the instruction's name has a line feed: the library takes the first one as the name's end."""
    first, second = (_name(apt, "instruction"), _name(journal, "journal")) if names is None else map(os.fsencode, names)
    if b"\n" in first:
        raise ValueError(f"the instruction's name {first!r} has a line feed")
    name = first + b"\n" + second
    status, page = _library.text_of(_library.library().buckfleet_view, *_pair(apt, journal), name, len(name))
    if status not in (OK, UNLAWFUL):
        raise Refused(status, _library.line_of(page))
    return page


# A field of a line of CSV: in quotes, where a quote stands twice, or plain.
_FIELD = re.compile(r'(?:^|,)(?:"((?:[^"]|"")*)"|([^,]*))')


def _cells(line: str) -> list[Cell]:
    """Returns the fields of a line: a plain one of digits is a number, an empty one nothing."""
    cells: list[Cell] = []
    for field in _FIELD.finditer(line):
        quoted, plain = field.groups()
        if quoted is not None:
            cells.append(quoted.replace('""', '"'))
        elif re.fullmatch("-?[0-9]+", plain):
            cells.append(int(plain))
        else:
            cells.append(plain or None)
    return cells


class Table(list[dict[str, Cell]]):
    """The rows of a table, each with the names of the columns as keys, and its `text`, the CSV that the program prints.
    `pandas.DataFrame(rows)` takes it as it is, and `pandas.DataFrame(rows, columns=rows.columns)` one without rows,
    too. Bytes of names that aren't UTF-8 are kept as lone surrogates, as `os.fsdecode` does."""

    columns: tuple[str, ...]
    text: bytes

    def __init__(self, text: bytes):
        self.text = text
        head, *lines = text.decode("utf-8", "surrogateescape").split("\n")[:-1]
        self.columns = tuple(str(cell) for cell in _cells(head))
        super().__init__(dict(zip(self.columns, _cells(line))) for line in lines)


def table_text(apt: File, journal: File, what: str) -> bytes:
    """Checks a journal as `check` does, and returns one of its tables as the CSV that `buckfleet table` prints. `what`
    is one of `TABLES`."""
    place = _library.word(what, TABLES, "table")
    return _text(_library.library().buckfleet_table, *_pair(apt, journal), place)


def table(apt: File, journal: File, what: str) -> Table:
    """Checks a journal as `check` does, and returns the rows of one of its tables. `what` is one of `TABLES`."""
    return Table(table_text(apt, journal, what))


class Turns(NamedTuple):
    """The journal and the report of harvesters that took turns."""

    journal: bytes
    report: bytes


def _list(files: Sequence[File], name: str) -> Sequence[File]:
    """Returns a list of files. Raises `TypeError` if one file was given."""
    if isinstance(files, (str, bytes, bytearray, memoryview, os.PathLike)):
        raise TypeError(f"one {name} was given, expected a list of them")
    return files


def _joined(*files: File) -> tuple[Any, ...]:
    """Makes files ready for a call, one after the other."""
    parts = [bytes_of(file) for file in files]
    whole = b"".join(parts)
    return whole, len(whole), *_library.numbers(c_size_t, map(len, parts), "length")


def in_turn(apt: File, stms: Sequence[File], rule: str = "steady") -> Turns:
    """Cuts the stems of 1 to 64 stem files by harvesters that take turns, one for each file, and returns what
    `buckfleet fleet --in-turn` writes. `rule` is one of `RULES`."""
    files = _joined(apt, *_list(stms, "stem file"))
    call, place = _library.library().buckfleet_in_turn, _library.word(rule, RULES, "rule")
    room = (c_uint8 * 1_048_576)()
    while True:
        texts = _library.Texts()
        status = call(*files, place, room, len(room), ctypes.byref(texts))
        if status != TOO_SMALL:
            break
        room = (c_uint8 * (texts.journal + texts.report))()
    both = ctypes.string_at(room, texts.journal + texts.report)
    turns = Turns(both[: texts.journal], both[texts.journal :])
    if status != OK:
        raise Refused(status, _library.line_of(turns.report))
    return turns


def _numbers(period: int | None, limit: int | None) -> Any:
    """Makes the numbers of a run, with the instruction's own for each `None`."""
    given = {"period": period, "limit": limit}
    for name, value in given.items():
        if value == OWN:
            raise ValueError(f"{name} is {value}, which stands for the instruction's own")
    return _library.structure(_library.Numbers, **{name: OWN if it is None else it for name, it in given.items()})


def _run(rule: str, period: int | None, limit: int | None) -> Any:
    """Makes a run by a rule."""
    return _library.Run(_numbers(period, limit), _library.word(rule, RULES, "rule"))


def _draws(number: int, seed: int) -> Any:
    """Makes the draws of a run."""
    return _library.structure(_library.Draws, seed=seed, number=number)


def _harvest(apt: File, stms: Sequence[File], targets: File | None) -> tuple[Any, ...]:
    """Makes the files of a trial ready. An empty file of targets says as much as a line feed, and isn't taken for
    none."""
    wanted = b"" if targets is None else bytes_of(targets) or b"\n"
    return _joined(apt, wanted, *_list(stms, "stem file"))


def check_with(
    apt: File,
    journal: File,
    stms: Sequence[File] = (),
    rule: str | None = None,
    period: int | None = None,
    limit: int | None = None,
) -> bytes:
    """Checks a journal as `check` does, also against stem files, if some are given, and against a rule, if one of
    `RULES` is. `period`, 1 to 1,000 stems, and `limit`, 0 to 1,000 per mille, stand in the place of the instruction's.
    Raises `Refused` with `UNLAWFUL`, too, if the journal isn't tied to them."""
    run = _library.Run(_numbers(period, limit), ANY_RULE if rule is None else _library.word(rule, RULES, "rule"))
    files = _joined(apt, journal, *_list(stms, "stem file"))
    return _text(_library.library().buckfleet_check_with, *files, ctypes.byref(run))


def appraise(
    apt: File, journals: Sequence[File], own: File, period: int | None = None, limit: int | None = None
) -> Table:
    """Says what 1 to 64 journals bring under an owner's contract, an instruction file, beside the best cuttings under
    it: the table that `buckfleet appraise` prints. `period` and `limit` as in `check_with`."""
    numbers = _numbers(period, limit)
    files = _joined(apt, own, *_list(journals, "journal"))
    return Table(_text(_library.library().buckfleet_appraise, *files, ctypes.byref(numbers)))


def compare(
    apt: File,
    first: File,
    second: File,
    periods: tuple[int | None, int | None] = (None, None),
    limits: tuple[int | None, int | None] = (None, None),
) -> Table:
    """Sets two journals of one instruction side by side: the table that `buckfleet compare` prints. `periods` and
    `limits` have one for each journal, as in `check_with`."""
    pair = _library.Pair(*(_numbers(period, limit) for period, limit in zip(periods, limits, strict=True)))
    return Table(_text(_library.library().buckfleet_compare, *_joined(apt, first, second), ctypes.byref(pair)))


def sweep(
    apt: File,
    stms: Sequence[File],
    rules: Sequence[str] = ("steady",),
    periods: Sequence[int | None] = (None,),
    limits: Sequence[int | None] = (None,),
    targets: File | None = None,
    draws: int = 0,
    seed: int = 1,
) -> Table:
    """Cuts the stems of 1 to 64 stem files in turn by each rule with each period and each limit: the table that
    `buckfleet sweep` prints. A `None` is the instruction's own. `targets` is a file of targets in the place of the
    instruction's. Each run is also made in `draws` shuffled orders of the stems, 0 to 65,535, by `seed`, any number
    below 2 to the 64th."""
    runs = [_run(rule, period, limit) for rule, period, limit in product(rules, periods, limits)]
    listed, drawn = (_library.Run * len(runs))(*runs), _draws(draws, seed)
    files = _harvest(apt, stms, targets)
    call = _library.library().buckfleet_sweep
    return Table(_text(call, *files, listed, len(runs), ctypes.byref(drawn)))


def wishes(
    apt: File,
    stms: Sequence[File],
    rule: str,
    period: int | None = None,
    limit: int | None = None,
    targets: File | None = None,
    draws: int = 0,
    seed: int = 1,
) -> Table:
    """Finds what each target costs: the table that `buckfleet wishes` prints. `targets`, `draws` and `seed` as in
    `sweep`, `period` and `limit` as in `check_with`."""
    run = _library.DrawnRun(_run(rule, period, limit), _draws(draws, seed))
    return Table(_text(_library.library().buckfleet_wishes, *_harvest(apt, stms, targets), ctypes.byref(run)))


def tune(
    apt: File,
    stms: Sequence[File],
    rule: str = "root",
    period: int | None = None,
    limit: int | None = None,
    targets: File | None = None,
) -> bytes:
    """Makes a price list from a stem bank: the instruction with tuned prices that `buckfleet tune` prints. `targets` as
    in `sweep`, `period` and `limit` as in `check_with`."""
    run = _run(rule, period, limit)
    return _text(_library.library().buckfleet_tune, *_harvest(apt, stms, targets), ctypes.byref(run))
