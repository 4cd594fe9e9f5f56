"""Cuts felled stems into logs, towards the mix that a mill wants: the shared library of `buckfleet`, by ctypes.

    text = buckfleet.buck("pine.apt", "pine.stm")
    line = buckfleet.check("morning.apt", "morning.jrn")
    rows = buckfleet.table("morning.apt", "morning.jrn", "logs")
    page = buckfleet.view("morning.apt", "morning.jrn")
    journal, report = buckfleet.in_turn("morning.apt", ["morning_1.stm", "morning_2.stm"], rule="linear")
    rows = buckfleet.sweep("morning.apt", ["morning_1.stm", "morning_2.stm"], rules=buckfleet.RULES, periods=(1, 5))

    with buckfleet.Book("morning.apt", rule="linear") as book:
        stem = buckfleet.Stem(number=7, species=1, samples=diameters)
        shown = book.preview(1, stem)
        own = book.price_of(1, stem, [(0, 4300, 0), (4300, 3700, 0)])
        cutting = book.cut(1, stem)
        journal = book.journal()

A file is a path or the bytes of a file; texts and journals are bytes. A call that is refused raises `Refused`. A number
that the library's types can't hold, or a word that isn't one of those wanted, raises `ValueError`, and nothing is asked
of the library. The library is looked for at the first call: in $BUCKFLEET_LIBRARY, in the package, in the repository.
"""
from ._book import Appraisal, Book, Cutting, Log, Standing, Stem
from ._files import (
    Cell,
    File,
    Table,
    Turns,
    appraise,
    buck,
    check,
    check_with,
    compare,
    in_turn,
    report,
    sweep,
    table,
    table_text,
    tune,
    view,
    wishes,
)
from ._library import (
    CLOSED,
    FULL,
    MEMORY,
    MISUSED,
    OK,
    READ,
    REASONS,
    REFUSED,
    RULES,
    SEATS,
    TABLES,
    TOO_SMALL,
    UNLAWFUL,
    VERSION,
    Refused,
)

__all__ = [
    "Appraisal", "Book", "Cell", "Cutting", "File", "Log", "Refused", "Standing", "Stem", "Table", "Turns",
    "appraise", "buck", "check", "check_with", "compare", "in_turn", "report", "sweep", "table", "table_text", "tune",
    "view", "wishes",
    "CLOSED", "FULL", "MEMORY", "MISUSED", "OK", "READ", "REFUSED", "SEATS", "TOO_SMALL", "UNLAWFUL",
    "REASONS", "RULES", "TABLES", "VERSION",
]
