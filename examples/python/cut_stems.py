"""Cuts the stems of a stem file one by one, as a harvester does that fells them, into a book of one harvester.

    cut_stems.py steady|linear|step|root APT STM [JOURNAL]

It prints a line for each stem as it is cut, and then how all classes stand: what `buckfleet fleet --rule` prints of
these files. If JOURNAL is named, the journal goes into that file. It needs the package of python/, as buck_files.py
does.
"""
import sys

import buckfleet


def items_of(stm: bytes):
    """The stems of a stem file, one by one, each as the numbers of its items."""
    parts = {}
    for item in stm.split(b"~"):
        number, kind, *words = item.split() or (b"", b"")
        if number == b"951" and parts:
            yield parts
            parts = {}
        if kind == b"1":
            parts[number] = [int(word) for word in words]
    yield parts


def stem_of(parts) -> buckfleet.Stem:
    zones = parts.get(b"954", [])
    return buckfleet.Stem(parts[b"951"][0], parts[b"952"][0], parts[b"953"], list(zip(zones[::2], zones[1::2])))


def stems_of(path):
    """The stems of a stem file; a harvester has them from its sensors."""
    with open(path, "rb") as file:
        return [stem_of(parts) for parts in items_of(file.read()) if b"951" in parts]


def main():
    if len(sys.argv) not in (4, 5) or sys.argv[1] not in buckfleet.RULES:
        print("cut_stems.py steady|linear|step|root APT STM [JOURNAL]", file=sys.stderr)
        return 2
    rule, apt, stm = sys.argv[1:4]
    try:
        with buckfleet.Book(apt, rule) as book:
            for stem in stems_of(stm):
                cutting = book.cut(1, stem)
                print("ENTRY", cutting.position, 1, *cutting[3:], stem.number, len(cutting.logs), cutting.worth)
            journal = book.journal()
        report = buckfleet.report(apt, journal)
    except buckfleet.Refused as refused:
        print(refused.line, file=sys.stderr)
        return refused.status
    except ValueError as error:
        print(error, file=sys.stderr)
        return buckfleet.REFUSED
    # Names of assortments needn't be UTF-8.
    sys.stdout.flush()
    sys.stdout.buffer.write(report[report.index(b"CLASS ") :])
    if len(sys.argv) == 5:
        with open(sys.argv[4], "wb") as file:
            file.write(journal)
    return 0


if __name__ == "__main__":
    sys.exit(main())
