"""Looks at each stem before it is cut, as an operator does who sees what the sensors don't.

    look_first.py APT STM

The stems are those of a stem file; a harvester has them from its sensors. Each is shown as it would be cut now. Then
standard input says, line by line, what the operator wants:

    zone START GRADE                  this grade from START mm on, up to the next zone; the stem is shown again
    own START LENGTH ASSORTMENT ..    what these logs are worth, from the butt on: three numbers for each
    cut                               the stem is cut as it was shown; the next one is shown

It ends with the last stem or the last line, and a stem that was only looked at isn't cut. look_first.in has an
operator's lines, and look_first.out what is printed then:

    look_first.py examples/morning.apt examples/morning_1.stm < examples/python/look_first.in

It needs the package of python/, as buck_files.py does.
"""
import dataclasses
import sys

import buckfleet
from cut_stems import stems_of

HARVESTER = 1


def money(worth):
    """A worth in price units, out of millionths."""
    return f"{worth / 1_000_000:.2f}"


def show(stem, cutting, names):
    """How a stem would be cut: each log's start, length and top diameter in mm, its worth, and its assortment."""
    print(f"stem {stem.number}: {len(cutting.logs)} logs, {money(cutting.worth)}")
    for log in cutting.logs:
        name = f"{log.assortment} {names[log.assortment]}"
        print(f"{log.start:7}{log.length:7}{log.top:5}{money(log.worth):>9}  {name}")


def with_zone(stem, start, grade):
    """A stem with a grade from a place in mm on, up to its next zone."""
    return dataclasses.replace(stem, zones=sorted({**dict(stem.zones), start: grade}.items()))


def price_own(book, stem, numbers):
    """Says what logs of the operator's own are worth, or which of them can't be cut."""
    logs = [tuple(numbers[place : place + 3]) for place in range(0, len(numbers), 3)]
    told = book.price_of(HARVESTER, stem, logs)
    if told.reason is None:
        print(f"worth {money(told.worth)}, {money(told.best - told.worth)} below the best")
    else:
        print(f"log {told.log + 1} can't be cut: {told.reason}")


def look_and_cut(book, stem, names, lines):
    """Shows a stem until a line says that it is to be cut; returns whether one did. A refused line changes nothing."""
    show(stem, book.preview(HARVESTER, stem), names)
    for line in lines:
        try:
            match line.split():
                case ["zone", start, grade]:
                    changed = with_zone(stem, int(start), int(grade))
                    show(changed, book.preview(HARVESTER, changed), names)
                    stem = changed
                case ["own", *numbers]:
                    price_own(book, stem, [int(number) for number in numbers])
                case ["cut"]:
                    cutting = book.cut(HARVESTER, stem)
                    print(f"cut: posting {cutting.position}, {money(cutting.worth)}")
                    return True
                case _:
                    print("zone START GRADE, own START LENGTH ASSORTMENT .. or cut")
        except (ValueError, buckfleet.Refused) as error:
            print(error)
    return False


def main():
    if len(sys.argv) != 3:
        print("look_first.py APT STM", file=sys.stderr)
        return 2
    apt, stm = sys.argv[1:]
    sys.stdout.reconfigure(errors="surrogateescape")  # names of assortments needn't be UTF-8
    try:
        with buckfleet.Book(apt, rule="linear") as book:
            names = [row["name"] for row in buckfleet.table(apt, book.journal(), "assortments")]
            for stem in stems_of(stm):
                if not look_and_cut(book, stem, names, sys.stdin):
                    break
            journal = book.journal()
        print(buckfleet.check(apt, journal).decode(), end="")
    except buckfleet.Refused as refused:
        print(refused.line, file=sys.stderr)
        return refused.status
    return 0


if __name__ == "__main__":
    sys.exit(main())
