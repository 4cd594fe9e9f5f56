"""A week of a fleet, step by step: five days, three harvesters that take turns, and new targets on Wednesday.

    week.py [PICTURE]

It prints what each day brought, and the tables of the week. If PICTURE is named, such as week.png, and matplotlib is
installed, it draws there how the degrees went. It needs the package of python/, as buck_files.py does.
"""
import itertools
import os
import sys

import buckfleet
from cut_stems import stems_of

EXAMPLES = os.path.dirname(os.path.dirname(os.path.abspath(__file__)))
APT = os.path.join(EXAMPLES, "morning.apt")
DAYS = ("Monday", "Tuesday", "Wednesday", "Thursday", "Friday")


def stems_of_day(stems, day):
    """What each harvester fells on a day: a fifth of its stems."""
    return [own[len(own) * day // len(DAYS) : len(own) * (day + 1) // len(DAYS)] for own in stems]


def longer_logs(classes):
    """New targets, one for each class: three times as many pine saw logs of 4.9 m and more as before."""
    for row in classes:
        is_asked_for = row["name"] == "pine saw log" and row["length_mm"] >= 4900
        yield row["target"] * (3 if is_asked_for else 1)


def cut_week(stems):
    """The journal of the week, the degrees at each day's end, and the position of each day's first posting."""
    degrees, begins = [], []
    with buckfleet.Book(APT, rule="linear") as book:
        for day, name in enumerate(DAYS):
            begins.append(book.standing().postings)
            if name == "Wednesday":
                book.retarget(1, list(longer_logs(buckfleet.table(APT, book.journal(), "classes"))))
            for turn in itertools.zip_longest(*stems_of_day(stems, day)):
                for harvester, stem in enumerate(turn, start=1):
                    if stem is not None:
                        book.cut(harvester, stem)
            degrees.append([book.degree(assortment) for assortment in range(book.standing().assortments)])
        return book.journal(), degrees, begins


def hundredths(number):
    """A number of ten-thousandths or of hundredths, as 91.18."""
    return "none" if number is None else f"{number // 100}.{number % 100:02}"


def show(head, rows):
    """A table in columns."""
    lines = [head, *([str(cell) for cell in row] for row in rows)]
    widths = [max(map(len, column)) for column in zip(*lines)]
    for first, *more in lines:
        print("  ".join([first.ljust(widths[0]), *(cell.rjust(width) for cell, width in zip(more, widths[1:]))]))
    print()


def show_days(journal, degrees, begins):
    """What each day brought. Worths are at base prices, in price units; the degrees are in percent."""
    postings = buckfleet.table(APT, journal, "postings")
    keys = ("logs", "base_worth_millionths", "best_base_worth_millionths")
    rows = []
    for day, name in enumerate(DAYS):
        end = begins[day + 1] if day + 1 < len(DAYS) else len(postings)
        cuts = [row for row in postings[begins[day] : end] if row["kind"] == "cut"]
        logs, worth, best = (sum(row[key] for row in cuts) for key in keys)
        money = hundredths(worth // 10_000), hundredths((best - worth) // 10_000)
        rows.append([name, len(cuts), logs, *money, *map(hundredths, degrees[day])])
    names = [row["name"] for row in buckfleet.table(APT, journal, "assortments")]
    show(["day", "stems", "logs", "worth", "cost of steering", *names], rows)


def show_tables(journal):
    """How the assortments stand at the end of the week, as cut and at base prices; and what lacks most."""
    rows = buckfleet.table(APT, journal, "assortments")
    keys = ("logs", "unsteered_logs", "degree", "unsteered_degree", "diameter_degree", "length_degree")
    cells = ([hundredths(row[key]) if "degree" in key else row[key] for key in keys] for row in rows)
    shown = ([row["name"], *more] for row, more in zip(rows, cells))
    show(["assortment", *(key.replace("_", " ") for key in keys)], shown)
    keys = ("from_mm", "length_mm", "count", "wanted_tenths", "lacking_tenths", "base_price", "price")
    rows = buckfleet.table(APT, journal, "lacking")[:5]
    shown = ([row["name"], *map(row.get, keys)] for row in rows)
    show(["lacking most", *(key.replace("_", " ") for key in keys)], shown)


def draw(journal, begins, picture):
    """The degree of each assortment after each posting, with a line where a day begins."""
    try:
        from matplotlib.figure import Figure
    except ImportError:
        print("there is no matplotlib: no picture is drawn", file=sys.stderr)
        return
    figure = Figure(figsize=(9, 5))
    axes = figure.subplots()
    rows = buckfleet.table(APT, journal, "degrees")
    for name in dict.fromkeys(row["name"] for row in rows):
        points = [row for row in rows if row["name"] == name and row["degree"] is not None]
        axes.plot([row["postings"] for row in points], [row["degree"] / 100 for row in points], label=name)
    for name, begin in zip(DAYS, begins):
        axes.axvline(begin, color="0.8", linewidth=1)
        axes.annotate(name, (begin, 101), fontsize=8)
    axes.set(xlabel="postings", ylabel="degree of apportionment, %", ylim=(0, 105))
    axes.legend(loc="lower right")
    figure.savefig(picture)


def main():
    if len(sys.argv) > 2:
        print("week.py [PICTURE]", file=sys.stderr)
        return 2
    stems = [stems_of(os.path.join(EXAMPLES, f"morning_{number}.stm")) for number in (1, 2, 3)]
    journal, degrees, begins = cut_week(stems)
    print(buckfleet.check(APT, journal).decode())
    show_days(journal, degrees, begins)
    show_tables(journal)
    if len(sys.argv) == 2:
        draw(journal, begins, sys.argv[1])
    return 0


if __name__ == "__main__":
    sys.exit(main())
