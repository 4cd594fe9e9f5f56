#!/usr/bin/env python3
"""Drives books through the Python package, and compares them with what the program does in turn.

    python3 checks/books.py --bin PATH/buckfleet [--count N] [--seed S]

Each of the N books (1,000) has a random instruction, one of the four rules and the stems of 1 to 64 harvesters. It is
cut stem by stem in the order of `fleet --in-turn`. Its journal must be the program's file, and its cuts, class counts,
prices and degrees the program's report, which `buckfleet.in_turn` and `report` must return too. Each log must have the
class, the price and the worth that checks/reference.py gives it. In every other book each stem is looked at first: its
preview must be what is then cut, what other logs are worth must be what the reference says, and the looks change
nothing.

The last line is 'N books of seed S, M differ', and the status is 0 if none differs. The library is the one that
BUCKFLEET_LIBRARY names, else out/c/libbuckfleet.so; if there is none, nothing is run, and the line says so.
"""
import argparse
import os
import pathlib
import re
import sys
from itertools import zip_longest
from random import Random

import reference as ref
from reference_cases import instruction, instruction_text, run_here, stem, stems_text

TOP = pathlib.Path(__file__).resolve().parent.parent
sys.path.insert(0, str(TOP / "python" / "src"))

import buckfleet  # noqa: E402
from buckfleet import _library  # noqa: E402


def turns_of(felled):
    """Harvesters, from 1, with their stems, in turn: one with no stems left is skipped."""
    for turn in zip_longest(*felled):
        yield from ((harvester, it) for harvester, it in enumerate(turn, start=1) if it is not None)


def stems_of(random, it):
    """What a harvester fells: most of it of a species that an assortment takes."""
    for _ in range(random.choice([0, 1, 3, 8])):
        species = random.choice([None, *(assortment.species for assortment in it.assortments)])
        felled = stem(random, it)
        yield felled._replace(species=species) if species else felled


def some_logs(random, shown, it):
    """The first logs of a preview, and often one that may be of any place, length and assortment."""
    logs = [ref.Log(*log[:3]) for log in shown.logs[:random.randint(0, len(shown.logs))]]
    if random.random() < 0.7:
        assortment, end = random.randrange(len(it.assortments) + 1), ref.end_of(it, logs[-1]) if logs else 0
        lengths = [length for other in it.assortments for length in other.lengths] + [0, 2 ** 32 - 1]
        start = random.choice([-(-end // it.module) * it.module] * 5 + [0, end + 7])
        logs.append(ref.Log(start, random.choice(lengths), assortment))
    return logs


def priced(it, sheet, felled, logs):
    """Logs as the reference prices them, up to the first that can't be cut."""
    found, end = [], 0
    for log in logs:
        its_class = ref.class_of(it, felled, log)
        if log.start < end or its_class is None:
            break
        row, column, top, place = its_class
        found.append(buckfleet.Log(*log, row, column, top, sheet[place], ref.worth_of(it, sheet, log, its_class)))
        end = ref.end_of(it, log)
    return tuple(found)


def looked(random, book, it, harvester, felled):
    """What a look at a stem showed, and what is wrong with it, if anything."""
    before, given = (book.standing(), book.prices()), buckfleet.Stem(*felled)
    shown = book.preview(harvester, given)
    logs = some_logs(random, shown, it)
    told = book.price_of(harvester, given, logs)
    found = priced(it, before[1], felled, logs)
    is_whole = len(found) == len(logs)
    wanted = (sum(log.worth for log in found), None) if is_whole else (0, len(found))
    if (told.worth, told.log) != wanted or (told.reason is None) != is_whole or told.best != shown.worth:
        return shown, f"{told} of {logs}, {wanted} expected, and {shown.worth} at best"
    return shown, None if (book.standing(), book.prices()) == before else f"{before} before a look"


def cut(random, book, it, harvester, felled, looks):
    """The line of a stem that is cut, and what is wrong with it."""
    sheet = book.prices()
    shown, wrong = looked(random, book, it, harvester, felled) if looks else (None, None)
    cutting = book.cut(harvester, buckfleet.Stem(*felled))
    if cutting.logs != priced(it, sheet, felled, [ref.Log(*log[:3]) for log in cutting.logs]):
        wrong = f"the logs of {cutting}"
    if looks and shown != cutting:
        wrong = f"{cutting} was cut, and {shown} was shown"
    place = cutting.position, harvester, cutting.number, cutting.version
    return b"ENTRY %d %d %d %d %d %d %d\n" % (*place, felled.number, len(cutting.logs), cutting.worth), wrong


def stands(book, report):
    """Whether the classes and the degrees of a book are those of a report."""
    classes = re.findall(rb"(?m)^CLASS \d+ \d+ \d+ (\d+) (\d+) \d+ (\d+)$", report)
    degrees = re.findall(rb"(?m)^DEGREE \d+ (\w+)", report)
    found = [book.degree(assortment) for assortment in range(book.standing().assortments)]
    return (list(zip(book.targets(), book.counts(), book.prices())) == [tuple(map(int, words)) for words in classes]
            and found == [None if word == b"none" else int(word) for word in degrees])


def differences(program, random, looks):
    """What differs between a random book and the program."""
    it, rule = instruction(random), random.choice(buckfleet.RULES)
    felled = [list(stems_of(random, it)) for _ in range(random.choice([1, 2, 3, 5] * 25 + [64]))]
    apt, stms = instruction_text(random, it), [stems_text(random, own) for own in felled]
    files = {"a.apt": apt} | {f"{place}.stm": text for place, text in enumerate(stms, 1)}
    done = run_here(program, ["fleet", "--quiet", "--in-turn", "--rule", rule, "--journal", "out.jrn", *files], files)
    with buckfleet.Book(apt, rule) as book:
        cuts = [cut(random, book, it, harvester, own, looks) for harvester, own in turns_of(felled)]
        journal, is_told = book.journal(), stands(book, done.out)
    if done.status != 0 or done.kept != journal:
        yield f"the journal; the program's status is {done.status}"
    if not is_told or not done.out.startswith(b"".join(line for line, _ in cuts) + b"CLASS "):
        yield "the report"
    if buckfleet.in_turn(apt, stms, rule) != (done.kept, done.out) or buckfleet.report(apt, journal) != done.out:
        yield "what in_turn and report return"
    yield from (wrong for _, wrong in cuts if wrong)


def main():
    parser = argparse.ArgumentParser()
    parser.add_argument("--bin", default=TOP / "crates" / "buckfleet" / "out" / "buckfleet")
    parser.add_argument("--count", type=int, default=1_000)
    parser.add_argument("--seed", type=int, default=1)
    asked = parser.parse_args()
    if _library.place() is None:
        print(f"nothing was run: {_library.NONE}")
        return 0
    program, differ = os.path.abspath(asked.bin), 0
    for number in range(asked.count):
        found = list(differences(program, Random(f"{asked.seed} {number}"), number % 2 == 1))
        differ += bool(found)
        for what in found:
            print(f"book {number} of seed {asked.seed}: {what}")
    print(f"{asked.count} books of seed {asked.seed}, {differ} differ")
    return 1 if differ else 0


if __name__ == "__main__":
    sys.exit(main())
