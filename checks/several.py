#!/usr/bin/env python3
"""Asks the library, through the Python package, for random runs over several files, and the program for the same.

    python3 checks/several.py --bin PATH/buckfleet [--count N] [--seed S]

Each of the N runs (1,000) is a `check` against stem files, `appraise`, `compare`, `sweep`, `wishes` or `tune`, over a
random instruction, stems that are cut by it and journals of such cuts; some files are damaged. The text, the fault line
and the status must be the program's.

The last line is 'N runs of seed S, M differ', and the status is 0 if none differs. The library is the one that
BUCKFLEET_LIBRARY names, else out/c/libbuckfleet.so; if there is none, nothing is run, and the line says so.
"""
import argparse
import os
import sys
from collections import Counter
from random import Random

from books import TOP, stems_of
from reference_cases import damaged, instruction, instruction_text, run_here, stems_text

import buckfleet
from buckfleet import _library

WORDS = ("check", "appraise", "compare", "sweep", "wishes", "tune")


def options(**given):
    """The words of options that are given."""
    return [word for name, value in given.items() if value is not None for word in (f"--{name}", str(value))]


def files_of(random):
    """An instruction, stem files, two journals of them, and another instruction, some of them damaged."""
    it = instruction(random)
    apt, stms = instruction_text(random, it), [stems_text(random, list(stems_of(random, it))) for _ in range(3)]
    stms = stms[: random.randint(1, 3)]
    files = {"a.apt": apt, "b.apt": random.choice([apt, instruction_text(random, instruction(random))])}
    files |= {f"{place}.stm": text for place, text in enumerate(stms)}
    files |= {f"{place}.jrn": buckfleet.in_turn(apt, stms, random.choice(buckfleet.RULES)).journal for place in (0, 1)}
    for name in files:
        if random.random() < 0.04:
            files[name] = random.choice([b"", damaged(random, files[name])])
    return files


def trial(random, word, files, numbers):
    """The words and the call of a trial: a sweep is one of two runs."""
    apt, stms = files["a.apt"], [text for name, text in files.items() if name.endswith("stm")]
    rule, targets = random.choice(buckfleet.RULES), random.choice([None, "b.apt"])
    drawn = {"draws": 2, "seed": random.choice([0, 7, 2**64 - 1])} if word != "tune" and random.random() < 0.4 else {}
    words = [word, *options(rule=rule, **numbers, targets=targets, **drawn)]
    given = {"targets": files[targets] if targets else None, **drawn}
    if word == "sweep":
        lists = {f"{name}s": [value] for name, value in numbers.items()}
        return [*words, *options(rule="root")], lambda: buckfleet.sweep(apt, stms, [rule, "root"], **lists, **given)
    return words, lambda: getattr(buckfleet, word)(apt, stms, rule, **numbers, **given)


def asked(random, word, files):
    """The words of a run, and the call for the same."""
    apt, own, first, second = (files[name] for name in ("a.apt", "b.apt", "0.jrn", "1.jrn"))
    names = [name for name in files if name.endswith("stm")]
    numbers = {"period": random.choice([None, None, 1, 5, 1_000]), "limit": random.choice([None, None, 0, 80, 1_000])}
    if word == "check":
        names, rule = names[: random.randint(0, 3)], random.choice([None, *buckfleet.RULES])
        stms = [files[name] for name in names]
        words = [word, *options(rule=rule, **numbers), "a.apt", "0.jrn", *names]
        return words, lambda: buckfleet.check_with(apt, first, stms, rule, **numbers)
    if word == "appraise":
        words = [word, *options(**numbers), "a.apt", "0.jrn", "1.jrn", "b.apt"]
        return words, lambda: buckfleet.appraise(apt, [first, second], own, **numbers)
    if word == "compare":
        both = {f"{name}s": (value, value) for name, value in numbers.items()}
        words = [word, *options(**numbers), "a.apt", "0.jrn", "1.jrn"]
        return words, lambda: buckfleet.compare(apt, first, second, **both)
    words, call = trial(random, word, files, numbers)
    return [*words, "a.apt", *names], call


def answer(call):
    """What a call prints, says and answers."""
    try:
        found = call()
        return getattr(found, "text", found), b"", 0
    except buckfleet.Refused as refused:
        return b"", refused.line.encode() + b"\n", refused.status


def main():
    parser = argparse.ArgumentParser()
    parser.add_argument("--bin", default=TOP / "crates" / "buckfleet" / "out" / "buckfleet")
    parser.add_argument("--count", type=int, default=1_000)
    parser.add_argument("--seed", type=int, default=1)
    given = parser.parse_args()
    if _library.place() is None:
        print(f"nothing was run: {_library.NONE}")
        return 0
    program, differ, statuses = os.path.abspath(given.bin), 0, Counter()
    for number in range(given.count):
        random = Random(f"{given.seed} {number}")
        files = files_of(random)
        words, call = asked(random, WORDS[number % len(WORDS)], files)
        done, found = run_here(program, words, files), answer(call)
        statuses[done.status] += 1
        if found != (done.out, done.err, done.status):
            differ += 1
            print(f"run {number} of seed {given.seed}: {' '.join(words)}: {found} in the place of {done}"[:2_000])
    print("statuses: " + ", ".join(f"{status} {many} times" for status, many in sorted(statuses.items())))
    print(f"{given.count} runs of seed {given.seed}, {differ} differ")
    return 1 if differ else 0


if __name__ == "__main__":
    sys.exit(main())
