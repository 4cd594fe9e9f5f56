#!/usr/bin/env python3
"""Times commits of short entries to a book of one thread, in periods of 100 entries.

    python3 bench/commits.py                   # proves and builds crates/bench_calls, and prints a table
    python3 bench/commits.py --bin PROGRAM     # one that is built already

A commit is `prepare` with `commit`, timed by itself inside the program: the plans of a period are made before it. The
stem is 3 m long and gives one log. A line for each number of entries has nanoseconds on the wall: the least, the median
and the 90th percentile of the commits after which the period goes on, the median of those that end one, for which the
next sheet is made, and of the plans. Two readings of the clock lie in each figure but a plan's; what they take by
themselves is taken off, and stands in a column of its own. Each figure is the median of several runs, which take turns
with those of the other numbers of entries. The peak memory has 8 bytes for each entry's time in it.
"""
import argparse
import os
import statistics
import subprocess
import sys
import tempfile

from building import built

PERIOD = 100
ENTRIES = [250_000, 500_000, 1_000_000]


def output_of(words):
    """What a run writes as errors are, and its peak memory in KiB."""
    with open(os.devnull, "w") as nowhere, tempfile.TemporaryFile("w+") as shown:
        child = subprocess.Popen(words, stdout=nowhere, stderr=shown)
        _, status, used = os.wait4(child.pid, 0)
        child.returncode = status
        shown.seek(0)
        if status != 0:
            sys.exit(f"{' '.join(words)} ended with status {status}")
        return shown.read(), used.ru_maxrss


def figures(program, number):
    """The figures of a run, in the order of the columns."""
    shown, memory = output_of([program, "commits", str(number // PERIOD)])
    found = {}
    for line in shown.splitlines():
        name, *times = line.split()
        found[name] = [int(time) for time in times]
    clock = found["clock"][1]
    least, median, most = [time - clock for time in found["within"]]
    return [least, median, most, found["ending"][1] - clock, found["plan"][1], clock, memory / 1024]


def main():
    parser = argparse.ArgumentParser(description=__doc__, formatter_class=argparse.RawDescriptionHelpFormatter)
    parser.add_argument("--bin", metavar="PROGRAM")
    parser.add_argument("--times", type=int, default=5)
    args = parser.parse_args()
    program = args.bin or built("bench_calls", "commits", "1")
    runs = {number: [] for number in ENTRIES}
    for _ in range(args.times):
        for number in ENTRIES:
            runs[number].append(figures(program, number))
    print("  entries  commit: least  median  90th  one that ends a period  a plan  the clock  peak MB")
    for number in ENTRIES:
        least, median, most, ending, plan, clock, memory = [statistics.median(each) for each in zip(*runs[number])]
        print(f"{number:9}  {least:13.0f}  {median:6.0f}  {most:4.0f}  {ending:22.0f}  {plan:6.0f}  {clock:9.0f}  {memory:7.0f}")


if __name__ == "__main__":
    main()
