#!/usr/bin/env python3
"""Times reads of a board, and sheets put up with a raise each, on one thread and on four.

    python3 bench/board.py                   # proves and builds crates/bench_calls, and prints a table
    python3 bench/board.py --bin PROGRAM     # one that is built already

A figure is the time on the wall, in nanoseconds, for each call on a thread: of the least of several runs, less the least
of runs with none. So on four threads as many calls are made in that time four times over.
"""
import argparse
import os
import subprocess
import sys
import time

from building import built

CALLS = {"read": 20_000_000, "put": 1_000_000}


def seconds(words, times):
    """The least time on the wall of several runs."""
    least = None
    for _ in range(times):
        start = time.perf_counter()
        status = subprocess.run(words).returncode
        taken = time.perf_counter() - start
        if status != 0:
            sys.exit(f"{' '.join(words)} ended with status {status}")
        least = taken if least is None else min(least, taken)
    return least


def main():
    parser = argparse.ArgumentParser(description=__doc__, formatter_class=argparse.RawDescriptionHelpFormatter)
    parser.add_argument("--bin", metavar="PROGRAM")
    parser.add_argument("--times", type=int, default=5)
    args = parser.parse_args()
    program = args.bin or built("bench_calls", "read", "1", "1")
    print("            ns on 1 thread  ns on 4 threads")
    for word, calls in CALLS.items():
        figures = []
        for threads in ["1", "4"]:
            empty = seconds([program, word, "0", threads], args.times)
            full = seconds([program, word, str(calls), threads], args.times)
            figures.append((full - empty) / calls * 1e9)
        print(f"{word:10}  {figures[0]:14.1f}  {figures[1]:15.1f}")


if __name__ == "__main__":
    main()
