#!/usr/bin/env python3
"""Counts the instructions of one stem through the C library, beside those of its plan and commit alone.

    python3 bench/stems.py [--stems N] [--module MM] [--period N] [--zoned PERCENT] [--bin PATH/bench_calls]

It makes a workload (bench/make_workload.py), and lets callgrind count the instructions of two programs that cut its stems
once and twice over into one book, by the linear rule: crates/bench_calls, by the planner that is kept, `prepare` and
`commit`, over stems that were read before; and bench/stems.c, by `buckfleet_cut`, from diameters and zones. Twice less once
is what the stems cost, with no start and no reading. Both must print the same: entries, sheets, and the worth of all.
The last line is the ratio; the status is 1 if it is above 1.1. valgrind and a C compiler are wanted, and the library
that scripts/c_library leaves in out/c.
"""
import argparse
import os
import struct
import subprocess
import sys
import tempfile

from building import built, counted

HERE = os.path.dirname(os.path.abspath(__file__))
TOP = os.path.dirname(HERE)
LIBRARY = os.path.join(TOP, "out", "c")


def write_stems(text, name):
    """The stems of a stem file, as bench/stems.c reads them."""
    number = 0
    with open(name, "wb") as out:
        for part in text.split(b"951 1 ")[1:]:
            items = {b"951": []}
            for item in (b"951 1 " + part).split(b"~"):
                words = item.split()
                if words:
                    items[words[0]] = [int(word) for word in words[2:]]
            samples, zones = items[b"953"], items.get(b"954", [])
            numbers = [items[b"951"][0], items[b"952"][0], len(samples), len(zones) // 2, *samples, *zones]
            out.write(struct.pack(f"{len(numbers)}I", *numbers))
            number += 1
    return number


def of_a_stem(number, *words):
    """What twice over prints, and the instructions of a stem."""
    once, twice = counted([*words, "1"]), counted([*words, "2"])
    return twice[0], (twice[1] - once[1]) / number


def main():
    reader = argparse.ArgumentParser(description=__doc__, formatter_class=argparse.RawDescriptionHelpFormatter)
    reader.add_argument("--stems", type=int, default=1000)
    reader.add_argument("--module", type=int, default=100)
    reader.add_argument("--period", type=int, default=100)
    reader.add_argument("--zoned", type=int, default=0)
    reader.add_argument("--bin")
    words = reader.parse_args()
    program = words.bin or built("bench_calls", "commits", "1")
    with tempfile.TemporaryDirectory() as scratch:
        make = [sys.executable, os.path.join(HERE, "make_workload.py"), "--out", scratch, "--seed", "1"]
        make += ["--stems", str(words.stems), "--module", str(words.module), "--zoned", str(words.zoned)]
        make += ["--period", str(words.period)]
        subprocess.run(make, check=True, stdout=subprocess.DEVNULL)
        apt, stm, stems, in_c = (os.path.join(scratch, name) for name in ("apt", "stm", "stems", "in_c"))
        with open(stm, "rb") as file:
            number = write_stems(file.read(), stems)
        compiler = [os.environ.get("CC", "cc"), "-O2", "-I", LIBRARY, os.path.join(HERE, "stems.c")]
        subprocess.run([*compiler, os.path.join(LIBRARY, "libbuckfleet.a"), "-o", in_c], check=True)
        alone, least = of_a_stem(number, program, "stems", apt, stm)
        through, most = of_a_stem(number, in_c, apt, stems)
        print(f"module {words.module}, periods of {words.period}, {number} stems, {words.zoned} percent of them with zones")
        print(f"a plan and a commit      {least:10.0f} instructions    {alone.strip()}")
        print(f"through the C library    {most:10.0f}                 {through.strip()}")
        print(f"{most / least:.3f}")
        return 0 if alone == through and most <= 1.1 * least else 1


if __name__ == "__main__":
    sys.exit(main())
