#!/usr/bin/env python3
"""Writes a journal of 1,000,000 cuts, reads and replays it, and makes its page.

    python3 bench/journal.py --bin PATH/buckfleet

`fleet` cuts as many stems of one sample, by one harvester in periods of 1,000, and writes the journal; `check` reads and
replays it, and `view` shows it. A line for each says how long it took on the wall, the most memory that it held, its exit
status, how many bytes it wrote, and the last line of them. It ends in status 1 if the journal isn't found lawful.
--number makes another number of cuts.
"""
import argparse
import os
import subprocess
import sys
import tempfile
import time

INSTRUCTION = (
    b"1 2 APT~901 1 100~902 1 1000~903 1 500~910 1 1~"
    b"911 1 saw~912 1 1~913 1 1~914 1 1~915 1 100 200~915 2 400~"
    b"916 1 3000 4000~917 1 400 500 600 800~918 1 1 1 1 1~"
)


def run(words):
    """Runs the program, prints the line of the run, and gives its last line."""
    with tempfile.TemporaryFile("w+") as shown:
        start = time.monotonic()
        child = subprocess.Popen(words, stdout=shown, stderr=subprocess.STDOUT)
        _, status, usage = os.wait4(child.pid, 0)
        took = time.monotonic() - start
        child.returncode = os.waitstatus_to_exitcode(status)
        size = shown.seek(0, os.SEEK_END)
        shown.seek(max(size - 1000, 0))
        last = (shown.read().splitlines() or [""])[-1]
    print(f"{words[1]:6} {took:8.1f} s {usage.ru_maxrss / 1024:8.0f} MiB  status {child.returncode}  {size:10,} bytes  {last}", flush=True)
    return last


def main():
    reader = argparse.ArgumentParser(description=__doc__, formatter_class=argparse.RawDescriptionHelpFormatter)
    reader.add_argument("--bin", required=True)
    reader.add_argument("--number", type=int, default=1_000_000)
    words = reader.parse_args()
    program = os.path.abspath(words.bin)
    with tempfile.TemporaryDirectory() as folder:
        instruction, stems, journal = (os.path.join(folder, name) for name in ("a.apt", "a.stm", "a.jrn"))
        with open(instruction, "wb") as out:
            out.write(INSTRUCTION)
        with open(stems, "wb") as out:
            out.write(b"1 2 STM~" + b"951 1 1~952 1 1~953 1 250~" * words.number)
        run([program, "fleet", "--journal", journal, instruction, stems])
        print(f"journal of {os.path.getsize(journal):,} bytes")
        if run([program, "check", instruction, journal]) != f"LAWFUL {words.number}":
            sys.exit(1)
        run([program, "view", instruction, journal])


main()
