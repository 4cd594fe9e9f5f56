#!/usr/bin/env python3
"""Runs every check that needs a built program, that of the Python package and that of the reference in plain Python, and
says one line for each.

    checks/all.py PROGRAM

A line has the check's name, whether it holds, the last line of what it says and how long it took; of one that doesn't hold
all that it says comes before. The status is 0 if all hold.
"""
import pathlib
import subprocess
import sys
import time

CHECKS = pathlib.Path(__file__).resolve().parent

# Each check with the words that it is handed, with {} for the program.
RUNS = [
    ("edges", ["{}"]),
    ("live", ["--bin", "{}"]),
    ("guide", ["{}"]),
    ("manual", ["{}"]),
    ("faults", ["{}"]),
    ("cut_off", ["{}"]),
    ("valgrind", ["--bin", "{}"]),
    ("reference", ["cases"]),
    ("reference", ["compare", "{}", "--count", "300", "--seed", "1"]),
    ("package", []),
    ("books", ["--bin", "{}"]),
    ("several", ["--bin", "{}"]),
]


def main():
    if len(sys.argv) != 2:
        print("checks/all.py PROGRAM", file=sys.stderr)
        return 2
    program = str(pathlib.Path(sys.argv[1]).resolve())
    failed = 0
    for name, words in RUNS:
        began = time.monotonic()
        asked = [sys.executable, str(CHECKS / f"{name}.py"), *(word.format(program) for word in words)]
        done = subprocess.run(asked, stdout=subprocess.PIPE, stderr=subprocess.STDOUT, text=True, errors="replace")
        lines = done.stdout.splitlines() or [""]
        holds = done.returncode == 0
        if not holds:
            failed += 1
            print("\n".join(lines[:-1]))
        print(f"{name}: {'holds' if holds else 'FAILS'}, {lines[-1]} ({time.monotonic() - began:.0f} s)", flush=True)
    return 1 if failed else 0


if __name__ == "__main__":
    sys.exit(main())
