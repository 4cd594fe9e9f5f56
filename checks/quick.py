#!/usr/bin/env python3
"""A look at your own change in some minutes: the tests of every crate and the worked cases, with no proofs.

    python3 checks/quick.py [--jobs N] [CRATE ..]

They run under the checking interpreter, which stops at an index out of bounds, an overflow, a failed assertion. It proves
nothing: `rt ci` is the gate, and `rt verdict` and `rt must-fail NAME` are the gate for one crate. Without names it takes
every crate of crates.txt that has a #[test], and run_cases. The last line is 'N passed, M failed', in which a file of
cases counts as one, and the status is 0 if none failed.
"""
import argparse
import concurrent.futures
import os
import re
import subprocess
import sys

TOP = os.path.dirname(os.path.dirname(os.path.abspath(__file__)))
CASES = "run_cases"


def crates():
    """The crates of crates.txt, in its order."""
    with open(os.path.join(TOP, "crates.txt")) as lines:
        return [line.split(":")[0].split()[0] for line in lines if line.split("#")[0].strip()]


def has_tests(crate):
    """Whether some source of the crate has a test."""
    for folder, _, files in os.walk(os.path.join(TOP, "crates", crate, "src")):
        for name in files:
            with open(os.path.join(folder, name)) as source:
                if "#[test]" in source.read():
                    return True
    return False


def counted_cases(text):
    """How many files of cases have no difference, and how many have one; none if no file was run."""
    found = [int(it) for it in re.findall(r"^\w+: \d+ cases, (\d+) differ$", text, re.M)]
    return (found.count(0), len(found) - found.count(0)) if found else None


def counted(text):
    """How many tests passed and failed, by the line that ends them; none if there is no such line."""
    found = re.search(r"^test result: \w+\. (\d+) passed; (\d+) failed", text, re.M)
    return (int(found[1]), int(found[2])) if found else None


def tried(crate):
    folder = os.path.join(TOP, "crates", crate)
    words = ["rt", "try", "--seconds", "300"]
    if crate == CASES:
        data = os.path.join(folder, "data")
        words += [word for name in sorted(os.listdir(data)) for word in ("--data", f"{name}={os.path.join(data, name)}")]
    else:
        words += ["--test"]
    run = subprocess.run(words, cwd=folder, capture_output=True, text=True)
    text = run.stdout + run.stderr
    return crate, run.returncode, counted_cases(text) if crate == CASES else counted(text), text


def main():
    parser = argparse.ArgumentParser(description=__doc__, formatter_class=argparse.RawDescriptionHelpFormatter)
    parser.add_argument("--jobs", type=int, default=2)
    parser.add_argument("crates", nargs="*", metavar="CRATE")
    args = parser.parse_args()
    names = args.crates or [crate for crate in crates() if has_tests(crate) or crate == CASES]
    passed = failed = 0
    with concurrent.futures.ThreadPoolExecutor(args.jobs) as pool:
        for crate, status, counts, text in pool.map(tried, names):
            well = counts is not None and counts[1] == 0 and status == 0
            print(f"{crate}: {f'{counts[0]} passed, {counts[1]} failed' if counts else 'no result'}", flush=True)
            if not well:
                print(text, flush=True)
            passed += counts[0] if counts else 0
            failed += counts[1] if counts else 1
    print(f"{passed} passed, {failed} failed")
    return 0 if failed == 0 else 1


if __name__ == "__main__":
    sys.exit(main())
