#!/usr/bin/env python3
"""Times tables of runs: many draws, in one thread and in several.

    python3 bench/trials.py --bin PATH/buckfleet [--stems 2000] [--times 5]

First 20 draws of three rules over the morning of examples/. Then, over a made harvest, tables of 10 and of 100 runs in one
thread and in as many as the machine has processors, and the wishes of its instruction. Last a price list of 60 classes is
tuned on a bank of 3,000 stems, with a period of 1. A line for each says the least seconds that passed, the least of the
processors together, and the peak memory, which shows as this script's own, some 14 MiB, if it is below that.
"""
import argparse
import os
import subprocess
import sys
import tempfile
import time

HERE = os.path.dirname(os.path.abspath(__file__))
EXAMPLES = os.path.join(os.path.dirname(HERE), "examples")


def run(words):
    """Seconds that passed, seconds of processors, and peak MiB of one run."""
    begun = time.monotonic()
    child = subprocess.Popen(words, stdout=subprocess.DEVNULL)
    _, status, usage = os.wait4(child.pid, 0)
    child.returncode = os.waitstatus_to_exitcode(status)
    if child.returncode != 0:
        sys.exit(f"{' '.join(words)} ended with status {child.returncode}")
    return time.monotonic() - begun, usage.ru_utime + usage.ru_stime, usage.ru_maxrss / 1024


def told(name, times, words):
    """Prints the least of some runs. The answer is the least of the seconds that passed."""
    runs = [run(words) for _ in range(times)]
    passed, used, peak = min(r[0] for r in runs), min(r[1] for r in runs), max(r[2] for r in runs)
    print(f"{name:34} {passed:7.3f} s  {used:7.3f} s of processors  {peak:5.0f} MiB")
    return passed


def main():
    parser = argparse.ArgumentParser(description=__doc__, formatter_class=argparse.RawDescriptionHelpFormatter)
    parser.add_argument("--bin", required=True)
    parser.add_argument("--stems", type=int, default=2000)
    parser.add_argument("--times", type=int, default=5)
    words = parser.parse_args()
    program = os.path.abspath(words.bin)
    morning = [os.path.join(EXAMPLES, name) for name in ("morning.apt", "morning_1.stm", "morning_2.stm", "morning_3.stm")]
    rules = ["--rule", "linear", "--rule", "step", "--rule", "root"]
    told("the morning, 3 rules, 20 draws", words.times, [program, "sweep", *rules, "--draws", "20", *morning])
    with tempfile.TemporaryDirectory() as folder:
        made = [sys.executable, os.path.join(HERE, "make_workload.py"), "--out", folder, "--seed", "1"]
        subprocess.check_call([*made, "--stems", str(words.stems)])
        files = [os.path.join(folder, name) for name in ("apt", "stm")]
        took = {}
        for threads in ("1", str(os.cpu_count())):
            for draws in ("9", "99"):
                asked = [program, "sweep", "--rule", "linear", "--draws", draws, "--threads", threads, *files]
                runs = int(draws) + 1
                took[threads, draws] = told(f"{runs} runs, {threads} threads", words.times, asked)
        for threads in ("1", str(os.cpu_count())):
            asked = [program, "wishes", "--rule", "linear", "--threads", threads, *files]
            told(f"wishes, {threads} threads", 1, asked)
        subprocess.check_call([*made, "--stems", "3000", "--assortments", "3", "--lengths", "5"])
        told("tune, 3,000 stems, 60 classes", words.times, [program, "tune", "--period", "1", *files])
        print(f"{took['1', '99'] / took[str(os.cpu_count()), '99']:.2f} times as fast in {os.cpu_count()} threads")


if __name__ == "__main__":
    main()
