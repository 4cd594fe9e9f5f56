#!/usr/bin/env python3
"""Times a fleet that cuts one made harvest with 1, 2 and 4 threads, in periods of 1 and of 100 stems.

    python3 bench/fleet.py                         # proves and builds crates/bench_calls, and prints a table
    python3 bench/fleet.py --bin PROGRAM           # one that is built already
    python3 bench/fleet.py --peer PROGRAM          # beside it the figures of a program with the commands gen and bench

The stems lie in memory before the time is taken, which is that of the cutting alone: plans and commits, by the linear
rule. Each line says, of the quickest of several runs, how many stems were cut a second and how many times as many as by
one thread; and of a run of its own, what part of the plans made without the lock were made because the plan before was
stale. A peer is asked `gen --out FOLDER --stems N --files 4 --period P ..` for the harvest and `bench FOLDER` for its
figures. Without one, bench/make_workload.py makes the harvest.
"""
import argparse
import os
import re
import subprocess
import sys
import tempfile

from building import built

HERE = os.path.dirname(os.path.abspath(__file__))
PERIODS = [100, 1]
THREADS = [1, 2, 4]


def made(folder, args, period):
    """The instruction and stem files of the harvest, in a folder."""
    if args.peer:
        words = ["--stems", str(args.stems), "--files", "4", "--seed", "1", "--module", str(args.module)]
        subprocess.check_call([args.peer, "gen", "--out", folder, "--period", str(period)] + words)
        return [os.path.join(folder, name) for name in ["apt", "stm1", "stm2", "stm3", "stm4"]]
    words = ["--stems", str(args.stems), "--seed", "1", "--module", str(args.module), "--period", str(period)]
    subprocess.check_call([sys.executable, os.path.join(HERE, "make_workload.py"), "--out", folder] + words)
    return [os.path.join(folder, "apt"), os.path.join(folder, "stm")]


def figures(program, way, threads, files):
    """The two figures of a run."""
    run = subprocess.run([program, way, str(threads)] + files, capture_output=True, text=True)
    if run.returncode != 0:
        sys.exit(f"the program ended with status {run.returncode}")
    first, second = run.stderr.split()
    return int(first), int(second)


def of_product(program, args, files):
    """Stems a second and the part of plans made again, by the number of threads."""
    found = {}
    for threads in THREADS:
        took = min(figures(program, "time", threads, files)[0] for _ in range(args.times))
        plans, again = figures(program, "plans", threads, files)
        found[threads] = (args.stems / took * 1e9, 100 * again / plans)
    return found


def of_peer(program, folder, args, period):
    """The same, as the peer tells them."""
    run = subprocess.run([program, "bench", folder, "--repeat", str(args.times)], capture_output=True, text=True)
    found = {}
    for line in run.stdout.splitlines():
        shown = re.match(r"fleet x(\d+) linear period (\d+): \S+, (\d+) stems/s; .*\(([\d.]+) %", line)
        if shown and int(shown[2]) == period and int(shown[1]) in THREADS:
            found[int(shown[1])] = (float(shown[3]), float(shown[4]))
    return found


def main():
    parser = argparse.ArgumentParser(description=__doc__, formatter_class=argparse.RawDescriptionHelpFormatter)
    parser.add_argument("--bin", metavar="PROGRAM")
    parser.add_argument("--peer", metavar="PROGRAM")
    parser.add_argument("--stems", type=int, default=20000)
    parser.add_argument("--module", type=int, default=100)
    parser.add_argument("--times", type=int, default=5)
    args = parser.parse_args()
    program = os.path.abspath(args.bin) if args.bin else built("bench_calls", "commits", "1")
    print("  period  threads  who         stems/s  times one thread  stale %")
    for period in PERIODS:
        with tempfile.TemporaryDirectory() as folder:
            files = made(folder, args, period)
            rows = [("fleet", of_product(program, args, files))]
            if args.peer:
                rows.append(("peer", of_peer(args.peer, folder, args, period)))
        for threads in THREADS:
            for who, found in rows:
                rate, stale = found[threads]
                print(f"{period:8}  {threads:7}  {who:8}  {rate:9.0f}  {rate / found[1][0]:16.2f}  {stale:7.1f}", flush=True)


if __name__ == "__main__":
    main()
