#!/usr/bin/env python3
"""Measures whole processes of the program, side by side with others of the same interface.

    python3 bench/measure.py                          # builds buckfleet, makes workloads, prints a table of buck
    python3 bench/measure.py --bin NAME=PROGRAM ..    # beside it, other programs
    python3 bench/measure.py --before PROGRAM         # beside it, an earlier buckfleet
    python3 bench/measure.py --threads 1 2 4          # buckfleet in so many threads, one after the other
    python3 bench/measure.py --work buck fleet check  # these commands, one after the other
    python3 bench/measure.py --callgrind [STEMS]      # the instructions of a stem too (wants valgrind)
    python3 bench/measure.py --keep FOLDER            # workloads stay in FOLDER, and those that are there are taken

A program of --bin may have variables of its own: "NAME=VARIABLE=VALUE PROGRAM". `fleet` cuts by --rule (linear), in turn for
each number of --files (1 4) among which the stems are divided, without a journal and with one; `check` reads the journal
that one harvester writes by the same rule. --threads goes for `buck` and `check`.

For each workload the programs are run alternately, several times. It prints of the least: seconds, seconds of processors,
stems a second, and nanoseconds for each pair of a position and a candidate log; the median of the seconds, and the peak
memory. A second file of the same stems, but of a species that no assortment takes, tells what reading and writing alone
cost; with `check`, what reading its journal and walking along it cost. --callgrind adds the instructions of a stem: how many
more twice as many stems take than STEMS (600), divided by STEMS. callgrind runs one thread at a time and has no vectors of
512 bits; runs of several files differ by some percent, as their harvesters meet.

A file has at most 67,108,864 bytes: some 90,000 stems of the usual length, or 200,000 with --samples 40 100.
"""
import argparse
import os
import re
import shlex
import statistics
import subprocess
import sys
import tempfile

from building import built, counted

HERE = os.path.dirname(os.path.abspath(__file__))


def run(words, env):
    """Seconds, seconds of processors and peak KiB of one run; its output goes to nowhere."""
    script = (
        "import resource,subprocess,sys,time\n"
        "start=time.perf_counter()\n"
        "status=subprocess.call(sys.argv[1:],stdout=subprocess.DEVNULL)\n"
        "took,used=time.perf_counter()-start,resource.getrusage(resource.RUSAGE_CHILDREN)\n"
        "print(took,used.ru_utime+used.ru_stime,used.ru_maxrss,status)\n"
    )
    words = [sys.executable, "-c", script] + words
    out = subprocess.run(words, env={**os.environ, **env}, capture_output=True, text=True).stdout.split()
    if out[3] != "0":
        sys.exit(f"{' '.join(words[3:])} ended with status {out[3]}")
    return float(out[0]), float(out[1]), int(out[2])


def program_of(text):
    """The name, the environment and the program of a --bin."""
    name, _, words = text.partition("=")
    *env, program = shlex.split(words)
    return name, dict(word.split("=", 1) for word in env), program


def workload(folder, module, stems, args):
    """A folder with the instruction, the stems, and the stems as another species: apt, stm and other."""
    out = os.path.join(folder, f"{module}_{args.period}_{stems}")
    stm, other = os.path.join(out, "stm"), os.path.join(out, "other")
    if not os.path.exists(other):
        subprocess.check_call(
            [sys.executable, os.path.join(HERE, "make_workload.py"), "--out", out, "--stems", str(stems)]
            + ["--seed", str(args.seed), "--module", str(module), "--period", str(args.period)]
            + ["--samples"] + args.samples
        )
        with open(other, "w") as file:
            file.write(re.sub(r"952 1 1~", "952 1 2~", open(stm).read()))
    return out


def divided(stm, number):
    """Files that have the stems of one, in turn, by their paths."""
    if number == 1:
        return [stm]
    head, *stems = open(stm).readlines()
    names = [f"{stm}.{k + 1}_of_{number}" for k in range(number)]
    for k, name in enumerate(names):
        with open(name, "w") as file:
            file.writelines([head] + stems[k::number])
    return names


def journal_of(program, rule, apt, stm):
    """The journal that one harvester writes of a stem file, by its path."""
    out = f"{stm}.{rule}"
    if not os.path.exists(out):
        words = [program, "fleet", "--rule", rule, "--journal", out, apt, stm]
        subprocess.run(words, stdout=subprocess.DEVNULL, check=True)
    return out


def commands(own, args, folder, name):
    """All that is run of a stem file of a workload: the work, who does it, the words and the environment."""
    apt, stm, found = os.path.join(folder, "apt"), os.path.join(folder, name), []
    builds = [("buckfleet", {}, own)] + [("before", {}, args.before)] * bool(args.before)
    for work in args.work:
        if work == "fleet":
            for number in args.files:
                files = divided(stm, number)
                for end, journal in (("", []), (", journal", ["--journal", f"{stm}.out"])):
                    words = ["fleet", "--rule", args.rule, *journal, apt, *files]
                    for who, env, program in builds + args.bin:
                        found.append((f"fleet of {number}{end}", who, [program, *words], env))
        else:
            read = journal_of(own, args.rule, apt, stm) if work == "check" else stm
            for n in args.threads:
                for who, env, program in builds:
                    words = [program, work, "--threads", str(n), apt, read]
                    found.append((work, f"{who} in {n}" if n > 1 else who, words, env))
            found += [(work, who, [program, work, apt, read], env) for who, env, program in args.bin]
    return found


def by_turns(asked, times):
    """Of each command the least and the median of its seconds, the least of the processors', and its peak KiB. They
    alternate, so that what else the machine does falls on all of them."""
    rounds = [[run(words, env) for _, _, words, env in asked] for _ in range(times)]
    for runs in zip(*rounds):
        seconds, used, peaks = zip(*runs)
        yield min(seconds), statistics.median(seconds), min(used), max(peaks)


def of_a_stem(own, args, folder, module):
    """Of each command how many instructions more it takes for as many stems again, for each of these."""
    some, twice = (workload(folder, module, n * args.callgrind, args) for n in (1, 2))
    for (*_, words, env), (*_, again, _) in zip(commands(own, args, some, "stm"), commands(own, args, twice, "stm")):
        yield (counted(again, env)[1] - counted(words, env)[1]) / args.callgrind


def main():
    parser = argparse.ArgumentParser(description=__doc__, formatter_class=argparse.RawDescriptionHelpFormatter)
    parser.add_argument("--bin", action="append", default=[], type=program_of, metavar="NAME=[VARIABLE=VALUE ..] PROGRAM")
    parser.add_argument("--work", nargs="+", choices=["buck", "fleet", "check"], default=["buck"])
    parser.add_argument("--stems", type=int, default=20000)
    parser.add_argument("--samples", nargs=2, default=["100", "250"], metavar=("FEWEST", "MOST"))
    parser.add_argument("--seed", type=int, default=1)
    parser.add_argument("--times", type=int, default=5)
    parser.add_argument("--modules", type=int, nargs="*", default=[100, 10])
    parser.add_argument("--period", type=int, default=10)
    parser.add_argument("--rule", default="linear")
    parser.add_argument("--threads", type=int, nargs="*", default=[1])
    parser.add_argument("--files", type=int, nargs="*", default=[1, 4])
    parser.add_argument("--callgrind", type=int, nargs="?", const=600, metavar="STEMS")
    parser.add_argument("--keep", metavar="FOLDER")
    parser.add_argument("--own", metavar="PROGRAM", help="buckfleet, if it is built already")
    parser.add_argument("--before", metavar="PROGRAM")
    args = parser.parse_args()
    own = args.own or built("buckfleet", "--help")
    with tempfile.TemporaryDirectory() as scratch:
        folder = args.keep or scratch
        for module in args.modules:
            out = workload(folder, module, args.stems, args)
            pairs = int(open(os.path.join(out, "pairs")).read())
            asked = commands(own, args, out, "stm")
            cut = by_turns(asked, args.times)
            left = by_turns(commands(own, args, out, "other"), args.times)
            counts = of_a_stem(own, args, folder, module) if args.callgrind else [None] * len(asked)
            for (work, who, *_), (seconds, median, used, memory), (idle, *_), count in zip(asked, cut, left, counts):
                print(
                    f"module {module:4}  {work:18}  {who:14}  {seconds:7.3f} s, median {median:.3f}  "
                    f"{used:7.3f} s of processors  {args.stems / seconds:9.0f} stems/s  "
                    f"{seconds * 1e9 / pairs:6.2f} ns a pair, {(seconds - idle) * 1e9 / pairs:6.2f} of it for the cutting  "
                    f"{memory / 1024:6.1f} MiB  (no candidate allowed: {idle:.3f} s)"
                    + (f"  {count:9.0f} instructions a stem" if count else ""),
                    flush=True,
                )


if __name__ == "__main__":
    main()
