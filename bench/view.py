#!/usr/bin/env python3
"""Times the page and the table of logs of a journal beside its check, and those of a week.

    python3 bench/view.py --bin PATH/buckfleet [--before PATH/buckfleet] [--callgrind]
    python3 bench/view.py --bin PATH/buckfleet --days 7 --megabytes 10

It cuts the stems of a made harvest by one harvester into a journal, and then runs `check`, `view` and `table logs` of it
several times in turn, each in --threads threads (1). A line for each says the least seconds of a processor, the peak
memory and how much was written. --before has an earlier program do the same in alternation with it; then last stand how many
times as much the new one took of each. --callgrind counts the instructions of one run of each besides. --stems makes
another number of stems.

With --days there are that many journals of --megabytes each, and `view` is run of the first alone and of all together.
"""
import argparse
import os
import subprocess
import sys
import tempfile

from building import counted

HERE = os.path.dirname(os.path.abspath(__file__))
TABLES = {"table": ["logs"]}


def run(words, out):
    """Seconds of a processor and peak MiB of one run, which writes into a file."""
    with open(out, "wb") as file:
        child = subprocess.Popen(words, stdout=file)
        _, status, usage = os.wait4(child.pid, 0)
        child.returncode = os.waitstatus_to_exitcode(status)
    if child.returncode != 0:
        sys.exit(f"{' '.join(words)} ended with status {child.returncode}")
    return usage.ru_utime + usage.ru_stime, usage.ru_maxrss / 1024


def harvest(program, folder, stems, seed):
    """An instruction of seed 1, and the journal of some stems of this seed."""
    made = [sys.executable, os.path.join(HERE, "make_workload.py"), "--out", folder, "--stems", str(stems)]
    apt, stm, journal = (os.path.join(folder, name) for name in ("apt", "stm", f"{seed}.jrn"))
    subprocess.check_call([*made, "--seed", str(seed)])
    os.replace(apt, os.path.join(folder, f"{seed}.apt"))
    apt = os.path.join(folder, "1.apt")
    run([program, "fleet", "--journal", journal, apt, stm], os.path.join(folder, "out"))
    return apt, journal


def compared(words, folder):
    """What each program takes of each command, and how many times as much the one of now takes."""
    programs = [os.path.abspath(program) for program in (words.before, words.bin) if program]
    apt, journal = harvest(programs[-1], folder, words.stems, 1)
    print(f"journal of {words.stems:,} stems, {os.path.getsize(journal):,} bytes")
    runs = {
        (program, word): [program, word, "--threads", str(words.threads), apt, journal, *TABLES.get(word, [])]
        for word in ("check", "view", "table")
        for program in programs
    }
    out = os.path.join(folder, "out")
    took, peak, size, counts = {}, {}, {}, {}
    for _ in range(words.times):
        for of, asked in runs.items():
            seconds, memory = run(asked, out)
            took[of], peak[of] = min(took.get(of, seconds), seconds), max(peak.get(of, 0), memory)
            size[of] = os.path.getsize(out)
    if words.callgrind:
        counts = {of: counted(asked)[1] for of, asked in runs.items()}
    for of in runs:
        name = "now" if of[0] == programs[-1] else "before"
        count = f", {counts[of]:,} instructions" if counts else ""
        print(f"{of[1]:6} {name:7} {took[of]:6.3f} s  {peak[of]:5.0f} MiB  {size[of]:,} bytes written{count}")
    for word in ("check", "view", "table") if words.before else ():
        old, new = ((program, word) for program in programs)
        times = f"{took[new] / took[old]:.2f} times the seconds, {peak[new] / peak[old]:.2f} times the memory"
        count = f", {counts[new] / counts[old]:.3f} times the instructions" if counts else ""
        print(f"{word}: {times}{count}, {size[new] - size[old]:+,} bytes")
    for kind, found in (("seconds", took), ("instructions", counts)):
        if found:
            print(f"view takes {found[programs[-1], 'view'] / found[programs[-1], 'check']:.2f} times the {kind} of check")


def week(words, folder):
    """What a page of one day takes, and that of all days."""
    program = os.path.abspath(words.bin)
    # A stem takes some 920 bytes of a journal.
    days = [harvest(program, folder, words.megabytes * 1_000_000 // 920, 1 + day) for day in range(words.days)]
    apt, journals = days[0][0], [journal for _, journal in days]
    print(f"{words.days} journals, {sum(map(os.path.getsize, journals)):,} bytes together")
    out = os.path.join(folder, "out")
    for word in ("view", "table"):
        for some in (journals[:1], journals):
            asked = [program, word, "--threads", str(words.threads), apt, *some, *TABLES.get(word, [])]
            found = [run(asked, out) for _ in range(words.times)]
            seconds, memory = min(found)[0], max(memory for _, memory in found)
            print(f"{word:6} of {len(some)}: {seconds:6.3f} s  {memory:5.0f} MiB  {os.path.getsize(out):,} bytes written")


def main():
    reader = argparse.ArgumentParser(description=__doc__, formatter_class=argparse.RawDescriptionHelpFormatter)
    reader.add_argument("--bin", required=True)
    reader.add_argument("--before")
    reader.add_argument("--stems", type=int, default=20_000)
    reader.add_argument("--times", type=int, default=5)
    reader.add_argument("--threads", type=int, default=1)
    reader.add_argument("--callgrind", action="store_true")
    reader.add_argument("--days", type=int)
    reader.add_argument("--megabytes", type=int, default=10)
    words = reader.parse_args()
    with tempfile.TemporaryDirectory() as folder:
        (week if words.days else compared)(words, folder)


main()
