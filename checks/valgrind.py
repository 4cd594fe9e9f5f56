#!/usr/bin/env python3
"""Runs the built program under valgrind over the repository's worked files, and asks that valgrind has nothing to say.

    python3 checks/valgrind.py [--bin PATH/buckfleet]

The program is built by `rt run -- --help` in crates/buckfleet, and stands in its out/. It is run on the files of
examples/, on the stems and journals that the tests work out by hand, each under the test's name, on files cut off at many
places, and on words and files that are refused. Each run is made once as it is and once under valgrind, which looks at each
access of memory and, at the end, at what was not given back: exit status, output and errors are to be the same (of several
harvesters at once, the status alone: their order is free), and valgrind is to be silent. The last line is
'N passed, M failed', and the status is 0 if none failed.

If there is no valgrind, or no program, it says so, and ends with status 0 for the first and 2 for the other.
"""
import argparse
import os
import shutil
import subprocess
import sys
import tempfile

TOP = os.path.dirname(os.path.dirname(os.path.abspath(__file__)))
PLACES = 12


def read(*words):
    with open(os.path.join(TOP, *words), "rb") as file:
        return file.read()


def stem(count, sample, more=b""):
    """A stem of so many samples, all alike, and what else is said of it."""
    return b"1 2 STM~951 1 1~952 1 1~953 1" + b" %d" % sample * count + b"~" + more


def by_hand(saw):
    """The instructions and stems that the tests work out by hand, by the tests' names; of the instruction named saw."""
    pole = saw.replace(b"910 1 1", b"910 1 2") + (
        b"911 1 pole~912 1 1~913 1 1~914 1 2~915 1 100 200~915 2 400~916 1 3000 4000~917 1 1 0 100 0~918 1 1 1 1 1~"
    )
    largest = (
        b"1 2 APT~901 1 10~902 1 1~903 1 1000~910 1 1~911 1 max~912 1 1~913 1 1~914 1 1~915 1 0~915 2 2000~"
        b"916 1 500 30000~917 1 10000000 10000000~918 1 1 1~"
    )
    trim = saw.replace(b"918 1 1 1 1 1~", b"918 1 1 1 1 1~919 1 50~")
    yield "nothing_to_cut", saw, stem(1, 250)
    yield "one_long_log", saw, stem(41, 250)
    yield "two_short_logs", saw, stem(61, 250)
    yield "tie_goes_to_lower_start", saw, stem(36, 250)
    yield "running_least_diameter", saw, b"1 2 STM~951 1 1~952 1 1~953 1 " + b"210 190 " * 20 + b"210~"
    yield "grade_zone_shortens_log", saw, stem(41, 250, b"954 1 0 1 3000 2~")
    yield "two_assortments", pole, stem(31, 250)
    yield "two_logs_and_their_trims", trim, stem(63, 250)
    yield "largest_numbers", largest, stem(401, 1500)
    yield "no_stems", saw, b"1 2 STM~"


def edited(journal):
    """Edits of the journal of two stems, by the tests' names."""
    demand = b"982 1 1 2 1~\n982 2 0 0 0 4~\n981 1 1 3 2~"
    between = journal.replace(b"600 750 300 400", b"400 500 600 800~\n971 1 400 500 600 800").replace(b"981 1 1 2 1~", demand)
    yield "demand_between_two_stems", between.replace(b"0 3000 0~\n981 6 132535800", b"0 4000 0~\n981 6 157080000")
    yield "outvalued_journal", journal.replace(b"0 3000 0~\n981 6 132535800", b"0 4000 0~\n981 6 78540000")
    yield "edited_postings", journal.replace(b"132535800", b"132535801")
    yield "edited_sheets", journal.replace(b"600 750 900", b"600 750 901")


def worked():
    """The runs: what is given on standard input, the files by their names, the words, and whether the answer is one."""
    pine = {"a": read("examples", "pine.apt"), "b": read("examples", "pine.stm")}
    two = {"a": read("examples", "two_stems.apt"), "b": read("examples", "two_stems.jrn")}
    refused = {"a": read("crates", "run_harvest", "data", "refused.apt"), "b": pine["b"]}
    morning = {name: read("examples", f"morning.{name}") for name in ("apt", "jrn")}
    morning.update({name: read("examples", f"morning_{name}.stm") for name in ("1", "2", "3")})
    bare = read("crates", "buckfleet", "stdin")
    fleet = ["fleet", "--rule", "linear", "--journal", "out", "apt"]
    yield "one input", bare, {}, [], True
    yield "one input without a bar", bare.replace(b"|", b""), {}, [], True
    yield "two files", b"", pine, ["buck", "a", "b"], True
    yield "a refused instruction", b"", refused, ["buck", "a", "b"], True
    yield "a journal", b"", two, ["check", "a", "b"], True
    yield "a journal of a morning", b"", morning, ["check", "apt", "jrn"], True
    yield "a fleet of one", b"", morning, [*fleet, "1"], True
    yield "a fleet of three", b"", morning, [*fleet, "1", "2", "3"], False
    yield "a fleet without a journal", b"", morning, ["fleet", "apt", "2"], True
    yield "a fleet of which a file is refused", b"", morning, [*fleet, "1", "jrn"], True
    yield "a fleet of too many", b"", morning, ["fleet", "apt", *["1"] * 65], True
    yield "a missing file", b"", {"a": pine["a"]}, ["buck", "a", "b"], True
    yield "a journal that can't be made", b"", morning, ["fleet", "--journal", "none/out", "apt", "1"], True
    yield "help", b"", {}, ["--help"], True
    yield "words that aren't known", b"", {}, ["fell", "a", "b"], True
    for name, apt, stm in by_hand(two["a"].replace(b"903 1 500", b"903 1 0")):
        yield name, b"", {"a": apt, "b": stm}, ["buck", "a", "b"], True
        yield f"{name} by a fleet", b"", {"apt": apt, "stm": stm}, [*fleet, "stm"], True
    for name, journal in edited(two["b"]):
        yield name, b"", {**two, "b": journal}, ["check", "a", "b"], True
    for task, files in (("buck", pine), ("check", two)):
        for name in files:
            for place in range(PLACES):
                cut = files[name][: len(files[name]) * place // PLACES]
                yield f"{task} with {name} cut off after {len(cut)} bytes", b"", {**files, name: cut}, [task, "a", "b"], True


def run(before, program, given, files, words):
    """Status, output and errors of a run in a folder of these files, and what it left there."""
    with tempfile.TemporaryDirectory() as folder:
        for name, text in files.items():
            with open(os.path.join(folder, name), "wb") as file:
                file.write(text)
        done = subprocess.run([*before, program, *words], input=given, cwd=folder, capture_output=True)
        made = os.path.join(folder, "out")
        left = b""
        if os.path.exists(made):
            with open(made, "rb") as file:
                left = file.read()
    return done.returncode, done.stdout, done.stderr, left


def faults(program, log, given, files, words, is_one):
    """What is wrong with a run."""
    plain = run([], program, given, files, words)
    before = ["valgrind", "-q", "--leak-check=full", "--show-leak-kinds=all", f"--log-file={log}"]
    watched = run(before, program, given, files, words)
    said = read(log).decode(errors="replace")
    found = []
    if plain[0] < 0:
        found.append(f"ended by signal {-plain[0]}")
    if watched[0] != plain[0] or is_one and watched != plain:
        found.append(f"status {watched[0]} under valgrind and {plain[0]} without, or other texts")
    if said:
        found.append(f"valgrind says:\n{said}")
    return found


def main():
    parser = argparse.ArgumentParser(description=__doc__, formatter_class=argparse.RawDescriptionHelpFormatter)
    parser.add_argument("--bin", default=os.path.join(TOP, "crates", "buckfleet", "out", "buckfleet"))
    given = parser.parse_args()
    program = os.path.abspath(given.bin)
    if shutil.which("valgrind") is None:
        print("there is no valgrind here: nothing was run")
        return 0
    if not os.path.exists(program):
        print(f"there is no program at {program}: build it by `rt run -- --help` in crates/buckfleet")
        return 2
    passed = failed = 0
    with tempfile.TemporaryDirectory() as folder:
        log = os.path.join(folder, "log")
        for name, stdin, files, words, is_one in worked():
            found = faults(program, log, stdin, files, words, is_one)
            passed += not found
            failed += bool(found)
            for fault in found:
                print(f"{name}: {fault}", flush=True)
    print(f"{passed} passed, {failed} failed")
    return 0 if failed == 0 else 1


if __name__ == "__main__":
    sys.exit(main())
