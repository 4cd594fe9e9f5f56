#!/usr/bin/env python3
"""Checks the manual page and the completions that scripts/manual writes, and the synopses of docs/COMMANDS.md.

    python3 checks/manual.py PROGRAM

- The page has each command with its options, and groff finds nothing wrong with it, if it is there.
- bash completes the words of TRIES as it should.
- docs/COMMANDS.md has a section for each command, whose synopsis has the options that its help has.

The last line is 'N wrong', and the status is 0 if nothing is.
"""
import importlib.machinery
import importlib.util
import pathlib
import re
import shutil
import subprocess
import sys
import tempfile

TOP = pathlib.Path(__file__).resolve().parent.parent
LOADER = importlib.machinery.SourceFileLoader("manual", str(TOP / "scripts" / "manual"))
SPEC = importlib.util.spec_from_loader("manual", LOADER)
MANUAL = importlib.util.module_from_spec(SPEC)
LOADER.exec_module(MANUAL)

# The options that every command but explain has, which synopses leave out.
COMMON = {"--quiet", "--explain", "--help"}

# The words of a command line in examples/, the last of them begun, and what it may become.
TRIES = [
    ("s", "sweep"),
    ("help ta", "table"),
    ("fleet --r", "--rule"),
    ("fleet --rule ", "steady linear step root"),
    ("fleet --rule = st", "steady step"),
    ("fleet --period ", ""),
    ("fleet --journal pine.o", "pine.out"),
    ("check two_stems.", "two_stems.apt two_stems.jrn"),
    ("table two_stems.apt two_stems.jrn l", "logs lacking live_loop.py"),
    ("explain ", ""),
]


def completed(script, line):
    """What bash makes of the words of a command line."""
    words = " ".join(f"'{word}'" for word in ["buckfleet", *line.split(" ")])
    asked = f"source {script}; COMP_WORDS=({words}); COMP_CWORD=$((${{#COMP_WORDS[@]}} - 1)); _buckfleet"
    run = ["bash", "-c", asked + '; printf "%s\\n" "${COMPREPLY[@]}"']
    return set(subprocess.run(run, capture_output=True, text=True, check=True, cwd=TOP / "examples").stdout.split())


def wrong(program, share):
    """What is wrong with what is written into a folder, and with the synopses."""
    page = share / "man" / "man1" / "buckfleet.1"
    if shutil.which("groff"):
        said = subprocess.run(["groff", "-man", "-ww", "-z", page], capture_output=True, text=True).stderr
        yield from said.splitlines()
    shown = dict(re.findall(r"(?ms)^\.SS (\w+)\n(.*?)(?=^\.S|\Z)", page.read_text().replace("\\-", "-")))
    sections = dict(re.findall(r"(?ms)^## (\w+)\n\n```\n(.*?)```", (TOP / "docs" / "COMMANDS.md").read_text()))
    for name, _ in MANUAL.Help(program, "-h").parts["Commands"]:
        if name == "help":
            continue
        options = set(re.findall(r"--[\w-]+", MANUAL.Help(program, name, "-h").option_names()))
        lacks = {option for option in options - {"--help"} if option not in shown.get(name, "")}
        yield from (f"the page lacks {option} of {name}" for option in lacks)
        synopsis = set(re.findall(r"--[\w-]+", sections.get(name, "--none")))
        if synopsis != options - COMMON:
            yield f"docs/COMMANDS.md: the synopsis of {name} and its help differ in {synopsis ^ (options - COMMON)}"
    for line, expected in TRIES:
        found = completed(share / "bash-completion" / "completions" / "buckfleet", line)
        if found != set(expected.split()):
            yield f"bash completes '{line}' to {found}"


def main():
    program = str(pathlib.Path(sys.argv[1]).resolve())
    with tempfile.TemporaryDirectory() as share:
        subprocess.run([TOP / "scripts" / "manual", program, share], check=True)
        found = list(wrong(program, pathlib.Path(share)))
    for line in found:
        print(line)
    print(f"{len(found)} wrong")
    return 1 if found else 0


if __name__ == "__main__":
    sys.exit(main())
