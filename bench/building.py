"""Builds the programs that bench/ measures, and counts their instructions."""
import os
import re
import subprocess
import sys

TOP = os.path.dirname(os.path.dirname(os.path.abspath(__file__)))


def built(crate, *words):
    """Proves and builds the program of a crate, runs it with some words that it ends well with, and gives its path."""
    folder = os.path.join(TOP, "crates", crate)
    shown = subprocess.run(["rt", "run", "--", *words], cwd=folder, capture_output=True, text=True)
    program = os.path.join(folder, "out", crate)
    if shown.returncode != 0 or not os.path.exists(program):
        sys.exit("the program doesn't build:\n" + shown.stdout + shown.stderr)
    return program


def counted(words, env=None):
    """What a run prints, and how many instructions it takes in all threads, as callgrind counts them. Variables of env
    are added to the environment."""
    tool = ["valgrind", "--tool=callgrind", "--callgrind-out-file=/dev/null"]
    done = subprocess.run(tool + words, env={**os.environ, **(env or {})}, capture_output=True, text=True)
    if done.returncode != 0:
        sys.exit(f"{' '.join(words)} ended with status {done.returncode}:\n{done.stderr}")
    return done.stdout, int(re.search(r"Collected : (\d+)", done.stderr)[1])
