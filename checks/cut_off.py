#!/usr/bin/env python3
"""Ends the program at moments of a run that writes a journal over an old one, and looks at what stands there.

    checks/cut_off.py PROGRAM [--moments N] [--stems N]

A run of one harvester always writes the same journal. It is run to its end once, and then again and again over an old
OUT, ended by SIGKILL at moments spread over the time that it takes, closer towards the end, when it writes. Each time
OUT must be the old file or the new journal, whole. The last line is 'N moments: A old, B new, M neither', and the
status is 0 if none is neither. What an ended run left beside OUT must have a name that says what it is, and be a first
part of the new journal; the next run leaves it alone, which is looked at too.
"""
import argparse
import pathlib
import re
import subprocess
import sys
import tempfile
import time

EXAMPLES = pathlib.Path(__file__).resolve().parent.parent / "examples"
OLD = b"an old journal\n" * 1000


def stem_file(stems):
    """Many stems: those of the example again and again."""
    items = [item.strip() for item in (EXAMPLES / "morning_1.stm").read_text().split("~") if item.strip()]
    first = next(at for at, item in enumerate(items) if item.split()[:2] == ["951", "1"])
    body = items[first:]
    again = -(-stems // sum(item.split()[:2] == ["951", "1"] for item in body))
    return "~\n".join(items[:first] + body * again) + "~\n"


def run(words, folder, seconds=None):
    """Runs the words; ends them after so many seconds, if they are given."""
    with subprocess.Popen(words, cwd=folder, stdout=subprocess.DEVNULL, stderr=subprocess.DEVNULL) as process:
        try:
            return process.wait(seconds)
        except subprocess.TimeoutExpired:
            process.kill()
            return process.wait()


def main():
    parser = argparse.ArgumentParser()
    parser.add_argument("program")
    parser.add_argument("--moments", type=int, default=20)
    parser.add_argument("--stems", type=int, default=20_000)
    asked = parser.parse_args()
    with tempfile.TemporaryDirectory() as name:
        folder = pathlib.Path(name)
        (folder / "s.stm").write_text(stem_file(asked.stems))
        (folder / "a.apt").write_bytes((EXAMPLES / "morning.apt").read_bytes())
        out = folder / "o.jrn"
        words = [str(pathlib.Path(asked.program).resolve()), "fleet", "--journal", "o.jrn", "a.apt", "s.stm"]
        began = time.monotonic()
        if run(words, folder) != 0:
            sys.exit("the whole run failed")
        took = time.monotonic() - began
        new = out.read_bytes()
        seen = {"old": 0, "new": 0, "neither": 0}
        for moment in range(asked.moments):
            out.write_bytes(OLD)
            share = moment / max(1, asked.moments - 1)
            run(words, folder, took * (1.05 * share if moment % 2 else 0.8 + 0.25 * share))
            there = out.read_bytes()
            seen["old" if there == OLD else "new" if there == new else "neither"] += 1
        parts = {path.name: path.read_bytes() for path in folder.iterdir()}
        for name in ("a.apt", "o.jrn", "s.stm"):
            del parts[name]
        for name, text in parts.items():
            if not re.fullmatch(r"o\.jrn\.\d+\.1\.part", name) or not new.startswith(text):
                sys.exit(f"a run that was ended left {name}")
        out.write_bytes(OLD)
        run(words, folder)
        left = {path.name: path.read_bytes() for path in folder.iterdir()}
        if out.read_bytes() != new or any(left.get(name) != text for name, text in parts.items()) or len(left) != len(parts) + 3:
            sys.exit(f"a run to the end after them left {sorted(left)}")
        print(f"{asked.moments} moments: {seen['old']} old, {seen['new']} new, {seen['neither']} neither")
        sys.exit(1 if seen["neither"] else 0)


if __name__ == "__main__":
    main()
