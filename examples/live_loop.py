#!/usr/bin/env python3
"""Talks with `live` through a pipe as a harvester does: shows how each stem would be cut, prices what the operator would
cut in its place, and then has it cut.

    examples/live_loop.py PROGRAM APT STM

The operator of this example would cut the first log of the best cutting twice. A line BEST has the stem's number, the
number of its logs and their worth; a line OWN the same of the operator's logs and what they lose, or which of them
can't be cut, counted from 1, and why; a line CUT what was cut: it has the numbers of BEST.
"""
import subprocess
import sys


class Live:
    """The program, which answers a request before it reads the next."""

    def __init__(self, program, apt):
        words = [program, "live", "--rule", "linear", apt]
        self.ran = subprocess.Popen(words, stdin=subprocess.PIPE, stdout=subprocess.PIPE, text=True)

    def ask(self, request):
        """The lines of the answer to a request, in words. PREVIEW and STEM say how many lines follow."""
        self.ran.stdin.write(request + "\n")
        self.ran.stdin.flush()
        first = self.ran.stdout.readline().split()
        logs = int(first[3]) if first[0] in ("PREVIEW", "STEM") else 0
        return [first] + [self.ran.stdout.readline().split(maxsplit=7) for _ in range(logs)]

    def end(self):
        self.ran.stdin.close()
        return self.ran.wait()


def stems_of(path):
    """The items of each stem of a file, on one line."""
    with open(path, encoding="ascii") as file:
        text = " ".join(file.read().split())
    return ["951 1" + part for part in text.split("951 1")[1:]]


def names_of(path):
    """The names of the assortments of an instruction file, in their order."""
    with open(path, encoding="ascii") as file:
        items = [item.split(maxsplit=2) for item in file.read().split("~")]
    return [item[2].strip() for item in items if item[:2] == ["911", "1"]]


def own_logs(shown, names):
    """What the operator would cut: for each log its start, its length and the place of its assortment."""
    for _, start, length, *_, name in shown[:1]:
        place = names.index(name.strip())
        return [(int(start), int(length), place), (int(start) + int(length), int(length), place)]
    return []


def main():
    program, apt, stm = sys.argv[1:]
    live, names = Live(program, apt), names_of(apt)
    for stem in stems_of(stm):
        best, *shown = live.ask(f"{stem} 955 1 1~")
        number, _, logs, worth = best[1:]
        print("BEST", number, logs, worth)
        words = " ".join(str(word) for log in own_logs(shown, names) for word in log)
        own = live.ask(f"{stem} 956 1 {words}~")[0]
        print("OWN", number, *(own[2:] if own[2] == "not" else (own[2], own[3], "loses", int(own[4]) - int(own[3]))))
        cut = live.ask(stem)[0]
        print("CUT", cut[1], *cut[3:])
    return live.end()


if __name__ == "__main__":
    sys.exit(main())
