#!/usr/bin/env python3
"""Drives `live` with the pipe held open, as a machine does.

    python3 checks/live.py --bin PATH/buckfleet

Each answer must come before the next request is written; what was cut must be what a journal of it says; a request that
is refused must change nothing; a last line that is cut off must not be cut. examples/live_loop.py must say the same of
the program as of checks/live_mock.py, and that each stem was cut as it was shown. The exit status is 0 if all holds.
"""

import argparse
import os
import pathlib
import select
import subprocess
import sys
import tempfile

TOP = pathlib.Path(__file__).resolve().parent.parent
LIMIT = 1_048_576
SECONDS = 20


class Asked:
    """The program, with its input held open."""

    def __init__(self, program, folder, *words, **more):
        self.ran = subprocess.Popen([program, "live", *words], cwd=folder, stdin=subprocess.PIPE, stdout=subprocess.PIPE, **more)
        self.rest = b""

    def line(self):
        """The next line of the output, or what there is of it if none comes."""
        while b"\n" not in self.rest:
            ready, _, _ = select.select([self.ran.stdout], [], [], SECONDS)
            more = os.read(self.ran.stdout.fileno(), 65536) if ready else b""
            if not more:
                return self.rest
            self.rest += more
        line, self.rest = self.rest.split(b"\n", 1)
        return line

    def ask(self, request):
        """The lines of the answer to a request."""
        self.ran.stdin.write(request + b"\n")
        self.ran.stdin.flush()
        first = self.line()
        logs = int(first.split()[3]) if first.startswith(b"STEM") else 0
        return [first] + [self.line() for _ in range(logs)]

    def end(self, last=b""):
        """What is written after the end of the input, and the status."""
        self.ran.stdin.write(last)
        self.ran.stdin.close()
        rest = self.rest + self.ran.stdout.read()
        return rest, self.ran.wait(SECONDS)


def expect(is_right, what):
    if not is_right:
        sys.exit(f"checks/live.py: {what}")


def looks(program):
    """What the example that looks at stems first says of a program."""
    files = [str(TOP / "examples" / name) for name in ("live_loop.py", "morning.apt", "morning_2.stm")]
    words = [sys.executable, files[0], program, *files[1:]]
    return subprocess.run(words, capture_output=True, text=True, check=True, timeout=SECONDS * 3).stdout


def main():
    parser = argparse.ArgumentParser()
    parser.add_argument("--bin", default=str(TOP / "crates" / "buckfleet" / "out" / "buckfleet"))
    program = os.path.abspath(parser.parse_args().bin)
    text = (TOP / "examples" / "pine.stm").read_bytes().replace(b"\n", b" ")
    stems = [b"951 1 " + part.strip() for part in text.split(b"951 1 ")[1:]]
    with tempfile.TemporaryDirectory() as folder:
        apt = pathlib.Path(folder, "pine.apt")
        apt.write_bytes((TOP / "examples" / "pine.apt").read_bytes())
        pathlib.Path(folder, "pine.stm").write_bytes(text)
        words = ("--rule", "step", "--journal", "live.jrn", "pine.apt")
        asked = Asked(program, folder, *words)
        for stem in stems:
            number = stem.split(b"~")[0].split()[2]
            answer = asked.ask(stem)
            expect(answer[0].split()[:2] == [b"STEM", number], f"no answer to stem {number} while the pipe was open: {answer}")
            expect(all(line.startswith(b"LOG ") for line in answer[1:]), f"other lines than LOG: {answer}")
            expect(asked.ask(b"951 1 7") == [b"stm 1 fault 3 952 1"], "a stem without species was not refused")
        expect(asked.ask(stems[0].ljust(LIMIT + 1)) == [b"read fault 1"], "a line that is too long was not refused")
        expect(asked.ask(stems[0].ljust(LIMIT))[0].startswith(b"STEM"), "a line of the greatest length was refused")
        expect(asked.end(b"951 1 8~952 1 1~953 1 30") == (b"read fault 1\n", 0), "a line that was cut off was not refused")
        # The same stems by a fleet of one harvester have the same journal.
        pathlib.Path(folder, "pine.stm").write_bytes(b"1 2 STM~" + b" ".join(stems + stems[:1]))
        words = ("fleet", "--rule", "step", "--journal", "fleet.jrn", "pine.apt", "pine.stm")
        subprocess.run([program, *words], cwd=folder, check=True, stdout=subprocess.DEVNULL)
        same = pathlib.Path(folder, "live.jrn").read_bytes() == pathlib.Path(folder, "fleet.jrn").read_bytes()
        expect(same, "the journals of live and of a fleet of one harvester differ")
        # The words of a refused request come before its answer.
        asked = Asked(program, folder, "--explain", "pine.apt", stderr=subprocess.STDOUT)
        asked.ask(stems[0])
        told = [asked.ask(b"951 1 7")[0], asked.line()]
        words = b"standard input, line 2: species (952 1) of stem 7: missing, expected one"
        expect(told == [words, b"stm 1 fault 3 952 1"], f"a refused request was told as {told}")
        expect(asked.end() == (b"", 0), "something is said after the last request")
        # A reader that goes away: nothing is said of it, and what was cut stands in the journal.
        asked = Asked(program, folder, "--journal", "left.jrn", "pine.apt", stderr=subprocess.PIPE)
        asked.ran.stdout.close()
        asked.ran.stdin.write(stems[0] + b"\n")
        asked.ran.stdin.close()
        told = asked.ran.stderr.read()
        expect((told, asked.ran.wait(SECONDS)) == (b"", 5), f"a closed output was told as {told}")
        words = ("check", "pine.apt", "left.jrn")
        lawful = subprocess.run([program, *words], cwd=folder, capture_output=True).stdout
        expect(lawful == b"LAWFUL 1\n", f"the journal of a closed output is {lawful}")
    found, wanted = looks(program), looks(str(TOP / "checks" / "live_mock.py"))
    expect(found == wanted, f"examples/live_loop.py says {found} in the place of {wanted}")
    rows = [line.split()[1:] for line in found.splitlines()]
    expect(rows and rows[::3] == rows[2::3], f"a stem was cut otherwise than it was shown: {found}")
    print(f"{len(stems)} stems, each answered while the pipe was open; {len(rows) // 3} looked at first")


if __name__ == "__main__":
    main()
