#!/usr/bin/env python3
"""Runs the tests of refused memory with each allocation failing in turn.

    python3 checks/refused_memory.py [--jobs N] [--every S] [--most N] [--built] [CRATE ..]

It looks at the tests whose names begin with refused_memory: each makes few allocations. For N = 1, 2, .. the Nth
allocation of each is refused (`rt try --test --fail-alloc N`, compiled with checks and with no proofs). The rule: a test
in which an allocation failed looks at what stood before, goes on with ample memory, and then ends with an error that
says that memory ran out. So a test that passes made fewer than N allocations, or was
refused room that a list asks for ahead and does without; an answer that changes, a failed assertion, a fault or a run
with no answer breaks the rule. A crate is done when all its tests passed at three places
tried in a row, or at --most, which is then said. With --every S only N = 1, 1 + S, 1 + 2 S, .. are tried. Without names
it takes every crate of crates.txt that has such a test. It says for each test at how many places an allocation was
refused; the last line is 'N passed, M failed', counted by these places, and the status is 0 if none failed.

A run takes 10 to 80 seconds on one core, nearly all of it to build the crate. With --built the tests that `rt test`
left in out/ are run instead, each in a process of its own whose Nth call of `malloc` or `realloc` a small library refuses;
it is compiled from the lines below, by `cc`. That takes seconds in all, and names the crates that aren't built.

No contract can say that a call answers otherwise than `Memory` if there is memory, and that `Memory` comes only
if an allocation failed: this check shows it. The tests read and write through readers and writers of their
own that fail at the kth call, so these need no command.
"""
import argparse
import concurrent.futures
import os
import re
import shutil
import subprocess
import sys
import tempfile

from quick import TOP, crates

QUIET = 3
BATCH = 8
QUIET_BUILT = 20
NAMED = "refused_memory"
MEMORY = re.compile(r"memory|alloc", re.I)
OUTCOME = re.compile(r"^test (\S+) \.\.\. (ok|FAILED)\n((?:    .*\n)*)", re.M)


REFUSER = """
#define _GNU_SOURCE
#include <dlfcn.h>
#include <stdatomic.h>
#include <stdlib.h>

static atomic_long calls;
static long refused;
static void *(*take)(size_t);
static void *(*move)(void *, size_t);

__attribute__((constructor)) static void start(void) {
    take = dlsym(RTLD_NEXT, "malloc");
    move = dlsym(RTLD_NEXT, "realloc");
    refused = atol(getenv("REFUSED"));
}

void *malloc(size_t size) {
    return refused && atomic_fetch_add(&calls, 1) + 1 == refused ? NULL : take(size);
}

void *realloc(void *old, size_t size) {
    return refused && atomic_fetch_add(&calls, 1) + 1 == refused ? NULL : move(old, size);
}
"""


def has_such_tests(crate):
    """Whether some source of the crate has a test of refused memory."""
    for folder, _, files in os.walk(os.path.join(TOP, "crates", crate, "src")):
        for name in files:
            with open(os.path.join(folder, name)) as source:
                if f"fn {NAMED}" in source.read():
                    return True
    return False


def outcome(result, text):
    """What became of a test: it passed, was refused memory and said so, or broke the rule."""
    if result == "ok":
        return "passed"
    error = re.search(r"^    error: (.*)", text, re.M)
    return "refused" if error and MEMORY.search(error[1]) else "broken"


def tried(crate, number):
    """What became of each test of refused memory if this allocation is refused, and the text of the run."""
    run = subprocess.run(
        ["rt", "try", "--test", "--fail-alloc", str(number)],
        cwd=os.path.join(TOP, "crates", crate),
        capture_output=True,
        text=True,
    )
    text = run.stdout + run.stderr
    found = {name: outcome(result, said) for name, result, said in OUTCOME.findall(text)}
    swept = {name: it for name, it in found.items() if name.split("::")[-1].startswith(NAMED)}
    if "run=ended" not in text or not swept:
        swept = {"no answer": "broken"}
    return swept, text


def swept(crate, places, pool):
    """For each test how many places were refused and how many broke the rule, and whether all were reached."""
    refused, broken, quiet = {}, {}, 0
    for first in range(0, len(places), BATCH):
        batch = places[first : first + BATCH]
        for at, (found, text) in zip(batch, pool.map(lambda n: tried(crate, n), batch)):
            for name, became in found.items():
                refused[name] = refused.get(name, 0) + (became == "refused")
                broken[name] = broken.get(name, 0) + (became == "broken")
            if "broken" in found.values():
                print(f"{crate}: allocation {at}:\n{text}", flush=True)
            quiet = quiet + 1 if set(found.values()) == {"passed"} else 0
        if quiet >= QUIET:
            break
    return refused, broken, quiet >= QUIET


def tried_built(program, refuser, name, number):
    """What became of a built test if this allocation is refused, and the text of the run."""
    run = subprocess.run(
        [program, name],
        env={"LD_PRELOAD": refuser, "REFUSED": str(number)},
        capture_output=True,
        text=True,
        timeout=60,
    )
    text = run.stdout + run.stderr
    said = "".join(f"    {line}\n" for line in text.splitlines())
    return outcome("ok" if run.returncode == 0 else "FAILED", said), text


def swept_built(crate, program, refuser, every, most):
    """As `swept`, of the tests that stand built."""
    listed = subprocess.run([program, "--list"], capture_output=True, text=True).stdout
    names = [line.rsplit(":", 1)[0] for line in listed.splitlines()]
    refused, broken, whole = {}, {}, True
    for name in (name for name in names if name.split("::")[-1].startswith(NAMED)):
        refused[name] = broken[name] = quiet = 0
        for number in range(1, most + 1, every):
            became, text = tried_built(program, refuser, name, number)
            refused[name] += became == "refused"
            broken[name] += became == "broken"
            if became == "broken":
                print(f"{crate}: {name}: allocation {number}:\n{text}", flush=True)
            quiet = quiet + 1 if became == "passed" else 0
            if quiet >= QUIET_BUILT:
                break
        whole = whole and quiet >= QUIET_BUILT
    return refused, broken, whole


def built_refuser(folder):
    """The library that refuses an allocation."""
    source, library = os.path.join(folder, "refuser.c"), os.path.join(folder, "refuser.so")
    with open(source, "w") as out:
        out.write(REFUSER)
    subprocess.run(["cc", "-O1", "-shared", "-fPIC", "-o", library, source, "-ldl"], check=True)
    return library


def main():
    parser = argparse.ArgumentParser(description=__doc__, formatter_class=argparse.RawDescriptionHelpFormatter)
    parser.add_argument("--jobs", type=int, default=2)
    parser.add_argument("--every", type=int, default=1)
    parser.add_argument("--most", type=int, help="400, or 6,000 with --built")
    parser.add_argument("--built", action="store_true", help="run the tests that `rt test` left in out/")
    parser.add_argument("crates", nargs="*", metavar="CRATE")
    args = parser.parse_args()
    args.most = args.most or (6000 if args.built else 400)
    names = args.crates or [crate for crate in crates() if has_such_tests(crate)]
    places = range(1, args.most + 1, args.every)
    passed = failed = 0
    if args.built and shutil.which("cc") is None:
        print("there is no cc here: nothing was run")
        return 0
    with concurrent.futures.ThreadPoolExecutor(args.jobs) as pool, tempfile.TemporaryDirectory() as folder:
        refuser = built_refuser(folder) if args.built else None
        for crate in names:
            program = os.path.join(TOP, "crates", crate, "out", f"{crate}_tests")
            if args.built and not os.path.exists(program):
                print(f"{crate}: not built: `rt test` in its folder builds it", flush=True)
                failed += 1
                continue
            if args.built:
                refused, broken, whole = swept_built(crate, program, refuser, args.every, args.most)
            else:
                refused, broken, whole = swept(crate, places, pool)
            end = "none is refused after these" if whole else f"not looked further than {args.most}"
            for name in sorted(refused):
                print(f"{crate}: {name}: refused at {refused[name]} places, {broken[name]} broke the rule", flush=True)
            print(f"{crate}: every {args.every}. place tried; {end}" if args.every > 1 else f"{crate}: {end}", flush=True)
            passed += sum(refused.values())
            failed += sum(broken.values())
    print(f"{passed} passed, {failed} failed")
    return 0 if failed == 0 else 1


if __name__ == "__main__":
    sys.exit(main())
