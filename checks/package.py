#!/usr/bin/env python3
"""Tests the Python package of python/, and two programs of examples/python.

    python3 checks/package.py

 - The unit tests of python/tests hold.
 - pip installs the package into a folder without a network; there it carries the library, and cuts a pine by it. If
   there is no library, the installation fails, and says how to make one.
 - examples/python/week.py prints week.out there, and look_first.py, to the lines of look_first.in, look_first.out.

The library is the one that BUCKFLEET_LIBRARY names, else out/c/libbuckfleet.so. If there is none, what needs it is left
out, and the last line says so. The status is 0 if all that was run holds.
"""
import os
import subprocess
import sys
import tempfile

TOP = os.path.dirname(os.path.dirname(os.path.abspath(__file__)))
PACKAGE = os.path.join(TOP, "python")
LIBRARY = os.environ.get("BUCKFLEET_LIBRARY") or os.path.join(TOP, "out", "c", "libbuckfleet.so")
INSTALL = ("-m", "pip", "install", "--quiet", "--no-index", "--no-build-isolation", "--no-deps", "--target")
PINE = "import buckfleet, sys; sys.stdout.buffer.write(buckfleet.buck(*sys.argv[1:]))"


def example(name):
    return os.path.join(TOP, "examples", name)


def read(path):
    with open(path, "rb") as file:
        return file.read()


def python(*words, at=TOP, lines=b"", **more):
    """Runs Python, with the package of the repository and no other library, unless more variables say so."""
    own = [os.path.join(PACKAGE, "src"), *filter(None, [os.environ.get("PYTHONPATH")])]
    named = {**os.environ, "PYTHONPATH": os.pathsep.join(own), "PYTHONDONTWRITEBYTECODE": "1", **more}
    return subprocess.run([sys.executable, *words], cwd=at, env=named, input=lines, capture_output=True)


def unit_tests():
    done = python("-m", "unittest", at=os.path.join(PACKAGE, "tests"))
    return done.returncode == 0, done.stderr


def installed():
    """The package cuts a pine by the library that it carries."""
    with tempfile.TemporaryDirectory() as folder:
        done = python(*INSTALL, folder, PACKAGE, BUCKFLEET_LIBRARY=LIBRARY)
        if done.returncode == 0:
            own = os.pathsep.join([folder, *filter(None, [os.environ.get("PYTHONPATH")])])
            files = example("pine.apt"), example("pine.stm")
            done = python("-c", PINE, *files, at=folder, PYTHONPATH=own, BUCKFLEET_LIBRARY="")
        return done.stdout == read(example("pine.out")), done.stdout + done.stderr


def not_installed():
    """Without a library pip says how to make one."""
    with tempfile.TemporaryDirectory() as folder:
        done = python(*INSTALL, folder, PACKAGE, BUCKFLEET_LIBRARY=os.path.join(folder, "none.so"))
        return done.returncode != 0 and b"scripts/c_library" in done.stderr, done.stdout + done.stderr


def prints(name, *words, lines=b""):
    """A program of examples/python prints its stored text."""
    done = python(example(f"python/{name}.py"), *words, lines=lines)
    return done.returncode == 0 and done.stdout == read(example(f"python/{name}.out")), done.stdout + done.stderr


def week():
    return prints("week")


def look_first():
    files = example("morning.apt"), example("morning_1.stm")
    return prints("look_first", *files, lines=read(example("python/look_first.in")))


def main():
    is_there = os.path.isfile(LIBRARY)
    has_pip = python("-m", "pip", "--version").returncode == 0
    checks = [unit_tests, *([not_installed] if has_pip else []), *([week, look_first] if is_there else [])]
    if is_there and has_pip:
        checks.append(installed)
    failed = 0
    for check in checks:
        holds, said = check()
        if not holds:
            failed += 1
            print(f"failed: {check.__name__}\n{said.decode(errors='replace')}")
    told = [f"{len(checks) - failed} passed, {failed} failed"]
    if not is_there:
        told.append("what needs the library is left out: there is none, scripts/c_library builds it")
    if not has_pip:
        told.append("there is no pip: the installation is left out")
    print("; ".join(told))
    return 1 if failed else 0


if __name__ == "__main__":
    sys.exit(main())
