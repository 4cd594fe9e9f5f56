#!/usr/bin/env python3
"""Builds the C library, and runs what stands on it.

    python3 checks/c_library.py [--bin PATH/buckfleet] [--cases FOLDER]

scripts/c_library proves and builds the library. Then
 - checks/c_library.c calls each function at the edges of what the header allows (null with no length, rooms of no length
   and one too small, files swapped), with each taking of memory refused in turn, and in 64 threads at once, over the
   files of examples/; once as it is, once with the compiler's own checks of addresses and of undefined behaviour, and
   once under valgrind, if these are there; and books in the same ways. Memory is refused to all calls over short
   files, and to the calls that make no trial over the other files too;
 - the examples in C and in Python cut a pine, and check and report a morning's journal: they print what the program
   prints, if it is built (`rt run -- --help` in crates/buckfleet), and the stored texts if these are there;
 - a journal's page and its tables are those of the program, if it is built; and the journal and the report of a
   morning's three files in turn, by each rule;
 - a morning's first stem file is cut stem by stem into a book, in C and in Python, by each rule: they print what a fleet
   of one harvester prints, with the same journal, which the program finds lawful and by the rule;
 - a stem is looked at first, in C: it is cut as its preview showed, and two own cuttings are priced;
 - a journal is held against stem files and a rule, journals are appraised and compared, and harvests are swept, wished
   and tuned, in C and in Python: the text and the status are the program's;
 - the shared library shows the calls of the header alone, and its name has their version; names that aren't UTF-8 go
   through;
 - checks/package.py holds: the Python package's own tests, its installation, and two programs of examples/python; so
   do checks/books.py and checks/several.py, if the program is built;
 - each worked case of crates/run_cases that an instruction file and a stem file or a journal make up is asked of the
   library too, by Python;
 - if a folder of more cases is named, each case of its own folder there, whose file `args` has the words of the
   program, with its files there or in `files`, is asked of both the program and the library, if the library has such a
   call; of a fleet, both are asked for the same harvesters in turn.

The last line is 'N passed, M failed', and the status is 0 if none failed. If there is no C compiler it says so, and
ends with status 2.
"""
import argparse
import os
import shutil
import subprocess
import sys
import tempfile

TOP = os.path.dirname(os.path.dirname(os.path.abspath(__file__)))
FOLDER = os.path.join(TOP, "out", "c")
PACKAGE = os.path.join(TOP, "python", "src")
STRICT = ("-std=c99", "-Wall", "-Wextra", "-Wconversion", "-Werror")
PASSED = []
FAILED = []


def tell(name, is_right, more=""):
    (PASSED if is_right else FAILED).append(name)
    if not is_right:
        print(f"failed: {name} {more}".rstrip())


def run(words, **more):
    return subprocess.run(words, capture_output=True, **more)


def python(*words):
    """The words that run a Python program over the package and the library."""
    shared = os.path.join(FOLDER, "libbuckfleet.so")
    return ["env", f"PYTHONPATH={PACKAGE}", f"BUCKFLEET_LIBRARY={shared}", sys.executable, os.path.join(TOP, *words)]


def read(*words):
    with open(os.path.join(*words), "rb") as file:
        return file.read()


def compiled(compiler, scratch, name, source, *flags):
    """A program over the static library, or None if the compiler doesn't know the flags."""
    program = os.path.join(scratch, name)
    words = [compiler, *flags, "-I", FOLDER, os.path.join(TOP, source), os.path.join(FOLDER, "libbuckfleet.a")]
    done = run([*words, "-lpthread", "-o", program])
    return program if done.returncode == 0 else None


def example(name):
    return os.path.join(TOP, "examples", name)


def at_the_edges(compiler, scratch):
    wraps = ["-Wl,--wrap=malloc", "-Wl,--wrap=realloc", "-Wl,--wrap=free", "-std=gnu11", "-O1", "-g"]
    plain = compiled(compiler, scratch, "plain", "checks/c_library.c", *wraps)
    checked = compiled(
        compiler, scratch, "checked", "checks/c_library.c", *wraps, "-fsanitize=address,undefined", "-fno-sanitize-recover"
    )
    tell("checks/c_library.c is compiled", plain is not None)
    if checked is None:
        print("the compiler has no checks of addresses: left out")
    files = [example(name) for name in ("morning.apt", "morning_1.stm", "morning.jrn")]
    few = [example(name) for name in ("two_stems.apt", "pine.stm", "two_stems.jrn")]
    for what in ("edges", "memory", "single", "threads", "books"):
        for name, program in (("plain", plain), ("checked", checked)):
            if program and (what, name) != ("single", "checked"):
                done = run([program, what, *(few if what == "memory" else files)])
                tell(f"{what}, {name}", done.returncode == 0, (done.stdout + done.stderr).decode(errors="replace"))
                if what in ("memory", "single", "books") and name == "plain":
                    sys.stdout.write(done.stdout.decode())
        if plain and shutil.which("valgrind") and what in ("edges", "memory"):
            words = ["valgrind", "-q", "--error-exitcode=9", "--leak-check=full", plain, what, *(few if what == "memory" else files)]
            done = run(words)
            tell(f"{what}, valgrind", done.returncode == 0, done.stderr.decode(errors="replace")[:500])
    if not shutil.which("valgrind"):
        print("there is no valgrind: left out")


def examples(compiler, scratch, program):
    in_c = compiled(compiler, scratch, "buck_files", "examples/c/buck_files.c", *STRICT)
    tell("examples/c is compiled", in_c is not None)
    in_python = python("examples", "python", "buck_files.py")
    if not program:
        print("there is no program to compare with: the examples are compared with stored texts and one another")
    for word, apt, other, stored in (
        ("buck", "pine.apt", "pine.stm", "pine.out"),
        ("check", "morning.apt", "morning.jrn", None),
        ("report", "morning.apt", "morning.jrn", "morning.out"),
        ("buck", "pine.stm", "pine.apt", None),
        ("check", "pine.apt", "morning.jrn", None),
    ):
        files = [example(apt), example(other)]
        wanted = None
        if program:
            done = run([program, word, *files])
            wanted = done.returncode, done.stdout, done.stderr
        elif stored:
            wanted = 0, read(example(stored)), b""
        for name, words in (("examples/c", [in_c]), ("examples/python", in_python)):
            if words[0]:
                done = run([*words, word, *files])
                found = done.returncode, done.stdout, done.stderr
                wanted = wanted or found
                tell(f"{name}: {word} {apt} {other}", found == wanted, f"{found} in the place of {wanted}")
    if program:
        shown(program)
        for rule in ("steady", "linear", "step", "root"):
            files = [example(name) for name in ("morning.apt", "morning_1.stm", "morning_2.stm", "morning_3.stm")]
            same_turns(f"in turn by {rule}", program, rule, files)
        several(compiler, scratch, program)
    book_examples(compiler, scratch, program)
    looks(compiler, scratch)
    header = run([compiler, "-x", "c++", "-fsyntax-only", "-Wall", "-Wextra", "-Werror", os.path.join(FOLDER, "buckfleet.h")])
    tell("the header is C++ too", header.returncode == 0)


def library():
    sys.path.insert(0, PACKAGE)
    os.environ["BUCKFLEET_LIBRARY"] = os.path.join(FOLDER, "libbuckfleet.so")
    import buckfleet

    return buckfleet


def answer(call, *given):
    """What a call of the module answers: what it prints, what it says, and its status."""
    try:
        found = call(*given)
        return getattr(found, "text", found), "", 0
    except library().Refused as refused:
        return b"", refused.line, refused.status


def same_as(name, done, found, is_page):
    """The program's answer is the library's; a page is put with status 4, too, and the line is left to the check."""
    wanted = done.stdout, done.stderr.decode(errors="replace").rstrip("\n"), done.returncode
    if is_page and wanted[2] == 4:
        wanted = wanted[0], "", 0
    tell(name, found == wanted, f"{found} in the place of {wanted}"[:2000])


def same_turns(name, program, rule, files):
    """The program's journal and report of harvesters in turn are the library's."""
    with tempfile.TemporaryDirectory() as scratch:
        journal = os.path.join(scratch, "journal")
        done = run([program, "fleet", "--quiet", "--in-turn", "--rule", rule, "--journal", journal, *files])
        kept = read(journal) if os.path.exists(journal) else b""
    text, line, status = answer(library().in_turn, read(files[0]), [read(file) for file in files[1:]], rule)
    same_as(name, done, (text and text[1], line, status), False)
    tell(f"{name}, its journal", kept == (text and text[0]))


def shown(program):
    """A journal's page and its tables, by the library and by the program."""
    buckfleet = library()
    for apt, journal in (("morning.apt", "morning.jrn"), ("pine.apt", "morning.jrn"), ("morning.jrn", "morning.apt")):
        files = [read(example(name)) for name in (apt, journal)]
        done = run([program, "view", apt, journal], cwd=os.path.join(TOP, "examples"))
        same_as(f"view {apt} {journal}", done, answer(buckfleet.view, *files, (apt, journal)), True)
        for what in buckfleet.TABLES:
            done = run([program, "table", apt, journal, what], cwd=os.path.join(TOP, "examples"))
            same_as(f"table {apt} {journal} {what}", done, answer(buckfleet.table_text, *files, what), False)


def several(compiler, scratch, program):
    """Calls over several files, by the program, by the library in Python, and, with a rule alone, in C."""
    buckfleet = library()
    in_c = compiled(compiler, scratch, "several_files", "examples/c/several_files.c", *STRICT)
    tell("examples/c/several_files.c is compiled", in_c is not None)
    apt, journal, mill, bank = map(example, ("morning.apt", "morning.jrn", "mill.apt", "bank.stm"))
    stms = [example(f"morning_{number}.stm") for number in (1, 2, 3)]
    turn = os.path.join(scratch, "turn.jrn")
    run([program, "fleet", "--quiet", "--in-turn", "--rule", "linear", "--journal", turn, apt, *stms])

    def same(words, call, *given, c=None):
        done = run([program, *words])
        name = f"{words[0]} {' '.join(map(os.path.basename, words[1:]))}"
        same_as(name, done, answer(call, *given), False)
        if c and in_c:
            found = run([in_c, *c])
            tell(f"{name}, in C", (found.returncode, found.stdout, found.stderr) == (done.returncode, done.stdout, done.stderr),
                 str(found)[:2000])

    for rule in buckfleet.RULES:
        named = ["--rule", rule]
        for kept in (turn, journal):
            files = [apt, kept, *stms]
            same(["check", *named, *files], buckfleet.check_with, apt, kept, stms, rule, c=["check", rule, *files])
            same(["check", *named, apt, kept], buckfleet.check_with, apt, kept, [], rule, c=["check", rule, apt, kept])
        for word, call in (("sweep", buckfleet.sweep), ("wishes", buckfleet.wishes), ("tune", buckfleet.tune)):
            given = [rule] if word == "sweep" else rule
            same([word, *named, apt, *stms], call, apt, stms, given, c=[word, rule, apt, *stms])
            same([word, *named, apt, journal], call, apt, [journal], given, c=[word, rule, apt, journal])
        same(["tune", *named, "--period", "1", "--limit", "80", mill, bank], buckfleet.tune, mill, [bank], rule, 1, 80)
        same(["wishes", *named, "--draws", "3", "--seed", "9", "--period", "5", "--targets", apt, apt, *stms],
             buckfleet.wishes, apt, stms, rule, 5, None, apt, 3, 9)
    same(["sweep", "--rule", "step", "--rule", "root", "--period", "1,5", "--limit", "0,300", "--draws", "4", apt, *stms],
         buckfleet.sweep, apt, stms, ["step", "root"], [1, 5], [0, 300], None, 4)
    same(["sweep", "--targets", journal, apt, *stms], buckfleet.sweep, apt, stms, ["steady"], [None], [None], journal)
    same(["check", "--period", "7", apt, turn, *reversed(stms)], buckfleet.check_with, apt, turn, stms[::-1], None, 7)
    for own in (apt, mill, journal):
        same(["appraise", apt, journal, own], buckfleet.appraise, apt, [journal], own, c=["appraise", apt, own, journal])
    same(["appraise", "--limit", "10", apt, journal, turn, apt], buckfleet.appraise, apt, [journal, turn], apt, None, 10)
    for first, second in ((journal, turn), (turn, apt), (journal, os.path.join(TOP, "examples", "two_stems.jrn"))):
        same(["compare", apt, first, second], buckfleet.compare, apt, first, second, c=["compare", apt, first, second])
    same(["compare", "--period", "1,7", apt, journal, turn], buckfleet.compare, apt, journal, turn, (1, 7))


def book_examples(compiler, scratch, program):
    """A morning's first file, cut stem by stem: what a fleet of one harvester prints, with a lawful journal."""
    in_c = compiled(compiler, scratch, "cut_stems", "examples/c/cut_stems.c", *STRICT)
    tell("examples/c/cut_stems.c is compiled", in_c is not None)
    in_python = python("examples", "python", "cut_stems.py")
    spoilt = os.path.join(scratch, "spoilt.stm")
    with open(spoilt, "w") as file:
        file.write("1 2 STM~951 1 1~952 1 257~953 1 250 250~")
    for name, words in (("c", [in_c]), ("python", in_python)):
        if words[0]:
            done = run([*words, "steady", example("morning.apt"), spoilt])
            tell(f"{name}: a species of 257", done.returncode == 1 and b"ENTRY" not in done.stdout, str(done))
    files = [example("morning.apt"), example("morning_1.stm")]
    for rule in ("steady", "linear", "step", "root"):
        wanted = None
        for name, words in (("program", [program]), ("c", [in_c]), ("python", in_python)):
            if not words[0]:
                continue
            journal = os.path.join(scratch, f"{name}_{rule}.jrn")
            if name == "program":
                done = run([program, "fleet", "--quiet", "--rule", rule, "--journal", journal, *files])
            else:
                done = run([*words, rule, *files, journal])
            found = done.returncode, done.stdout, done.stderr, os.path.exists(journal) and read(journal)
            wanted = wanted or found
            tell(f"{name}: cut_stems {rule}", found == wanted and found[0] == 0, f"{found} in the place of {wanted}"[:2000])
            if program and found[3]:
                done = run([program, "check", "--rule", rule, files[0], journal, files[1]])
                tell(f"{name}: its journal by {rule}", done.returncode == 0, done.stderr.decode(errors="replace"))


def looks(compiler, scratch):
    """A stem that is looked at first: it is cut as its preview said, and own cuttings are priced."""
    in_c = compiled(compiler, scratch, "look_first", "examples/c/look_first.c", *STRICT)
    tell("examples/c/look_first.c is compiled", in_c is not None)
    if in_c:
        done = run([in_c, example("morning.apt")], text=True)
        lines = [line.split() for line in done.stdout.splitlines()]
        told = {words[0]: words[1:] for words in lines}
        tell("look_first: it is cut as it was shown", done.returncode == 0 and told.get("CUT") == told.get("PREVIEW"), str(done))
        own = [words[1:] for words in lines if words[0] == "OWN"]
        first = next((words for words in lines if words[0] == "LOG"), None)
        worth, best = (int(first[4]), int(told["PREVIEW"][3])) if first else (0, 0)
        wanted = [["1", str(worth), "loses", str(best - worth)], ["not", "2", "order"]]
        tell("look_first: own cuttings are priced", own == wanted, f"{own} in the place of {wanted}")


def shared_names():
    """The shared library shows its calls alone, under a name with their version."""
    buckfleet = library()
    shared = os.path.join(FOLDER, "libbuckfleet.so")
    if shutil.which("nm"):
        names = [line.split()[-1] for line in run(["nm", "-D", "--defined-only", shared], text=True).stdout.splitlines()]
        other = [name for name in names if not name.startswith("buckfleet_")]
        tell("the shared library shows its calls alone", names and not other, str(other[:5]))
    tell("the shared library has a version", os.path.basename(os.path.realpath(shared)) == f"libbuckfleet.so.{buckfleet.VERSION}")


def package(program):
    """The tests of the Python package hold."""
    over = ("books.py", "several.py") if program else ()
    for name, words in (("package.py", []), *((name, ["--bin", program]) for name in over)):
        done = run([*python("checks", name), *words])
        tell(f"checks/{name}", done.returncode == 0, (done.stdout + done.stderr).decode(errors="replace"))


def names_in_any_bytes(scratch):
    """Names that aren't UTF-8: of an assortment in cut_stems.py, and of a file on a page."""
    apt = read(example("pine.apt")).replace(b"pine saw log", b"pine \xe5\xff log")
    stm, journal = read(example("pine.stm")), os.path.join(scratch, "any.jrn")
    with open(os.path.join(scratch, "any.apt"), "wb") as file:
        file.write(apt)
    words = [*python("examples", "python", "cut_stems.py"), "steady"]
    done = run([*words, os.path.join(scratch, "any.apt"), example("pine.stm"), journal])
    tell("python: a name that isn't UTF-8", done.returncode == 0 and b"pine \xe5\xff log" in done.stdout, done.stderr.decode()[-500:])
    text = library().in_turn(apt, [stm], "steady")[0]
    page = library().view(apt, text, ("\udcff.apt", b"\xff.jrn"))
    tell("python: a page of files whose names aren't UTF-8", page.startswith(b"<!DOCTYPE html>"))


def bytes_of(lines):
    """The bytes that some lines of a case stand for."""
    out = bytearray()
    for line in lines:
        k = 0
        while k < len(line):
            if line[k] != "\\":
                out += line[k].encode("latin-1")
                k += 1
            elif k + 1 == len(line):
                break
            elif line[k + 1] == "\\":
                out += b"\\"
                k += 2
            else:
                out.append(int(line[k + 2 : k + 4], 16))
                k += 4
        if not (len(line) and line.endswith("\\") and not line.endswith("\\\\")):
            out += b"\n"
    return bytes(out)


def cases_of(name):
    """The cases of a file: title, what runs it, its files, and what is wanted."""
    files, words = {}, ""
    title, wanted, lines, into = None, {}, [], None

    def ended():
        if into:
            (files if into in ("input", "apt", "stm", "jrn") else wanted)[into] = bytes_of(lines)

    for line in read(name).decode("latin-1").split("\n"):
        if line.startswith("|"):
            lines.append(line[1:])
            continue
        ended()
        lines, into = [], None
        word, _, rest = line.partition(" ")
        if word == "==":
            if title is not None:
                yield title, words, dict(files), wanted
            title, wanted = rest, {}
        elif word == "run":
            words = rest
        elif word in ("input", "apt", "stm", "jrn", "prints", "keeps"):
            into = word
        elif word == "says":
            wanted["says"] = rest
        elif word == "ends":
            wanted["ends"] = int(rest)
    ended()
    if title is not None:
        yield title, words, dict(files), wanted


def asked(buckfleet, words, files):
    """What the library answers to a case: what it prints, what it says, and its status; None if it isn't asked."""
    other = {"buck": "stm", "check": "jrn", "report": "jrn"}.get(words)
    if other is None:
        return None
    try:
        return getattr(buckfleet, words)(files.get("apt", b""), files.get(other, b"")), "", 0
    except buckfleet.Refused as refused:
        return b"", refused.line, refused.status


def cases():
    buckfleet = library()
    number = 0
    folder = os.path.join(TOP, "crates", "run_cases", "data")
    for name in sorted(os.listdir(folder)):
        for title, words, files, wanted in cases_of(os.path.join(folder, name)):
            found = asked(buckfleet, words, files)
            if found is None:
                continue
            number += 1
            right = wanted.get("prints", b""), wanted.get("says", ""), wanted.get("ends", 0)
            tell(f"{name}: {title}", found == right, f"{found} in the place of {right}")
    print(f"{number} worked cases were asked of the library")


def fleet_case(name, program, at, words):
    """Whether the harvesters of a case's fleet were asked in turn, of both."""
    given = argparse.ArgumentParser(add_help=False, exit_on_error=False)
    given.add_argument("--journal")
    given.add_argument("--rule", default="linear", choices=("steady", "linear", "step", "root"))
    given.add_argument("files", nargs="*")
    try:
        given = given.parse_args(words)
    except argparse.ArgumentError:
        return 0
    files = [os.path.join(at, file) for file in given.files]
    # With no stem file the program says how it is used, and not that there are no seats.
    if len(files) < 2 or not all(os.path.isfile(file) for file in files):
        return 0
    same_turns(f"case {name}, in turn", program, given.rule, files)
    return 1


def more_cases(folder, program):
    """Cases of a folder: each is a folder of its own, with files and the words of the program, in `args`."""
    buckfleet = library()
    number = 0
    for name in sorted(os.listdir(folder)):
        words = os.path.join(folder, name, "args")
        if not os.path.exists(words):
            continue
        words = read(words).decode().split("\n")
        words = [word for word in words if word]
        at = os.path.join(folder, name, "files")
        at = at if os.path.isdir(at) else os.path.join(folder, name)
        if words and words[0] == "fleet":
            number += fleet_case(name, program, at, words[1:])
            continue
        more = {"buck": 0, "check": 0, "report": 0, "view": 0, "table": 1}.get(words[0]) if words else None
        if more is None or len(words) != 3 + more:
            continue
        try:
            files = [read(at, word) for word in words[1:3]]
        except OSError:
            continue
        number += 1
        done = run([program, *words], cwd=at)
        given = [tuple(words[1:3])] if words[0] == "view" else words[3:]
        call = buckfleet.table_text if words[0] == "table" else getattr(buckfleet, words[0])
        same_as(f"case {name}", done, answer(call, *files, *given), words[0] == "view")
    print(f"{number} more cases were asked of the library and of the program")


def main():
    words = argparse.ArgumentParser()
    words.add_argument("--cases")
    words.add_argument("--bin", default=os.path.join(TOP, "crates", "buckfleet", "out", "buckfleet"))
    asked_for = words.parse_args()
    program = asked_for.bin
    compiler = os.environ.get("CC") or shutil.which("cc") or ""
    if not shutil.which(compiler):
        print("there is no C compiler")
        return 2
    done = run([os.path.join(TOP, "scripts", "c_library"), FOLDER])
    if done.returncode != 0:
        sys.stdout.write((done.stdout + done.stderr).decode(errors="replace"))
        return 1
    with tempfile.TemporaryDirectory() as scratch:
        at_the_edges(compiler, scratch)
        examples(compiler, scratch, program if os.path.exists(program) else None)
        names_in_any_bytes(scratch)
    shared_names()
    package(program if os.path.exists(program) else None)
    cases()
    if asked_for.cases and os.path.exists(program):
        more_cases(asked_for.cases, program)
    print(f"{len(PASSED)} passed, {len(FAILED)} failed")
    return 1 if FAILED else 0


if __name__ == "__main__":
    sys.exit(main())
