#!/usr/bin/env python3
"""Runs the program against real files, pipes and closed streams, as a careless user would.

    checks/edges.py PROGRAM [--row WORD]

Each row is a run in a folder of its own. OUT is the file of a standard stream, has an owner, a mode and other names, is a
FIFO, or is written by several runs at once; standard streams are closed or full; arguments are refused. Rows on owners
need the rights of root, and are left out otherwise. The last line is 'N rows, M differ', and the status is 0 if none does.
"""
import argparse
import os
import pathlib
import pty
import re
import shutil
import stat
import subprocess
import sys
import tempfile

EXAMPLES = pathlib.Path(__file__).resolve().parent.parent / "examples"
SECONDS = 20
ROWS = []
PROGRAM = ""
OLD = b"an old text\n" * 40
WORDS = "fleet --in-turn --quiet --journal"
FILES = "morning.apt morning_1.stm"


def row(test):
    ROWS.append(test)
    return test


def run(words, shell="", terminal=False, **more):
    """Status, output and errors of the program, by a shell, or at a terminal; a run that hangs has no status."""
    line = f'exec "{PROGRAM}" {words} {shell}'
    ends = {"stdout": subprocess.PIPE, "stderr": subprocess.PIPE, "stdin": subprocess.DEVNULL}
    keeper = None
    if terminal:
        keeper, ends["stderr"] = pty.openpty()
    done = subprocess.Popen(["sh", "-c", line], **{**ends, **more})
    if keeper is not None:
        os.close(ends["stderr"])
    try:
        output, errors = done.communicate(timeout=SECONDS)
        status = done.returncode
    except subprocess.TimeoutExpired:
        done.kill()
        output, errors = done.communicate()
        status = None
    if keeper is not None:
        errors = b""
        try:
            while part := os.read(keeper, 65536):
                errors += part
        except OSError:
            pass
        os.close(keeper)
    return status, output, errors


def wanted():
    """The journal and the report of the run that most rows make."""
    status, output, _ = run(f"{WORDS} - {FILES}")
    assert status == 0
    at = output.index(b"ENTRY ")
    return output[:at], output[at:]


def held(name):
    return pathlib.Path(name).read_bytes()


def put(name, text=OLD):
    pathlib.Path(name).write_bytes(text)


def left():
    """What stands in the folder beside the examples."""
    return sorted(set(os.listdir(".")) - {path.name for path in EXAMPLES.iterdir()})


def expect(is_right, what):
    if not is_right:
        raise AssertionError(what)


def refused(found, name, text):
    """A write fault with status 5, and the file as it was but for its line."""
    expect(found[0] == 5, f"status {found[0]}")
    expect(b"write fault\n" in found[2] + held(name), "no write fault")
    expect(held(name).replace(b"write fault\n", b"") == text, f"the file holds {held(name)[:200]}")


@row
def out_behind_the_output():
    for out, into in (("/dev/stdout", "> x"), ("x", "> x"), ("/proc/self/fd/1", "> x"), ("x", "2> x")):
        put("x")
        found = run(f"{WORDS} {out} {FILES} {into}")
        refused(found, "x", b"")


@row
def out_behind_an_output_that_goes_on():
    for into in (">> x", "2>> x"):
        put("x")
        refused(run(f"{WORDS} x {FILES} {into}"), "x", OLD)


@row
def out_of_requests_behind_the_output():
    refused(run("live --journal x morning.apt > x"), "x", b"")


@row
def out_behind_the_input():
    put("x", b"951 1 1~952 1 1~953 1 250~\n")
    refused(run("live --journal x morning.apt < x"), "x", b"951 1 1~952 1 1~953 1 250~\n")


@row
def out_behind_the_output_in_words():
    status, _, errors = run(f"fleet --explain --in-turn --journal x {FILES} > x")
    expect((status, errors) == (5, b"x: is the file of standard input, output or error\nwrite fault\n"), errors)


@row
def out_that_is_a_pipe_or_nothing():
    journal, report = wanted()
    expect(run(f"{WORDS} /dev/stdout {FILES} | cat")[1] == journal + report, "by a pipe")
    expect(run(f"{WORDS} /dev/null {FILES} > /dev/null")[0] == 0, "by /dev/null")
    expect(run(f"{WORDS} - {FILES} > x")[0] == 0 and held("x") == journal + report, "by -")


@row
def input_that_is_a_pipe_in_words():
    _, _, errors = run("buck --explain - /dev/fd/3", "3< morning.apt < morning.apt")
    expect(errors == b'/dev/fd/3, line 1: kind of file (1 2): "APT", expected STM\nstm 1 fault 2\n', errors)
    os.mkfifo("pipe")
    with subprocess.Popen(["cp", "morning.apt", "pipe"]):
        _, _, errors = run("buck --explain morning.apt pipe")
    os.remove("pipe")
    expect(errors == b'pipe, line 1: kind of file (1 2): "APT", expected STM\nstm 1 fault 2\n', errors)


@row
def input_that_is_a_folder_in_words():
    os.mkdir("folder")
    status, _, errors = run("buck --explain morning.apt folder")
    os.rmdir("folder")
    expect((status, errors) == (5, b"folder: is a folder\nread fault 1\n"), errors)


@row
def input_of_the_name_of_a_part():
    journal, _ = wanted()
    put("o.jrn")
    shutil.copy("morning_1.stm", "o.jrn.part")
    status, _, errors = run(f"{WORDS} o.jrn morning.apt - < o.jrn.part")
    expect(status == 0 and held("o.jrn") == journal, errors)
    expect(held("o.jrn.part") == held("morning_1.stm"), "the input is gone")


@row
def files_that_others_made_stay():
    journal, _ = wanted()
    put("o.jrn")
    put("o.jrn.part")
    expect(run(f"{WORDS} o.jrn {FILES}")[0] == 0 and held("o.jrn") == journal, "it isn't written")
    expect(held("o.jrn.part") == OLD, "another's file is gone")
    expect(left() == ["o.jrn", "o.jrn.part"], left())


@row
def owner_and_group_of_out():
    if os.getuid() != 0:
        return "left out: not root"
    journal, _ = wanted()
    put("o.jrn")
    os.chown("o.jrn", 65534, 4)
    os.chmod("o.jrn", 0o640)
    expect(run(f"{WORDS} o.jrn {FILES}")[0] == 0 and held("o.jrn") == journal, "it isn't written")
    found = os.stat("o.jrn")
    expect((found.st_uid, found.st_gid, found.st_mode & 0o7777) == (65534, 4, 0o640), found)


@row
def owner_that_cannot_be_kept():
    if os.getuid() != 0:
        return "left out: not root"
    journal, _ = wanted()
    os.chmod(".", 0o777)
    put("o.jrn")
    os.chmod("o.jrn", 0o666)
    node = os.stat("o.jrn").st_ino
    status, _, errors = run(f"{WORDS} o.jrn {FILES}", user=65534, group=65534)
    expect(status == 0 and held("o.jrn") == journal, errors)
    found = os.stat("o.jrn")
    expect((found.st_uid, found.st_gid, found.st_ino) == (0, 0, node), found)
    expect(left() == ["o.jrn"], left())


@row
def folder_that_takes_no_file():
    if os.getuid() != 0:
        return "left out: not root"
    journal, _ = wanted()
    put("o.jrn")
    os.chmod("o.jrn", 0o666)
    status, _, errors = run(f"{WORDS} o.jrn {FILES}", user=65534, group=65534)
    expect(status == 0 and held("o.jrn") == journal and left() == ["o.jrn"], errors)
    status, _, errors = run(f"fleet --explain --in-turn --journal new.jrn {FILES}", user=65534, group=65534)
    expect((status, errors) == (5, b"new.jrn: permission denied\nwrite fault\n"), errors)
    status, _, errors = run(f"fleet --explain --in-turn --journal . {FILES}")
    expect((status, errors) == (5, b".: is a folder\nwrite fault\n"), errors)


@row
def mode_of_out():
    journal, _ = wanted()
    for mode, mask in ((0o640, 0o022), (0o666, 0o077), (0o4755, 0o022), (0o600, 0o000)):
        put("o.jrn")
        os.chmod("o.jrn", mode)
        before = os.umask(mask)
        try:
            expect(run(f"{WORDS} o.jrn {FILES}")[0] == 0 and held("o.jrn") == journal, "it isn't written")
        finally:
            os.umask(before)
        expect(stat.S_IMODE(os.stat("o.jrn").st_mode) == mode & 0o777, oct(os.stat("o.jrn").st_mode))


@row
def out_of_two_names():
    journal, _ = wanted()
    put("o.jrn")
    os.link("o.jrn", "other.jrn")
    expect(run(f"{WORDS} o.jrn {FILES}")[0] == 0, "status")
    expect(held("o.jrn") == journal and held("other.jrn") == journal, "the other name has another text")


@row
def link_to_out():
    journal, _ = wanted()
    put("o.jrn")
    os.symlink("o.jrn", "link")
    expect(run(f"{WORDS} link {FILES}")[0] == 0 and held("o.jrn") == journal, "it isn't written")
    expect(os.readlink("link") == "o.jrn" and left() == ["link", "o.jrn"], left())


def past_a_reader(words, **more):
    """A run whose OUT is a FIFO that a reader opens and closes again before the stems come."""
    os.mkfifo("fifo")
    reader = subprocess.Popen(["sh", "-c", ": < fifo"])
    stems = subprocess.Popen(["sh", "-c", "sleep 0.5; cat morning_1.stm"], stdout=subprocess.PIPE)
    found = run(f"fleet {words} --in-turn --journal fifo morning.apt -", stdin=stems.stdout, **more)
    stems.stdout.close()
    ends = stems.wait(), reader.wait()
    expect(found[0] is not None, "it hangs")
    expect(stat.S_ISFIFO(os.stat("fifo").st_mode), "the FIFO is gone")
    expect(found[0] == 5 and b"write fault" in found[2], (found, ends))


@row
def fifo_whose_reader_is_gone_in_words():
    past_a_reader("--explain")


@row
def fifo_whose_reader_is_gone_at_a_terminal():
    past_a_reader("", terminal=True)


@row
def out_that_is_told_of_is_not_made():
    """A full output is explained in words although OUT is gone again."""
    status, _, errors = run(f"fleet --explain --in-turn --journal gone/o.jrn {FILES}")
    expect((status, errors) == (5, b"gone/o.jrn: no such file\nwrite fault\n"), errors)
    for words in ("--explain", ""):
        os.mkfifo("late")
        stems = subprocess.Popen(["sh", "-c", "sleep 0.5; rm late; cat morning_1.stm"], stdout=subprocess.PIPE)
        reader = subprocess.Popen(["sh", "-c", ": < late"])
        line = f"fleet {words} --in-turn --journal late morning.apt -"
        status, _, errors = run(line, stdin=stems.stdout, terminal=not words)
        stems.stdout.close()
        ends = stems.wait(), reader.wait()
        expect(status == 5 and b"write fault" in errors and left() == [], (status, errors, left(), ends))


def many_stems(times):
    """A stem file of many stems."""
    put("many.stm", b"1 2 STM~" + held("morning_1.stm").replace(b"1 2 STM~", b"") * times)


@row
def several_runs_with_one_out():
    many_stems(100)
    line = f'exec "{PROGRAM}" {WORDS} o.jrn morning.apt many.stm'
    subprocess.run(["sh", "-c", line], stdout=subprocess.DEVNULL)
    journal = held("o.jrn")
    for _ in range(10):
        put("o.jrn")
        runs = [subprocess.Popen(["sh", "-c", line], stdout=subprocess.DEVNULL) for _ in range(8)]
        ends = [one.wait() for one in runs]
        expect(not any(ends) and held("o.jrn") == journal and left() == ["many.stm", "o.jrn"], (ends, left()))


@row
def parts_have_names_of_their_own():
    many_stems(400)
    line = f'exec "{PROGRAM}" {WORDS} o.jrn morning.apt many.stm'
    names = set()
    for _ in range(5):
        put("o.jrn")
        one = subprocess.Popen(["sh", "-c", line], stdout=subprocess.DEVNULL)
        while one.poll() is None:
            names |= {name for name in os.listdir(".") if name.startswith("o.jrn.")}
    expect(names and all(re.fullmatch(r"o\.jrn\.\d+\.\d+\.part", name) for name in names), names)


@row
def old_journal_without_requests():
    for ends in ("<&-", "<&- >&-", "<&- 2>&-", "< ."):
        put("o.jrn")
        status, output, errors = run("live --journal o.jrn morning.apt", ends)
        line = b"" if "2>" in ends else b"read fault 1\n"
        expect((status, output, errors) == (5, b"", line), (ends, status, output, errors))
        expect(held("o.jrn") == OLD, f"OUT has another text with {ends}")


@row
def closed_input():
    for words, line in (
        ("live morning.apt", b"read fault 1\n"),
        ("buck - morning_1.stm", b"read fault 0\n"),
        ("buck morning.apt -", b"read fault 1\n"),
        ("", b"read fault 0\n"),
    ):
        status, output, errors = run(words, "<&-")
        expect((status, output, errors) == (5, b"", line), (words, status, output[:100], errors))
    text = run("buck morning.apt morning_1.stm")
    expect(text[0] == 0 and run("buck morning.apt morning_1.stm", "<&-") == text, "it isn't read")


@row
def closed_output():
    journal, _ = wanted()
    for words in ("buck morning.apt morning_1.stm", "live morning.apt", f"{WORDS} - {FILES}", f"{WORDS} o.jrn {FILES}"):
        status, _, errors = run(words, ">&-")
        is_live = words.startswith("live")
        expect((status, errors) == ((0, b"") if is_live else (5, b"write fault\n")), (words, status, errors))
    expect(held("o.jrn") == journal, "the journal has more")


@row
def closed_errors():
    journal, _ = wanted()
    expect(run("buck morning.apt none.stm 2>&-")[0] == 5, "status")
    expect(run(f"{WORDS} o.jrn morning.apt none.stm 2>&-")[0] == 5 and not os.path.exists("o.jrn"), "OUT")
    put("o.jrn")
    expect(run(f"{WORDS} o.jrn morning.apt morning.jrn 2>&-")[0] == 1, "status of a refusal")
    expect(held("o.jrn") == OLD, "a line stands in OUT")
    status, output, _ = run(f"{WORDS} o.jrn {FILES} <&- 2>&-")
    expect(status == 0 and held("o.jrn") == journal and output, "it isn't written")
    expect(run(f"{WORDS} o.jrn {FILES} <&- >&- 2>&-")[0] == 5, "all closed")
    expect(held("o.jrn") == journal, "OUT of a run with all closed")


@row
def words_of_live():
    status, _, errors = run("live --journal a a")
    expect(status == 2 and b"Usage: buckfleet live [OPTIONS] <APT>\n" in errors, errors)
    status, _, errors = run("fleet --journal a a b")
    expect(status == 2 and b"Usage: buckfleet fleet [OPTIONS] <APT> <STM>...\n" in errors, errors)


@row
def signs_of_numbers():
    files = "morning.apt morning.jrn"
    for words in (
        f"buck --threads=+4 {FILES}",
        f"check --threads=+4 {files}",
        f"view --threads=+4 {files}",
        f"table --threads=+4 {files} logs",
        f"sweep --threads=+4 {FILES}",
        f"sweep --period=+5 {FILES}",
        f"fleet --period=+5 {FILES}",
    ):
        expect(run(words)[0] == 2, words)
    expect(run(f"buck --threads=04 {FILES}")[0] == 0, "leading zeros")


@row
def terminal_that_erases_nothing():
    """The stems come so late that a line is due, however fast the machine is."""
    many_stems(1500)
    seen = {}
    for name in ("xterm", "dumb", None):
        surroundings = {key: value for key, value in os.environ.items() if key != "TERM"}
        if name:
            surroundings["TERM"] = name
        stems = subprocess.Popen(["sh", "-c", "sleep 1.5; cat many.stm"], stdout=subprocess.PIPE)
        line = "fleet --rule step morning.apt -"
        status, _, errors = run(line, stdin=stems.stdout, terminal=True, env=surroundings)
        stems.stdout.close()
        expect((status, stems.wait()) == (0, 0), (status, errors))
        seen[name] = errors
    expect(b"\x1b[K" in seen["xterm"], "no line was drawn")
    expect(b"\x1b" not in seen["dumb"] and b"\x1b" not in seen[None], "it erases")
    expect(b"stems planned" in seen["dumb"], "no line was written")


@row
def postings_of_two_journals():
    """1,000,000 together are read, and then found unlawful; two more are too many."""
    for many, line in ((500_000, b"replay 1 fault 1 0\n"), (500_001, b"full\n")):
        put("many.jrn", b"1 2 JRN~" + b"982 1 1 1 0~982 2~" * many)
        for words in ("view morning.apt many.jrn many.jrn", "table morning.apt many.jrn many.jrn logs"):
            status, output, errors = run(words)
            expect((status, errors) == (3 if line == b"full\n" else 4, line), (many, words, status, errors))
            is_page = status == 4 and words.startswith("view")
            expect((output != b"") == is_page, f"{words} prints {output[:60]}")
    _, _, errors = run("view --explain morning.apt many.jrn many.jrn")
    expect(errors == b"more than 1000000 postings together\nfull\n", errors)


@row
def journal_that_is_named_twice():
    note = b"note: morning.jrn: named twice, so it counts twice\r\n"
    for words in ("view morning.apt morning.jrn morning.jrn", "table morning.apt morning.jrn morning.jrn classes"):
        expect(run(words, terminal=True)[::2] == (0, note), words)
        expect(run(words.replace(" ", " --quiet ", 1), terminal=True)[::2] == (0, b""), f"{words}, quietly")
        expect(run(words)[::2] == (0, b""), f"{words}, without a terminal")
    expect(run("view morning.apt morning.jrn", terminal=True)[::2] == (0, b""), "one journal")


@row
def full_disks():
    for words, shell, line in (
        (f"fleet --explain --in-turn --journal /dev/full {FILES}", "", b"/dev/full: no space left\nwrite fault\n"),
        (f"buck --explain {FILES}", "> /dev/full", b"standard output: no space left\nwrite fault\n"),
        (f"fleet --explain --journal - {FILES}", "> /dev/full", b"standard output: no space left\nwrite fault\n"),
    ):
        status, _, errors = run(words, shell)
        expect((status, errors) == (5, line), (words, errors))


def main():
    global PROGRAM
    parser = argparse.ArgumentParser()
    parser.add_argument("program")
    parser.add_argument("--row", default="")
    asked = parser.parse_args()
    PROGRAM = str(pathlib.Path(asked.program).resolve())
    names = [test for test in ROWS if asked.row in test.__name__]
    differ = 0
    for test in names:
        with tempfile.TemporaryDirectory() as folder:
            os.chmod(folder, 0o755)
            for path in EXAMPLES.iterdir():
                if path.is_file():
                    shutil.copy(path, folder)
            os.chdir(folder)
            try:
                note = test()
                if note:
                    print(f"{test.__name__}: {note}")
            except (AssertionError, OSError, ValueError) as error:
                differ += 1
                print(f"{test.__name__}: {str(error)[:300]}")
            os.chdir("/")
    print(f"{len(names)} rows, {differ} differ")
    sys.exit(1 if differ else 0)


if __name__ == "__main__":
    main()
