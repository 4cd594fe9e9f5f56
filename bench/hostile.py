#!/usr/bin/env python3
"""Feeds files of the greatest length that the program reads, each made to be hard to read, to the program.

    python3 bench/hostile.py --bin PATH/buckfleet FOLDER

Makes the files in FOLDER, one after the other, and runs the program in its bare form with each on standard input:
once as the instruction, and once as the stems behind an instruction that is right. Then it runs the commands over the
longest files that are accepted: instructions of the most classes, the most stems, the longest stems, stems of the most
zones, which take minutes of a processor, and journals of the most postings, sheets and bytes, one of them written by a
fleet; and over an instruction file of blanks, one of a byte too many, and both once more, each read giving one byte,
which takes some minutes. A line for each run says how long it took, the most memory that it held, also in lengths of
what it read, its exit status and the first line that it wrote. It ends in status 1 if a run took longer than
--seconds (forty times as long for stems of the most zones, and if each read gives one byte), held more than --times
the length of what it read, with 16 MiB and 2 MiB for each stem file after the first beside that, was ended by a signal,
or wrote another first line than the one that is known for it.

--only WORD runs those whose name has the word, --size makes files of another length, --keep leaves them, and the same
--seed makes the same files.
"""
import argparse
import multiprocessing
import os
import random
import subprocess
import sys
import time

LIMIT = 64 * 1024 * 1024

INSTRUCTION = (
    b"1 2 APT~901 1 100~902 1 1~903 1 0~910 1 1~"
    b"911 1 saw~912 1 1~913 1 1~914 1 1~915 1 100 200~915 2 400~"
    b"916 1 3000 4000~917 1 400 500 600 800~918 1 1 1 1 1~"
)
WITHOUT_MODULE = INSTRUCTION.replace(b"901 1 100~", b"")
BEFORE_STEMS = INSTRUCTION + b"|1 2 STM~"


def again(block, size):
    """The block, as often as it fits in whole, and then blanks."""
    return (block * (size // len(block))).ljust(size)


def after(start, block, size):
    """The start, and then the block as often as it fits."""
    return start + again(block, size - len(start))


def before(block, end, size):
    """The block as often as it fits, and then the end."""
    return again(block, size - len(end)) + end


def stem(samples):
    """A stem with this many samples, which fall from 600 mm."""
    return b"951 1 1~952 1 1~953 1 %s~954 1 0 1~\n" % b" ".join(b"%d" % max(600 - 2 * i, 100) for i in range(samples))


def mapped(source, size, letters):
    """Random bytes, all of them of the letters."""
    return source.randbytes(size).translate(bytes(letters[i % len(letters)] for i in range(256)))


def random_words(source, size):
    """Numbers of one to twelve digits."""
    words = b"".join(b"%d " % source.randrange(10 ** source.randrange(1, 13)) for _ in range(100000))
    return again(words, size)


# Each file: its name, what makes it of a seed and a size, and the first lines that are known of it, as the instruction
# and as the stems.
NO_ITEMS = ("apt fault 2", "TOTAL 0 0 0")
NO_HEAD = ("apt fault 1 1", "stm 1 fault 1 2")
SECOND_KIND = "stm 1 fault 4 1 2"
LAST_ITEM = (
    f"apt fault 1 {(LIMIT - 1) // 4 + 1}",
    f"stm 1 fault 1 {(LIMIT - len(BEFORE_STEMS) - 1) // 4 + 2}",
)
UNKNOWN = (None, None)
FILES = [
    ("tildes", lambda r, n: b"~" * n, NO_ITEMS),
    ("blanks", lambda r, n: b" " * n, NO_ITEMS),
    ("line_ends", lambda r, n: again(b"\r\n", n), NO_ITEMS),
    ("blanks_and_tildes", lambda r, n: again(b" ~", n), NO_ITEMS),
    ("zeros", lambda r, n: b"0" * n, NO_HEAD),
    ("nines", lambda r, n: b"9" * n, NO_HEAD),
    ("high_bytes", lambda r, n: b"\xff" * n, NO_HEAD),
    ("zero_bytes", lambda r, n: b"\x00" * n, NO_HEAD),
    ("shortest_items", lambda r, n: again(b"1 2~", n), ("apt fault 2", SECOND_KIND)),
    ("items_of_no_table", lambda r, n: again(b"0 0~", n), NO_ITEMS),
    ("items_without_head", lambda r, n: again(b"x~", n), NO_HEAD),
    ("last_item_without_head", lambda r, n: before(b"0 0~", b"x", n), LAST_ITEM),
    ("long_heads", lambda r, n: again(b"0" * 1000 + b" " + b"0" * 1000 + b"~", n), NO_ITEMS),
    ("long_rest", lambda r, n: b"0 0 ".ljust(n, b"x"), NO_ITEMS),
    ("long_number", lambda r, n: b"951 1 ".ljust(n - 1, b"0") + b"1", ("apt fault 2", "stm 1 fault 3 952 1")),
    ("random_words", random_words, UNKNOWN),
    ("random_digits_and_blanks", lambda r, n: mapped(r, n, b"0123456789 \t"), UNKNOWN),
    ("random_bytes", lambda r, n: r.randbytes(n), UNKNOWN),
    ("random_bytes_of_files", lambda r, n: mapped(r, n, b"0123456789 ~\t\r\n 12 951 952 953 954~APTSM\x0b\x0c\xff"), UNKNOWN),
    ("an_instruction_again", lambda r, n: again(INSTRUCTION, n), ("apt fault 4 1 2", SECOND_KIND)),
    ("modules_without_end", lambda r, n: after(WITHOUT_MODULE + b"901 1 ", b"10 ", n), ("apt fault 8 901 1", SECOND_KIND)),
    ("targets_without_end", lambda r, n: after(INSTRUCTION[:-1] + b" ", b"1 ", n), ("apt fault 8 918 1", SECOND_KIND)),
    ("assortments_without_end", lambda r, n: after(INSTRUCTION, b"911 1 saw~", n), ("apt fault 3 912 1", SECOND_KIND)),
    ("prices_again_and_again", lambda r, n: after(INSTRUCTION, b"917 1 1~", n), ("apt fault 4 917 1", SECOND_KIND)),
    ("stems_of_30_samples", lambda r, n: again(stem(30), n), ("apt fault 2", None)),
    ("stems_of_401_samples", lambda r, n: again(stem(401), n), ("apt fault 2", None)),
    ("stems_of_one_sample", lambda r, n: again(stem(1), n), ("apt fault 2", None)),
    ("stems_without_parts", lambda r, n: again(b"951 1 1~", n), ("apt fault 2", "stm 1 fault 3 952 1")),
    ("samples_without_end", lambda r, n: after(b"951 1 1~952 1 1~953 1 ", b"9 ", n), ("apt fault 2", "stm 1 fault 8 953 1")),
    ("zones_without_end", lambda r, n: after(stem(2)[:-2] + b" ", b"1 1 ", n), ("apt fault 2", "stm 1 fault 7 954 1")),
    ("a_bar_at_the_end", lambda r, n: before(b"0 0~", b"|", n), ("apt fault 2", LAST_ITEM[1])),
]


def filled(text, size):
    """A text with blanks after it."""
    return text.ljust(size)


def longer(numbers, size):
    """A list of numbers, with zeros before each, so that it has about so many bytes and no more."""
    width = size // max(len(numbers), 1) - 1
    return b" ".join(b"%d" % n if width < 10 else b"%0*d" % (width, n) for n in numbers)


def assortments(size):
    """16 assortments of 1,024 classes, with the greatest prices and targets, of about so many bytes."""
    room = size // 32
    rows = b" ".join(b"%d" % (10 * k) for k in range(32))
    columns = b" ".join(b"%d" % (1000 + 100 * k) for k in range(32))
    prices = longer([10000000] * 1024, room - 1000)
    targets = longer([1000000] * 1000 + [0] * 24, room - 1000)
    one = b"911 1 %s~912 1 255~913 1 1 2 3 4 5 6 7 8~914 1 1~" % (b"x" * 32)
    one += b"915 1 %s~915 2 2000~916 1 %s~917 1 %s~918 1 %s~919 1 200~" % (rows, columns, prices, targets)
    return b"1 2 APT~901 1 100~902 1 1000~903 1 1000~910 1 16~" + one * 16


def most_classes(_source, size):
    """An instruction of the most classes, whose numbers fill the file."""
    return filled(assortments(size), size)


def most_items(_source, size):
    """An instruction of the most classes, and then items of no table."""
    return after(assortments(0), b"0 0~", size)


SHORTEST_STEM = b"951 1 1~952 1 1~953 1 9~"
ZONES = b" ".join(b"%d %d" % (400 * k, k % 8 + 1) for k in range(100))
LONGEST_STEM = b"951 1 4294967295~952 1 255~953 1 %s~954 1 %s~" % (b" ".join([b"1500"] * 401), ZONES)


def most_stems(_source, size):
    """The most stems that a file may have, of one sample each: 2,796,202."""
    return after(b"1 2 STM~", SHORTEST_STEM, size)


def longest_stems(_source, size):
    """Stems of the most samples and zones."""
    return after(b"1 2 STM~", LONGEST_STEM, size)


def most_zones(_source, size):
    """Stems of 40 m with the most zones, of eight grades in turn, that fall from 350 to 80 mm, or from up to 63 mm more."""
    each = (b" ".join(b"%d" % (350 + more - 270 * k // 400) for k in range(401)) for more in range(64))
    stems = (b"951 1 %d~952 1 1~953 1 %s~954 1 %s~" % (k, samples, ZONES) for k, samples in enumerate(each, 1))
    return after(b"1 2 STM~", b"".join(stems), size)


def many_rows():
    """16 assortments of 32 lengths and 32 rows at limits of their own, each of which takes all grades but one."""
    columns = b" ".join(b"%d" % (500 + 110 * k) for k in range(32))
    prices = b" ".join(b"%d" % (400 + row + k) for row in range(32) for k in range(32))
    targets = b" ".join([b"1"] * 1024)
    all_of_them = b""
    for place in range(16):
        grades = b" ".join(b"%d" % g for g in range(1, 9) if g != place % 8 + 1)
        limits = b" ".join(b"%d" % (32 * row + 2 * place) for row in range(32))
        all_of_them += b"911 1 no%d~912 1 1~913 1 %s~914 1 1~915 1 %s~915 2 2000~" % (place, grades, limits)
        all_of_them += b"916 1 %s~917 1 %s~918 1 %s~" % (columns, prices, targets)
    return b"1 2 APT~901 1 10~902 1 1~903 1 0~910 1 16~" + all_of_them


def stems_through_all_rows(_source, _size):
    """100 stems of 40 m with the most zones that fall through some 500 limits, from 1,050 to 50 mm, or from up to 99 mm more."""
    each = (b" ".join(b"%d" % (1050 + more - 1000 * k // 400) for k in range(401)) for more in range(100))
    stems = (b"951 1 %d~952 1 1~953 1 %s~954 1 %s~" % (k, samples, ZONES) for k, samples in enumerate(each, 1))
    return b"1 2 STM~" + b"".join(stems)


def one_stem(_source, size):
    """One stem, whose samples fill the file."""
    samples = longer([1500] * 401, size - 100)
    return filled(b"1 2 STM~951 1 1~952 1 1~953 1 %s~" % samples, size)


# The instruction of the journals: a new sheet after every thousandth cut, or after a demand, and prices that never move.
JUDGE = INSTRUCTION.replace(b"902 1 1~", b"902 1 1000~")
SHEET = b"971 1 400 500 600 800~\n"
MOST_POSTINGS = 1000000
CUT = b"981 1 %d %d %d~\n981 2 1 1~\n981 3" + b" 250" * 41 + b"~\n981 4~\n981 5 0 4000 0~\n981 6 157080000~\n"
SHORT_CUT = b"981 1 1 %d %d~981 2 1 1~981 3 9~981 4~981 5~981 6 0~"
DEMAND = b"982 1 1 %d %d~982 2 1 1 1 1~"


def journal(sheets, postings):
    return b"1 2 JRN~\n" + SHEET * sheets + b"".join(postings)


def cuts(number):
    """A journal of so many cuts of a stem of 4,000 mm, by 64 harvesters in turn."""
    postings = (CUT % (k % 64 + 1, k // 64 + 1, k // 1000) for k in range(number))
    return journal(number // 1000 + 1, postings)


LONGEST_JOURNAL = 279000


def cuts_that_fill(_source, size):
    return filled(cuts(LONGEST_JOURNAL), size)


def just_postings(_source, _size):
    """A journal of the most postings, each a cut of a stem of one sample."""
    postings = [SHORT_CUT % (k + 1, k // 1000) for k in range(MOST_POSTINGS)]
    return journal(MOST_POSTINGS // 1000 + 1, postings)


def one_more(source, size):
    """The same with a posting more."""
    return just_postings(source, size) + SHORT_CUT % (1, 1000)


def demands(_source, size):
    """A journal of the most postings, each a demand, and so of the most sheets that belong to one."""
    postings = [DEMAND % (k + 1, k) for k in range(MOST_POSTINGS)]
    return filled(journal(MOST_POSTINGS + 1, postings).replace(b"\n", b""), size)


def longest_sheets(_source, size):
    """A journal of sheets of the most prices, and no posting."""
    return after(b"1 2 JRN~", b"971 1" + b" 0" * 16384 + b"~", size)


def shortest_sheets(_source, size):
    """A journal of sheets of one price, and no posting, up to the last byte."""
    start = b"1 2 JRN~"
    return start + b"971 1 0~" * ((size - len(start)) // 8)


def last_sheet_without_number(source, size):
    """The same with a word in the last sheet that is no number, so that its items are listed before it is refused."""
    return shortest_sheets(source, size)[:-2] + b"x~"


def pickers():
    """Eight assortments of 32 lengths in periods of one stem, each of which takes all grades but one."""
    columns = b" ".join(b"%d" % (500 + 110 * k) for k in range(32))
    some = b" ".join([b"%d"] * 7)
    one = b"911 1 no%d~912 1 1~913 1 " + some + b"~914 1 1~915 1 0~915 2 2000~916 1 " + columns + b"~917 1 "
    each = b" ".join(b"%d" % (400 + k) for k in range(32)) + b"~918 1 " + b" ".join([b"1"] * 32) + b"~"
    all_of_them = b"".join(one % (k, *[g for g in range(1, 9) if g != k]) + each for k in range(1, 9))
    return b"1 2 APT~901 1 10~902 1 1~903 1 0~910 1 8~" + all_of_them


def wood(mask, size):
    """A stem with the grades of a mask, of one of 16 diameters."""
    grades = [g for g in range(1, 9) if mask >> (g - 1) & 1]
    zones = b" ".join(b"%d %d" % (k, g) for k, g in enumerate(grades))
    samples = b" ".join([b"%d" % (100 + 80 * size)] * 41)
    return b"951 1 %d~952 1 1~953 1 %s~954 1 %s~" % (mask, samples, zones)


def kinds_of_wood(_source, _size):
    """A stem for each set of grades and each of 16 diameters."""
    return b"1 2 STM~" + b"".join(wood(mask, size) for mask in range(1, 256) for size in range(16))


def one_of_each_kind(_source, _size):
    """A stem for each set of grades; they take turns at 16 diameters."""
    return b"1 2 STM~" + b"".join(wood(mask, mask % 16) for mask in range(1, 256))


def blanks(_source, size):
    return b" " * size


def just(text):
    return lambda source, size: text


# The runs by name: the words, what makes the files a and b, how many bytes more than the limit they are made to fill,
# and the first line.
BUCK, FLEET, CHECK = ["buck", "a", "b"], ["fleet", "a", "b"], ["check", "a", "b"]
SAW, JUDGED, NO_STEMS = just(INSTRUCTION), just(JUDGE), just(b"1 2 STM~")
POSTING_TOO_MANY = 1 + (MOST_POSTINGS // 1000 + 1) + 6 * MOST_POSTINGS + 1
COMMANDS = [
    ("an instruction of blanks", BUCK, blanks, NO_STEMS, 0, "apt fault 2"),
    ("an instruction of blanks, a byte too many", BUCK, blanks, NO_STEMS, 1, "read fault 0"),
    ("an instruction of most classes", BUCK, most_classes, NO_STEMS, 0, "TOTAL 0 0 0"),
    ("an instruction of most classes and items", BUCK, most_items, NO_STEMS, 0, "TOTAL 0 0 0"),
    ("most stems", BUCK, SAW, most_stems, 0, "STEM 1 0 0 0"),
    ("most stems by a fleet", FLEET, SAW, most_stems, 0, "full"),
    ("longest stems", BUCK, SAW, longest_stems, 0, "STEM 4294967295 40000 0 0"),
    ("stems of the most zones", BUCK, just(pickers()), most_zones, 0, "STEM 1 40000 63 651794108"),
    ("stems of many rows", BUCK, just(many_rows()), stems_through_all_rows, 0, "STEM 1 40000 80 5050667557"),
    ("one stem", BUCK, SAW, one_stem, 0, "STEM 1 40000 0 0"),
    ("a journal of cuts", CHECK, JUDGED, cuts_that_fill, 0, f"LAWFUL {LONGEST_JOURNAL}"),
    ("a journal of most postings", CHECK, JUDGED, just_postings, 0, f"LAWFUL {MOST_POSTINGS}"),
    ("a journal of a posting too many", CHECK, JUDGED, one_more, 0, f"journal fault 5 {POSTING_TOO_MANY}"),
    ("a journal of most demands", CHECK, JUDGED, demands, 0, f"LAWFUL {MOST_POSTINGS}"),
    ("a journal of longest sheets", CHECK, JUDGED, longest_sheets, 0, "replay fault 1 1"),
    ("a journal of shortest sheets", CHECK, JUDGED, shortest_sheets, 0, "replay fault 1 1"),
    ("the same, refused for its last sheet", CHECK, JUDGED, last_sheet_without_number, 0, f"journal fault 4 {LIMIT // 8}"),
    ("a new sheet for each kind of wood", FLEET, just(pickers()), kinds_of_wood, 0, None),
    ("the same in 64 seats", FLEET + ["b"] * 63, just(pickers()), one_of_each_kind, 0, None),
    ("a journal of a sheet for each cut", ["check", "a", "j"], just(pickers()), one_of_each_kind, 0, "LAWFUL 16320"),
]
# What takes minutes of a processor.
LONG = ["stems of the most zones"]
# What the program is given first, and isn't judged by: a fleet of 64 seats writes its journal.
FIRST = {"a journal of a sheet for each cut": FLEET + ["b"] * 63 + ["--journal", "j"]}


def write(path, prefix, make, seed, size):
    with open(path, "wb") as out:
        out.write(prefix)
        out.write(make(random.Random(seed), size - len(prefix)))


def drip(path, end):
    """Writes a file into a pipe, byte after byte. The pipe is one of packets, so that a read gives what a write wrote."""
    with open(path, "rb") as given:
        text = given.read()
    try:
        for at in range(len(text)):
            os.write(end, text[at : at + 1])
    except BrokenPipeError:
        pass


def made(path, *given):
    """Writes a file in a process of its own, so that this one, from which the program is started, stays small."""
    maker = multiprocessing.get_context("fork").Process(target=write, args=(path, *given))
    maker.start()
    maker.join()
    if maker.exitcode != 0:
        sys.exit(f"{path} was not made")


def ended(child, start):
    """Seconds, seconds of processor time, MiB held at most, exit status and first line of a run."""
    first = child.stdout.readline()
    while child.stdout.read(1 << 20):
        pass
    _, status, usage = os.wait4(child.pid, 0)
    took = time.monotonic() - start
    child.returncode = os.waitstatus_to_exitcode(status)
    text = first.decode("utf-8", "replace").rstrip("\n")
    return took, usage.ru_utime + usage.ru_stime, usage.ru_maxrss / 1024, child.returncode, text


def run(program, words, stdin, folder):
    with open(stdin, "rb") as given:
        start = time.monotonic()
        child = subprocess.Popen(
            [program, *words], stdin=given, stdout=subprocess.PIPE, stderr=subprocess.STDOUT, cwd=folder
        )
        return ended(child, start)


def run_dripped(program, words, path, folder):
    """The same if standard input gives a file byte after byte."""
    out, end = os.pipe2(os.O_DIRECT)
    start = time.monotonic()
    child = subprocess.Popen(
        [program, *words], stdin=out, stdout=subprocess.PIPE, stderr=subprocess.STDOUT, cwd=folder
    )
    os.close(out)
    dripping = multiprocessing.get_context("fork").Process(target=drip, args=(path, end))
    dripping.start()
    os.close(end)
    found = ended(child, start)
    dripping.join()
    return found


def wrongs(found, line, seconds, most):
    """What is wrong with a run."""
    took, _, held, status, first = found
    faults = []
    if took > seconds:
        faults.append("slow")
    if held * 1048576 > most:
        faults.append("too much memory")
    if status < 0:
        faults.append("ended by a signal")
    if line is not None and first != line:
        faults.append(f"not: {line}")
    return faults


def main():
    parser = argparse.ArgumentParser(description=__doc__.splitlines()[0])
    parser.add_argument("folder", help="where the files are made")
    parser.add_argument("--bin", required=True, help="the program")
    parser.add_argument("--size", type=int, default=LIMIT, help="bytes of each file")
    parser.add_argument("--seed", type=int, default=1)
    parser.add_argument("--only", default="", help="a word of the names that are run")
    parser.add_argument("--keep", action="store_true", help="leave the files")
    parser.add_argument("--seconds", type=float, default=10.0, help="the longest time that passes")
    parser.add_argument("--times", type=float, default=20.0, help="the most memory that passes, in lengths of what is read")
    given = parser.parse_args()

    os.makedirs(given.folder, exist_ok=True)
    program = os.path.abspath(given.bin)
    wrong = ran = 0
    print(f"{'run':44} {'seconds':>8} {'cpu':>6} {'MiB':>6} {'times':>6} {'status':>6}  first line")
    # The runs: name, words, the files, which of them is standard input and whether it is given byte after byte, first line.
    runs = [
        (f"{name} as {place}", [], {"in": (prefix, make, given.size)}, "in", False, line)
        for name, make, lines in FILES
        for place, prefix, line in [("instruction", b"", lines[0]), ("stems", BEFORE_STEMS, lines[1])]
    ]
    too_long = {"in": (b"", lambda r, n: b"~" * n, given.size + 1)}
    runs.append(("too long by a byte", [], too_long, "in", False, "read fault 0"))
    for name, words, first, second, more, line in COMMANDS:
        files = {"a": (b"", first, given.size + more), "b": (b"", second, given.size + more)}
        runs.append((name, words, files, None, False, line))
    for more, line in ((0, "apt fault 2"), (1, "read fault 0")):
        files = {"in": (b"", blanks, given.size + more), "b": (b"", NO_STEMS, given.size)}
        words = ["buck", "/dev/stdin", "b"]
        runs.append((f"blanks{', a byte too many' * more}, byte after byte", words, files, "in", True, line))
    for name, words, files, stdin, dripped, line in runs:
        if given.only not in name:
            continue
        ran += 1
        paths = {key: os.path.join(given.folder, key) for key in files}
        for key, (prefix, make, size) in files.items():
            made(paths[key], prefix, make, given.seed, size)
        if name in FIRST:
            paths["j"] = os.path.join(given.folder, "j")
            run(program, FIRST[name], os.devnull, given.folder)
        length = sum(os.path.getsize(paths[word]) for word in [*words, stdin] if word in paths)
        # Each further seat has a planner of its own, which keeps some 2 MiB under instructions of few rows.
        most = given.times * length + (16 + 2 * max(words.count("b") - 1, 0)) * 1048576
        if dripped:
            found = run_dripped(program, words, paths[stdin], given.folder)
        else:
            found = run(program, words, paths[stdin] if stdin else os.devnull, given.folder)
        if not given.keep:
            for path in paths.values():
                os.remove(path)
        known = line if given.size >= LIMIT else None
        faults = wrongs(found, known, given.seconds * (40 if dripped or name in LONG else 1), most)
        wrong += bool(faults)
        note = f"  <- {', '.join(faults)}" if faults else ""
        took, cpu, held, status, first = found
        times = held * 1048576 / length
        print(f"{name:44} {took:8.2f} {cpu:6.2f} {held:6.0f} {times:6.1f} {status:6}  {first[:50]}{note}", flush=True)
    print(f"{wrong} of {ran} runs are not as they should be" if wrong else "all as they should be")
    return 1 if wrong else 0


if __name__ == "__main__":
    sys.exit(main())
