#!/usr/bin/env python3
"""A mock of the command `live` in plain Python, with two requests of an operator: a preview, and a cutting of his own.

    checks/live_mock.py live [--rule RULE] [--period N] [--limit N] [--journal OUT] APT
    checks/live_mock.py [--write]

The first form answers the requests of standard input, one a line, as docs/COMMANDS.md has them under "live". It takes
APT for an instruction file that isn't refused, and has no `--explain`.

The second form asks the mock each case of `live` in crates/run_cases/data/commands and requests. The last line is
'N cases, M differ', and the status is 0 if none differs. With --write the cases of requests get the mock's answers.
"""
import argparse
import io
import math
import pathlib
import re
import sys
from dataclasses import dataclass

from c_library import bytes_of

CHECKS = pathlib.Path(__file__).resolve().parent
DATA = CHECKS.parent / "crates" / "run_cases" / "data"

WHITE = b" \t\n\r"
LONGEST = 1_048_576
CAPACITY = 1_000_000
U32 = 4_294_967_295


class Refused(Exception):
    """A request that is refused, with its answer."""


def fault(number, *fields):
    return Refused(" ".join(map(str, ("stm 1 fault", number, *fields))).encode())


# Items and numbers


def number_of(word, most):
    """A word of digits as a number of at most `most`, or None."""
    if not word.isdigit() or len(word.lstrip(b"0")) > 10:
        return None
    return int(word) if int(word) <= most else None


def items_of(data):
    """The items of a file, each as its head and its rest."""
    pieces = filter(None, (piece.strip(WHITE) for piece in data.split(b"~")))
    items = []
    for place, piece in enumerate(pieces, start=1):
        words = re.split(rb"[ \t\n\r]+", piece, maxsplit=2)
        head = [number_of(word, 65_535) for word in words[:2]]
        if len(head) < 2 or None in head:
            raise fault(1, place)
        items.append((tuple(head), words[2] if len(words) > 2 else b""))
    return items


def numbers_of(head, rest):
    """The numbers of an item."""
    numbers = [number_of(word, U32) for word in re.split(rb"[ \t\n\r]+", rest) if word]
    if None in numbers:
        raise fault(5, *head, numbers.index(None) + 1)
    return numbers


# The instruction


@dataclass
class Assortment:
    name: bytes
    species: int
    grades: list
    price_kind: int
    rows: list
    upper: int
    lengths: list
    prices: list
    targets: list
    trim: int = 0
    first: int = 0  # the place of its first class among those of all assortments


FIELDS = {
    (912, 1): "species", (913, 1): "grades", (914, 1): "price_kind", (915, 1): "rows", (915, 2): "upper",
    (916, 1): "lengths", (917, 1): "prices", (918, 1): "targets", (919, 1): "trim",
}


class Instruction:
    """An instruction file; `period` and `limit` stand in the place of its own, if they are given."""

    def __init__(self, data, period=None, limit=None):
        own, parts = {}, []
        for head, rest in items_of(data):
            if head == (911, 1):
                parts.append({"name": rest})
            elif head in FIELDS:
                numbers = numbers_of(head, rest)
                is_one = FIELDS[head] in ("species", "price_kind", "upper", "trim")
                parts[-1][FIELDS[head]] = numbers[0] if is_one else numbers
            elif head in ((901, 1), (902, 1), (903, 1)):
                own[head[0]] = numbers_of(head, rest)[0]
        self.module = own[901]
        self.period = own[902] if period is None else period
        self.limit = own[903] if limit is None else limit
        self.assortments = [Assortment(**part) for part in parts]
        classes = 0
        for one in self.assortments:
            one.first, classes = classes, classes + len(one.prices)
        self.base = [price for one in self.assortments for price in one.prices]
        self.targets = [target for one in self.assortments for target in one.targets]


# Stems and logs


@dataclass
class Stem:
    number: int
    species: int
    samples: list
    zones: list

    @property
    def length(self):
        return 100 * (len(self.samples) - 1)

    def diameter(self, place):
        """The diameter at a place: a sample counts no more than the least up to it; between two it goes straight."""
        at, more = divmod(place, 100)
        low = min(self.samples[: at + 1])
        return (low * (100 - more) + min(low, self.samples[at + 1]) * more) // 100 if more else low

    def grades(self, start, end):
        """The grades from a place up to another."""
        before = [grade for place, grade in self.zones if place <= start]
        return {before[-1] if before else 1, *(grade for place, grade in self.zones if start < place < end)}


def row_of(one, top):
    """The row of a top diameter."""
    return sum(lower <= top for lower in one.rows) - 1


def class_of(one, stem, start, length):
    """The place of a log's class in its assortment."""
    return row_of(one, stem.diameter(start + length)) * len(one.lengths) + one.lengths.index(length)


def why_not(instruction, stem, log, end):
    """The first reason why a log isn't allowed behind logs that end at a place; None if it is."""
    start, length, place = log
    if start < end:
        return b"order"
    if place >= len(instruction.assortments):
        return b"assortment"
    one = instruction.assortments[place]
    if one.species != stem.species:
        return b"species"
    if start % instruction.module:
        return b"start"
    if length not in one.lengths:
        return b"length"
    if start + length + one.trim > stem.length:
        return b"end"
    if not stem.grades(start, start + length) <= set(one.grades):
        return b"grade"
    if not one.rows[0] <= stem.diameter(start + length) < one.upper:
        return b"diameter"
    if one.prices[class_of(one, stem, start, length)] == 0:
        return b"price"
    return None


def worth_of(instruction, prices, stem, log):
    """What an allowed log is worth under the prices of a sheet."""
    start, length, place = log
    one = instruction.assortments[place]
    price = prices[one.first + class_of(one, stem, start, length)]
    top = stem.diameter(start + length)
    return price * (top * top * length * 7854 // 10_000_000 if one.price_kind == 1 else 1_000_000)


def end_of(instruction, log):
    return log[0] + log[1] + instruction.assortments[log[2]].trim


def best_of(instruction, prices, stem):
    """The first of the best cuttings, and its worth. From the top down, what the best cutting from each start on is
    worth; of equals the lower start, the shorter, the lower assortment."""
    module = instruction.module
    starts = stem.length // module + 1
    best = [(0, None)] * (starts + 1)
    kinds = sorted((length, place) for place, one in enumerate(instruction.assortments) for length in one.lengths)
    for at in range(starts - 1, -1, -1):
        most = best[at + 1][0], None
        for length, place in kinds:
            log = at * module, length, place
            if why_not(instruction, stem, log, 0) is None:
                after = -(-end_of(instruction, log) // module)
                worth = worth_of(instruction, prices, stem, log) + best[min(after, starts)][0]
                if worth > most[0] or worth == most[0] and most[1] is None:
                    most = worth, log
        best[at] = most
    logs, at = [], 0
    while at < starts:
        log = best[at][1]
        if log:
            logs.append(log)
        at = -(-end_of(instruction, log) // module) if log else at + 1
    return logs, best[0][0]


# The book


def price_by(rule, base, limit, target, targets, count, counts):
    """The price of a class by a rule."""
    span = base * limit // 1000
    cut, wanted = count * targets, target * counts
    apart = abs(wanted - cut)
    if rule == "steady" or apart == 0:
        return base
    whole = {
        "step": apart,
        "linear": max(wanted, cut),
        "root": apart + math.isqrt((wanted + targets) * targets),
    }[rule]
    move = span * apart // whole
    return base + move if cut < wanted else base - move


class Book:
    """What was posted, and the prices that follow from it."""

    def __init__(self, instruction, rule):
        self.instruction, self.rule = instruction, rule
        self.targets = list(instruction.targets)
        self.counts = [0] * len(self.targets)
        self.sheets = [list(instruction.base)]
        self.items = []  # of the journal
        self.numbers = {}
        self.postings = 0
        self.since = 0

    def posted(self, harvester):
        """Position, harvester, number and version of a posting that is added now."""
        version = len(self.sheets) - 1
        self.numbers[harvester] = self.numbers.get(harvester, 0) + 1
        self.postings += 1
        return self.postings - 1, harvester, self.numbers[harvester], version

    def end(self):
        """A period ends: the next sheet."""
        sheet = []
        for one in self.instruction.assortments:
            here = slice(one.first, one.first + len(one.prices))
            targets, counts = sum(self.targets[here]), sum(self.counts[here])
            standings = zip(one.prices, self.targets[here], self.counts[here])
            sheet += [
                price_by(self.rule, base, self.instruction.limit, target, targets, count, counts)
                for base, target, count in standings
            ]
        self.sheets.append(sheet)
        self.since = 0

    def cut(self, harvester, stem, logs, worth):
        _, *who = self.posted(harvester)
        zones = [number for zone in stem.zones for number in zone]
        numbers = [number for log in logs for number in log]
        lists = who, (stem.number, stem.species), stem.samples, zones, numbers, (worth,)
        self.items += [(981, kind, given) for kind, given in enumerate(lists, start=1)]
        for start, length, place in logs:
            one = self.instruction.assortments[place]
            self.counts[one.first + class_of(one, stem, start, length)] += 1
        self.since += 1
        if self.since == self.instruction.period:
            self.end()

    def demand(self, harvester, targets):
        where = self.posted(harvester)
        self.items += [(982, 1, where[1:]), (982, 2, targets)]
        self.targets = list(targets)
        self.end()
        return where

    def journal(self):
        items = [(1, 2, ("JRN",)), *((971, 1, sheet) for sheet in self.sheets), *self.items]
        return "".join(" ".join(map(str, (number, kind, *given))) + "~\n" for number, kind, given in items).encode()


# Requests

HARVESTER, STEM, SPECIES, SAMPLES, ZONES = (950, 1), (951, 1), (952, 1), (953, 1), (954, 1)
PREVIEW, OWN, TARGETS = (955, 1), (956, 1), (982, 2)
TABLE = (HARVESTER, STEM, SPECIES, SAMPLES, ZONES, PREVIEW, OWN, TARGETS)
OF_STEM = TABLE[1:-1]

# The range of each number of an item, or of the numbers of each group.
RANGES = {
    HARVESTER: [(1, 64)], STEM: [(0, U32)], SPECIES: [(1, 255)], SAMPLES: [(0, 1500)], ZONES: [(0, 40_000), (1, 8)],
    PREVIEW: [(1, 1)], OWN: [(0, 40_000), (0, 30_000), (0, 15)], TARGETS: [(0, U32)],
}

# How many numbers an item has: those of a group, and the least and the most groups.
COUNTS = {
    HARVESTER: (1, 1, 1), STEM: (1, 1, 1), SPECIES: (1, 1, 1), SAMPLES: (1, 1, 401), ZONES: (2, 0, 100),
    PREVIEW: (1, 1, 1), OWN: (3, 0, 80), TARGETS: (1, 0, math.inf),
}


def is_in_range(head, numbers):
    ranges = RANGES[head]
    return all(low <= number <= high for at, number in enumerate(numbers) for low, high in [ranges[at % len(ranges)]])


def is_counted(head, numbers):
    size, least, most = COUNTS[head]
    return len(numbers) % size == 0 and least <= len(numbers) // size <= most


def is_in_order(head, numbers, first):
    """A harvester stands first among the items of the table; the starts of zones rise."""
    if head == HARVESTER:
        return first == HARVESTER
    starts = numbers[::2]
    return head != ZONES or all(a < b for a, b in zip(starts, starts[1:]))


def request_of(line):
    """The numbers of each item of a request; None if the line has no item. The table's first fault is its refusal."""
    items = items_of(line)
    if not items:
        return None
    known = [(head, rest) for head, rest in items if head in TABLE]
    heads = [head for head, _ in known]
    of_stem = [head for head in heads if head in OF_STEM]
    if of_stem[:1] != [STEM] and (of_stem or TARGETS not in heads):
        raise fault(3, *STEM)
    for head in (SPECIES, SAMPLES):
        if of_stem and head not in heads:
            raise fault(3, *head)
    for head in TABLE:
        if heads.count(head) > 1 or head == TARGETS and head in heads and of_stem:
            raise fault(4, *head)
    rests = dict(known)
    given = {head: numbers_of(head, rests[head]) for head in TABLE if head in rests}
    looks = (
        (6, is_in_range),
        (7, lambda head, numbers: is_in_order(head, numbers, heads[0])),
        (8, is_counted),
    )
    for number, is_right in looks:
        for head, numbers in given.items():
            if not is_right(head, numbers):
                raise fault(number, *head)
    return given


def targets_fault(instruction, targets):
    """The answer to targets that aren't valid, or None."""
    if len(targets) != len(instruction.targets):
        return b"targets fault 1"
    over = [at for at, target in enumerate(targets) if target > 1_000_000]
    if over:
        return b"targets fault 2 %d" % over[0]
    for at, one in enumerate(instruction.assortments):
        if sum(targets[one.first : one.first + len(one.targets)]) > 1_000_000_000:
            return b"targets fault 3 %d" % at
    return None


def log_lines(book, stem, logs):
    """The `LOG` lines of a cutting under the sheet in force."""
    for start, length, place in logs:
        one = book.instruction.assortments[place]
        top = stem.diameter(start + length)
        worth = worth_of(book.instruction, book.sheets[-1], stem, (start, length, place))
        yield b"LOG %d %d %d %d %d %d %s" % (
            start, length, top, row_of(one, top), one.lengths.index(length), worth, one.name
        )


def own_line(book, stem, logs, best):
    """The answer to a cutting of the operator's own."""
    end = 0
    for place, log in enumerate(logs, start=1):
        why = why_not(book.instruction, stem, log, end)
        if why:
            return b"OWN %d not %d %s" % (stem.number, place, why)
        end = end_of(book.instruction, log)
    worth = sum(worth_of(book.instruction, book.sheets[-1], stem, log) for log in logs)
    return b"OWN %d %d %d %d" % (stem.number, len(logs), worth, best)


def groups(numbers, size):
    return list(zip(*(numbers[at::size] for at in range(size))))


def answer(book, given, capacity=CAPACITY):
    """The lines of the answer to a request."""
    harvester = given.get(HARVESTER, [1])[0]
    is_posted = PREVIEW not in given and OWN not in given
    if is_posted and book.postings == capacity:
        return [b"full"]
    if TARGETS in given:
        wrong = targets_fault(book.instruction, given[TARGETS])
        return [wrong or b"DEMAND %d %d %d %d" % book.demand(harvester, given[TARGETS])]
    stem = Stem(given[STEM][0], given[SPECIES][0], given[SAMPLES], groups(given.get(ZONES, []), 2))
    logs, best = best_of(book.instruction, book.sheets[-1], stem)
    if OWN in given:
        return [own_line(book, stem, groups(given[OWN], 3), best)]
    word = b"STEM" if is_posted else b"PREVIEW"
    lines = [word + b" %d %d %d %d" % (stem.number, stem.length, len(logs), best), *log_lines(book, stem, logs)]
    if is_posted:
        book.cut(harvester, stem, logs, best)
    return lines


def lines_of(source):
    """The lines of standard input; None for one that is too long, or in which the input ends."""
    while line := source.readline(LONGEST + 1):
        if line.endswith(b"\n"):
            yield line[:-1]
        elif len(line) <= LONGEST:
            rest = line.rstrip(WHITE)
            yield line if not rest or rest.endswith(b"~") else None
        else:
            while line and not line.endswith(b"\n"):
                line = source.readline(LONGEST)
            yield None


def answers(book, source):
    """The answer to each request, as a text."""
    for line in lines_of(source):
        try:
            given = {} if line is None else request_of(line)
            if given is None:
                continue
            lines = answer(book, given) if given else [b"read fault 1"]
        except Refused as refused:
            lines = list(refused.args)
        yield b"".join(line + b"\n" for line in lines)


def words_of(words):
    parser = argparse.ArgumentParser(prog="live_mock.py live")
    parser.add_argument("--rule", choices=("steady", "linear", "step", "root"), default="steady")
    parser.add_argument("--period", type=int)
    parser.add_argument("--limit", type=int)
    parser.add_argument("--journal")
    parser.add_argument("apt")
    return parser.parse_args(words)


def live(words):
    """Answers standard input."""
    given = words_of(words)
    apt = pathlib.Path(given.apt).read_bytes()
    book = Book(Instruction(apt, given.period, given.limit), given.rule)
    for text in answers(book, sys.stdin.buffer):
        sys.stdout.buffer.write(text)
        sys.stdout.buffer.flush()
    if given.journal:
        pathlib.Path(given.journal).write_bytes(book.journal())
    return 0


# Cases


def blocks_of(text):
    """The lines of a case's parts: the word that begins a part, and the bytes that follow it."""
    part, lines = None, []
    for line in [*text.split("\n"), ""]:
        if line.startswith("|"):
            lines.append(line[1:])
            continue
        if part:
            yield part, bytes_of(lines)
        part, lines = line, []


def asked(case, files):
    """What the mock prints and keeps, beside what the case says; None if it isn't asked. `files` are those of the cases
    before, and get the case's own."""
    words, said = [], {}
    for part, data in blocks_of(case):
        word, _, rest = part.partition(" ")
        if word == "word":
            words.append(rest)
        elif word in ("file", "input"):
            files[rest] = data
        elif word in ("prints", "keeps", "says", "ends"):
            said[word] = data
    if words[:1] != ["live"] or "--explain" in words or "ends" in said:
        return None
    given = words_of(words[1:])
    book = Book(Instruction(files[given.apt], given.period, given.limit), given.rule)
    found = {"prints": b"".join(answers(book, io.BytesIO(files[""])))}
    found["keeps"] = book.journal() if given.journal else b""
    return found, {name: said.get(name, b"") for name in found}


def with_answers(case, found):
    """The case with other answers."""
    kept = re.split(r"\n(?:prints|keeps)\n", case)[0]
    parts = [kept]
    for name, data in found.items():
        if data:
            parts += [name, *("|" + line.replace("\\", "\\\\") for line in data.decode().split("\n")[:-1])]
    return "\n".join(parts)


def cases(path, is_written):
    """How many cases of a file were asked, and how many differ."""
    head, *rest = re.split(r"(?m)^(?=== )", path.read_text(encoding="latin-1"))
    files, number, differ, texts = {"": b""}, 0, 0, [head]
    for case in rest:
        case = case.rstrip("\n")
        told = asked(case, files)
        if told:
            found, wanted = told
            number += 1
            case = with_answers(case, found) if is_written else case
            if found != wanted and not is_written:
                differ += 1
                print(f"{path.name}: {case.splitlines()[0]}: {found} in the place of {wanted}")
        texts.append(case + "\n\n")
    if is_written:
        path.write_text("".join(texts).rstrip("\n") + "\n", encoding="latin-1")
    return number, differ


def main():
    words = sys.argv[1:]
    if words[:1] == ["live"]:
        return live(words[1:])
    if words not in ([], ["--write"]):
        print(__doc__, file=sys.stderr)
        return 2
    told = [cases(DATA / "requests", bool(words)), cases(DATA / "commands", False)]
    number, differ = map(sum, zip(*told))
    print(f"{number} cases, {differ} differ")
    return 1 if differ else 0


if __name__ == "__main__":
    sys.exit(main())
