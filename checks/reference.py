#!/usr/bin/env python3
"""What the documents say, as plain Python: a reference to compare the proved program with.

    checks/reference.py cases                             runs the worked cases (docs/CASES.md) that it knows
    checks/reference.py compare PROGRAM [--count N] [--seed S]   runs a program beside it on random files
    checks/reference.py buck APT STM                      one run; so fleet --in-turn, check, report, no words

It follows docs/FORMATS.md, COMMANDS.md and RULES.md, and each function names the section that it follows. It uses nothing of
the program, and was written by somebody who hadn't read it; only the grammar of the words (`parsed`) was written down
by what the program does. It counts all that the documents define from the start each time, so it is slow. Of `table` it
has the refusals alone. It needs Python 3.11 and nothing else.
`cases` and `compare` end with status 0 if nothing differs, else with 1.
"""
from __future__ import annotations

import math
import os
import re
import sys
from collections.abc import Callable
from itertools import zip_longest
from typing import NamedTuple

Key = tuple[int, int]                       # an item's number and kind
Group = dict[Key, list]                     # the numbers of items that belong together
LONGEST_FILE = 67_108_864
MOST_POSTINGS = 1_000_000
BLANKS = b" \t\n\r"


class Refused(Exception):
    """A file is refused: the fault's number and fields (FORMATS, each list of refusals)."""


class Fault(Exception):
    """The line that a run says on standard error, and its status (FAULTS, Every line).

    Of a mistake in the words no document has the text; the line then begins with `error: `.
    """

    def __init__(self, line: str, status: int) -> None:
        super().__init__(line)
        self.line, self.status = line, status


def number(word: bytes, greatest: int) -> int | None:
    """FORMATS, The form of a file: the value of digits, at most the greatest; else none."""
    digits = word.lstrip(b"0") or b"0"
    return int(digits) if word.isdigit() and len(digits) <= 20 and int(digits) <= greatest else None


def items(data: bytes) -> list[tuple[Key, bytes]]:
    """FORMATS, The form of a file: each item's number and kind, and its rest."""
    found: list[tuple[Key, bytes]] = []
    for piece in data.split(b"~"):
        piece = piece.strip(BLANKS)
        if not piece:
            continue
        first, second, rest = (re.split(rb"[ \t\n\r]+", piece, maxsplit=2) + [b"", b""])[:3]
        what, kind = number(first, 65_535), number(second, 65_535)
        if what is None or kind is None:
            raise Refused(f"1 {len(found) + 1}")
        found.append(((what, kind), rest))
    return found


def numbers(rest: bytes, greatest: int = 2 ** 32 - 1) -> tuple[list[int], int | None]:
    """FORMATS, The form of a file: those of a rest, and the place of the first word that is none."""
    found = [number(word, greatest) for word in re.split(rb"[ \t\n\r]+", rest) if word]
    return found, found.index(None) + 1 if None in found else None


class Row(NamedTuple):
    """A row of a table of items: the ranges, which numbers take in turn, and how many numbers there may be."""
    ranges: list[tuple[int, int]]
    least: int = 1
    most: int = 1
    multiple: int = 1


POSTING = Row([(1, 64), (1, 1_000_000), (0, 1_000_000)], 3, 3)
NUMBER, SPECIES, DIAMETERS = (0, 2 ** 32 - 1), (1, 255), Row([(0, 1_500)], 1, 401)
ZONES = Row([(0, 40_000), (1, 8)], 0, 200, 2)
ROWS: dict[Key, Row] = {                    # FORMATS: The instruction file, The stem file, The journal
    (901, 1): Row([(10, 1_000)]), (902, 1): Row([(1, 1_000)]), (903, 1): Row([(0, 1_000)]), (910, 1): Row([(1, 16)]),
    (912, 1): Row([SPECIES]), (913, 1): Row([(1, 8)], 1, 8), (914, 1): Row([(1, 2)]),
    (915, 1): Row([(0, 1_500)], 1, 32), (915, 2): Row([(1, 2_000)]), (916, 1): Row([(500, 30_000)], 1, 32),
    (917, 1): Row([(0, 10_000_000)]), (918, 1): Row([(0, 1_000_000)]), (919, 1): Row([(0, 200)]),
    (951, 1): Row([NUMBER]), (952, 1): Row([SPECIES]), (953, 1): DIAMETERS, (954, 1): ZONES,
    (971, 1): Row([(0, 20_000_000)], 0, 16_384),
    (981, 1): POSTING, (981, 2): Row([NUMBER, SPECIES], 2, 2), (981, 3): DIAMETERS, (981, 4): ZONES,
    (981, 5): Row([(0, 40_000), (0, 30_000), (0, 15)], 0, 240, 3), (981, 6): Row([(0, 2 ** 64 - 1)]),
    (982, 1): POSTING, (982, 2): Row([(0, 1_000_000)], 0, 16_384),
}
KIND, NAME = (1, 2), (911, 1)               # items whose rest is text
APT_HEADS, STM_HEADS = [KIND, (901, 1), (902, 1), (903, 1), (910, 1)], [KIND]
APT_MEMBERS = [NAME, *(key for key in ROWS if 912 <= key[0] <= 919)]
STM_MEMBERS = [key for key in ROWS if 951 <= key[0] <= 954]
MAY_BE_ABSENT = [(919, 1), (954, 1)]


def in_range(key: Key, values: list[int], *_: object) -> bool:
    """FORMATS, the column Range; of a name, its rule."""
    if key == NAME:
        return 1 <= len(values) <= 32 and all(code >= 32 and code not in (124, 126, 127) for code in values)
    ranges = ROWS[key].ranges if key in ROWS else []
    return all(low <= value <= high for place, (low, high) in enumerate(ranges)
               for value in values[place::len(ranges)])


def in_order(key: Key, values: list[int], group: Group, *_: object) -> bool:
    """FORMATS, the column Order."""
    if key == (915, 2):
        return all(upper > lower for upper in values for lower in group[915, 1])
    rising = values[::2] if key in ((954, 1), (981, 4)) else values if key in ((913, 1), (915, 1), (916, 1)) else []
    return all(before < after for before, after in zip(rising, rising[1:]))


def in_number(key: Key, values: list[int], group: Group, groups: int = 0) -> bool:
    """FORMATS, the column Count."""
    if key == (910, 1):
        return values == [groups]
    if key in ((917, 1), (918, 1)):
        return len(values) == len(group[915, 1]) * len(group[916, 1])
    row = ROWS.get(key)
    return row is None or row.least <= len(values) <= row.most and len(values) % row.multiple == 0


def read_form(word: bytes, heads: list[Key], members: list[Key], least_groups: int, data: bytes) -> list[Group]:
    """FORMATS, Refusals of an instruction file, lines 1 to 8, and those of a stem file: the heads, then each group."""
    listed = items(data)
    if [rest for key, rest in listed if key == KIND][:1] != [word]:
        raise Refused("2")
    groups: list[Group] = [{}]
    strays: list[Key] = []
    for key, rest in listed:
        if key == members[0]:
            groups.append({})
        elif key in members and len(groups) == 1:
            strays.append(members[0])
        if key in heads or (key in members and len(groups) > 1):
            groups[0 if key in heads else -1].setdefault(key, []).append(rest)

    def refuse_first(line: int, wrong: list[Key]) -> None:
        if wrong:
            raise Refused(f"{line} {wrong[0][0]} {wrong[0][1]}")

    missing = [key for key in heads if key not in groups[0]] + strays + [members[0]] * (len(groups) <= least_groups)
    refuse_first(3, missing + [key for group in groups[1:] for key in members
                               if key not in group and key not in MAY_BE_ABSENT])
    found = [(key, group) for place, group in enumerate(groups)
             for key in (members if place else heads) if key in group]
    refuse_first(4, [key for key, group in found if len(group[key]) > 1])
    for key, group in found:
        group[key], wrong = (list(group[key][0]), None) if key in (KIND, NAME) else numbers(group[key][0])
        if wrong is not None:
            raise Refused(f"5 {key[0]} {key[1]} {wrong}")
    for line, judge in ((6, in_range), (7, in_order), (8, in_number)):
        refuse_first(line, [key for key, group in found if not judge(key, group[key], group, len(groups) - 1)])
    return groups


class Assortment(NamedTuple):
    """FORMATS, The instruction file: the items 911 1 to 919 1; its classes begin at a place of all classes."""
    name: bytes
    species: int
    grades: list[int]
    price_kind: int
    lower: list[int]
    upper: int
    lengths: list[int]
    prices: list[int]
    targets: list[int]
    trim: int
    first_class: int


class Instruction(NamedTuple):
    """FORMATS, The instruction file: the module in mm, the period in stems, the limit in per mille."""
    module: int
    period: int
    limit: int
    assortments: list[Assortment]

    def base_prices(self) -> list[int]:
        """RULES, Price sheets: assortment by assortment and row by row."""
        return [price for assortment in self.assortments for price in assortment.prices]

    def targets(self) -> list[int]:
        """FORMATS, The instruction file, 918 1: in the order of the classes."""
        return [target for assortment in self.assortments for target in assortment.targets]


class Stem(NamedTuple):
    """RULES, A stem: its diameters and the starts of its zones in mm."""
    number: int
    species: int
    samples: list[int]
    zones: list[tuple[int, int]]

    def length(self) -> int:
        """RULES, A stem: 100 mm for each sample after the first."""
        return 100 * (len(self.samples) - 1)


def read_instruction(data: bytes) -> Instruction:
    """FORMATS, The instruction file, and its refusals 1 to 10."""
    heads, *groups = read_form(b"APT", APT_HEADS, APT_MEMBERS, 1, data)
    module = heads[901, 1][0]
    for length in [length for group in groups for length in group[916, 1] if length % module != 0]:
        raise Refused(f"9 {length}")
    for place, group in enumerate(groups):
        if sum(group[918, 1]) > 1_000_000_000:
            raise Refused(f"10 {place}")
    assortments: list[Assortment] = []
    for group in groups:
        assortments.append(Assortment(
            bytes(group[NAME]), group[912, 1][0], group[913, 1], group[914, 1][0], group[915, 1], group[915, 2][0],
            group[916, 1], group[917, 1], group[918, 1], group.get((919, 1), [0])[0],
            sum(len(assortment.prices) for assortment in assortments)))
    return Instruction(module, heads[902, 1][0], heads[903, 1][0], assortments)


def in_parts(values: list[int], many: int) -> list[tuple[int, ...]]:
    """Numbers that belong together by so many, as a start and a grade."""
    return [tuple(values[place:place + many]) for place in range(0, len(values), many)]


def read_stems(data: bytes) -> list[Stem]:
    """FORMATS, The stem file, and its refusals."""
    return [Stem(group[951, 1][0], group[952, 1][0], group[953, 1], in_parts(group.get((954, 1), []), 2))
            for group in read_form(b"STM", STM_HEADS, STM_MEMBERS, 0, data)[1:]]


class Log(NamedTuple):
    """RULES, Which logs are allowed: the three things that name a log; the start and the length in mm."""
    start: int
    length: int
    assortment: int


class Class(NamedTuple):
    """RULES, Which logs are allowed: the class of a log, its top diameter in mm, and its place among all classes."""
    row: int
    column: int
    top: int
    place: int


def diameter(stem: Stem, place: int) -> int:
    """RULES, The diameter at a place."""
    sample, past = divmod(place, 100)
    here = min(stem.samples[:sample + 1])
    if past == 0:
        return here
    following = min(stem.samples[:sample + 2])
    return (here * (100 - past) + following * past) // 100


def grades(stem: Stem, start: int, end: int) -> set[int]:
    """RULES, Grades: those from a place up to another; they change where a zone starts, and nowhere else."""
    places = [start] + [zone for zone, _ in stem.zones if start < zone < end] if start < end else []
    return {[1, *(grade for zone, grade in stem.zones if zone <= place)][-1] for place in places}


def end_of(instruction: Instruction, log: Log) -> int:
    """RULES, Which logs are allowed: start + length + trim."""
    return log.start + log.length + instruction.assortments[log.assortment].trim


def class_of(instruction: Instruction, stem: Stem, log: Log) -> Class | None:
    """RULES, Which logs are allowed: the class of a log, none if it isn't allowed."""
    if log.assortment >= len(instruction.assortments):
        return None
    assortment = instruction.assortments[log.assortment]
    if (assortment.species != stem.species or log.start % instruction.module != 0
            or log.length not in assortment.lengths or end_of(instruction, log) > stem.length()
            or not grades(stem, log.start, log.start + log.length) <= set(assortment.grades)):
        return None
    top = diameter(stem, log.start + log.length)
    if not assortment.lower[0] <= top < assortment.upper:
        return None
    row = max(row for row, limit in enumerate(assortment.lower) if limit <= top)
    column = assortment.lengths.index(log.length)
    place = row * len(assortment.lengths) + column
    return None if assortment.prices[place] == 0 else Class(row, column, top, assortment.first_class + place)


def worth_of(instruction: Instruction, sheet: list[int], log: Log, its_class: Class) -> int:
    """RULES, What a log is worth, in millionths of the price unit."""
    price = sheet[its_class.place]
    if instruction.assortments[log.assortment].price_kind == 1:
        return price * (its_class.top * its_class.top * log.length * 7_854 // 10_000_000)
    return price * 1_000_000


def best(instruction: Instruction, sheet: list[int], stem: Stem) -> tuple[list[Log], int]:
    """RULES, Cuttings, and the best one: the first of the best, and its worth.

    From each place on, upwards from the last one, it is the way of the greatest worth. The ways stand in the order
    that settles ties: a log that starts here comes before any that starts later, and before none; of two that
    start here the shorter, and of two as long the lower assortment. `max` takes the first of equals.
    """
    module = instruction.module
    kinds = sorted((length, place) for place, assortment in enumerate(instruction.assortments)
                   if assortment.species == stem.species for length in assortment.lengths)
    from_there: dict[int, tuple[int, tuple[Log, ...]]] = {}
    nothing: tuple[int, tuple[Log, ...]] = (0, ())
    for start in range(stem.length() // module * module, -1, -module):
        ways: list[tuple[int, tuple[Log, ...]]] = []
        for length, place in kinds:
            log = Log(start, length, place)
            its_class = class_of(instruction, stem, log)
            if its_class is not None:
                next_start = -(-end_of(instruction, log) // module) * module
                worth, logs = from_there.get(next_start, nothing)
                ways.append((worth_of(instruction, sheet, log, its_class) + worth, (log, *logs)))
        from_there[start] = max([*ways, from_there.get(start + module, nothing)], key=lambda way: way[0])
    worth, logs = from_there[0]
    return list(logs), worth


class Posting(NamedTuple):
    """RULES, Postings: a cut of a stem, or a demand of targets."""
    harvester: int
    number: int
    version: int
    stem: Stem | None = None
    logs: list[Log] = []
    worth: int = 0
    targets: list[int] | None = None


class History(NamedTuple):
    """RULES, Lawful history: an instruction, the prices of its sheets, and its postings."""
    instruction: Instruction
    sheets: list[list[int]]
    postings: list[Posting]


class Standing(NamedTuple):
    """RULES, Standing, price relation, built-in rules: the six numbers."""
    base: int
    limit: int
    target: int
    targets: int
    count: int
    counts: int

    def span(self) -> int:
        """RULES, Standing: the furthest that a price may move."""
        return self.base * self.limit // 1_000

    def shares(self) -> tuple[int, int]:
        """RULES, Standing: the cut share and the wanted share."""
        return self.count * self.targets, self.target * self.counts


def ends(instruction: Instruction, postings: list[Posting]) -> list[int]:
    """RULES, Ends and versions: the places of the postings that end a period."""
    found: list[int] = []
    since = 0
    for place, posting in enumerate(postings):
        since += 1
        if posting.targets is not None or since == instruction.period:
            found.append(place)
            since = 0
    return found


def standings(instruction: Instruction, postings: list[Posting]) -> list[Standing]:
    """RULES, Class counts: how each class stands after some postings, with the targets in force there."""
    demands = [posting.targets for posting in postings if posting.targets is not None]
    targets = demands[-1] if demands else instruction.targets()
    counts = [0] * len(targets)
    for posting in postings:
        for log in posting.logs:
            counts[class_of(instruction, posting.stem, log).place] += 1
    found: list[Standing] = []
    for assortment in instruction.assortments:
        its = slice(assortment.first_class, assortment.first_class + len(assortment.prices))
        found += [Standing(base, instruction.limit, target, sum(targets[its]), count, sum(counts[its]))
                  for base, target, count in zip(assortment.prices, targets[its], counts[its])]
    return found


def in_relation(standing: Standing, price: int) -> bool:
    """RULES, Standing: the price relation."""
    cut, wanted = standing.shares()
    low = standing.base - standing.span() * (cut > wanted)
    high = standing.base + standing.span() * (cut < wanted)
    return low <= price <= high


def ready_answer(rule: str, standing: Standing) -> int:
    """RULES, Standing: the built-in rules, each by its part of the span, rounded down."""
    cut, wanted = standing.shares()
    off = abs(wanted - cut)
    if rule == "steady" or off == 0:
        return standing.base
    if rule == "root":
        whole = off + math.isqrt((wanted + standing.targets) * standing.targets)
    else:
        whole = max(wanted, cut) if rule == "linear" else off
    move = standing.span() * off // whole
    return standing.base + move if cut < wanted else standing.base - move


def degree(its_standings: list[Standing]) -> int | None:
    """RULES, The degree of apportionment, in ten-thousandths."""
    wanted, cut = its_standings[0].targets, its_standings[0].counts
    if wanted == 0 or cut == 0:
        return None
    least = sum(min(standing.target * cut, standing.count * wanted) for standing in its_standings)
    return least * 10_000 // (wanted * cut)


def in_turn(instruction: Instruction, rule: str, files: list[list[Stem]]) -> History:
    """COMMANDS, fleet, --in-turn: each harvester cuts one stem in each round."""
    history = History(instruction, [instruction.base_prices()], [])
    for place in range(max(map(len, files), default=0)):
        for harvester, stems in enumerate(files, 1):
            if place < len(stems):
                logs, worth = best(instruction, history.sheets[-1], stems[place])
                add(history, Posting(harvester, place + 1, len(history.sheets) - 1, stems[place], logs, worth), rule)
    return history


def add(history: History, posting: Posting, rule: str) -> None:
    """RULES, Ends and versions: one posting more, and the sheet after it if it ends a period."""
    history.postings.append(posting)
    if ends(history.instruction, history.postings)[-1:] == [len(history.postings) - 1]:
        stands = standings(history.instruction, history.postings)
        history.sheets.append([ready_answer(rule, standing) for standing in stands])


def read_journal(data: bytes) -> tuple[list[list[int]], list[Posting]]:
    """FORMATS, The journal, and its faults 1 to 6: the sheets and the postings."""
    listed = items(data)
    if listed[:1] != [(KIND, b"JRN")]:
        raise Refused("2")
    sheets: list[list[int]] = []
    postings: list[Posting] = []
    place = 1                                     # of the item that comes next, from 0

    def take(*key: int) -> list[int]:
        nonlocal place
        place += 1
        if place > len(listed) or listed[place - 1][0] != key:
            raise Refused(f"3 {place}")
        values, wrong = numbers(listed[place - 1][1], 2 ** 64 - 1 if key == (981, 6) else 2 ** 32 - 1)
        if wrong is not None or (key == (981, 6) and len(values) != 1):
            raise Refused(f"4 {place}")
        if not in_number(key, values, {}) or (key in ((981, 1), (982, 1)) and len(postings) == MOST_POSTINGS):
            raise Refused(f"5 {place}")
        if not in_range(key, values) or not in_order(key, values, {}):
            raise Refused(f"6 {place}")
        return values

    while place < len(listed) and listed[place][0] == (971, 1):
        sheets.append(take(971, 1))
    while place < len(listed):
        if listed[place][0] == (982, 1):
            postings.append(Posting(*take(982, 1), targets=take(982, 2)))
        else:
            first, (stem_number, species) = take(981, 1), take(981, 2)
            stem = Stem(stem_number, species, take(981, 3), in_parts(take(981, 4), 2))
            postings.append(Posting(*first, stem, [Log(*log) for log in in_parts(take(981, 5), 3)], take(981, 6)[0]))
    return sheets, postings


def journal_text(history: History) -> bytes:
    """FORMATS, The journal: one item for each sheet, and then the items of each posting."""
    lines: list[tuple[int, ...]] = [(971, 1, *sheet) for sheet in history.sheets]
    for posting in history.postings:
        first = (posting.harvester, posting.number, posting.version)
        if posting.targets is not None:
            lines += [(982, 1, *first), (982, 2, *posting.targets)]
        else:
            stem = posting.stem
            lines += [(981, 1, *first), (981, 2, stem.number, stem.species), (981, 3, *stem.samples),
                      (981, 4, *(value for zone in stem.zones for value in zone)),
                      (981, 5, *(value for log in posting.logs for value in log)), (981, 6, posting.worth)]
    return b"1 2 JRN~\n" + b"".join(b" ".join(b"%d" % value for value in line) + b"~\n" for line in lines)


def replay(history: History, who: str = "replay") -> None:
    """COMMANDS, check, faults 1 to 9: raises the first, if the history isn't lawful."""
    instruction, sheets = history.instruction, history.sheets
    before: list[Posting] = []

    def refuse(is_wrong: bool, *fields: int) -> None:
        if is_wrong:
            raise Fault(" ".join(map(str, (who, "fault", *fields))), 4)

    def judge_sheet() -> None:
        version = len(ends(instruction, before))
        stands = standings(instruction, before)
        refuse(version >= len(sheets) or len(sheets[version]) != len(stands), 1, version)
        for place, standing in enumerate(stands):
            refuse(not in_relation(standing, sheets[version][place]), 2, version, place)

    for at, posting in enumerate(history.postings):
        ended = ends(instruction, before)
        if not before or ended[-1:] == [at - 1]:
            judge_sheet()
        refuse(posting.number != 1 + sum(other.harvester == posting.harvester for other in before), 3, at)
        refuse(posting.version != len(ended), 4, at)
        if posting.targets is not None:
            refuse(not are_valid(instruction, posting.targets), 9, at)
        else:
            worth = worth_of_cutting(instruction, sheets[posting.version], posting.stem, posting.logs)
            refuse(worth is None, 5, at)
            refuse(worth != posting.worth, 6, at)
            refuse(worth < best(instruction, sheets[posting.version], posting.stem)[1], 7, at)
        before.append(posting)
    ended = ends(instruction, before)
    refuse(len(sheets) != len(ended) + 1, 1, min(len(sheets), len(ended) + 1))
    if not before or ended[-1:] == [len(before) - 1]:
        judge_sheet()


def worth_of_cutting(instruction: Instruction, sheet: list[int], stem: Stem, logs: list[Log]) -> int | None:
    """RULES, Cuttings, and the best one: what logs are worth together, none if they aren't an admissible cutting."""
    end = worth = 0
    for log in logs:
        its_class = class_of(instruction, stem, log)
        if its_class is None or log.start < end:
            return None
        end = end_of(instruction, log)
        worth += worth_of(instruction, sheet, log, its_class)
    return worth


def are_valid(instruction: Instruction, targets: list[int]) -> bool:
    """RULES, Postings: valid targets."""
    return (len(targets) == len(instruction.targets()) and all(target <= 1_000_000 for target in targets)
            and all(sum(targets[a.first_class:a.first_class + len(a.prices)]) <= 1_000_000_000
                    for a in instruction.assortments))


def tie(history: History, files: list[list[Stem]], rule: str | None) -> None:
    """COMMANDS, check, with stem files and a rule, faults 1 to 4: raises the first, if there is one."""
    for harvester in range(1, 65 if files else 1):
        cuts = [posting.stem for posting in history.postings if posting.harvester == harvester and posting.stem]
        stems = files[harvester - 1] if harvester <= len(files) else []
        for place, (cut, stem) in enumerate(zip_longest(cuts, stems), 1):
            if cut != stem:
                raise Fault(f"check fault {2 if cut is None else 3 if stem is None else 1} {harvester} {place}", 4)
    for version, end in enumerate([-1, *ends(history.instruction, history.postings)] if rule else []):
        for place, standing in enumerate(standings(history.instruction, history.postings[:end + 1])):
            price, wanted = history.sheets[version][place], ready_answer(rule, standing)
            if price != wanted:
                raise Fault(f"check fault 4 {version} {place} {price} {wanted}", 4)


def bucking_text(instruction: Instruction, stems: list[Stem]) -> bytes:
    """FORMATS, The text of a bucking."""
    sheet = instruction.base_prices()
    cuttings = [best(instruction, sheet, stem) for stem in stems]
    text = b""
    for stem, (logs, worth) in zip(stems, cuttings):
        text += b"STEM %d %d %d %d\n" % (stem.number, stem.length(), len(logs), worth)
        for log in logs:
            its_class = class_of(instruction, stem, log)
            text += b"LOG %d %d %d %d %d %d %s\n" % (
                log.start, log.length, its_class.top, its_class.row, its_class.column,
                worth_of(instruction, sheet, log, its_class), instruction.assortments[log.assortment].name)
    return text + b"TOTAL %d %d %d\n" % (
        len(stems), sum(len(logs) for logs, _ in cuttings), sum(worth for _, worth in cuttings))


def report_text(history: History) -> bytes:
    """FORMATS, The report of a closed fleet."""
    text = b""
    for at, posting in enumerate(history.postings):
        place = (at, posting.harvester, posting.number, posting.version)
        if posting.stem is None:
            text += b"DEMAND %d %d %d %d\n" % place
        else:
            text += b"ENTRY %d %d %d %d %d %d %d\n" % (*place, posting.stem.number, len(posting.logs), posting.worth)
    stands = standings(history.instruction, history.postings)
    for a, assortment in enumerate(history.instruction.assortments):
        its = range(assortment.first_class, assortment.first_class + len(assortment.prices))
        for place in its:
            row, column = divmod(place - its.start, len(assortment.lengths))
            text += b"CLASS %d %d %d %d %d %d %d\n" % (
                a, row, column, stands[place].target, stands[place].count, stands[place].base,
                history.sheets[-1][place])
        its_degree = degree([stands[place] for place in its])
        text += b"DEGREE %d %s %s\n" % (a, b"none" if its_degree is None else b"%d" % its_degree, assortment.name)
    cuts = [posting for posting in history.postings if posting.stem is not None]
    return text + b"TOTAL %d %d %d\n" % (
        len(cuts), sum(len(cut.logs) for cut in cuts), sum(cut.worth for cut in cuts))


# The options of each command that the reference has, how few and how many files, and how many of them before a list.
COMMANDS = {"buck": ("threads", 2, 2, 2), "fleet": ("in-turn rule period limit journal", 2, math.inf, 1),
            "check": ("rule period limit threads", 2, math.inf, 2), "report": ("period limit", 2, 2, 2),
            "table": ("period limit threads", 2, 65, 1)}
TABLES = "classes postings logs degrees assortments lacking".split()


def parsed(words: list[str]) -> tuple[dict[str, str], list[str]]:
    """COMMANDS, Command line: the options of a run, and its other words."""
    options: dict[str, str] = {}
    others: list[str] = []
    list_ends: int | None = None
    rest = iter(words[1:])
    for word in rest:
        if word == "--":
            others += rest
        elif word == "-" or not word.startswith("-"):
            others.append(word)
        else:
            name, equals, value = ("quiet", "", "") if word == "-q" else word[2:].partition("=")
            if not word.startswith(("--", "-q")) or name in options:
                raise Fault(f"error: {word}: not an option, or given twice", 2)
            if equals == "=" and name in ("quiet", "explain", "in-turn"):
                raise Fault(f"error: {word}: a value too many", 2)
            if equals == "" and name not in ("quiet", "explain", "in-turn"):
                value = next(rest, "-?")
                if value.startswith("-") and value != "-":
                    raise Fault(f"error: {word}: no value", 2)
            options[name] = value
            if list_ends is None and len(others) > COMMANDS[words[0]][3]:
                list_ends = len(others)
    if list_ends is not None and len(others) > list_ends:
        raise Fault("error: an option within a list of files", 2)
    if words[0] == "table" and any(word.startswith("-") and word != "-" for word in others[2:]):
        raise Fault("error: - at the beginning of a word after the first journal", 2)
    return options, others


def judge_words(command: str, options: dict[str, str], files: list[str]) -> None:
    """COMMANDS, the synopsis of each command, and Command line: which options and how many files."""
    takes, least, most, _ = COMMANDS[command]
    if not set(options) <= {"quiet", "explain", *takes.split()} or not least <= len(files) <= most:
        raise Fault("error: an option or a number of files that the command hasn't", 2)
    if options.get("rule", "steady") not in ("steady", "linear", "step", "root"):
        raise Fault("error: --rule: steady, linear, step or root", 2)
    for name, low, high in (("period", 1, 1_000), ("limit", 0, 1_000), ("threads", 1, 64)):
        value = number(options.get(name, "1").encode(errors="surrogateescape"), high)
        if value is None or value < low:
            raise Fault(f"error: --{name}: {low} to {high}", 2)
    if files.count("-") > 1 or (options.get("journal", "-") != "-" and options["journal"] in files):
        raise Fault("error: an input is named twice, or is OUT", 2)


def opened(files: list[str], out: str, standard_input: int) -> list[int]:
    """COMMANDS, Files: all files are opened in their order, then OUT, if it is none of them."""
    found: list[int] = []
    for place, name in enumerate(files):
        try:
            found.append(os.dup(standard_input) if name == "-" else os.open(name, os.O_RDONLY))
        except OSError:
            raise Fault(f"read fault {place}", 5) from None
    if out != "-":
        written(out, b"")
        if any(os.path.samefile(out, name) for name in files if name != "-"):
            raise Fault("write fault", 5)
    return found


def written(out: str, text: bytes) -> None:
    """COMMANDS, fleet, OUT: which is made if it isn't there."""
    try:
        with open(out, "ab" if not text else "wb") as file:
            file.write(text)
    except OSError:
        raise Fault("write fault", 5) from None


def contents(descriptor: int, place: int) -> bytes:
    """COMMANDS, Files: a file, which may be too long or not be read."""
    try:
        with open(descriptor, "rb") as stream:
            data = stream.read(LONGEST_FILE + 1)
        if len(data) <= LONGEST_FILE:
            return data
    except OSError:
        pass
    raise Fault(f"read fault {place}", 5)


def refusing(who: str, read: Callable, data: bytes):
    """COMMANDS, Files: a file that is refused."""
    try:
        return read(data)
    except Refused as refused:
        raise Fault(f"{who} fault {refused}", 1) from None


def text_of(words: list[str], standard_input: int) -> bytes | None:
    """COMMANDS, each command: what a run prints, none if the reference doesn't have its text."""
    if not words:
        instruction_bytes, _, stems_bytes = contents(os.dup(standard_input), 0).partition(b"|")
        instruction = refusing("apt", read_instruction, instruction_bytes)
        return bucking_text(instruction, refusing("stm 1", read_stems, stems_bytes))
    command = words[0]
    options, files = parsed(words)
    if command == "table" and files and files.pop() not in TABLES:
        raise Fault("error: no such table", 2)
    judge_words(command, options, files)
    out = options.get("journal", "-")
    descriptors = opened(files, out, standard_input)
    journals = {"table": len(files) - 1, "check": 1, "report": 1}.get(command, 0)
    if len(files) - 1 - journals > 64:
        raise Fault("seats", 2)
    of = [f" {place}" if journals > 1 else "" for place in range(journals + 1)]
    instruction = refusing("apt", read_instruction, contents(descriptors[0], 0))
    read = [refusing(f"journal{of[place]}", read_journal, contents(descriptors[place], place))
            for place in range(1, journals + 1)]
    stems = [refusing(f"stm {place}", read_stems, contents(descriptors[place], place))
             for place in range(journals + 1, len(files))]
    if command == "buck":
        return bucking_text(instruction, stems[0])
    instruction = instruction._replace(period=int(options.get("period", instruction.period)),
                                       limit=int(options.get("limit", instruction.limit)))
    if command == "fleet" and sum(map(len, stems)) > MOST_POSTINGS or sum(len(its[1]) for its in read) > MOST_POSTINGS:
        raise Fault("full", 3)
    if command == "fleet":
        history = in_turn(instruction, options.get("rule", "steady"), stems)
        if out != "-":
            written(out, journal_text(history))
        return (journal_text(history) if options.get("journal") == "-" else b"") + report_text(history)
    histories = [History(instruction, *its) for its in read]
    for place, history in enumerate(histories, 1):
        replay(history, f"replay{of[place]}")
    if command == "check":
        tie(histories[0], stems, options.get("rule"))
        return b"LAWFUL %d\n" % len(histories[0].postings)
    return report_text(histories[0]) if command == "report" else None


def run(words: list[str], standard_input: int = 0) -> tuple[bytes | None, bytes, int]:
    """COMMANDS, Exit statuses: the standard output, standard error and status of a run."""
    try:
        return text_of(words, standard_input), b"", 0
    except Fault as fault:
        return b"", fault.line.encode(errors="surrogateescape") + b"\n", fault.status


def main(words: list[str]) -> int:
    """Runs the worked cases, or a program beside this one, or a command."""
    if words[:1] in (["cases"], ["compare"]):
        import reference_cases
        return reference_cases.main(words)
    if words[0] not in COMMANDS if words else sys.stdin.isatty():
        print(__doc__, file=sys.stderr)
        return 2
    out, err, status = run(words)
    sys.stdout.buffer.write(out or b"")
    sys.stderr.buffer.write(err)
    return status


if __name__ == "__main__":
    sys.exit(main(sys.argv[1:]))
