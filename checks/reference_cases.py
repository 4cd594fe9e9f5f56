"""The commands `cases` and `compare` of reference.py: the worked cases, and random workloads.

`cases` reads the files of docs/CASES.md, and counts the cases whose answer the reference knows. `compare` makes small
files at random, some of them damaged, runs a program and the reference on them, and prints each run that differs: in
its standard output or error, in what it writes into OUT, or in its status. Of a mistake in the words only the status
and the empty output are compared, with `--explain` only the last line of standard error, and of a table no text.
"""
from __future__ import annotations

import os
import pathlib
import re
import subprocess
import sys
import tempfile
from collections import Counter
from dataclasses import dataclass
from random import Random
from typing import NamedTuple

import reference as ref

DATA = pathlib.Path(__file__).resolve().parent.parent / "crates" / "run_cases" / "data"


class Ran(NamedTuple):
    """What a run prints (none if it isn't known), what it says, its status, and the journal that it writes."""
    out: bytes | None
    err: bytes
    status: int
    kept: bytes


@dataclass
class Case:
    """CASES, The form: what goes into a case, and what it wants: the lines prints, says, ends and keeps."""
    title: str
    run: str
    words: list[str]
    files: dict[str, bytes]
    wants: Ran = Ran(b"", b"", 0, b"")


def plain(line: str) -> bytes:
    """CASES, The form: a line of bytes."""
    text = re.sub(r"\\\\|\\x(..)|\\$", lambda m: chr(int(m[1], 16)) if m[1] else m[0][1:], line)
    return (text + ("" if re.search(r"(?<!\\)(\\\\)*\\$", line) else "\n")).encode("latin-1")


def read_cases(text: str) -> list[Case]:
    """CASES, The form: the cases of a file."""
    cases = [Case("", "", [], {"input": b"", "apt": b"", "stm": b"", "jrn": b""})]
    into = ""
    for line in text.split("\n"):
        word, _, rest = line.partition(" ")
        case = cases[-1]
        if line.startswith("|") and into in ("prints", "keeps"):
            field = "out" if into == "prints" else "kept"
            case.wants = case.wants._replace(**{field: getattr(case.wants, field) + plain(line[1:])})
        elif line.startswith("|"):
            case.files[into] += plain(line[1:])
        elif word == "==":
            cases.append(Case(rest, case.run, [], dict(case.files)))
        elif word == "run":
            case.run = rest
        elif word == "word":
            case.words.append(rest)
        elif word == "says":
            case.wants = case.wants._replace(err=case.wants.err + plain(rest))
        elif word == "ends":
            case.wants = case.wants._replace(status=int(rest))
        elif word in ("prints", "keeps"):
            into = word
        elif word in ("file", "input", "apt", "stm", "jrn"):
            into = rest if word == "file" else word
            case.files[into] = b""
        elif line and not line.startswith("#"):
            raise ValueError(line)
    return cases[1:]


def words_for(case: Case) -> list[str] | None:
    """CASES, The form, run: the words of a case; none if the reference doesn't have its command."""
    if case.run.startswith("fleet "):
        return ["fleet", "--rule", case.run.split()[1], "--journal", "kept", "apt", "stm"]
    if case.run == "words":
        in_turn = case.words[0] != "fleet" or "--in-turn" in case.words or case.wants.status != 0
        return case.words if case.words[0] in ref.COMMANDS and in_turn else None
    return {"bare": [], "buck": ["buck", "apt", "stm"], "check": ["check", "apt", "jrn"]}[case.run]


def run_here(program: str | None, words: list[str], files: dict[str, bytes]) -> Ran:
    """Runs a program, or the reference, in a new folder with some files; `input` is its standard input."""
    with tempfile.TemporaryDirectory() as folder:
        for name, data in files.items():
            pathlib.Path(folder, name).write_bytes(data)
        source = os.path.join(folder, "input") if "input" in files else os.devnull
        with open(source, "rb") as standard_input:
            if program is None:
                before = os.getcwd()
                os.chdir(folder)
                try:
                    out, err, status = ref.run(words, standard_input.fileno())
                finally:
                    os.chdir(before)
            else:
                done = subprocess.run([program, *words], stdin=standard_input, capture_output=True, cwd=folder)
                out, err, status = done.stdout, done.stderr, done.returncode
        kept = pathlib.Path(folder, words[words.index("--journal") + 1] if "--journal" in words else "none")
        written = kept.read_bytes() if kept.is_file() else b""
        return Ran(out, err, status, b"" if written == files.get(kept.name) else written)


def agree(ours: Ran, other: Ran, words: list[str]) -> bool:
    """Returns `True` if a run is as the reference has it, as far as the reference knows."""
    if ours.err.startswith(b"error: "):
        return other.err.startswith(b"error: ") and ours[::2] == other[::2]
    last = b"".join(other.err.splitlines(keepends=True)[-1:])
    return ours == other._replace(out=other.out if ours.out is not None else None,
                                  err=last if "--explain" in words else other.err)


def run_cases(folder: str) -> int:
    """Runs all files of a folder; prints for each how many cases are known, and how many of these differ."""
    known = differ = all_cases = 0
    for path in sorted(pathlib.Path(folder).iterdir()):
        cases = read_cases(path.read_text(encoding="ascii"))
        runs = [(case, words, run_here(None, words, case.files))
                for case in cases if (words := words_for(case)) is not None]
        runs = [(case, words, ours) for case, words, ours in runs if ours.out is not None]
        wrong = [case.title for case, words, ours in runs if not agree(ours, case.wants, words)]
        print("".join(f"  {title}\n" for title in wrong) +
              f"{path.name}: {len(runs)} of {len(cases)} cases known, {len(wrong)} differ", flush=True)
        known, differ, all_cases = known + len(runs), differ + len(wrong), all_cases + len(cases)
    print(f"cases: {known} of {all_cases} known, {differ} differ")
    return 1 if differ else 0


ODD = [0, 1, 8, 9, 10, 16, 17, 32, 64, 65, 200, 201, 255, 256, 499, 500, 1_000, 1_001, 1_500, 1_501, 2_000, 2_001,
       30_000, 30_001, 40_000, 40_001, 65_535, 65_536, 1_000_000, 1_000_001, 10_000_001, 20_000_001, 2 ** 32 - 1,
       2 ** 32, 2 ** 64 - 1, 2 ** 64]
TARGETS: list[list[int]] = [[0], [0, 1], list(range(10)), [1, 5, 1_000_000]]


def few_or_many(random: Random, many: int, *ranges: range | list[int]) -> list[int]:
    """Makes numbers of one of some ranges: few values, so that there are many ties, or many."""
    some = random.choice(ranges)
    return [random.choice(some) for _ in range(many)]


def instruction(random: Random) -> ref.Instruction:
    """Makes a small instruction; two of its assortments may be alike, so that they tie."""
    module = random.choice([50, 100, 100, 250, 500])
    found: list[ref.Assortment] = []
    for _ in range(random.randint(1, 3)):
        lower = sorted(random.sample(range(0, 300, 10), random.randint(1, 3)))
        lengths = sorted(random.sample(range(-(-500 // module) * module, 3_001, module), random.randint(1, 3)))
        many = len(lower) * len(lengths)
        new = ref.Assortment(
            random.choice([b"saw", b"pulp wood", b"\xc3\xa4=\xff"]), random.choice([1, 1, 1, 2]),
            sorted(random.sample(range(1, 9), random.randint(1, 8))) if random.random() < 0.5 else [1, 2, 3],
            random.randint(1, 2), lower, lower[-1] + random.choice([1, 20, 300, 1_000]), lengths,
            few_or_many(random, many, [0, 100, 200], [100], [300, 300, 0], range(1, 1_000), range(10_000_001)),
            few_or_many(random, many, *TARGETS), random.choice([0, 0, 0, 30, 50, 100, 200]), 0)
        if found and random.random() < 0.4:
            new = found[-1]._replace(name=new.name, trim=random.choice([new.trim, found[-1].trim]))
        found.append(new._replace(first_class=sum(len(other.prices) for other in found)))
    return ref.Instruction(module, random.choice([1, 1, 2, 3, 5]), random.choice([0, 50, 300, 1_000]), found)


def stem(random: Random, it: ref.Instruction) -> ref.Stem:
    """Makes a stem of at most 7 m: even, tapering, or of any shape; with zones, some at ends of logs."""
    many = random.choice([1, 2, random.randint(1, 70), random.randint(20, 70)])
    first = random.choice([0, 50, 100, 300, 300, 300, 1_500])
    step, noise = random.choice([(0, 0), (0, 0), (3, 0), (3, 9), (0, first)])
    samples = [min(1_500, max(0, first - step * place + random.randint(-noise, noise))) for place in range(many)]
    ends = [place * length for a in it.assortments for length in a.lengths for place in (1, 2)]
    some = random.choice([ends, [*range(0, 7_000, 50), 7, 333, 40_000]])
    starts = sorted(set(random.choices(some, k=random.choice([0, 0, 1, 2, 4]))))
    return ref.Stem(random.choice([random.randint(1, 9), 2 ** 32 - 1]), random.choice([1, 1, 1, 1, 2, 3]), samples,
                    [(start, random.choice([1, 1, 2, 2, 3, 8])) for start in starts])


def shuffled(random: Random, group: dict[tuple[int, int], list]) -> bytes:
    """Writes items in any order, with white bytes and zeros as they may stand."""
    found: list[bytes] = []
    for key, values in group.items():
        white = random.choice([b" ", b" ", b" ", b"\n", b"\t", b" \r\n"])
        zeros = random.choice([b"", b"", b"", b"0", b"0" * 30])
        words = [value if isinstance(value, bytes) else zeros + b"%d" % value for value in (*key, *values)]
        found.append(white.join(words) + random.choice([b"~", b"~\n", b"~~ ", b" ~"]))
    random.shuffle(found)
    return b"".join(found)


def instruction_text(random: Random, it: ref.Instruction) -> bytes:
    """Writes the file of an instruction."""
    text = shuffled(random, {(1, 2): [b"APT"], (901, 1): [it.module], (902, 1): [it.period], (903, 1): [it.limit],
                             (910, 1): [len(it.assortments)]})
    for a in it.assortments:
        group = {(912, 1): [a.species], (913, 1): a.grades, (914, 1): [a.price_kind], (915, 1): a.lower,
                 (915, 2): [a.upper], (916, 1): a.lengths, (917, 1): a.prices, (918, 1): a.targets}
        trim = {(919, 1): [a.trim]} if a.trim or random.random() < 0.1 else {}
        text += b"911 1 " + a.name + b"~" + shuffled(random, group | trim)
    return text + random.choice([b"", b"", b"0 0 a note~"])


def stems_text(random: Random, stems: list[ref.Stem]) -> bytes:
    """Writes the file of some stems."""
    text = shuffled(random, {(1, 2): [b"STM"]})
    for it in stems:
        zones = {(954, 1): [value for zone in it.zones for value in zone]} if it.zones or random.random() < 0.3 else {}
        text += shuffled(random, {(951, 1): [it.number]})
        text += shuffled(random, {(952, 1): [it.species], (953, 1): it.samples} | zones)
    return text


def damaged(random: Random, text: bytes) -> bytes:
    """Edits a file once: a number, a word, an item or a byte."""
    pieces = text.split(b"~")
    at, place = random.randrange(len(pieces)), random.randrange(len(text) + 1)
    words = pieces[at].split()
    word = random.randrange(len(words)) if words else 0
    edit = random.choice("number number number odd odd lost twice item items swap kind cut byte".split())
    if edit == "number" and words and words[word].isdigit():
        words[word] = b"%d" % max(0, int(words[word]) + random.choice([1, -1, 1, -1, 50, 100, -100, 500]))
    elif edit == "odd" and words:
        words[word] = random.choice([b"x", b"-1", b"+7", b"1.5", *(b"%d" % random.choice(ODD) for _ in range(3))])
    elif edit in ("lost", "twice"):
        words[word:word + 1] = words[word:word + 1] * (2 if edit == "twice" else 0)
    pieces[at] = b" ".join(words)
    if edit in ("item", "items", "swap", "kind"):
        pieces[at:at + 2] = {"item": pieces[at + 1:at + 2], "items": [pieces[at], *pieces[at:at + 2]],
                             "swap": pieces[at:at + 2][::-1], "kind": [*pieces[at:at + 2], b"1 2 STM"]}[edit]
    if edit == "cut":
        return text[:place]
    if edit == "byte":
        return text[:place] + random.choice([b"~", b" ", b"|", b"\x0b", b"\xa0", b"7", b"\x00"]) + text[place:]
    return b"~".join(pieces)


def altered(random: Random, made: ref.History) -> ref.History:
    """Changes one posting of a history: its number, version, targets, worth or one of its logs, or logs and worth."""
    with_logs = [place for place, posting in enumerate(made.postings) if posting.logs]
    at = random.choice(with_logs if with_logs and random.random() < 0.8 else range(len(made.postings)))
    it, posting, logs = made.instruction, made.postings[at], list(made.postings[at].logs)
    if logs:
        place = random.randrange(len(logs))
        log = logs[place]
        logs[place:place + 1] = random.choice([
            [], [], [log, log], [log._replace(assortment=random.randrange(4))],
            [log._replace(start=max(0, log.start + random.choice([1, it.module, 100, -it.module])))],
            [log._replace(length=log.length + random.choice([it.module, 1, -500]))]])
    sheet = made.sheets[min(posting.version, len(made.sheets) - 1)]
    classes = [(log, ref.class_of(it, posting.stem, log)) for log in logs if log.length >= 0]
    worth = sum(ref.worth_of(it, sheet, log, its_class) for log, its_class in classes if its_class)
    other = random.choice([{"number": posting.number + 1}, {"version": posting.version + 1},
                           {"worth": posting.worth + 1}, *[{"logs": logs, "worth": worth + 1}] * 4,
                           *[{"logs": logs, "worth": worth}] * 5])
    if posting.targets is not None and random.random() < 0.5:
        other = {"targets": random.choice([posting.targets[1:], [*posting.targets, 1]])}
    made.postings[at] = posting._replace(**other)
    return made


def history(random: Random, it: ref.Instruction, rule: str | None) -> ref.History:
    """Makes a lawful history of cuts and demands; without a rule its prices lie anywhere that they may."""
    found = ref.History(it, [it.base_prices()], [])
    harvesters = random.choice([[1], [1, 2], [3, 1, 2], [64, 7]])
    for _ in range(random.choice([0, 1, 3, 5, 8])):
        harvester = random.choice(harvesters)
        number = 1 + sum(other.harvester == harvester for other in found.postings)
        posting = ref.Posting(harvester, number, len(found.sheets) - 1)
        if random.random() < 0.25:
            posting = posting._replace(targets=few_or_many(random, len(it.base_prices()), *TARGETS))
        else:
            felled = stem(random, it)
            logs, worth = ref.best(it, found.sheets[-1], felled)
            posting = posting._replace(stem=felled, logs=logs, worth=worth)
        sheets = len(found.sheets)
        ref.add(found, posting, rule or "steady")
        if rule is None and len(found.sheets) > sheets:
            found.sheets[-1] = [any_price(random, standing) for standing in ref.standings(it, found.postings)]
    return found


def any_price(random: Random, standing: ref.Standing) -> int:
    """Makes a price in the relation, or seldom one outside it."""
    low, high = standing.base - standing.span(), standing.base + standing.span()
    some = [low, standing.base, high, random.randint(low, high)]
    return random.choice([price for price in some if ref.in_relation(standing, price) or random.random() < 0.003])


def some_history(random: Random, it: ref.Instruction, rule: str | None) -> ref.History:
    """Makes a history, which is seldom by another period and limit, and often not lawful."""
    made = history(random, it._replace(period=5, limit=1_000) if random.random() < 0.05 else it, rule)
    return altered(random, made) if made.postings and random.random() < 0.4 else made


def workload(random: Random) -> tuple[list[str], dict[str, bytes]]:
    """Makes a command line and its files."""
    it = instruction(random)
    kind = random.choice(["buck", "bare", "fleet", "fleet", "check", "check", "check", "report", "table"])
    rule = random.choice([None, "steady", "linear", "step", "root"])
    options: list[str] = []
    if kind not in ("buck", "bare") and random.random() < 0.2:
        options += [f"--period={random.choice([0, 1, 2, 3, '02', 1_000, 1_001, 'x'])}"]
    if kind not in ("buck", "bare") and random.random() < 0.2:
        options += ["--limit", str(random.choice([0, 100, 300, "0300", 1_000, 1_001]))]
    made = [some_history(random, it, rule) for _ in range({"check": 1, "report": 1, "table": 2}.get(kind, 0))]
    felled: list[list[ref.Stem]] = [[stem(random, it) for _ in range(random.choice([0, 1, 2, 5]))]
                                    for _ in range(random.choice([1, 1, 2, 3]) if kind == "fleet" else 1 - len(made))]
    if kind == "check" and random.random() < 0.5:
        harvesters = max((posting.harvester for posting in made[0].postings), default=1)
        felled = [[posting.stem for posting in made[0].postings if posting.harvester == harvester and posting.stem]
                  for harvester in range(1, harvesters + 1)]
        for stems in felled[:random.choice([0, 0, 1, 3])]:
            random.shuffle(stems)
            stems[len(stems) // 2:] = random.choice([[], [stem(random, it)], stems[len(stems) // 2:], stems])
    files = {"a.apt": instruction_text(random, it)}
    files |= {f"{place}.jrn": ref.journal_text(each) for place, each in enumerate(made, 1)}
    files |= {f"{place}.stm": stems_text(random, stems) for place, stems in enumerate(felled, 1)}
    for name in files:
        if random.random() < (0.3 if name.endswith("jrn") else 0.12):
            files[name] = damaged(random, files[name])
    if kind in ("fleet", "check") and random.random() < (0.9 if rule else 0.1):
        options += ["--rule", rule if rule and random.random() < 0.9 else "step"]
    if kind == "bare":
        return [], {"input": files["a.apt"] + b"|" + files["1.stm"]}
    options += ["--in-turn", "--journal", "out.jrn"] if kind == "fleet" else []
    options += options[-1:] if random.random() < 0.03 else []
    names = [*(["--"] if random.random() < 0.1 else []), *files, *(["none.stm"] if random.random() < 0.02 else []),
             *(["classes"] if kind == "table" else [])]
    place = random.choice([0, 0, 0, 0, 0, 0, len(names), random.randint(0, len(names))])
    return [kind, *names[:place], *options, *names[place:]], files


def compare(program: str, count: int, seed: int) -> int:
    """Runs a program and the reference on random files; prints where they differ, and how often each answer came."""
    differ = 0
    tally: Counter[str] = Counter()
    for number in range(count):
        words, files = workload(Random(f"{seed} {number}"))
        ours, other = run_here(None, words, files), run_here(program, words, files)
        said = re.match(r"error|[a-z]*( [a-z]+)?( \d)? fault \d+|[a-z]*", ours.err.decode(errors="replace"))
        tally[f"{' '.join(words[:1]) or 'bare'}: {said[0] or 'done'}"] += 1
        if not agree(ours, other, words):
            differ += 1
            print(f"workload {number} of seed {seed}: {' '.join(words)}\n  reference {ours}\n  program   {other}")
    for answer, times in sorted(tally.items()):
        print(f"  {times:5} {answer}")
    print(f"compare: {count} random workloads of seed {seed}, {differ} differ")
    return 1 if differ else 0


def main(words: list[str]) -> int:
    """Runs `cases [FOLDER]` or `compare PROGRAM [--count N] [--seed S]`."""
    if words[0] == "cases" and len(words) <= 2:
        return run_cases(words[1] if len(words) == 2 else DATA)
    options = dict(zip(words[2::2], words[3::2]))
    if words[0] == "compare" and len(words) >= 2 and len(words) % 2 == 0 and set(options) <= {"--count", "--seed"}:
        return compare(os.path.abspath(words[1]), int(options.get("--count", 300)), int(options.get("--seed", 1)))
    print(ref.__doc__, file=sys.stderr)
    return 2
