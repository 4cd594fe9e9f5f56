#!/usr/bin/env python3
"""Checks that documents say what the program does: runs, and of README.md and docs/GUIDE.md tables and sentences too.

    python3 checks/guide.py [PROGRAM]      # the program that is built, or another

- Each block that begins with `$ ` of a page of SESSIONS is run in a copy of examples/, and must print what it shows.
- The morning's figures, and the bucking of the pine, must be in README.md and the guide as the program makes them.
- Four stands are made from seeds, with four mixes of logs wanted, and swept. From the figures the lines of the guide's
  tables and its sentences with figures are made, which must be in the guide; what a sentence concludes is tested too.
  The sections of GROUNDED must have no other figure.
- bank.stm and stand.stm of examples/ must hold stems of the mixed one of these stands.

The status is 0 if all of this holds.
"""
import csv
import io
import itertools
import math
import os
import random
import re
import shutil
import statistics
import subprocess
import sys
import tempfile

TOP = os.path.dirname(os.path.dirname(os.path.abspath(__file__)))
PROGRAM = os.path.join(TOP, "crates", "buckfleet", "out", "buckfleet")

# The pages with runs; the first two have the morning's figures.
SESSIONS = ("README.md", "docs/GUIDE.md", "docs/COMMANDS.md", "docs/FORMATS.md", "docs/FAULTS.md")

# The sections of the guide in which each figure in percent, and each line of a table of figures, is measured here.
GROUNDED = ("Choose rule, limit and period", "What a stand can't give", "Before the season: prices from a stem bank")
FIGURES = r"\d %|^\| (?:[a-z ]+ \| )?[\d,]+ \| \d"

# The diameter at a relative distance from the top, as a part of that at a fifth of the height, by the taper curves of
# Laasasenaho (1982); the height of a tree by the curve of Näslund (1936). Species 1 is pine, 2 is spruce.
POWERS = (1, 2, 3, 5, 8, 13, 21, 34)
TAPER = {
    1: (2.1288, -0.63157, -1.6082, 2.4886, -2.4147, 2.3619, -1.7539, 1.0817),
    2: (2.3366, -3.2684, 3.6513, -2.2608, 0.0, 2.1501, -2.7412, 1.8876),
}
HEIGHT = {1: (2.2, 0.19), 2: (2.0, 0.185)}

# The share of pine; then of pine and of spruce the mean diameter at breast height and its deviation, in cm, and the
# height of a tree of 30 cm, in m.
STANDS = {
    "pine": (0.9, (25, 5.5, 20), (20, 5, 18)),
    "spruce": (0.1, (27, 6, 23), (25, 6.5, 23)),
    "mixed": (0.5, (26, 6, 21), (24, 6.5, 21)),
    "thinning": (0.5, (17, 4, 20), (16, 4, 19)),
}
STEMS = (100, 300, 1000, 3000)

# The stems of a stand that are its bank, and those that are cut by what is tuned on a bank.
BANK, FIELD = slice(300), slice(300, 400)

# Saw logs by lower limit of the top diameter and by length, in mm; a price is that of its row, times a factor.
ROWS = (150, 170, 190, 220, 250, 290, 330)
LENGTHS = tuple(range(3400, 6101, 300))
PRICES = {1: (4200, 4600, 5000, 5500, 6000, 6400, 6600), 2: (4500, 4800, 5100, 5500, 5800, 6000, 6100)}
FACTORS = (0.86, 0.92, 0.95, 0.98, 1.0, 1.01, 1.02, 1.03, 1.02, 1.01)
PULP = {1: 2400, 2: 2700}

# What is wanted of the lengths and of the rows, by the mixes that aren't drawn.
BELL = (3, 6, 9, 13, 15, 16, 14, 11, 8, 5)
OTHER = (10, 14, 19, 22, 18, 11, 6)
MIXES = ("near", "smooth", "uneven", "other diameters")
REACHABLE = MIXES[:3]

# The same with fewer classes.
FEW = (ROWS[0], ROWS[3], ROWS[6]), LENGTHS[::2]

RULES = ("linear", "step")
STARTS = (("linear", 300), ("step", 100), ("root", 200))
LIMITS = (0, 100, 300, 1000)
PERIODS = (1, 5, 20, 50)
COLUMNS = (("linear", 100), ("linear", 300), ("linear", 1000), ("root", 200), ("step", 100))


def zones(r, species, length):
    """The zones of a stem: grades 1, 2 and 3 upwards, with some stretches of crook (3) and of rot (4)."""
    if species == 1:
        parts = min(0.55, max(0.05, r.gauss(0.28, 0.1))), min(0.92, max(0.35, r.gauss(0.68, 0.1)))
    else:
        parts = min(0.8, max(0.2, r.gauss(0.5, 0.12))), min(0.97, max(0.5, r.gauss(0.8, 0.08)))
    # stretches: from, to, and the least grade there
    stretches = [(0, length, 1)] + [(part * length, length, grade) for part, grade in zip(parts, (2, 3))]
    for _ in range(2):
        if r.random() < 0.16:
            at = r.uniform(0.05, 0.9) * length
            stretches.append((at, at + r.uniform(300, 1500), 3))
    if r.random() < (0.06 if species == 1 else 0.13):
        stretches.append((0, r.uniform(400, 2000), 3) if species == 1 else (0, r.uniform(500, 5000), 4))
    tens = [(int(low / 10) * 10, int(high / 10) * 10, grade) for low, high, grade in stretches]
    found = []
    for at in sorted({end for low, high, _ in tens for end in (low, high) if end < length}):
        grade = max(grade for low, high, grade in tens if low <= at < high)
        if not found or found[-1][1] != grade:
            found.append((at, grade))
    return found


def stem(r, number, species, sizes):
    """A stem, as a stem file has it, and before it the diameter of its butt."""
    average, deviation, height_of_30 = sizes
    a, b = HEIGHT[species]
    breast = 0
    while not 9 <= breast <= 55:
        breast = r.gauss(average, deviation)
    of_size, of_30 = (1.3 + (d / (a + b * d)) ** 2 for d in (breast, 30))
    height = min(36, max(7, of_size * height_of_30 / of_30 * r.gauss(1, 0.05)))

    def form(x):
        return sum(factor * x**power for factor, power in zip(TAPER[species], POWERS))

    scale, lean, thin = 10 * breast / form(1 - 1.3 / height), r.gauss(0, 0.012), r.choice((50, 55, 60, 65, 70))
    bark = (0.095, 0.055) if species == 1 else (0.055, 0.01)
    samples = []
    for i in range(401):
        # from a stump of 15 cm on
        part = (0.15 + 0.1 * i) / height
        under_bark = scale * form(1 - part) * (1 - bark[0] + bark[1] * part) * (1 + 4 * lean * (part - 0.15))
        diameter = round(under_bark + r.gauss(0, 1.2))
        if 0.15 + 0.1 * i >= height - 0.5 or (diameter < thin and i > 20):
            break
        samples.append(min(1500, max(0, diameter)))
    marks = " ".join(f"{at} {grade}" for at, grade in zones(r, species, 100 * (len(samples) - 1)))
    return samples[0], f"951 1 {number}~952 1 {species}~\n953 1 {' '.join(map(str, samples))}~954 1 {marks}~\n"


def stand(name):
    """The stems of a stand, each with the diameter of its butt."""
    r = random.Random(name)
    share, pine, spruce = STANDS[name]
    return [stem(r, k + 1, *((1, pine) if r.random() < share else (2, spruce))) for k in range(max(STEMS))]


def instruction(targets, rows=ROWS, lengths=LENGTHS, split=False):
    """An instruction: saw logs of two species towards these targets, by species and row, and pulpwood without. Split,
    each row is an assortment of its own."""
    made = []
    for species in (1, 2):
        every = range(len(rows))
        for part in [[k] for k in every] if split else [every]:
            upper = rows[part[-1] + 1] if part[-1] + 1 < len(rows) else 600
            prices = [
                round(PRICES[species][ROWS.index(rows[k])] * FACTORS[LENGTHS.index(length)] / 10) * 10
                for k in part
                for length in lengths
            ]
            asked = [number for k in part for number in targets[species][k]]
            limits = [rows[k] for k in part]
            made.append((f"saw {species} {limits[0]}", species, (1, 2), limits, upper, lengths, prices, asked))
        sold = range(3000, 5501, 500)
        made.append((f"pulp {species}", species, (1, 2, 3), [60], 700, sold, [PULP[species]] * 6, [0] * 6))
    text = f"1 2 APT~901 1 100~902 1 5~903 1 300~910 1 {len(made)}~\n"
    for name, species, grades, limits, upper, sold, prices, asked in made:
        grades, limits, sold, prices, asked = (" ".join(map(str, it)) for it in (grades, limits, sold, prices, asked))
        text += f"911 1 {name}~912 1 {species}~913 1 {grades}~914 1 1~915 1 {limits}~915 2 {upper}~\n"
        text += f"916 1 {sold}~917 1 {prices}~918 1 {asked}~\n"
    return text


def wanted(mix, cut, r, lengths=LENGTHS):
    """What a mix wants of each class, by the logs that base prices give, by row."""
    all_logs, found = sum(map(sum, cut)), []
    for k, row in enumerate(cut):
        logs = sum(row)
        if mix == "near":
            parts = [(count / max(1, logs) + 0.03) ** 0.5 * math.exp(r.gauss(0, 0.5)) for count in row]
        elif mix == "smooth":
            parts = [BELL[LENGTHS.index(length)] for length in lengths]
        else:
            parts = [r.choice((0, 0, 1, 2, 4, 8)) for _ in row]
        if sum(parts) == 0:
            parts[len(parts) // 2] = 1
        share = OTHER[k] / sum(OTHER) if mix == "other diameters" else logs / all_logs
        found.append([round(10_000 * share * part / sum(parts)) for part in parts])
    return found


class Lab:
    """Runs of the program over files in one folder."""

    def __init__(self, program, folder):
        self.program, self.folder = program, folder

    def file(self, name, text):
        path = os.path.join(self.folder, name)
        with open(path, "w") as file:
            file.write(text)
        return path

    def run(self, *words):
        ran = subprocess.run([self.program, *words], capture_output=True, text=True)
        if ran.returncode != 0:
            sys.exit(f"{' '.join(words)} ended with status {ran.returncode}: {ran.stderr}")
        return ran.stdout

    def rows(self, *words):
        return csv.DictReader(io.StringIO(self.run(*words)))

    def stems(self, stems, name="stm"):
        return self.file(name, "1 2 STM~\n" + "".join(text for _, text in stems))

    def classes(self, text, stm, rule="steady"):
        """The species of each row of saw logs, with the target and the count of each of its classes."""
        found = {}
        for line in self.run("fleet", "--in-turn", "--rule", rule, self.file("apt", text), stm).splitlines():
            if line.startswith("CLASS "):
                assortment, row, _, target, count = map(int, line.split()[1:6])
                found.setdefault((assortment, row), []).append((target, count))
        names = re.findall(r"911 1 (saw|pulp) (\d)", text)
        return [(int(names[at][1]), row) for (at, _), row in found.items() if names[at][0] == "saw"]

    def counts(self, stm, rows=ROWS, lengths=LENGTHS):
        """How many logs base prices give of each class, by species and row."""
        one = {species: [[1] * len(lengths)] * len(rows) for species in (1, 2)}
        found = {1: [], 2: []}
        for species, row in self.classes(instruction(one, rows, lengths), stm):
            found[species].append([count for _, count in row])
        return found

    def sweep(self, text, stm, rules, periods, limits, *own):
        """The lines of a sweep."""
        words = [word for rule in rules for word in ("--rule", rule)] + list(own)
        words += ["--period", ",".join(map(str, periods)), "--limit", ",".join(map(str, limits))]
        return self.rows("sweep", *words, self.file("apt", text), stm)

    def figures(self, text, stm, cut, *words):
        """Degree and cost in percent, by rule, period and limit: the degree of the saw logs of both species, weighted
        by the logs that base prices give."""
        found = {}
        for row in self.sweep(text, stm, *words):
            degrees = [(int(row[f"degree_{2 * s - 2} saw {s} 150"] or 0), sum(map(sum, cut[s]))) for s in (1, 2)]
            degree = sum(degree * logs for degree, logs in degrees) / sum(logs for _, logs in degrees) / 100
            found[row["rule"], int(row["period"]), int(row["limit"])] = degree, cost(row)
        return found

    def season(self, text, stems, cut):
        """The figures of a stand's FIELD by `root`: at 200 as the mill asks, and at 80 as is tuned at 80 on its BANK."""
        mill, bank, field = self.file("mill", text), self.stems(stems[BANK], "bank"), self.stems(stems[FIELD], "field")
        found = self.figures(text, field, cut, ("root",), (5,), (200,))
        tuned = self.run("tune", "--period", "1", "--limit", "80", mill, bank)
        return {**found, **self.figures(tuned, field, cut, ("root",), (5,), (80,), "--own", mill)}


def cost(row):
    """The cost of steering of a line of a sweep, in percent; with --own the loss at those prices."""
    names = ("own_best", "own") if "own_worth_millionths" in row else ("best_base", "base")
    best, got = (int(row[f"{name}_worth_millionths"]) for name in names)
    return 100 * (best - got) / best


def degree_in_rows(classes):
    """The degree of each row by itself, weighted by its logs, in percent."""
    got = total = 0
    for _, row in classes:
        targets, logs = sum(target for target, _ in row), sum(count for _, count in row)
        if targets and logs:
            got += logs * sum(min(target / targets, count / logs) for target, count in row)
            total += logs
    return 100 * got / total


def measured(lab):
    """Degree and cost by stand, mix, number of stems, rule, period and limit; the same of 1,000 stems, thin ones first,
    of 100 stems with fewer classes, and of 100 stems tuned or not; and of the lengths in rows that are one assortment, or
    one each."""
    runs, order, few, tuned, rows = {}, {}, {}, {}, {}
    for name in STANDS:
        stems = stand(name)
        cut = lab.counts(lab.stems(stems))
        for mix in MIXES:
            r = random.Random(f"{mix} {name}")
            targets = {species: wanted(mix, cut[species], r) for species in (1, 2)}
            text = instruction(targets)
            for number in STEMS if mix in REACHABLE else (1000,):
                stm = lab.stems(stems[:number])
                found = lab.figures(text, stm, cut, RULES, (5,), LIMITS)
                for rule, limit in STARTS:
                    periods = PERIODS if mix in REACHABLE else (5,)
                    found.update(lab.figures(text, stm, cut, (rule,), periods, (limit,)))
                runs.update({(name, mix, number, *key): value for key, value in found.items()})
            if mix in REACHABLE:
                found = lab.figures(text, lab.stems(sorted(stems[:1000])), cut, RULES, (5,), (1000,))
                order.update({(name, mix, 1000, *key): value for key, value in found.items()})
                found = lab.season(text, stems, cut)
                tuned.update({(name, mix, 100, *key): value for key, value in found.items()})
                continue
            stm = lab.stems(stems[:1000])
            for rule, split in itertools.product(RULES, (False, True)):
                cuts = instruction(targets, split=split)
                paid = cost(next(lab.sweep(cuts, stm, (rule,), (5,), (300,))))
                rows[name, split, rule] = degree_in_rows(lab.classes(cuts, stm, rule)), paid
        cut = lab.counts(lab.stems(stems), *FEW)
        for mix in REACHABLE:
            r = random.Random(f"{mix} {name}")
            targets = {species: wanted(mix, cut[species], r, FEW[1]) for species in (1, 2)}
            found = lab.figures(instruction(targets, *FEW), lab.stems(stems[:100]), cut, ("linear",), (5,), (300,))
            few.update({(name, mix, 100, *key): value for key, value in found.items()})
    return runs, order, few, tuned, rows


def mean(found, *key):
    """The means of degree and cost over all stands, of one mix or several."""
    mixes = key[0] if isinstance(key[0], tuple) else key[:1]
    both = [found[(name, mix, *key[1:])] for name in STANDS for mix in mixes]
    return statistics.mean(degree for degree, _ in both), statistics.mean(paid for _, paid in both)


def cell(figures):
    return f"{figures[0]:.0f} ({figures[1]:.1f})"


def tables(runs):
    """The lines of the guide's two tables."""
    for mix in MIXES:
        for number in STEMS[:3] if mix in REACHABLE else (1000,):
            base = mean(runs, mix, number, "linear", 5, 0)[0]
            cells = [cell(mean(runs, mix, number, rule, 5, limit)) for rule, limit in COLUMNS]
            yield f"| {mix} | {number:,} | {base:.0f} | {' | '.join(cells)} |"
    for number in STEMS:
        degrees = [mean(runs, REACHABLE, number, "linear", period, 300)[0] for period in PERIODS]
        yield f"| {number:,} | {' | '.join(f'{degree:.0f}' for degree in degrees)} |"


def sentences(runs, order, few, tuned, rows):
    """The guide's sentences with figures of the stands, and whether what each says holds."""

    def at(number, rule, limit, period=5, mixes=REACHABLE, found=runs):
        return mean(found, mixes, number, rule, period, limit)

    def lost(rule, limit):
        """The most points that a period loses which ends 20 times or more in a stand."""
        pairs = [(number, period) for number in STEMS for period in PERIODS if number >= 20 * period]
        return max(at(n, rule, limit, 1)[0] - at(n, rule, limit, period)[0] for n, period in pairs)

    def a_point(less, more):
        """What a further point of degree costs."""
        return (more[1] - less[1]) / (more[0] - less[0])

    apart, other_apart = (
        max(
            abs(runs[name, mix, 1000, rule, 5, limit][0] - at(1000, rule, limit, mixes=(mix,))[0])
            for name, mix, (rule, limit) in itertools.product(STANDS, mixes, STARTS[:2])
        )
        for mixes in (REACHABLE, MIXES[3:])
    )
    yield (
        f"At 1,000 stems a single stand was up to {apart:.0f} points from the mean, and up to {other_apart:.0f} with "
        "*other diameters*.",
        apart < other_apart,
    )
    linear, step, root = ({n: at(n, rule, limit) for n in STEMS} for rule, limit in STARTS)
    yield (
        f"At a limit of 100 `step` reaches about what `linear` reaches at 300, but costs more in a large stand: "
        f"{step[1000][1]:.1f} % instead of {linear[1000][1]:.1f} % at 1,000 stems, "
        f"{step[3000][1]:.1f} % instead of {linear[3000][1]:.1f} % at 3,000.",
        all(abs(step[n][0] - linear[n][0]) < 2 and step[n][1] > linear[n][1] for n in (1000, 3000)),
    )
    yield (
        f"`root` reaches at a limit of 200 at least as much as `linear` at 300, for {root[100][1]:.1f} % instead of "
        f"{linear[100][1]:.1f} % at 100 stems; at 1,000 it reaches {root[1000][0]:.0f} % instead of "
        f"{linear[1000][0]:.0f} % for the same {root[1000][1]:.1f} %.",
        all(root[n][0] > linear[n][0] - 0.5 for n in STEMS)
        and root[100][1] < 0.8 * linear[100][1]
        and abs(root[1000][1] - linear[1000][1]) < 0.1,
    )
    none, low, middle, high = (at(1000, "linear", limit) for limit in (0, 100, 300, 1000))
    yield (
        f"With `linear` and 1,000 stems, the first 100 per mille bring {low[0] - none[0]:.0f} points of degree for "
        f"{low[1]:.1f} % of the worth, the next 200 bring {middle[0] - low[0]:.0f} for {middle[1] - low[1]:.1f} %, "
        f"and the last 700 bring {high[0] - middle[0]:.0f} for {high[1] - middle[1]:.1f} %.",
        a_point(none, low) < a_point(low, middle) < a_point(middle, high),
    )
    pairs = [(at(1000, rule, 1000, found=order), at(1000, rule, 1000)) for rule in RULES]
    yield (
        "If thin stems come first, stay at 300 or below: at 1,000 `linear` then costs "
        f"{pairs[0][0][1]:.1f} % instead of {pairs[0][1][1]:.1f} %, and `step` {pairs[1][0][1]:.1f} % instead of "
        f"{pairs[1][1][1]:.1f} %, for a lower degree.",
        all(thin[0] < grown[0] and thin[1] > 1.5 * grown[1] for thin, grown in pairs),
    )
    yield (
        f"If a period ends at least 20 times in the stand, `linear` loses at most {lost('linear', 300):.1f} points "
        f"against a period of 1, and `step` at most {lost('step', 100):.1f}.",
        1.5 * lost("linear", 300) < lost("step", 100),
    )
    small, forced = linear[100], at(100, "linear", 1000)
    yield (
        f"At 100 stems `linear` reaches {small[0]:.0f} % at a limit of 300, and only {forced[0]:.0f} % at 1,000, "
        f"against {middle[0]:.0f} % and {high[0]:.0f} % at 1,000 stems.",
        forced[0] - small[0] < 2 < high[0] - middle[0],
    )
    fewer = at(100, "linear", 300, found=few)
    yield (
        f"with 3 rows and 5 lengths instead of 7 and 10, 100 stems reach {fewer[0]:.0f} % for {fewer[1]:.1f} %.",
        fewer[0] > small[0] + 5 and fewer[1] < small[1],
    )
    other = {(rule, limit): at(1000, rule, limit, mixes=MIXES[3:]) for rule in RULES for limit in (300, 1000)}
    yield (
        f"At 1,000 stems `linear` and `step` stop at {other['linear', 300][0]:.0f} % at a limit of 300; at 1,000, "
        f"`linear` pays {other['linear', 1000][1]:.1f} % to reach {other['linear', 1000][0]:.0f} %, and `step` "
        f"{other['step', 1000][1]:.0f} % to reach {other['step', 1000][0]:.0f} %.",
        abs(other["linear", 300][0] - other["step", 300][0]) < 1,
    )
    (mixed, own), (mixed_step, own_step) = (
        [tuple(map(statistics.mean, zip(*(rows[name, split, rule] for name in STANDS)))) for split in (False, True)]
        for rule in RULES
    )
    yield (
        f"In the same stands, at a limit of 300, lengths within a row then reached {own[0]:.0f} % instead of "
        f"{mixed[0]:.0f} % with `linear`, at about the same cost ({own[1]:.1f} %). With `step` they reached "
        f"{own_step[0]:.0f} % instead of {mixed_step[0]:.0f} %, at {own_step[1]:.1f} % instead of {mixed_step[1]:.1f} %.",
        own[0] > mixed[0] + 2 and own_step[0] > mixed_step[0] + 10 and abs(own[1] - mixed[1]) < 0.2,
    )
    mill, made = (at(100, "root", limit, found=tuned) for limit in (200, 80))
    yield (
        f"In the four stands above, tuned so, 100 stems reached {made[0]:.0f} % at 80 for {made[1]:.1f} %, untuned "
        f"{mill[0]:.0f} % at 200 for {mill[1]:.1f} %.",
        abs(made[0] - mill[0]) < 1 and made[1] < 0.8 * mill[1],
    )


def morning(lab):
    """What README and the guide show of the morning's journal and of its pine saw logs."""
    files = [os.path.join(TOP, "examples", name) for name in ("morning.apt", "morning.jrn")]
    postings, parts, lacking = (list(lab.rows("table", *files, it)) for it in ("postings", "assortments", "lacking"))
    columns = ("worth_millionths", "base_worth_millionths", "best_base_worth_millionths")
    force, got, best = (sum(int(row[column] or 0) for row in postings) for column in columns)
    pine = parts[0]
    both = [f"{best / 1e6:,.2f}", f"{got / 1e6:,.2f}", f"{100 * (best - got) / best:.2f} %"]
    both += [f"{int(pine[column]) / 100:.2f} %" for column in ("degree", "unsteered_degree")]
    told = [f"{(best - got) / 1e6:,.2f}", f"{force / 1e6:,.2f}"]
    wood, unsteered = ([int(part[column]) for part in parts] for column in ("volume_cm3", "unsteered_volume_cm3"))
    told.append(f"{sum(unsteered) / 1e6:.2f} m³ unsteered and {sum(wood) / 1e6:.2f} as cut")
    shares = [100 * volumes[0] / sum(volumes) for volumes in (wood, unsteered)]
    told.append(f"have {shares[0]:.1f} % of the volume instead of {shares[1]:.1f}")
    for kind in ("diameter", "length"):
        now, base = (int(pine[f"{column}{kind}_degree"]) / 100 for column in ("", "unsteered_"))
        told += [f"*Of {kind}s*, {now:.2f} %", f"({base:.2f} % unsteered)"]
    most = lacking[0]
    metres, lacks, wants = (
        int(most[column]) / unit for column, unit in (("length_mm", 1000), ("lacking_tenths", 10), ("wanted_tenths", 10))
    )
    told.append(f"{most['name'].capitalize()} of {metres} m lacks {lacks} of {wants} logs")
    told.append(f"costs its assortment {int(most['degree_ten_thousandths']) / 100} points")
    told.append(f"up by {100 * (int(most['price']) / int(most['base_price']) - 1):.1f} %")
    rates = {}
    for harvester in "123":
        free, best = (
            sum(int(row[column]) for row in postings if row["harvester"] == harvester and row["kind"] == "cut")
            for column in ("grade_free_base_worth_millionths", "best_base_worth_millionths")
        )
        rates[harvester] = f"{100 * (free - best) / free:.2f}"
    told.append(f"Grades cost harvester 3 {rates['3']} %, the others {rates['1']} and {rates['2']}.")
    return both, both + told


def wrong_stems():
    """The stem files of examples/ that don't hold stems of the mixed stand."""
    for name, part in (("bank.stm", BANK), ("stand.stm", FIELD)):
        with open(os.path.join(TOP, "examples", name)) as file:
            if not file.read().endswith("~\n" + "".join(text for _, text in stand("mixed")[part])):
                yield f"examples/{name} doesn't hold its stems of the mixed stand"


def sessions(program, folder, text):
    """How the blocks of a page that begin with `$ ` differ from their run in a copy of examples/."""
    shutil.copytree(os.path.join(TOP, "examples"), os.path.join(folder, "examples"))
    os.symlink(program, os.path.join(folder, "buckfleet"))
    paths = {**os.environ, "PATH": f"{folder}:{os.environ['PATH']}"}
    blocks = re.findall(r"^```\n(\$ (?:.*\n)*?)```", text, re.M)
    if not blocks:
        yield "no run is shown"
    for block in blocks:
        printed = ""
        for line in [it for it in block.splitlines() if it.startswith("$ ")]:
            words = ["sh", "-c", line[2:]]
            ran = subprocess.run(words, capture_output=True, text=True, env=paths, cwd=f"{folder}/examples")
            printed += f"{line}\n{ran.stdout}{ran.stderr}"
        if printed != block:
            yield f"a run prints\n{printed}and not\n{block}"


def section(text, name):
    return re.search(rf"^## {re.escape(name)}\n(.*?)(?=^## |\Z)", text, re.M | re.S)[1]


def main():
    program = os.path.abspath(sys.argv[1] if len(sys.argv) > 1 else PROGRAM)
    pages, wrong = {}, []
    for name in SESSIONS:
        with open(os.path.join(TOP, name)) as file:
            pages[name] = file.read()
        with tempfile.TemporaryDirectory() as folder:
            wrong += [f"{name}: {line}" for line in sessions(program, folder, pages[name])]
    guide = pages["docs/GUIDE.md"]
    wrong += wrong_stems()
    with tempfile.TemporaryDirectory() as folder:
        lab = Lab(program, folder)
        for name, figures in zip(pages, morning(lab)):
            wrong += [f"{name} lacks the morning's {figure}" for figure in figures if figure not in pages[name]]
        found = measured(lab)
    with open(os.path.join(TOP, "examples", "pine.out")) as file:
        pine = file.read().splitlines()
    shown = re.findall(r"^(?:STEM|LOG|TOTAL) .*$", pages["README.md"], re.M)
    wrong += [f"README.md: {line} isn't printed of the pine" for line in shown if line not in pine]
    lines, said = list(tables(found[0])), list(sentences(*found))
    rest = "".join(section(guide, name) for name in GROUNDED)
    for words in lines + [sentence for sentence, _ in said]:
        if words not in rest:
            wrong.append(f"docs/GUIDE.md lacks: {words}")
        rest = rest.replace(words, "")
    wrong += [f"docs/GUIDE.md: this isn't borne out: {sentence}" for sentence, holds in said if not holds]
    wrong += [f"docs/GUIDE.md: nothing measures: {line}" for line in rest.splitlines() if re.search(FIGURES, line)]
    for line in wrong:
        print(line)
    print(f"{len(lines)} lines and {len(said)} sentences, {len(wrong)} wrong")
    return 1 if wrong else 0


if __name__ == "__main__":
    sys.exit(main())
