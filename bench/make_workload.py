#!/usr/bin/env python3
"""Writes an instruction file and a stem file that look like a harvest, from a seed.

    python3 bench/make_workload.py --out FOLDER --stems 20000 --seed 1 --module 100

FOLDER/apt holds the instruction, FOLDER/stm the stems, FOLDER/pairs the number of pairs of a position and a candidate
log that fits the stem: what the cutting programme goes over. Stems are 10 to 25 m long, of 100 to 250 samples, unless
--samples says otherwise, and taper from the butt.
"""
import argparse
import os
import random


def instruction(rng, args):
    lines = [
        "1 2 APT~",
        f"901 1 {args.module}~",
        f"902 1 {args.period}~",
        "903 1 300~",
        f"910 1 {args.assortments}~",
    ]
    lengths_all = []
    for k in range(args.assortments):
        steps = range(-(-2500 // args.module), 6000 // args.module + 1)
        wanted = sorted(rng.sample(list(steps), min(args.lengths, len(steps))))
        lengths = [s * args.module for s in wanted]
        lengths_all.append(lengths)
        lower = sorted(rng.sample(range(60, 360, 10), args.rows))
        prices = [rng.randint(200, 900) for _ in range(args.rows * len(lengths))]
        targets = [rng.randint(0, 20) for _ in prices]
        lines += [
            f"911 1 assortment {k + 1}~912 1 1~913 1 1 2 3~914 1 1~",
            "915 1 " + " ".join(map(str, lower)) + "~915 2 800~",
            "916 1 " + " ".join(map(str, lengths)) + "~",
            "917 1 " + " ".join(map(str, prices)) + "~",
            "918 1 " + " ".join(map(str, targets)) + "~",
        ]
    return "\n".join(lines) + "\n", lengths_all


def stem(rng, number, samples, zoned):
    samples = rng.randint(*samples) + 1
    butt = rng.uniform(220, 480)
    top = rng.uniform(40, 90)
    diameters = []
    for i in range(samples):
        along = i / (samples - 1)
        swell = 40 * max(0.0, 1 - 12 * along)
        diameters.append(max(0, round(butt + swell - (butt - top) * along**1.2 + rng.uniform(-3, 3))))
    text = f"951 1 {number}~952 1 1~953 1 " + " ".join(map(str, diameters)) + "~"
    if rng.random() * 100 < zoned:
        length = 100 * (samples - 1)
        starts = sorted(rng.sample(range(100, length, 10), rng.randint(1, 3)))
        text += "954 1 " + " ".join(f"{s} {rng.randint(1, 4)}" for s in starts) + "~"
    return text + "\n", 100 * (samples - 1)


def pairs(length, module, lengths_all):
    """Positions and candidate logs that end within the stem."""
    return sum((length - l) // module + 1 for lengths in lengths_all for l in lengths if l <= length)


def main():
    parser = argparse.ArgumentParser(description=__doc__, formatter_class=argparse.RawDescriptionHelpFormatter)
    parser.add_argument("--out", required=True)
    parser.add_argument("--stems", type=int, default=20000)
    parser.add_argument("--seed", type=int, default=1)
    parser.add_argument("--module", type=int, default=100)
    parser.add_argument("--period", type=int, default=10)
    parser.add_argument("--assortments", type=int, default=6)
    parser.add_argument("--rows", type=int, default=4)
    parser.add_argument("--lengths", type=int, default=10)
    parser.add_argument("--samples", type=int, nargs=2, default=[100, 250], metavar=("FEWEST", "MOST"))
    parser.add_argument("--zoned", type=float, default=60, help="per cent of the stems that have grade zones")
    args = parser.parse_args()
    rng = random.Random(args.seed)
    os.makedirs(args.out, exist_ok=True)
    apt, lengths_all = instruction(rng, args)
    with open(os.path.join(args.out, "apt"), "w") as file:
        file.write(apt)
    total = 0
    with open(os.path.join(args.out, "stm"), "w") as file:
        file.write("1 2 STM~\n")
        for number in range(1, args.stems + 1):
            text, length = stem(rng, number, args.samples, args.zoned)
            file.write(text)
            total += pairs(length, args.module, lengths_all)
    with open(os.path.join(args.out, "pairs"), "w") as file:
        file.write(f"{total}\n")


if __name__ == "__main__":
    main()
