#!/usr/bin/env python3
"""Holds the cases of sentences (crates/run_cases/data/sentences) to the tables of docs/FAULTS.md.

    python3 checks/sentences.py [--write]

Each row of the table of sentences has a case for each of its lines, with numbers of its own, and a row that speaks of an
item one for each item; a line of a journal has another with the journal's number, and one of an instruction another of an
owner's instruction. A line with a field too few, too many or that is no number is a mistake in the words. The last line
is 'N cases, M differ', and the status is 0 if none does; with --write the cases are written as they should be.
"""
import pathlib
import re
import sys

TOP = pathlib.Path(__file__).resolve().parent.parent
PAGE = TOP / "docs" / "FAULTS.md"
CASES = TOP / "crates" / "run_cases" / "data" / "sentences"
PLACES = {"apt": "in the instruction file", "stm": "in file 3 after the instruction (with live: in the request)"}
JOURNALS = ("journal", "replay")
NUMBERS = {"a": "17", "b": "4", "c": "2109", "d": "0", "n": "3"}
NO_LINE = ["error: there is no such fault line", "", "Usage: buckfleet explain <LINE>...", "", "For more information, try '--help'."]


def cells(line):
    """The cells of a row of a table."""
    return [cell.strip().replace("\\|", "|") for cell in re.split(r"(?<!\\)\|", line)[1:-1]]


def tables():
    """The rows of sentences, each the lines with their sentence, and those of items."""
    rows = [cells(line) for line in PAGE.read_text().split("\n") if line.startswith("| ")]
    return [(row[0], row[3]) for row in rows if len(row) == 4][1:], [row for row in rows if len(row) == 6][1:]


def lines_of(row, items):
    """Each line that a row tells of, and its sentence, or none if there is no such line."""
    for line in re.findall(r"`([^`]*)`", row[0]):
        file = line.split()[0]
        found = []
        named = [item for item in items if item[0].strip("`") == file] if "*ITEM*" in row[1] else [None]
        for item in named:
            numbers, text = dict(NUMBERS), row[1].replace("*PLACE*", PLACES.get(file, "")).replace("*KIND*", file.upper())
            if item:
                numbers["a"], numbers["b"] = item[1].strip("`").split()
                for part, cell in zip(("RANGE", "ORDER", "COUNT"), item[3:]):
                    text = text.replace(f"*{part}*", cell) if cell or f"*{part}*" not in text else ""
                text = text.replace("*ITEM*", f"Item {numbers['a']} {numbers['b']} ({item[2]})")
            text = re.sub(r"\*([abcd])\*", lambda found: numbers[found.group(1)], text)
            words = [numbers.get(word, word) for word in line.split()]
            if file in JOURNALS:
                found.append((" ".join([file, NUMBERS["n"], *words[1:]]), f"Journal {NUMBERS['n']}: {text}"))
            found.append((" ".join(words), text))
        if file == "apt":
            line, text = [it for it in found if it[1]][-1]
            yield line.replace("apt", "own", 1), f"Owner's instruction: {text}"
        yield from found


def wanted():
    """Each line that is asked for, and its sentence."""
    sentences, items = tables()
    found = {line: text for row in sentences for line, text in lines_of(row, items)}
    for row in sentences:
        line = list(lines_of(row, items))[-1][0]
        for other in (line + " 1", line + " x", line.rsplit(" ", 1)[0]):
            found.setdefault(other, "")
    return found


def case(line, text):
    """A case, as its file has it."""
    ends = [f"prints\n|{text}"] if text else [f"says {said}" for said in NO_LINE] + ["ends 2"]
    return "\n".join([f"== {line}", "run words", "word explain", f"word {line}", *ends, ""])


def main():
    head = "# Fault lines and their sentences, from the tables of docs/FAULTS.md (checks/sentences.py --write).\n\n"
    right = [case(line, text) for line, text in wanted().items()]
    if "--write" in sys.argv[1:]:
        CASES.write_text(head + "\n".join(right))
    found = CASES.read_text().split("\n\n")[1:]
    wrong = [it for it in right if it.rstrip("\n") not in {one.rstrip("\n") for one in found}]
    for it in wrong:
        print(it)
    many = abs(len(found) - len(right))
    print(f"{len(right)} cases, {len(wrong) + many} differ")
    sys.exit(1 if wrong or many or not right else 0)


if __name__ == "__main__":
    main()
