#!/usr/bin/env python3
"""Holds the tables of docs/FAULTS.md to the program's own.

    python3 checks/faults.py PROGRAM [--write]

- Fault lines and their sentences are those of crates/buckfleet_explain/src/rows.rt, in its order. Status and cause are written by
  hand, and kept.
- Items are those that `explain` knows, of the numbers that the sources' slots have; with their names, ranges, orders and
  counts, as its sentences have them.

The last line is 'N rows, M differ', and the status is 0 if none does; with --write the rows are written.
"""
import pathlib
import re
import subprocess
import sys

TOP = pathlib.Path(__file__).resolve().parent.parent
PAGE = TOP / "docs" / "FAULTS.md"
TOLD = TOP / "crates" / "buckfleet_explain" / "src"
LINES = "| Line | Status | Cause | Sentence |\n|---|---|---|---|\n"
ITEMS = "| File | Item | Name | Range | Order | Count |\n|---|---|---|---|---|---|\n"

# How a sentence on an item begins.
ITEM = "{item} {place}"


def row(cells):
    """A row of a table."""
    return "| " + " | ".join(cell.replace("|", "\\|") for cell in cells) + " |\n"


def sentences():
    """Each row of the program: its lines and its sentence, with parts in braces."""
    found = re.findall(r'lines: &\[(.*?)\],\s*sentence: "((?:\\.|[^"\\])*)"', (TOLD / "rows.rt").read_text(), re.S)
    return [(re.findall(r'"([^"]*)"', lines), text.replace('\\"', '"')) for lines, text in found]


def explained(program, line):
    """The sentence of a line, or an empty text if there is no such line."""
    return subprocess.run([program, "explain", line], capture_output=True, text=True).stdout.rstrip("\n")


def items(program):
    """Each item: the file, its number and kind, its name, and the range, order and count of its numbers."""
    sources = "".join(path.read_text() for path in TOP.glob("crates/buck*/src/**/*.rt"))
    keys = sorted({(int(number), int(kind)) for number, kind in re.findall(r"slot!\((\d+), (\d+)\b", sources)})
    texts = {line: text.removeprefix(ITEM) for lines, text in sentences() for line in lines}
    for file, before in ("apt", "apt"), ("stm", "stm 1"):
        for key in (f"{number} {kind}" for number, kind in keys):
            said = {fault: explained(program, f"{before} fault {fault} {key}") for fault in (3, 6, 7, 8)}
            if said[3]:
                item = said[3].removesuffix(texts["apt fault 3 a b"])
                parts = []
                for fault, part in (6, "range"), (7, "order"), (8, "count"):
                    around = texts[f"apt fault {fault} a b"].split(f"{{{part}}}")
                    parts.append(said[fault].removeprefix(item + around[0]).removesuffix(around[1]))
                yield file, key, re.match(rf"Item {key} \((.*?)\)", item)[1], *parts


def told(named):
    """The lines of each row of the page, and its sentence; one that tells of a few items has a row for each."""
    source = (TOLD / "told.rt").read_text()
    for lines, text in sentences():
        few = re.match(r"\{(whole|part)\}", text)
        if not few:
            yield lines, re.sub(r"\{(\w+)\}", lambda it: f"*{it[1] if len(it[1]) == 1 else it[1].upper()}*", text)
            continue
        numbers = re.search(rf"const {few[1].upper()}: \[u16; \d+\] = \[(.*)\]", source)[1].split(", ")
        for file, key, name, *_ in named:
            if file == "apt" and key.split()[0] in numbers and key.endswith(" 1"):
                line = lines[0].replace("a b", key).replace(" c", " a")
                yield [line], text.replace(few[0], f"Item {key} ({name})").replace("{c}", "*a*")


def put(page, head, rows):
    """The page with other rows below this head of a table."""
    before, after = page.split(head)
    return before + head + "".join(rows) + after[re.match(r"(\|.*\n)*", after).end():]


def main():
    program = str(pathlib.Path(sys.argv[1]).resolve())
    page = PAGE.read_text()
    kept = dict(re.findall(r"(?m)^\| (`[^|]*`) \| (\d \| .*?) \| .* \|$", page))
    named = list(items(program))
    right = [row([f"`{key}`" if at < 2 else key for at, key in enumerate(item)]) for item in named]
    written = put(page, ITEMS, right)
    right = []
    for asked, text in told(named):
        cell = ", ".join(f"`{line}`" for line in asked)
        right.append(row([cell, *kept.get(cell, "? | ?").split(" | "), text]))
    written = put(written, LINES, right)
    if "--write" in sys.argv[2:]:
        PAGE.write_text(written)
    old, new = page.splitlines(), written.splitlines()
    wrong = [line for line in new if line not in old or "| ? | ? |" in line] + [line for line in old if line not in new]
    for line in wrong:
        print(line)
    print(f"{len(right) + len(named)} rows, {len(wrong)} differ")
    return 1 if wrong or not named else 0


if __name__ == "__main__":
    sys.exit(main())
