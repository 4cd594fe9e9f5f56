#!/usr/bin/env python3
"""Checks that the house is in order: pages, copies, links, names, citations, and lines that are too wide.

    python3 checks/house.py [--write]

- Each product crate has a page, crates/NAME/README.md, of at most 80 lines and 2,500 bytes, which names every module of
  its src/: in backticks, a module below another one by its path, as `run/bucking`. What it lists under "Modules" is a
  module or a submodule of the crate, and names there and under "Use it" stand in the crate. The page of a crate whose
  name others begin with names these.
- Each crate is of one of the FAMILIES, by its name. In crates.txt a family stands together below a heading, in the
  order of FAMILIES, and each crate behind those that it is built on.
- The code map of docs/ARCHITECTURE.md has each crate of the product with the first sentence of its page and the crates
  that it is built on (--write writes it).
- The files of crates/*/data that stand in examples/ too are equal to these: those of the same name, those of COPIES.
- Links in documents lead to a file, and to a heading if they name one; a file of a crate that stands in backticks is
  there: `src/..`, `specs/..` and `proofs/..` behind the crate's name, or on its own page.
- A name that stands in backticks is one of some source, as `settle_run`; with its module, type or crate, as
  `pricing::put_list`, one of a file that has these too. A path, as `file/plain`, is the end of one that is there.
- No source names a page in specs/inner/ of another crate.
- Each caller and each edit says what its wrong body does; docs/WRONG_BODIES.md is as checks/wrong_bodies.py writes it.
- Documents have each habit of HABITS no more often than stands there, and *what* at most MOST_WHAT times in 1,000 words;
  texts of the program, as the sentences in docs/FAULTS.md, don't count. Comments of crates have none of those at 0.
- Each public item of a product crate has a doc comment. That of each public number, a constant, a field or one in a
  variant, says its unit, its range, from where it counts, or what it counts, in one of the words of UNITS.
- No line of imports in specs/ and proofs/ is wider than MOST_OF_IMPORTS columns.
- No function has more than MOST_PARAMETERS parameters beside the value itself, the allocator and the runtime, but for as
  many as MANY allows each crate.
- No line of src/ and specs/ of a product crate is wider than 120 columns, imports aside, but for as many as WIDE allows
  each crate.

The last line is 'N wrong', and the status is 0 if nothing is.
"""
import os
import re
import subprocess
import sys

import wrong_bodies
from pages import files_in, libraries
from quick import TOP, crates

# Copies of a file of examples/ under another name.
COPIES = {"crates/run_harvest/data/saw.apt": "two_stems.apt", "crates/bench_calls/data/saw.apt": "two_stems.apt"}

# The families of crates, by their names: files, one stem, the history of one thread, many harvesters, the page, the
# program, what C calls; callers that prove wrong bodies wrong, what tests share, tests, whole runs, what is timed, uses.
FAMILIES = (
    r"buck_(record|apt|stem)(_\w+)?",
    r"buck_(value|dp)(_\w+)?",
    r"buck_(rule|book)(_\w+)?",
    r"buck_(board|fleet)(_\w+)?",
    r"buck_page(_\w+)?",
    r"buckfleet(_\w+)?",
    r"buck_c(_\w+)?",
    r"wrong_\w+",
    r"fixture_\w+",
    r"test_\w+",
    r"run_\w+",
    r"bench_\w+",
    r"example_\w+",
)

# The page with the code map, and the head of that.
ARCHITECTURE = "docs/ARCHITECTURE.md"
MAP = "| Crate | Does | Built on |"

MOST_LINES = 80
MOST_BYTES = 2500
MOST_COLUMNS = 120
MOST_OF_IMPORTS = 240
MOST_PARAMETERS = 5

# So many lines are wider today: texts and styles that stand as they are printed, and long clauses. None may be added; a
# crate that isn't named has none.
WIDE = {
    "buck_record": 1,
    "buckfleet_explain": 38,
    "buck_stem": 1,
    "buck_dp": 1,
    "buck_book_postings": 4,
    "buck_fleet": 2,
    "buck_page_sections": 10,
    "buckfleet_engine_page": 8,
    "buckfleet_engine": 1,
    "buckfleet": 3,
}

# So many functions have more parameters today. None may be added; a crate that isn't named has none.
MANY = {
    "buck_c_calls": 1,
    "buckfleet_engine_cross_check": 1,
    "fixture_plays": 2,
    "test_surface": 2,
    "wrong_best": 1,
    "wrong_engine": 1,
    "wrong_session": 1,
    "wrong_trial": 1,
}

# Documents that scripts write, and the page whose rows of more than two cells have texts of the program.
WRITTEN = {"docs/HEADLINE.md", "docs/HEADLINE_BESIDE.md", "docs/WRONG_BODIES.md"}
FAULTS = "docs/FAULTS.md"

# Habits that documents drop, and how many may still stand in all together. The numbers only fall.
HABITS = {
    r"anew": 0,
    r"by turns": 0,
    r"h(angs?|ung) on": 0,
    r"(is|are|was|were|be|been|being)(n't)? told": 0,
    r"look(s|ed|ing)? whether": 0,
    r"since": 3,
    r"where": 1,
}
MOST_WHAT = 5

# What says that a name or a path stands for several, or for a file that isn't committed.
NO_PATH = r"NAME|MODULE|_X\b|[*{<]|\.\.|\bout\b"

# A type of numbers, and what the doc comment of one says. Lists of bytes are texts.
NUMBERS = r"\b[ui](8|16|32|64|128|size)\b"
TEXTS = r"\[u8\]|Vec<u8>"
UNITS = r"mm|c?m³|metres|price units?|millionths|ten-thousandths|tenths|per mille|percent|bytes|bit|steps|in logs|unit"
UNITS = rf"(?i)(?<!\w)({UNITS}|from [01]|[01] to|how many|number of|any number)(?!\w)"

# How the names of sources end.
SOURCES = (".rt", ".antt", ".py", ".c", ".h")

# Names of the toolchain that no source has.
OTHERS = {"FnMut", "RT_JOBS"}


def read(*words):
    with open(os.path.join(TOP, *words)) as text:
        return text.read()


def product():
    """The crates of the product, lowest first."""
    return libraries() + ["buckfleet"]


def modules(crate):
    """The modules of a crate, each by its path below src/: the root of a library, which has its doc alone, left out."""
    return [name for name in ("/".join(words) for words, _ in files_in(crate, "src", ".rt")) if name != "lib"]


def ticked(text):
    """What stands in backticks in a text."""
    return re.findall(r"`([^`\n]+)`", text)


def words_of(text):
    """The names in a source, its comments left out."""
    return set(re.findall(r"\w+", re.sub(r"(?m)^\s*(//|--|# ).*$", "", text)))


def files():
    """The files of the repository, by their paths."""
    words = ["git", "ls-files", "-co", "--exclude-standard"]
    listed = subprocess.run(words, cwd=TOP, capture_output=True, text=True, check=True).stdout.split("\n")
    return [path for path in listed if os.path.isfile(os.path.join(TOP, path))]


def names(paths):
    """The names that stand in some sources and in the paths of some files."""
    return set().union(*(words_of(path) | (words_of(read(path)) if path.endswith(SOURCES) else set()) for path in paths))


def wrong_order():
    """Crates of no family, crates.txt in another order than FAMILIES or than crates are built, missing headings."""
    last, before, heading = -1, set(), False
    for line in read("crates.txt").split("\n"):
        crate, _, on = line.partition("#")[0].partition(":")
        crate = crate.split(" ")[0]
        if not crate:
            heading = line.startswith("#") or heading and line != ""
            continue
        place = next((k for k, form in enumerate(FAMILIES) if re.fullmatch(form, crate)), None)
        if place is None:
            yield f"crates/{crate} is of no family"
        elif place < last:
            yield f"{crate} stands behind a later family in crates.txt"
        else:
            if place > last and not heading:
                yield f"{crate} begins a family in crates.txt with no heading"
            last = place
        yield from (f"{crate} stands before {it} in crates.txt" for it in on.split() if it in crates() and it not in before)
        before.add(crate)
        heading = False


def wrong_names():
    """Folders that crates.txt doesn't name, and what is wrong with its order."""
    yield from wrong_order()
    for folder in sorted(os.listdir(os.path.join(TOP, "crates"))):
        if folder not in crates():
            yield f"crates/{folder} isn't in crates.txt"


def wrong_pages():
    """Product crates without a page, pages that are too long, and modules that their page leaves out."""
    for crate in product():
        page = f"crates/{crate}/README.md"
        if not os.path.isfile(os.path.join(TOP, page)):
            yield f"crates/{crate} has no README.md"
            continue
        text = read(page)
        lines = len(text.splitlines())
        if lines > MOST_LINES:
            yield f"{page} has {lines} lines, {MOST_LINES} at most"
        if len(text.encode()) > MOST_BYTES:
            yield f"{page} has {len(text.encode())} bytes, {MOST_BYTES} at most"
        named = set(ticked(text))
        yield from (f"{page} doesn't name the module `{name}`" for name in modules(crate) if name not in named)
        yield from (f"{page} names `{word}`, which {crate} hasn't" for word in strangers(crate, text))
        family = [other for other in product() if other.startswith(f"{crate}_") and other not in named]
        yield from (f"{page} doesn't name `{other}` of its family" for other in family)


def strangers(crate, text):
    """Modules that a crate's page lists and that it hasn't, and names there and under "Use it" that it hasn't."""
    parts = dict(re.findall(r"(?ms)^## ([^\n]*)\n(.*?)(?=^## |\Z)", text))
    listed = re.findall(r"(?m)(?:^- |\. |^Submodule )((?:`[^`]+`(?:, | and )?)+):", parts.get("Modules", ""))
    folders = {os.path.dirname(name) for name in modules(crate)}
    yield from (word for words in listed for word in ticked(words) if word not in folders.union(modules(crate)))
    known = names(path for path in files() if path.startswith(f"crates/{crate}/")) | set(crates())
    for word in ticked(parts.get("Modules", "") + re.sub(r"(?ms)^```.*?^```", "", parts.get("Use it", ""))):
        if re.fullmatch(r"[A-Za-z]\w*(::\w+)*", word) and not words_of(word) <= known:
            yield word


def built_on():
    """For each crate of the product those that it is built on, without those that another one of these is built on."""
    own, named, below = product(), {}, {}
    for line in read("crates.txt").split("\n"):
        crate, _, on = line.partition("#")[0].partition(":")
        named[crate.split(" ")[0]] = [other for other in on.split() if other in own]
    for crate in own:
        below[crate] = set(named[crate]).union(*(below[other] for other in named[crate]))
    return {crate: [it for it in named[crate] if not any(it in below[on] for on in named[crate])] for crate in own}


def mapped():
    """docs/ARCHITECTURE.md with its code map as it must be."""
    rows = [MAP, "|---|---|---|"]
    for crate, others in built_on().items():
        page = os.path.join("crates", crate, "README.md")
        text = read(page) if os.path.isfile(os.path.join(TOP, page)) else ""
        sentence = re.search(r"(?ms)\A# [^\n]*\n+(.*?)\.(?=\s)", text)
        does = sentence[1].replace("\n", " ") if sentence else ""
        rows.append(f"| `{crate}` | {does} | {', '.join(f'`{other}`' for other in others)} |")
    return re.sub(rf"(?m)^{re.escape(MAP)}\n(\|.*\n)*", lambda _: "\n".join(rows) + "\n", read(ARCHITECTURE))


def wrong_map():
    """A code map that isn't as it would be written."""
    if mapped() != read(ARCHITECTURE):
        yield f"{ARCHITECTURE} has not the code map that it would have (checks/house.py --write)"


def wrong_copies():
    """Copies of examples that differ from them."""
    examples = os.listdir(os.path.join(TOP, "examples"))
    pairs = dict(COPIES)
    for crate in sorted(os.listdir(os.path.join(TOP, "crates"))):
        folder = os.path.join(TOP, "crates", crate, "data")
        names = sorted(os.listdir(folder)) if os.path.isdir(folder) else []
        pairs.update({f"crates/{crate}/data/{name}": name for name in names if name in examples})
    for copy, example in pairs.items():
        files = [os.path.join(TOP, copy), os.path.join(TOP, "examples", example)]
        if not all(map(os.path.isfile, files)):
            yield f"{copy} and examples/{example} aren't both there"
        elif len({open(file, "rb").read() for file in files}) > 1:
            yield f"{copy} differs from examples/{example}"


def documents():
    """The documents of the repository, by their paths: those at its top and in some folders, and the pages of crates."""
    crates_there = sorted(os.listdir(os.path.join(TOP, "crates")))
    for folder in ("", "docs", "bench", "python", *(f"crates/{crate}" for crate in crates_there)):
        for name in sorted(os.listdir(os.path.join(TOP, folder))):
            if name.endswith(".md"):
                yield os.path.join(folder, name)


def anchors(text):
    """The names of the headings of a document, as a link has them."""
    heads = re.findall(r"(?m)^#+ (.*)$", re.sub(r"(?ms)^```.*?^```", "", text))
    return {re.sub(r"[^\w\- ]", "", head.lower()).replace(" ", "-") for head in heads}


def wrong_links():
    """Links that lead nowhere."""
    for path in documents():
        text = read(path)
        for target in re.findall(r"\]\(([^)\s]+)\)", text):
            file, _, anchor = target.partition("#")
            to = os.path.normpath(os.path.join(os.path.dirname(path), file)) if file else path
            if re.match(r"\w+:", target):
                continue
            if not os.path.exists(os.path.join(TOP, to)):
                yield f"{path} has a link to {target}, which isn't there"
            elif anchor and anchor not in anchors(read(to)):
                yield f"{path} has a link to {target}, and {to} has no such heading"


def named_files(line, crate, known):
    """The files of crates that a line of a document names: in src/, specs/ or proofs/ of the crate that is named last
    before, and `NAME.rt` there, or beside the file before it. Each comes as the paths at which it may stand."""
    room = None
    for word in ticked(line):
        head = re.fullmatch(r"(?:crates/)?(\w+)(?:/(.+))?", word)
        if head and head[1] in known:
            crate, word, room = head[1], head[2] or "", None
        path = re.fullmatch(r"((?:src|specs|proofs)/[\w/]+)(\.rt|\.antt)?", word)
        if crate and path:
            room = os.path.dirname(path[1])
            yield crate, word, [word]
        elif crate and room and re.fullmatch(r"[\w/]+\.rt", word):
            yield crate, word, [f"src/{word}", f"{room}/{word}"]


def wrong_files():
    """Files of crates that documents name and that aren't there."""
    known = crates()
    for path in documents():
        own = re.fullmatch(r"crates/(\w+)/README\.md", path)
        for line in read(path).split("\n"):
            for crate, word, places in named_files(line, own[1] if own else None, known):
                stand = [os.path.join(TOP, "crates", crate, place) for place in places]
                if not any(os.path.exists(place + ending) for place in stand for ending in ("", ".rt", ".antt")):
                    yield f"{path} names `{word}` of {crate}, which isn't there"


def wrong_words():
    """What stands in backticks in documents and isn't there: names, names with their module, type or crate, paths."""
    paths = files()
    parts = [path.split("/") for path in paths + [os.path.splitext(path)[0] for path in paths]]
    ends = {"/".join(part[k:n]) for part in parts for n in range(len(part) + 1) for k in range(n)}
    known, all_crates = names(paths) | OTHERS, crates()
    sources = [(path.split("/")[1], names([path])) for path in paths if path.endswith(".rt")]

    def is_there(word, is_alone):
        if re.fullmatch(r"[A-Za-z]\w*(::\w+)+", word):
            first, wanted = word.split("::")[0], words_of(word)
            return any(wanted <= had for crate, had in sources if first == crate or first not in all_crates)
        if re.fullmatch(r"\w\w+(/[\w.-]+)+", word):
            return word in ends
        return not is_alone or word in known or not re.fullmatch(r"[A-Za-z]\w*", word)

    for path in documents():
        for text in ticked(re.sub(r"(?ms)^```.*?^```", "", read(path))):
            for word in text.split():
                if not is_there(word.rstrip("/.,:;"), word == text) and not re.search(NO_PATH, word):
                    yield f"{path} names `{word}`, which isn't there"


def wrong_citations():
    """Sources that name a page in specs/inner/ of another crate."""
    for path in files():
        if re.fullmatch(r"crates/.*\.(rt|antt)", path):
            own = path.split("/")[1]
            for crate in sorted(set(re.findall(r"\bRattle\.(\w+)\.specs\.inner\b", read(path))) - {own}):
                yield f"{path} names a page in specs/inner/ of {crate}"


def said():
    """The words of each document, without blocks of code and texts of the program; pages of crates are one document."""
    found = {}
    for path in documents():
        if path not in WRITTEN:
            text = re.sub(r"(?ms)^```.*?^```", "", read(path))
            if path == FAULTS:
                text = re.sub(r"(?m)^\|(?:[^|\n]*\|){3,}$", "", text)
            page = "crates" if path.startswith("crates/") else path
            found[page] = found.get(page, "") + text
    return found


def comments():
    """The comments of each source and each edit of a crate, by its path."""
    for path in files():
        if re.fullmatch(r"crates/.*\.(rt|antt|edit)", path):
            yield path, " ".join(" ".join(re.findall(r"(?m)^\s*(?://[/!]?|--|# )(.*)$", read(path))).split())


def wrong_habits():
    """Habits that documents, or comments, have too often."""
    dropped = "|".join(habit for habit, most in HABITS.items() if not most)
    for path, text in comments():
        for found in re.finditer(rf"(?i)\b({dropped})\b", text):
            yield f"{path} has '{found[0]}' in a comment"
    pages = said()
    for habit, most in HABITS.items():
        found = {page: len(re.findall(rf"(?i)\b{habit}\b", pages[page])) for page in sorted(pages)}
        if sum(found.values()) > most:
            told = ", ".join(f"{page} {number}" for page, number in found.items() if number)
            yield f"documents have '{habit}' {sum(found.values())} times, {most} may stand: {told}"
    for page, text in sorted(pages.items()):
        number, words = len(re.findall(r"(?i)\bwhat\b", text)), len(text.split())
        if number * 1000 > MOST_WHAT * words:
            yield f"{page} has 'what' {number} times in {words} words, {MOST_WHAT} in 1,000 may stand"


def wide_lines(crate):
    """The files of a crate with lines that are too wide, and how many there are in each."""
    for part, ending in (("src", ".rt"), ("specs", ".antt")):
        for words, lines in files_in(crate, part, ending):
            wide = sum(len(line) > MOST_COLUMNS and not re.match(r"\s*(ghost |pub )?use ", line) for line in lines)
            if wide:
                yield f"{part}/{'/'.join(words)}{ending}", wide


def wrong_widths():
    """Product crates with more wide lines than they may have."""
    for crate in product():
        files = dict(wide_lines(crate))
        wide, allowed = sum(files.values()), WIDE.get(crate, 0)
        if wide > allowed:
            told = ", ".join(f"{file} {number}" for file, number in files.items())
            yield f"{crate} has {wide} lines over {MOST_COLUMNS} columns, {allowed} may stand: {told}"


def wrong_imports():
    """Lines of imports that are too wide."""
    for path in files():
        if path.endswith(".antt"):
            for number, line in enumerate(read(path).split("\n"), 1):
                if len(line) > MOST_OF_IMPORTS and re.match(r"(pub )?use ", line):
                    yield f"{path}, line {number}, has {len(line)} columns, {MOST_OF_IMPORTS} at most"


def split_in(text, at):
    """What stands in the brackets that open at a place of a text, split at its commas outside others, and the place
    behind them."""
    parts, depth = [""], 0
    while True:
        depth += text[at] in "([{<"
        depth -= text[at] in ")]}" or text[at] == ">" and text[at - 1] != "-"
        if depth == 0:
            return [part.strip("([{< \n") for part in parts if part.strip("([{< \n")], at + 1
        parts = parts + [""] if text[at] == "," and depth == 1 else parts[:-1] + [parts[-1] + text[at]]
        at += 1


def functions_of_many(crate):
    """The functions of a crate with too many parameters, each with their number."""
    for words, lines in files_in(crate, "src", ".rt"):
        text = "\n".join(re.sub(r"^\s*//.*", "", line) for line in lines)
        for head in re.finditer(r"(?m)^ *(?:pub(?:\([a-z]+\))? )?(?:const )?fn (\w+)(?=[(<])", text):
            at = split_in(text, head.end())[1] if text[head.end()] == "<" else head.end()
            given = [part for part in split_in(text, at)[0] if not re.match(r"(mut |&\S* ?)*(self|_?alloc|_?rt)\b", part)]
            if len(given) > MOST_PARAMETERS:
                yield f"{'/'.join(words)}::{head[1]}", len(given)


def wrong_parameters():
    """Crates with more functions of too many parameters than they may have."""
    for crate in crates():
        found, allowed = list(functions_of_many(crate)), MANY.get(crate, 0)
        if len(found) > allowed:
            told = ", ".join(f"{name} {number}" for name, number in found)
            yield f"{crate} has functions of more than {MOST_PARAMETERS} parameters, {allowed} may: {told}"


def public_numbers(lines):
    """The public numbers of a source's lines: the line of each, from 1, its name, its type, and what is said of it: its
    doc comment, that of its variant or of its struct without names, and that of a type that names it in backticks."""
    kind, name, whole, variant, doc = "", "", "", "", ""
    for number, line in enumerate(lines, 1):
        text = line.strip()
        if text.startswith("///"):
            doc += text[3:]
            continue
        if text.startswith("#["):
            continue
        opened = re.match(r"pub (struct|enum) (\w+)", line)
        fixed = re.match(r"\s*pub const (\w+): (.*?) =", line)
        field = re.match(r"    pub (\w+): (.*),$" if kind == "struct" else r"        (\w+): (.*),$", line)
        held = re.match(r"    (\w+)(?:\((.*)\)| \{ (.*) \}| \{),?$", line)
        if opened:
            kind, name, whole = opened[1] if line.endswith("{") else "", opened[2], doc
            yield number, name, "" if kind else line.partition("(")[2], doc
        elif fixed:
            yield number, fixed[1], fixed[2], doc
        elif line.startswith("}"):
            kind = ""
        elif kind and field:
            named = whole if f"`{field[1]}`" in whole else ""
            yield number, f"{name}::{field[1]}", field[2], f"{doc} {variant if kind == 'enum' else ''} {named}"
        elif kind == "enum" and held:
            variant = doc
            yield number, f"{name}::{held[1]}", held[2] or held[3] or "", doc
        doc = ""


def wrong_docs():
    """Public items of product crates without a doc comment."""
    for crate in product():
        for words, lines in files_in(crate, "src", ".rt"):
            is_said = False
            for number, line in enumerate(lines, 1):
                item = re.match(r"\s*pub (?:const fn|fn|struct|enum|trait|const|type) (\w+)", line)
                if item and not is_said:
                    yield f"crates/{crate}/src/{'/'.join(words)}.rt, line {number}: {item[1]} has no doc comment"
                is_said = line.strip().startswith("///") or is_said and line.strip().startswith("#[")


def wrong_units():
    """Public numbers of product crates of which no doc comment says the unit, the range or what they count."""
    for crate in product():
        for words, lines in files_in(crate, "src", ".rt"):
            for number, name, of, doc in public_numbers(lines):
                if re.search(NUMBERS, re.sub(TEXTS, "", of)) and not re.search(UNITS, doc):
                    yield f"crates/{crate}/src/{'/'.join(words)}.rt, line {number}: no doc comment has the unit of {name}"


def main():
    if "--write" in sys.argv:
        text = mapped()
        with open(os.path.join(TOP, ARCHITECTURE), "w") as page:
            page.write(text)
    looks = (wrong_names, wrong_pages, wrong_map, wrong_copies, wrong_links, wrong_files, wrong_words, wrong_citations)
    looks += (wrong_habits, wrong_docs, wrong_units, wrong_widths, wrong_imports, wrong_parameters)
    wrong = [line for look in looks for line in look()] + wrong_bodies.looked_at()[1]
    for line in wrong:
        print(line)
    print(f"{len(wrong)} wrong")
    return 1 if wrong else 0


if __name__ == "__main__":
    sys.exit(main())
