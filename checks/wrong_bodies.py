#!/usr/bin/env python3
"""Writes docs/WRONG_BODIES.md: each wrong implementation that is shown to be refused, by the call that it is one of.

    python3 checks/wrong_bodies.py [--write]

A caller is a public function of a crate wrong_* that proves something itself: its comment says what the wrong body
does. The page has it under the call of the product that it makes: of those before its first `prove!`, outside what it calls
`wrong`, the one whose name begins the caller's own, else the first in what it calls `right`, else the last. A call that
only looks counts if there is no other; ABOUT has the exceptions. An edit is a file crates/*/must-fail/*.edit: its first
line, after a #, says the call and what the wrong body does. Without --write it says whether the page is as it would be
written, with status 1 if not, or if a caller or an edit has no such line.
"""
import fnmatch
import glob
import os
import re
import sys

from pages import files_in, libraries, public_calls
from quick import TOP, crates

PAGE = os.path.join("docs", "WRONG_BODIES.md")

# Callers about another call than the one that these rules find, by their module and name.
ABOUT = {
    "wrong_files::stem::samples_are_the_least_ones": ("buck_stem", "Stem::samples"),
    "wrong_files::stem::short_without_its_zones": ("buck_stem", "Stem::zones"),
    "wrong_files::instruction::classes_are_rows": ("buck_apt_instruction", "Assortment::classes"),
    "wrong_best::value::copy_at_base_prices": ("buck_value", "Sheet::copy"),
    "wrong_book::book::other_rule_begins_anew": ("buck_book_postings", "Book::with_rule"),
    "wrong_book::book::posting_clone_as_the_first": ("buck_book_postings", "Posting::clone"),
    "wrong_book::walk::begins_after_a_cut": ("buck_book_postings", "Walk::begins_period"),
    "wrong_trial::runs::period_of_nothing_accepted": ("buckfleet_tasks", "combinations"),
    "wrong_page::figures::count_of_the_last_cut_forgotten": ("buck_page_figures", "figures_of"),
    "wrong_page::names::*_gets_through": ("buck_page_text", "Name"),
    "wrong_engine::views::journals_65_accepted": ("buckfleet_tasks", "ViewTask"),
    "wrong_world::steps::*": ("buck_fleet_world", "World::step"),
}

# Calls of lists of the standard library: of the product only if their type is named.
OF_LISTS = {"as_slice", "clone", "get", "is_empty", "iter", "len", "next", "push", "read", "write"}

# Calls that only look, beside those that take nothing but the value itself.
LOOKS = {"same", "conclude", "number_at"}

HEAD = """# Wrong implementations

`python3 checks/wrong_bodies.py --write` writes this page, from the comments of the callers in `crates/wrong_*` and the first lines of the edits in `crates/*/must-fail`. Don't edit it.

Each line is a plausible bug that a contract excludes; a line that is no sentence names what the wrong body answers. [PROOFS](PROOFS.md#how-a-wrong-body-is-shown-to-be-refused) says how callers and edits show that.
"""


def functions(lines):
    """The functions at the top of a source: for each its name, whether it is public, its comment, its text."""
    for at, line in enumerate(lines):
        head = re.match(r"(pub )?(?:const )?fn (\w+)", line)
        if head:
            first = at
            while first > 0 and re.match(r"///|#\[", lines[first - 1]):
                first -= 1
            comment = " ".join(it[3:].strip() for it in lines[first:at] if it.startswith("///"))
            last = next(k for k in range(at, len(lines)) if lines[k] == "}")
            yield head[2], bool(head[1]), comment, "\n".join(lines[at : last + 1])


def imports(text):
    """The names that a source takes from crates of the product, each with its crate."""
    taken = {}
    for use in re.findall(r"(?ms)^use (buck(?:fleet)?_\w+(?:::.*?)?);", text):
        crate = use.split("::")[0]
        taken.update({name: crate for name in re.findall(r"\b[A-Za-z_]\w*\b(?!::)", use)})
    return taken


def index_of(calls):
    """The public calls of the product by their names: the crate and the type of each."""
    index = {}
    for call in calls:
        words = call.split("::")
        holder = words[-2] if len(words) > 2 and words[-2][0].isupper() else None
        index.setdefault(words[-1], []).append((words[0], holder))
    return index


def typed(text, taken):
    """The types of the product that variables of a function have, as far as its text says so."""
    found = dict(re.findall(r"\b(\w+): &?(?:'\w+ )?(?:mut )?(?:Box<|Arc<)?([A-Z]\w*)", text))
    found.update(re.findall(r"let (?:Ok\()?(?:mut )?(\w+)\)? = ([A-Z]\w*)::", text))
    return {name: kind for name, kind in found.items() if kind in taken}


def calls_in(text, whole, taken, index, helpers, seen=()):
    """The calls of the product in some text of a function, in order, each as its crate and its name."""
    kinds = typed(whole, taken)
    for dot, before, name in re.findall(r"(\.\s*|\b(\w+)(?:::<[^()]*>)?::|\b)([a-z_]\w*)(?:::<[^()]*>)?\(", text):
        known = index.get(name, [])
        if before in taken and not before.islower():
            known = [it for it in known if it[1] == before]
        elif dot.startswith("."):
            known = [it for it in known if it[1]]
            mine = re.search(r"\b(\w+)(?:::\w+)?\s*\.\s*" + name + r"(?:::<[^()]*>)?\(", text)
            kind = kinds.get(mine[1], mine[1]) if mine else None
            by_kind = [it for it in known if it[1] == kind]
            by_import = [it for it in known if it[1] in taken]
            by_crate = [it for it in known if it[0] in taken.values()] if name not in OF_LISTS else []
            known = by_kind or by_import or by_crate
        elif name in taken or before in taken:
            known = [it for it in known if not it[1]]
        elif not before and name in helpers and name not in seen:
            inner = helpers[name]
            yield from calls_in(inner, inner, taken, index, helpers, (*seen, name))
            continue
        else:
            continue
        if known:
            crate, holder = next((it for it in known if it[0] in (taken.get(it[1]), taken.get(name))), known[0])
            yield crate, f"{holder}::{name}" if holder else name


def looks():
    """The names of calls that only look: they take the value itself, and an allocator at most."""
    found = set(LOOKS)
    for crate in libraries():
        for _, lines in files_in(crate, "src", ".rt"):
            text = "\n".join(lines)
            found |= set(re.findall(r"pub fn (\w+)(?:<[^(]*>)?\(\s*&(?:'\w+ )?self,?\s*(?:alloc: \w+,?\s*)?\)", text))
    return found


def about(name, text, taken, index, helpers, quiet):
    """The call that a caller is about, as its crate and its name; none if it makes no call of the product."""
    code = "\n".join(line for line in text.split("\n") if not line.strip().startswith("//"))
    start = re.search(r"^(\{|\S.* \{)$", code, re.M)
    body = code[start.end() :]
    before = re.sub(r"let wrong(?:: [^=]*)? =.*?;\n", "", body.split("prove!")[0], flags=re.S)
    made = list(calls_in(before, code, taken, index, helpers)) or list(calls_in(body, code, taken, index, helpers))
    pool = [it for it in made if it[1].split("::")[-1] not in quiet] or made
    own = [it for it in pool if name.startswith(it[1].split("::")[-1])]
    if own:
        return max(own, key=lambda it: len(it[1].split("::")[-1]))
    right = re.search(r"let right(?:: [^=]*)? =(.*?);\n", before, re.S)
    in_right = [it for it in calls_in(right[1], code, taken, index, helpers) if it in pool] if right else []
    return (in_right or pool[-1:] or [None])[0]


def callers():
    """Each caller: its crate and module, its name, its comment, and the call that it is about."""
    quiet = looks()
    index = index_of([name for crate in libraries() for name, _, _ in public_calls(crate)])
    for crate in crates():
        if not crate.startswith("wrong_"):
            continue
        for words, lines in files_in(crate, "src", ".rt"):
            taken = imports("\n".join(lines))
            found = list(functions(lines))
            helpers = {name: text for name, is_public, _, text in found if not is_public}
            for name, is_public, comment, text in found:
                if is_public and "prove!" in text:
                    module = f"{crate}::{'::'.join(words)}"
                    known = [ABOUT[it] for it in ABOUT if fnmatch.fnmatch(f"{module}::{name}", it)]
                    known = known or [about(name, text, taken, index, helpers, quiet)]
                    yield module, name, comment, known[0] or ("of no one call", "-")


def edits():
    """Each edit: the crate in which it stands, its name, and its first line."""
    for path in sorted(glob.glob(os.path.join(TOP, "crates", "*", "must-fail", "*.edit"))):
        with open(path) as text:
            first = text.readline().rstrip("\n")
        words = path.split(os.sep)
        yield words[-3], words[-1][: -len(".edit")], first[2:] if first.startswith("# ") else ""


def cell(text):
    """A text as a cell of a table."""
    return text.replace("|", "\\|")


def page_of(found, shown):
    """The page on some callers and edits."""
    lines = [HEAD, "## By callers", "", f"{len(found)} wrong bodies."]
    for crate in libraries() + ["of no one call"]:
        mine = [it for it in found if it[3][0] == crate]
        if mine:
            lines += ["", f"### {crate}", "", "| Call | Wrong body | What it does | Caller in |", "|---|---|---|---|"]
            order = list(dict.fromkeys(it[3][1] for it in mine))
            for module, name, comment, call in sorted(mine, key=lambda it: order.index(it[3][1])):
                lines.append(f"| `{call[1]}` | `{name}` | {cell(comment)} | `{module}` |")
    lines += ["", "## By edits", "", f"{len(shown)} edits.", "", "| Crate | Edit | What it does |", "|---|---|---|"]
    lines += [f"| `{crate}` | `{name}` | {cell(meaning)} |" for crate, name, meaning in shown]
    return "\n".join(lines) + "\n"


def looked_at():
    """The page as it would be written, and what is wrong: with comments, and with the page that is there."""
    found, shown = list(callers()), list(edits())
    wrong = [f"{module}::{name} has no comment" for module, name, comment, _ in found if not comment]
    wrong += [f"{crate}/must-fail/{name}.edit has no first line on it" for crate, name, it in shown if not it]
    wanted, path = page_of(found, shown), os.path.join(TOP, PAGE)
    if not os.path.isfile(path) or open(path).read() != wanted:
        wrong.append(f"{PAGE} is not as it would be written (checks/wrong_bodies.py --write)")
    return wanted, wrong


def main():
    wanted, wrong = looked_at()
    if "--write" in sys.argv:
        with open(os.path.join(TOP, PAGE), "w") as text:
            text.write(wanted)
        wrong = [line for line in wrong if not line.startswith(PAGE)]
    for line in wrong:
        print(line)
    print(f"{len(wrong)} wrong")
    return 1 if wrong else 0


if __name__ == "__main__":
    sys.exit(main())
