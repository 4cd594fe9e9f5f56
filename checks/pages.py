#!/usr/bin/env python3
"""Prints the pages of definitions that a reader must believe, promise by promise, with their lines.

    python3 checks/pages.py [--write]

It reads the clauses of all public functions of the libraries, and goes from their words to all definitions that these
lead to, within specs/. PROMISES says which calls a promise is about; the calls that it leaves over stand together at
the end. A page is counted by the lines of the definitions that are reached, with their comments: the headline by
itself, each promise beside those above it; a constant of the code that a definition names counts as a line of a page.
Last come the types of the code that clauses and pages name, by crate. The counts are a table of docs/PROOFS.md. docs/HEADLINE.md
has the clauses of the headline's calls and the definitions that it needs, whole, docs/HEADLINE_BESIDE.md all others that
they lead to, views of types among them. It ends in status 1 if one of these is not as it would be written (--write
writes all), and if a clause leads into specs/inner/.
"""
import fnmatch
import os
import re
import sys

from quick import TOP, crates

# The calls that the headline is about: how a fleet is closed and opened, what its seats are answered; the law.
HEADLINE = [
    "buck_fleet::Fleet::close",
    "buck_fleet::Fleet::open",
    "buck_fleet::Fleet::cut",
    "buck_fleet::Fleet::try_commit",
    "buck_fleet::Fleet::retarget",
    "buck_fleet::Fleet::snapshot",
    "buck_book_postings::laws::prefix_is_lawful",
]

# The parts of the page of the headline, in order, and the definitions that each begins with; the calls begin two of
# them. Those of BESIDE, which the headline itself doesn't need, are on a page of their own.
RECORDS = "The records"
HISTORY = "The history that closing promises"
SEATS = "Opening, and the seats' calls"
BEGIN = {
    RECORDS: ["InstructionParts", "SheetParts", "StemParts", "Log", "Cutting", "Class", "Posting", "Kept", "HistoryParts", "SeatParts", "FleetParts", "ClosedParts", "Reply", "DemandReply", "PlanParts", "Standing"],
    HISTORY: ["IsOneHistory", "IsHandedOut", "IsCrew", "seats_of", "parts_of", "kept_by", "replies_of", "replies_from", "IsLawful", "Follows", "Holds"],
    "A cutting that none outvalues": ["IsBest", "cutting_worth"],
    "Targets and prices": ["AreTargets", "base_prices", "PricesMeet"],
    SEATS: [],
}
BESIDE = {
    "Types that clauses see through a view": ["Fleet", "Seat", "Closed", "Instruction", "Assortment", "Stem", "Sheet", "Plan", "Rule"],
    "The first of several best cuttings": ["IsFirst", "IsFirstBest"],
    "Limits of numbers": ["IsStem", "IsInstruction", "IsSheet", "IsInRange"],
    "Boards: which seat, which sheet, which version": ["BoardSeat", "Board", "IsSeatIn", "IsSeatOf", "seen_of", "Snapshot", "IsSnapshotOf", "version_of"],
    "Attempts and refusals": ["AreAttempts", "Path", "IsCloseFault", "CloseFault", "IsOpenFault", "OpenFault", "GivesBack", "TryFault", "RunFault"],
}
BESIDE_NAME = "HEADLINE_BESIDE.md"

PROMISES = [
    ("the best cutting", ["buck_dp::best", "buck_dp::worth", "buck_dp::admissible", "buck_dp::Planner::best"]),
    (
        "the printed text",
        [
            "buckfleet_engine::run_buck",
            "buckfleet_engine::run_bare",
            "buckfleet_engine_text::buck_text",
            "buckfleet_engine_files::write_fault",
            "buckfleet_engine_files::status",
        ],
    ),
    ("the history of a book", ["buck_book_postings::Book::*", "buck_rule::Rule::*"]),
    ("a checked journal", ["buckfleet_engine::run_check", "buck_book_reader::read_journal", "buck_book_replay::replay*"]),
    ("a journal shown", ["buckfleet_engine_page::run_view", "buckfleet_engine_page::run_table", "buckfleet_engine_page::serve_view", "buck_page_figures::figures_of"]),
    ("the report", ["buckfleet_engine::report_text", "buckfleet_engine::degree", "buckfleet_engine::run_report"]),
    ("a whole run of the program", ["buckfleet_engine::serve", "buckfleet_engine::conclude", "buckfleet_engine::explain"]),
    ("the closed fleet", ["buck_fleet::Fleet::*", "buck_fleet::Closed::*", "buck_fleet::run_fleet"]),
    ("a journal tied to files and a rule", ["buckfleet_engine_cross_check::run_check_with", "buckfleet_engine_cross_check::serve_check"]),
    (
        "a fleet over files",
        [
            "buckfleet_engine::run_fleet_files",
            "buckfleet_engine::run_in_turn",
            "buckfleet_engine::serve_fleet",
        ],
    ),
    ("before a harvest and after it", ["buckfleet_tasks::*", "buckfleet_trial_sweep::*", "buckfleet_trial_draws::*", "buckfleet_terms_files::*", "buckfleet_trial::*", "buckfleet_trial_wishes::*", "buckfleet_trial_tune::*", "buckfleet_trial_owned::*", "buckfleet_proceeds::*"]),
    ("the words of the program", ["buckfleet_command::serve_work"]),
    ("the world and its runs", ["buck_fleet_world::*"]),
    ("the library that C calls", ["buck_c_calls::*", "buck_c::*"]),
    ("all other public calls", ["*"]),
]

TYPES = "Types of the code that definitions and clauses name, plain structs and enums in `src/`: `python3 checks/pages.py` prints them."

# The table in docs/PROOFS.md stands between its head and the line on types.
TABLE = "| Promise | Lines | Files of definitions, with the lines of each that the promise leads to |"

HEADLINE_PAGE = """# The headline, whole

`python3 checks/pages.py --write` writes this page. Don't edit it.

For a sceptic: all that must be believed of this repository for [the headline](PROOFS.md#the-headline):

{claim}

Behind a summary come the records that the definitions speak of, the clauses of the calls that the headline is about, and every definition that it needs, each with its file, its lines, and links to what it names. Nothing here is a body or a proof. [Beside the headline](HEADLINE_BESIDE.md) has what the same clauses name and the headline doesn't need.

| Part | Definitions | Lines |
|---|---|---|
{parts}

The two pages show {lines} lines of the sources, from {files} files: {clauses} of the heads and clauses of {calls} calls, and {definitions} of definitions, {types} of which are types of the code. [PROOFS](PROOFS.md#what-is-assumed) says what is assumed beside this repository (the checker, the compilers, the standard library and two others that are named here, `atomic_table` and `boxcar`), and what is not proved.

If a comment calls a value valid or lawful, it means the invariant of its type, which the checker enforces: for `Instruction`, `Assortment`, `Stem`, `Sheet` and `Plan` it is `IsInstruction`, `IsAssortment`, `IsStem`, `IsSheet` and `IsPlan`; that of `Parts`, the content of a book, and so of `Closed`, contains `IsLawful`. So a history that `close` refuses is lawful too, for the instruction that it has. A valid instruction has a period of at least 1, limits of diameters and lengths that rise, and one price and one target for each class. Valid targets are `AreTargets`.

## In plain words

An *instruction* says which *assortments* the mill takes (species, grades, diameters, lengths, and a trim: what a log takes up beyond its length), their base prices and their targets. A *plan* is the first of the best cuttings of a stem, from its thick end (the *butt*) on, under one sheet. A *book* is the history of cuts and demands that the fleet's harvesters share. A *posting* is a cut (the logs of one stem) or a demand (new targets). A *sheet* is the price list of a version, with a price for each *class*: a row of top diameters and a column of length of an assortment. A *period* is so many cuts; after its last cut, and after each demand, comes the next sheet. A *seat* is what a harvester calls the fleet with; its *kept list* has its answers, each with its position in the history. A *board* shows the newest sheets to seats.

| The headline says | If `close` answers Ok, because of | So it can't be that |
|---|---|---|
| every number of harvesters | `room` of `open`: 1 to 64 seats | |
| every order of their steps | No clause has a condition on other threads: each call keeps its clauses, whatever they do meanwhile | |
| a history of one thread, replayed from the empty book | `same_instruction` and `lawful` of `IsOneHistory`: each posting follows from those before it (`Follows`). By the law, each beginning of the history is lawful too | the history has a posting that a book of one thread couldn't add there |
| each seat's replies once and in their order | `replies`: for each harvester, its postings with their positions are its kept list (`lists`). Each Ok of `cut`, `try_commit` and `retarget` puts one answer behind that list (`KeepsOne`), and nothing else changes it (`KeepsNothing`) | an answer is missing, stands twice, or stands elsewhere |
| and nothing else | `IsCrew`: one seat for each harvester. `total`: as many postings as the kept lists hold together | there is a posting of anyone else |
| each is a demand or an admissible cutting that none outvalues | `holds` of `Follows`: `IsBest`, or `AreTargets` | logs overlap, are of a grade or a diameter that isn't taken, or others are worth more |
| under the prices in force there | `version_in_force`: the version is the number of period ends before | a cut is valued by an older sheet |
| the rule's relation to demand and logs before | `sheets_number`, `base_sheet` and `sheets_meet`: one sheet for the beginning, with the base prices, and one for each period end, whose prices are in the relation `Meets` to the targets and the counts after that end | a price leaves its limit, or lies on the wrong side of its base price |

For example, in periods of two cuts, with two harvesters:

```
position  harvester  number  version
0         1          1       0        cut
1         2          1       0        cut     ends the period: sheet 1
2         1          2       1        demand  ends the period: sheet 2, by the new targets
3         2          2       2        cut
```

There are three sheets. The kept list of harvester 1 has positions 0 and 2, that of harvester 2 has 1 and 3. Of a class with a base price of 500 and a limit of 100 per mille, the price is 500 to 550 if its share of the logs cut of its assortment is smaller than its share of the targets, 450 to 500 if greater, and 500 if equal.

Not promised: that a call succeeds or returns; that two seats' answers stand in the order of the clock; that a sheet's prices are the answers of the fleet's own rule, only that they keep the relation, as base prices always do; that a sheet shown by `snapshot` is one of the history's. No clause constrains a `CutFault`, a `RetargetFault` or a caller's `Gate`, which hears each plan, so they are not shown.

## How to read it

| Form | Meaning |
|---|---|
| `≡`, `≢`, `ℕ` | is equal to, is not equal to, a natural number |
| `a - b`, `a / b`, `a % b` | 0 if b is greater; rounded down, 0 if b is 0; the remainder, and a if b is 0. `*`, `/` and `%` go from the left |
| `A × B`, `A ⊎ B`, `A → B` | A and B (or a pair, with parts `.0` and `.1`); A or B; if A, then B |
| `(x : A) → B`, `(x : A) × B` | for every x of type A, B; for some x of type A, B |
| `Unit {{0}}`, `⊥`, `tt` | what always holds; what never holds; the one value of the first |
| `λ x. e` | the function that gives e for x |
| `[]`, `x ∷ xs`, `xs ++ ys` | the empty list; x before the list xs; one list after the other |
| `==`, `&&`, `\\|\\|`, `nat_eq`, `nat_le` | tests, which give `true` or `false` |
| `Type 0`, `{{F : Type 0}}` | the type of statements and of plain types; an argument that is left out when it is clear |
| `u8` to `u64`, `usize` | numbers of so many bits; natural numbers in definitions |
| `abbrev`, `unfoldable` | begin a definition; they say when the checker unfolds it, which doesn't affect its meaning |
| `record` | a tuple with named fields; one that states something holds if there are values for all its fields |
| `«module»` | the name `module`, which is a word of the language |
| `requires`, `ensures` | a condition on the caller; a clause that holds after the call |
| `ghost` | of proofs alone, with no effect when the program runs; in a struct also a fact that holds of its values |
| `Value`, `view` | the type that contracts see in the place of a type, and the function from its fields to that |
| `result`, `F`, `L` | what the call answers; the types of the fleet's rule and of its ledger |
| `x.now`, `x.old`, `x.new` | the value behind a shared borrow; the value of a `&mut` at the beginning of the call, and at its end |
| `v.items`, `a.value` | the list in a `Vec`; what an `Arc` holds |
| `opening.Seats`, `posting.Cut` | variants of `OpenFault` and of `Posting` |
| `slot!(918, 1, 0..=1_000_000)` | an item of a file by number and kind, with its range, whose end is `.high` |
| `take n xs`, `drop n xs` | the first n elements; all but these |
| `length`, `map`, `sum`, `flat_map`, `min`, `position` | as `len` and the others of Rust |
| `slice_get xs i` | element i, from 0, if there is one |
| `slice_index xs i`, `slice_index_or xs i d` | element i, else 0; element i, else d |
| `All P xs`, `EachIndex xs P` | P of each element; P of each index |
| `Contains xs x` | x is an element |
| `count_by p xs`, `sum_by f xs` | how many elements pass p; the sum of f over the elements |
| `cond b x y`, `if b then x else y` | x if b is true, else y |
| `unwrap_or o d`, `option_or o p`, `option_map f o` | the value of o, else d; o if it has a value, else p; f of the value |
| `IfOk r P`, `IfErr r P`, `IfSome o P` | if there is such a value, P of it |
| `IfNone o A` | if there is no value, A |
| `Shared F A B`, `F.Fn`, `Bor X` | what is known of closures of type F, from A to B; what is known of those of type `F`; a borrowed X. `Bor X × Unit {{0}}` is the list of arguments |
| `g.pre f x`, `g.post f x r` | f may be called with x; r is a possible answer |
| `Wait`, `Global`, `Arc`, `Vec`, `Option`, `Result` | a call without this right never waits; one without this allocator takes no memory; as in Rust |
| `f x y` | f of x and y; `f x` alone is the function or the statement that still takes y. `→` binds weakest, then `⊎`, then `×` |

The words from `take` to `IfNone` are defined in `Rattle.std.specs`: `rt lemma WORD` prints each.
"""

OTHER_FLEETS = """
## Seats of another fleet

A *ledger* (`std::sync::ledger`) is a fixed number of parts that exist only in proofs; `L` names one, and `L.parts` is how many parts it has. A `Blank` is a ledger that isn't in use yet: it has a name of its own, can't be copied, and `open` uses it up. Because `open` requires that this name is `L`'s (`blank`), at most one fleet is ever opened with `L`, and `L.parts` is 64.

`open` hands out seats that together hold all 64 parts (`AreOpened`). All holders of parts of one ledger hold `L.parts` together (the library guarantees this), and every seat has at least one (an invariant of `Seat`). `close` requires that its seats together hold `L.parts` parts (`parts`), so they are all the seats that the fleet has. A seat of another fleet has parts of another ledger, and so another type: hence `close` need not ask that each seat is one of its fleet (`IsSeatIn`). A seat that is dropped takes its parts with it; its fleet can't be closed.

The seats that `open` hands out meet each condition on seats: `crew` and `parts` of `close` by `crew` and `all_parts` of `AreOpened`, `IsSeatIn` of the other calls by `of_board` of `IsNew`; and each call keeps them (`seat`, and `Keeps`).

Of the public calls of `buck_fleet`, only those on this page and `run_fleet` can make a seat or change its kept list, whose fields are private. `run_fleet` makes these calls for each seat, in a thread of its own; its clauses (`HaveRun`) aren't on this page.
"""

BESIDE_PAGE = """# Beside the headline

`python3 checks/pages.py --write` writes this page. Don't edit it.

What the clauses on [the page of the headline](HEADLINE.md) name and the headline doesn't need: how the types of the code are seen as records, which of several best cuttings is taken, the limits of valid values, how seats see sheets, and why calls are refused. A type's view is shown, but not its invariant.

| Form | Meaning |
|---|---|
| `Table`, `Seat<(), u64>`, `table_id` | of `atomic_table`: words that threads share, a thread's place at them (not the `Seat` below), their identity |
| `boxcar::Vec`, `Pushed`, `Shows v p` | a list that only grows; the proof that something was pushed; p is of the list v |
| `prefix_len p xs`, `suffix_len p xs` | how many elements pass p from the front on; from the end back |
| `IsStrictlyIncreasing xs` | each element is above the one before |
| `ForSome o P`, `ForNone o A` | if there is a value, P of it; if there is none, A |
"""

HEAD = r"(?:abbrev|unfoldable|pub record|record)\s+(?:pub\s+)?"


def words_of(text):
    """The words of a clause or a definition that may be names."""
    return sorted(set(re.findall(r"[^\s(){},;:→×.λ]+", text) + re.findall(r"[A-Za-z_]\w*", text)))


def taken_by(lines, form):
    """Where each name that these lines import stands."""
    taken = {}
    for line in lines:
        use = re.match(form + r"use Rattle\.(\S+)\.\{(.*)\}", line)
        if use:
            taken.update({name.strip(): use[1] for name in use[2].split(",")})
    return taken


def page(lines):
    """A page of specs/: its lines, the names it takes from other pages, and where each definition stands."""
    stands = {}
    for at, line in enumerate(lines):
        definition = re.match(HEAD + r"(\S+)", line)
        if definition:
            first, last = at, at
            while first > 0 and lines[first - 1].startswith("--"):
                first -= 1
            while last + 1 < len(lines) and lines[last + 1].strip() and not re.match(HEAD + r"|--", lines[last + 1]):
                last += 1
            stands[definition[1]] = (at, first, last)
    return lines, taken_by(lines, r"(?:pub )?"), stands


def constants(lines):
    """A file of src/ as a page: where each of its constants stands, with its comment."""
    stands = {}
    for at, line in enumerate(lines):
        constant = re.match(r"(?:pub(?:\(crate\))? )?const ([A-Z]\w*):", line)
        if constant:
            first, last = at, at
            while first > 0 and lines[first - 1].startswith("///"):
                first -= 1
            while not lines[last].endswith(";"):
                last += 1
            stands[constant[1]] = (at, first, last)
    return lines, {}, stands


def files_in(crate, part, ending):
    """The files of a crate in one of its folders: the words of each path, and its lines."""
    top = os.path.join(TOP, "crates", crate, part)
    for folder, _, names in sorted(os.walk(top)):
        for name in sorted(names):
            if name.endswith(ending):
                path = os.path.join(folder, name)
                with open(path) as text:
                    yield os.path.relpath(path, top)[: -len(ending)].split(os.sep), text.read().split("\n")


def libraries():
    """The libraries of the product, lowest first."""
    return [name for name in crates() if name.startswith(("buck_", "buckfleet_"))]


def exported(files):
    """What the root of a crate hands out: its public modules, by where they stand, and the names from private ones."""
    text = "\n".join(next(lines for words, lines in files if words == ["lib"]))
    stand = {tuple(words) for words, _ in files}
    modules = {(name,): name for name in re.findall(r"^pub mod (\w+);", text, re.M)}
    names = set()
    for room, several, one in re.findall(r"^pub use ((?:\w+::)*\w+)::(?:\{([^}]*)\}|(\w+));", text, re.M):
        for name in re.findall(r"\w+", several or one):
            path = (*room.split("::"), name)
            if path in stand:
                modules[path] = name
            else:
                names.add(name)
    return modules, names


def clauses(lines, at):
    """The clauses of the function whose head stands at this line."""
    found = []
    for line in lines[at:]:
        if re.match(r"\s*(requires|ensures)\b", line) or found and not line.strip().startswith("//"):
            found.append(line)
        if re.match(r"\s*\{\}?$", line) or not found and re.search(r" \{\}?$|;$", line) or re.search(r"\};$", line):
            break
    return "\n".join(found)


def public_heads(crate):
    """Each public function of a crate: its name, the words of its file, the file's lines, and the line of its head."""
    files = list(files_in(crate, "src", ".rt"))
    modules, names = exported(files)
    for words, lines in files:
        module = modules.get(tuple(words))
        holder, is_trait = None, False
        for at, line in enumerate(lines):
            block = re.match(r"(impl|pub trait)\b(?:<.*?>(?= ))? *(?:[^{]* for )?(\w+)", line.replace("->", ""))
            if block:
                holder, is_trait = block[2], block[1] == "pub trait"
            elif line == "}":
                holder = None
            call = re.match(r"\s*(pub (?:extern \"C\" )?)?fn (\w+)", line)
            if not call or not (call[1] or is_trait):
                continue
            outer = holder or call[2]
            if module or outer in names or "extern" in (call[1] or ""):
                where = [module] if module else []
                yield "::".join([crate] + where + ([holder] if holder else []) + [call[2]]), words, lines, at


def public_calls(crate):
    """Each public function of a crate that has clauses: its name, its clauses, and where the names in them stand."""
    for name, _, lines, at in public_heads(crate):
        yield name, clauses(lines, at), taken_by(lines, "ghost ")


def reached(found, roots):
    """The definitions that the roots lead to, each as its page and its name, and the types of the code among them."""
    seen, types, left = [], set(), list(roots)
    while left:
        at = left.pop(0)
        declared = re.match(r"(buck(?:fleet)?_\w+)\.specs\.declared(?:\.\w+)*?\.([A-Z]\w*)", at[0])
        if declared and declared[2] != "TheConstants":
            types.add((declared[1], declared[2]))
        if at in seen or at[0] not in found:
            continue
        lines, taken, stands = found[at[0]]
        if at[1] not in stands:
            left += [(taken[at[1]], at[1])] if at[1] in taken else []
            continue
        seen.append(at)
        head, _, last = stands[at[1]]
        for word in words_of("\n".join(lines[head : last + 1])):
            if word in stands:
                left.append((at[0], word))
            elif word in taken:
                left.append((taken[word], word))
    return seen, types


def counted(found, known, roots):
    """How many lines of each page the roots lead to, beside what is known already; and the types of the code."""
    lengths = {}
    seen, types = reached(found, roots)
    for name, definition in seen:
        _, first, last = found[name][2][definition]
        if (name, definition) not in known:
            lengths[name] = lengths.get(name, 0) + last - first + 1
        known.add((name, definition))
    return lengths, types


def roots_of(calls, patterns, left):
    """The words of the clauses of the calls that a promise is about, which are then no longer left over."""
    roots = []
    for name, text, taken in calls:
        if any(fnmatch.fnmatch(name, pattern) for pattern in patterns):
            roots += [(taken[word], word) for word in words_of(text) if word in taken]
            left.discard(name)
    return roots


def spelled(promise, lengths):
    """The row of docs/PROOFS.md on a promise."""
    by_folder = {}
    for name, number in lengths.items():
        named = re.sub(r"/specs/declared/(.*)/TheConstants", r"/src/\1", name.replace(".", "/"))
        crate, part, rest = named.split("/", 2)
        by_folder.setdefault(crate if part == "specs" else f"{crate}/{part}", []).append(f"`{rest}` {number}")
    pages = "; ".join(f"`{folder}`: {', '.join(named)}" for folder, named in by_folder.items())
    return f"| {promise[0].upper()}{promise[1:]} | {sum(lengths.values())} | {pages} |"


def spelled_types(types):
    """The types of the code, a line for each crate."""
    named = [(crate, sorted(name for at, name in types if at == crate)) for crate in libraries()]
    return [f"{crate}: {', '.join(names)}" for crate, names in named if names]


def in_order(text):
    """The words of a clause or a definition that may be names, in the order in which they come."""
    return list(dict.fromkeys(re.findall(r"[^\s(){},;:→×.λ]+|[A-Za-z_]\w*", text) + words_of(text)))


def imported(lines):
    """The types and constants that a file of the code imports, with the crate of each."""
    rust = {}
    for use in re.findall(r"(?m)^(?:pub )?use ((?:crate|buck(?:fleet)?_\w+)[^;]*);", "\n".join(lines)):
        rust.update({name: use.split("::")[0] for name in re.findall(r"\b[A-Z]\w*\b(?!::)", use)})
    return rust


def types_in(lines):
    """The types that a file declares: for each the lines of its declaration, of its view, and the words to follow."""
    rust = imported(lines)
    for at, line in enumerate(lines):
        declared = re.match(r"pub (?:struct|enum) (\w+)", line)
        if not declared:
            continue
        first, last = at, at
        while first > 0 and re.match(r"///|#\[", lines[first - 1]):
            first -= 1
        while not re.search(r"^\}|;$|\}$", lines[last]):
            last += 1
        name, body = declared[1], lines[at : last + 1]
        heads = [k for k, it in enumerate(lines) if re.match(rf"impl(<.*>)? Model for {name}\b", it)]
        view = (0, -1)
        if heads:
            inside = range(heads[0] + 1, lines.index("}", heads[0]))
            begins = next(k for k in inside if lines[k].strip() and "ghost use" not in lines[k])
            ends = [k for k in inside if "ghost invariant" in lines[k]] or [inside.stop]
            view = (begins, max(k for k in range(begins, ends[0]) if lines[k].strip()))
            seen = set(re.findall(r"\.(\w+)", "\n".join(lines[view[0] : view[1] + 1])))
            body = [it for it in body if (re.match(r"\s*(?:pub )?(\w+):", it) or ["", ""])[1] in seen]
        ghost = taken_by([it.strip() for it in lines], "ghost ")
        yield name, (first, last), view, rust, ghost, "\n".join(it for it in body if "///" not in it)


class Reading:
    """The definitions, types and calls of the libraries, and what each leads to."""

    def __init__(self, found):
        self.found, self.types, self.calls = found, {}, {}
        for crate in libraries():
            for words, lines in files_in(crate, "src", ".rt"):
                for name, *rest in types_in(lines):
                    self.types.setdefault((crate, name), ("/".join(words), lines, *rest))
            for name, words, lines, at in public_heads(crate):
                self.calls[name] = (crate, "/".join(words), lines, at)

    def of_names(self, text, page, taken, stands=()):
        """What the names in a text stand for, those of its own fields apart: definitions, and types of the code."""
        for word in in_order(re.sub(r"\bpub (?:\w+|«\w+») :", "", text)):
            if word in stands:
                yield "definition", page, word
            elif word in taken:
                declared = re.match(r"(buck(?:fleet)?_\w+)\.specs\.declared\.(?:\w+\.)*?([A-Z]\w*)", taken[word])
                if declared and (declared[1], declared[2]) in self.types:
                    yield "type", declared[1], declared[2]
                elif taken[word] in self.found:
                    yield "definition", taken[word], word

    def of_types(self, text, crate, rust):
        """The types of the product that a declaration names, the names of its own variants apart."""
        for word in in_order(re.sub(r"(?m)^    [A-Z]\w*", "", text)):
            at = rust.get(word, crate)
            key = (crate if at == "crate" else at, word)
            if key in self.types:
                yield "type", *key

    def of_code(self, text, crate, lines):
        """The constants and the types that a clause names as the code does."""
        for word, at in imported(lines).items():
            if re.search(rf"\b{word}\b", text):
                own = crate if at == "crate" else at
                for page, (_, _, stands) in self.found.items():
                    if page.startswith(f"{own}.specs.declared") and word in stands:
                        yield "definition", page, word
                if (own, word) in self.types:
                    yield "type", own, word

    def head(self, name):
        """The lines of a call's comment, head and clauses."""
        _, _, lines, at = self.calls[name]
        first, last = at, at
        while re.match(r"\s*(///|#\[)", lines[first - 1]):
            first -= 1
        while not re.match(r"\s*\{\}?$", lines[last + 1]):
            last += 1
        return first, last

    def of_signature(self, name):
        """The types of the product that the signature of a call names, and the type that it is a method of."""
        crate, _, lines, at = self.calls[name]
        rust = imported(lines)
        signature = "\n".join(lines[at : self.head(name)[1] + 1]).split("requires")[0]
        yield from self.of_types(f"{name.split('::')[-2]} {signature}", crate, rust)

    def leads_to(self, node):
        """What a call, a type or a definition leads to, in the order in which it is named."""
        if node[0] == "call":
            _, _, lines, at = self.calls[node[1]]
            said = clauses(lines, at)
            promised = "".join(part for part in re.split(r"(?m)^(?=\s*(?:requires|ensures)\b)", said) if "ensures" in part)
            yield from self.of_names(promised + said, None, taken_by(lines, "ghost "))
            yield from self.of_code(said, self.calls[node[1]][0], lines)
            for it in self.of_signature(node[1]):
                if self.types[it[1:]][3] != (0, -1):
                    yield it
        elif node[0] == "type":
            _, lines, _, view, rust, ghost, body = self.types[node[1:]]
            yield from self.of_names("\n".join(lines[view[0] : view[1] + 1]), None, ghost)
            yield from self.of_types(body, node[1], rust)
        else:
            lines, taken, stands = self.found[node[1]]
            if node[2] in stands:
                head, _, last = stands[node[2]]
                yield from self.of_names("\n".join(lines[head : last + 1]), node[1], taken, stands)
            elif node[2] in taken:
                yield from self.of_names(node[2], node[1], taken)

    def ordered(self):
        """All that the headline leads to, by the parts of its page, each after the first that names it."""
        parts = {part: [] for part in (*BEGIN, *BESIDE)}
        begin = {name: part for part, names in (BEGIN | BESIDE).items() for name in names}
        left = {part: [] for part in parts}
        for name in HEADLINE:
            part = HISTORY if name.endswith("::close") or "::laws::" in name else SEATS
            left[part].append(("call", name))
        known = set()

        def visit(node, part):
            if node in known:
                return
            if begin.get(node[-1], part) != part:
                left[begin[node[-1]]].append(node)
                return
            known.add(node)
            parts[part].append(node)
            for other in self.leads_to(node):
                visit(other, part)

        while any(left.values()):
            part = next(part for part in parts if left[part])
            visit(left[part].pop(0), part)
        history = BEGIN[HISTORY]
        parts[HISTORY].sort(key=lambda node: history.index(node[-1]) if node[-1] in history else len(history))
        return parts

    def shown(self, node):
        """Of a node its title, its file, and the ranges of its lines; nothing of a name that a page hands on."""
        if node[0] == "call":
            crate, file, lines, _ = self.calls[node[1]]
            return node[1].split("::", 1)[1], f"crates/{crate}/src/{file}.rt", lines, [self.head(node[1])]
        if node[0] == "type":
            file, lines, (first, last), view, *_ = self.types[node[1:]]
            if view != (0, -1):
                last = next(k for k in range(first, last) if not lines[k].startswith("///")) - 1
            ranges = [(first, last), view]
            return node[2], f"crates/{node[1]}/src/{file}.rt", lines, [it for it in ranges if it[0] <= it[1]]
        lines, _, stands = self.found[node[1]]
        if node[2] not in stands:
            return None
        crate, _, file = node[1].split(".", 2)
        constants = re.fullmatch(r"declared\.(.*)\.TheConstants", file)
        part, name, ending = ("src", constants[1], "rt") if constants else ("specs", file, "antt")
        return node[2], f"crates/{crate}/{part}/{name.replace('.', '/')}.{ending}", lines, [stands[node[2]][1:]]


def anchor(title):
    """The name by which a link goes to a heading."""
    return re.sub(r"[^a-z0-9_-]", "", title.lower().replace(" ", "-"))


def headed(titles):
    """The heading of calls or definitions that stand together."""
    return ", ".join(f"`{it}`" for it in titles)


def together(pairs):
    """Calls and definitions in groups that stand together: those that follow each other from one file."""
    groups = []
    for node, shown in pairs:
        if groups and node[0] == groups[-1][0][0][0] == "definition" and groups[-1][0][1][1] == shown[1]:
            groups[-1].append((node, shown))
        else:
            groups.append([(node, shown)])
    return groups


def spans(ranges):
    """Lines by their numbers from 1."""
    return " and ".join(f"{first + 1} to {last + 1}" if first < last else f"{first + 1}" for first, last in ranges)


def part_of_page(group, named):
    """Calls or definitions on the page that stand together: their titles, file and lines, links to those that they name,
    and their text."""
    name, file, lines, _ = group[0]
    code, ranges = [], [it for shown in group for it in shown[3]]
    for first, last in ranges:
        part = lines[first : last + 1]
        margin = min(len(line) - len(line.lstrip()) for line in part if line)
        code += ([""] if code else []) + [line[margin:] for line in part]
    links = f"; names {', '.join(named)}" if named else ""
    body = "\n".join(code)
    return f"\n### {headed(it[0] for it in group)}\n\n{file}, lines {spans(ranges)}{links}\n\n```\n{body}\n```\n"


def headline(found):
    """The pages docs/HEADLINE.md and docs/HEADLINE_BESIDE.md, how many lines of the sources they have, and from how many
    files."""
    reading = Reading(found)
    parts = {part: [(node, reading.shown(node)) for node in nodes] for part, nodes in reading.ordered().items()}
    parts = {part: [(node, it) for node, it in pairs if it] for part, pairs in parts.items()}
    order = [pair for pairs in parts.values() for pair in pairs]
    calls = [(node, it) for node, it in order if node[0] == "call"]
    calls.sort(key=lambda pair: HEADLINE.index(pair[0][1]))
    parts = {part: [pair for pair in pairs if pair not in calls] for part, pairs in parts.items()}
    others = [pair for pairs in parts.values() for pair in pairs]

    def size(pairs):
        return sum(last - first + 1 for _, (*_, ranges) in pairs for first, last in ranges)

    numbers = {"lines": size(order), "clauses": size(calls), "calls": len(calls), "definitions": size(others)}
    numbers |= {"files": len({it[1] for _, it in order}), "types": sum(node[0] == "type" for node, _ in order)}
    rows = {part: f"[{part}]({BESIDE_NAME if part in BESIDE else ''}#{anchor(part)}) | {len(parts[part])} | {size(parts[part])}" for part in parts}
    numbers["parts"] = "\n".join(f"| {row} |" for row in rows.values())
    there = {node for node, _ in order}
    with open(os.path.join(TOP, "docs", "PROOFS.md")) as page_of_claim:
        claim = re.search(r"(?m)^## The headline\n\n(.*)$", page_of_claim.read())[1]
    groups = {part: together(pairs) for part, pairs in ({"The clauses": calls} | parts).items()}
    at, records = {}, {node for node, _ in parts[RECORDS]}
    for part, found_groups in groups.items():
        for group in found_groups:
            to = f"#{anchor(headed(it[0] for _, it in group))}"
            at.update({node: (part in BESIDE, to) for node, _ in group})

    def written(part):
        text = f"\n## {part}\n"
        for group in groups[part]:
            leads = []
            for node, _ in group:
                leads += reading.leads_to(node)
                if node[0] == "call":
                    leads += [it for it in reading.of_signature(node[1]) if it in there]
            own, named = {node for node, _ in group}, {}
            for it in leads:
                # The records were just read, so links to them would hide the others.
                if it not in own and it in at and (part == RECORDS or it not in records):
                    page = "" if at[it][0] == (part in BESIDE) else BESIDE_NAME if at[it][0] else "HEADLINE.md"
                    named[reading.shown(it)[0]] = f"[{reading.shown(it)[0]}]({page}{at[it][1]})"
            text += part_of_page([it for _, it in group], named.values())
        return text

    text = HEADLINE_PAGE.format(claim=claim, **numbers) + written(RECORDS) + written("The clauses") + OTHER_FLEETS
    text += "".join(written(part) for part in BEGIN if part != RECORDS)
    beside = BESIDE_PAGE + "".join(written(part) for part in BESIDE)
    return text, beside, numbers["lines"], numbers["files"]


def lines_wanted():
    """The table that docs/PROOFS.md must have, the types of the code, the page of the headline, what leads to specs/inner/."""
    found = {}
    calls = []
    for crate in libraries():
        for words, lines in files_in(crate, "specs", ".antt"):
            found[".".join([crate, "specs"] + words)] = page(lines)
        for words, lines in files_in(crate, "src", ".rt"):
            found[".".join([crate, "specs", "declared"] + words + ["TheConstants"])] = constants(lines)
        calls += public_calls(crate)
    whole, beside, number, files = headline(found)
    row = f"| The headline, by itself | {number} | whole on [HEADLINE](HEADLINE.md) and [the page beside it](HEADLINE_BESIDE.md), from {files} files |"
    wanted, types, known, inner = [TABLE, "|---|---|---|", row], set(), set(), []
    left = {name for name, _, _ in calls}
    for promise, patterns in PROMISES:
        about = [call for call in calls if call[0] in left]
        lengths, named = counted(found, known, roots_of(about, patterns, left))
        wanted.append(spelled(promise, lengths))
        types |= named
        inner += [f"{promise} leads to {name}" for name in lengths if ".inner." in name]
    return wanted + ["", TYPES], spelled_types(types), {"HEADLINE.md": whole, BESIDE_NAME: beside}, inner


def main():
    wanted, types, whole, wrong = lines_wanted()
    print("\n".join(wanted + types))
    with open(os.path.join(TOP, "docs", "PROOFS.md")) as text:
        told = text.read().split("\n")
    first = told.index(TABLE) if TABLE in told else None
    last = next((k for k, line in enumerate(told) if line.startswith(TYPES)), None)
    if first is None or last is None:
        wrong.append("docs/PROOFS.md has no place for the table: its head and the line on types")
        first, last, wanted = 0, -1, []
    pages = {"PROOFS.md": "\n".join(told[:first] + wanted + told[last + 1 :]), **whole}
    for name, text in pages.items():
        path = os.path.join(TOP, "docs", name)
        if "--write" in sys.argv:
            with open(path, "w") as file:
                file.write(text)
        elif not os.path.isfile(path) or open(path).read() != text:
            wrong.append(f"docs/{name} is not as it would be written (--write)")
    for line in wrong:
        print(line)
    return 1 if wrong else 0


if __name__ == "__main__":
    sys.exit(main())
