"""Makes docs/SHOWN.md: of each public call, each refusal and each limit how it is shown. Its rows are those of tools/shown.rows."""
import functools
import os
import re
from collections import Counter
from dataclasses import dataclass

import code_parts as parts
from definitions import cited, defining, models, promised, read

ROWS = "tools/shown.rows"
PAGE = "docs/SHOWN.md"
ORACLE = [f"oracle/{it}.py" for it in ("oracle", "networks", "plans", "machine", "lines")]
PLAIN = "benchmarks/plain/src"
KEYS = {"by", "without", "why", "laws", "oracle", "plain", "lines", "of", "through", "defined", "edits", "tests"}
NONE = "**none**"
GAPS = ("No second form", "No wrong body", "No test", "No refused allocation", "No definition")


@dataclass
class Row:
    """A line of the file of rows: its kind (promise, call, refused, limit or code), its crate, its names, and what is after each word."""

    kind: str
    crate: str
    names: list
    given: dict

    def has(self, key):
        return self.given.get(key, [])

    def calls(self):
        """Of a row of promises or of a code its calls, each with its crate: one that is not named again is that of the call before."""
        crate, found = "", []
        for it in self.has("by"):
            first, _, name = it.rpartition(": ")
            crate = first or crate
            found.append((crate, name))
        return found


def listed(names):
    return [it.strip() for it in names.split(",")]


def row_of(line):
    head, *behind = (it.strip() for it in line.split(" | "))
    kind, _, rest = head.partition(" ")
    if kind not in ("promise", "refused", "besides", "limit", "code", "gap"):
        kind, rest = "call", head
    crate, _, names = rest.partition(": ") if ": " in rest else ("", "", rest)
    given = {key: listed(value) for key, _, value in (it.partition(": ") for it in behind)}
    return Row(kind, crate, [names] if kind in ("limit", "gap") else listed(names), given)


@functools.cache
def sections():
    """The headings of the file of rows, each with its rows."""
    found = []
    for line in parts.text_of(ROWS).split("\n"):
        if line.startswith("## "):
            found.append((line[3:], []))
        elif line.strip() and not line.startswith("#"):
            found[-1][1].append(row_of(line))
    return found


@functools.cache
def rows(kind):
    return [row for _, some in sections() for row in some if row.kind == kind]


# ---- what the file of rows names


def has_oracle(name):
    owner, _, method = name.rpartition(".")
    text = "\n".join(parts.text_of(it) for it in ORACLE)
    if owner:
        text = re.split(r"^(?=class |def )", text.partition(f"class {owner}:")[2], flags=re.M)[0]
    return bool(re.search(rf"^{'    ' if owner else ''}(?:(?:def|class) {method}\b|{method} =)", text, re.M))


def has_plain(name):
    file, _, item = name.partition(": ")
    paths = parts.files(f"{PLAIN}/{file}.rs")
    return bool(paths and re.search(rf"\b(?:fn|const) {item}\b", parts.text_of(paths[0])))


def has_definition(name):
    crate, file, item = place_of(name)
    return any(item in read(it).items for it in parts.files(f"crates/{crate}/specs/**/{file}.antt"))


def names_of(test):
    """How the file of rows may name a test: by its name, or by its file and its name."""
    return {f"{test.crate}: {test.name}", f"{test.crate}: {test.file}.{test.name}"}


@functools.cache
def test_names():
    return {name for it, _ in parts.tests() for name in names_of(it)}


@functools.cache
def edit_names():
    return {f"{it.crate}: {it.name}" for it in parts.edits()}


CHECKS = {
    "laws": lambda name: name in parts.laws(),
    "oracle": has_oracle,
    "plain": has_plain,
    "defined": has_definition,
    "edits": lambda name: name in edit_names(),
    "tests": lambda name: name in test_names(),
    "of": lambda name: name in parts.all_functions(),
    "through": lambda name: name in parts.all_functions(),
}


def faults_of_rows():
    """Names of the file of rows that are nowhere, and variants of refusals and laws for readers that it leaves out."""
    for _, some in sections():
        for row in some:
            yield from (f"{ROWS}: no row has a part {it}" for it in row.given if it not in KEYS)
            for key, is_there in CHECKS.items():
                yield from (f"{ROWS}: {row.names[0]}: there is no {it}, named as one of {key}" for it in row.has(key) if not is_there(it))
            calls = [(row.crate, it) for it in row.names] if row.kind == "call" else row.calls()
            yield from (f"{ROWS}: {crate} has no function {it}" for crate, it in calls if not parts.function(crate, it))
    yield from left_out()


def left_out():
    """Variants of the enums of refusals without a row, rows of variants that are not there, and laws of fb_laws that no row names."""
    refused = {(row.crate, name) for row in rows("refused") for name in row.names}
    named = refused | {(row.crate, name) for row in rows("besides") for name in row.names}
    enums = {(crate, name.partition(".")[0]) for crate, name in refused}
    there = {(crate, f"{enum}.{it}") for crate, enum in enums if enum in parts.types(crate) for it in parts.variants(crate, enum) if it != "Memory"}
    yield from (f"{ROWS}: no row is for {crate}: {name}" for crate, name in sorted(there - named))
    yield from (f"{ROWS}: {crate} has no {name}" for crate, name in sorted(named - there))
    said = {law for _, some in sections() for row in some for law in row.has("laws")}
    yield from (f"{ROWS}: no row names the law {name} of fb_laws" for name, crate in sorted(parts.laws().items()) if crate == "fb_laws" and name not in said)


# ---- cells


def definitions(titles):
    """Definitions as documents name them: a crate once, and then its files and names."""
    by_crate = {}
    for crate, name in (it.split(": ") for it in titles):
        by_crate.setdefault(crate, {})[name] = None
    return ", ".join(f"`{crate}: {'`, `'.join(names)}`" for crate, names in by_crate.items())


def place_of(name):
    crate, _, rest = name.partition(": ")
    return (crate, *rest.split("."))


def defined_of_call(row, calls):
    """What the contracts of the calls cite, or else what their types are seen as, and what the types that they give keep."""
    found = [it for call in calls for it in cited(call)]
    for call in [it for it in calls if not found and not row.has("defined") and (by := promised(it)) and by.contract]:
        found += models().get(call.owner, ([], []))[0]
        given = re.findall(r"\w+", call.signature.rpartition("->")[2])
        found += [it for name in given if name not in ("Name", call.owner) for it in models().get(name, ([], []))[1]]
    return definitions([*row.has("defined"), *(it.title for it in found)]) or NONE


def edits_of(call):
    names = {call.full_name, f"{call.trait}::{call.name}"}
    return [it for it in parts.edits() if names & set(it.calls) and (call.owner or it.crate == call.crate)]


def edits_that(holds, row):
    """The edits of which this holds, and those that the row names."""
    return [it for it in parts.edits() if f"{it.crate}: {it.name}" in row.has("edits") or holds(it)]


def makes(call, item):
    """Whether an item of a crate of tests makes the call."""
    if call.name not in item.words:
        return False
    if not call.owner:
        return call.name in item.outside and bool(re.search(rf"(?<![\w.:]){call.name}(?:::<[^;{{}}]*?>)?\(", item.text))
    if call.owner not in item.words:
        return False
    return bool(re.search(rf"\.{call.name}\(|\b{call.owner}(?:::<[^;{{}}]*?>)?::{call.name}\b", item.text))


def sends(request, item):
    return request in item.words and bool(re.search(rf'^> {request}\b|"op":"{request}"', item.text, re.M))


def tests_that(holds, row):
    """The tests that use an item of which this holds, and those that the row names."""
    having = {it for crate in parts.crates() if crate.endswith("_tests") for it in parts.test_items(crate) if holds(it)}
    named = set(row.has("tests"))
    return [it for it, items in parts.tests() if not having.isdisjoint(items) or named and names_of(it) & named]


def tests_of(call, row):
    calls, requests = [call, *(parts.all_functions()[it] for it in row.has("through"))], row.has("lines")
    return tests_that(lambda item: any(makes(it, item) for it in calls) or any(sends(it, item) for it in requests), row)


@functools.cache
def trials():
    """Under each call of which allocations are refused in turn the tests that do it. A test may name the type alone, and a table the calls, as "::commit"."""
    found = {}
    for it, items in parts.tests():
        text = "\n".join(item.text for item in items)
        labels = re.findall(r'\b(?:try_\w+(?:::<[^(]+>)?|report)\((?:[^",]*,)*\s*"([\w:]+)"', text)
        labels += [label + call for label in labels for call in re.findall(r'"(::\w+)"', text)]
        for label in labels:
            found.setdefault(label, {})[f"`{it.crate}`: `{it.name}`"] = None
    return found


def memory_of(call, row):
    """Where each allocation of a call is refused in turn: a line if it needs no memory, and nothing if it is not tried."""
    is_maker = call.owner and f"-> {call.owner}" in call.signature
    if not parts.wants_memory(call) and (is_maker or "alloc: Global" not in call.signature):
        return "–"
    tried = ", ".join(trials().get(call.full_name, {}))
    above = quoted(it for it in row.has("through") if it in trials())
    conversations = "".join(map(parts.text_of, parts.files("tools/conversations/*.jsonl")))
    by_program = all(f'"op": "{it}"' in conversations for it in row.has("lines"))
    return tried or (f"through {above}" if above else "conversations" if row.has("lines") and by_program else "")


def counted(counts, absent):
    """Numbers with what they count, and the calls that have none."""
    words = ", ".join(f"{number} {name}" for name, number in counts.items() if number)
    return f"{words}; {NONE} of {quoted(absent)}" if words and absent else words or NONE


def count_edits(edits):
    by_folder = Counter(it.folder for it in set(edits))
    return {"in the gate": by_folder[parts.FOLDERS[0]], "outside the gate": by_folder[parts.FOLDERS[1]]}


def count_tests(tests):
    return Counter(f"of `{crate}`" for crate in sorted(it.crate for it in set(tests)))


def again(row):
    return ", ".join(f"{by} `{it}`" for by in ("oracle", "plain") for it in row.has(by))


def laws_of(row):
    """The laws that a row names, and those that its promises name for its calls."""
    found = [it for by in rows("promise") if set(by.calls()) & {(row.crate, it) for it in row.names} for it in by.has("laws")]
    return list(dict.fromkeys([*row.has("laws"), *found]))


def quoted(names):
    return ", ".join(f"`{it}`" for it in names)


# ---- calls


def call_row(row, gaps):
    calls = [parts.function(row.crate, it) for it in row.names]
    edits, tests, memory = ([find(it, row) for it in calls] for find in (lambda call, _: edits_of(call), tests_of, memory_of))
    promises = dict.fromkeys(number for name in row.names for it in rows("promise") if (row.crate, name) in it.calls() for number in it.names)
    has_form = laws_of(row) or again(row)
    without = {
        GAPS[0]: [] if has_form else row.names,
        **{gap: [it for it, found in zip(row.names, cells) if not found] for gap, cells in zip(GAPS[1:4], (edits, tests, memory))},
    }
    places = defined_of_call(row, calls)
    without[GAPS[4]] = row.names if places == NONE else []
    for gap, names in without.items():
        gaps[gap] += names
    return [
        ", ".join(f"[`{it}`](../{call.file})" for it, call in zip(row.names, calls)) + (f" ({', '.join(promises)})" if promises else ""),
        places,
        quoted(laws_of(row)) if has_form else NONE,
        again(row),
        counted(count_edits(sum(edits, [])), without[GAPS[1]]),
        counted(count_tests(sum(tests, [])), without[GAPS[2]]),
        "; ".join(dict.fromkeys(it or NONE for it in memory)),
    ]


# ---- refusals


def note(gaps, row, edits, tests, places=True):
    """Notes which of these a row lacks."""
    for gap, found in zip((*GAPS[1:3], GAPS[4]), (edits, tests, places)):
        gaps[gap] += [] if found else row.names


def refused_row(row, gaps):
    enum, _, variant = row.names[0].partition(".")
    has = re.compile(rf"\b{enum}::{variant}\b|\b(?:refused|delivered|answer)\\?\":\\?\"{variant}\\?\"")
    edits = edits_that(lambda it: has.search(it.text), row)
    tests = tests_that(lambda item: variant in item.words and has.search(item.text), row)
    places = row.has("defined") or [it.title for it in defining(enum, variant)]
    note(gaps, row, edits, tests, places)
    return [
        f"`{variant}` of `{row.crate}: {enum}`",
        quoted(row.has("of")),
        definitions(places) or NONE,
        again(row),
        counted(count_edits(edits), []),
        counted(count_tests(tests), []),
    ]


# ---- faults of texts


def linked(name, path):
    return f"[`{name}`](../{path}#L{parts.line_of(path, name.rpartition('::')[2])})"


def file_of(crate, folder, stem):
    """The file of that name in the folder of a crate, however deep."""
    return next(it for it in parts.files(f"crates/{crate}/{folder}/**/*") if os.path.splitext(os.path.basename(it))[0] == stem)


def code_row(row, gaps):
    (word,), calls = row.names, [parts.function(*it) for it in row.calls()]
    edits = edits_that(lambda it: any(f"`{call.name}`" in it.cell for call in calls), row)
    tests = tests_that(lambda _: False, row)
    note(gaps, row, edits, tests)
    places = {"oracle": ORACLE, "plain": parts.files(f"{PLAIN}/faults/*.rs")}
    written = [name for name, paths in places.items() if any(f'"{word}"' in parts.text_of(it) for it in paths)]
    cells = [
        (linked(name, file_of(crate, "specs", file)) for crate, file, name in map(place_of, row.has("defined"))),
        (linked(it, parts.function(parts.laws()[it], it).file) for it in row.has("laws")),
        (linked(it.full_name, it.file) for it in calls),
    ]
    names = [linked(it.name, file_of(it.crate, "src", it.file)) for it in tests]
    return [f"`{word}`", *map(", ".join, cells), ", ".join(written) or NONE, counted(count_edits(edits), []), ", ".join(names) or NONE]


# ---- limits


def limit_row(row, gaps):
    edits, tests = edits_that(lambda _: False, row), tests_that(lambda _: False, row)
    note(gaps, row, edits, tests)
    return [
        row.names[0],
        quoted(row.has("of")),
        definitions(row.has("defined")) or NONE,
        again(row),
        quoted(it.name for it in edits) or NONE,
        ", ".join(f"`{it.crate}`: `{it.name}`" for it in tests) or NONE,
    ]


# ---- the page


COLUMNS = {
    "call": ["Contract", "Defined by", "In other words", "Written again", "Wrong bodies", "Tests", "No memory"],
    "refused": ["Refusal", "Of", "Defined by", "Written again", "Wrong bodies", "Tests"],
    "limit": ["Limit", "Of", "Defined by", "Written again", "Wrong bodies", "Tests"],
    "code": ["Code", "Definition", "In other words", "Check", "Written again", "Wrong bodies", "Tests"],
    "gap": ["What is missing", "Of", "Why"],
}
CODES = "The rule of each code is in [LANGUAGE.md](LANGUAGE.md#faults-fb_iface-fb_faults-fb_expr-fb_ecc-fb_netcheck)."


MAKERS = {"call": call_row, "refused": refused_row, "limit": limit_row, "code": code_row,
          "gap": lambda row, _: [row.names[0], quoted(row.has("without")), ", ".join(row.has("why"))]}


@functools.cache
def made():
    """The page, whose first part is written by hand, and under each kind of gap what has it."""
    gaps = {it: [] for it in GAPS}
    text = [parts.text_of(PAGE).partition("\n## ")[0].rstrip()]
    for heading, some in sections():
        kind = some[0].kind
        if kind == "promise":
            continue
        lines = [MAKERS[kind](it, gaps) for it in some if it.kind == kind]
        text += ["", f"## {heading}", "", *([CODES, ""] if kind == "code" else []), parts.table(COLUMNS[kind], lines, "---").rstrip("\n")]
    text += ["", "## In all", "", total()]
    return "\n".join(text) + "\n", gaps


def total():
    calls = sum(len(row.names) for row in rows("call"))
    by_folder = Counter(it.folder for it in parts.edits())
    gate, beside = (by_folder[it] for it in parts.FOLDERS)
    return (
        f"{calls} public calls, {len(rows('refused'))} refusals, {len(rows('limit'))} limits, {len(rows('code'))} codes of faults; {len(parts.laws())} laws; "
        f"{gate} wrong bodies in the gate and {beside} outside it, also of calls below these; {len(parts.tests())} tests."
    )


def excused(gap):
    """What the reasons for gaps name under one of these."""
    return {it for row in rows("gap") if row.names == [gap] for it in row.has("without")}


def faults_of_gaps():
    """What has a gap without a reason, and what has a reason for a gap and no gap."""
    for gap, names in made()[1].items():
        yield from (f"{ROWS}: {it} is told to have {gap.lower()}, and it has one" for it in sorted(excused(gap) - set(names)))
        yield from (f"{ROWS}: it is not told why {it} has {gap.lower()}" for it in sorted(set(names) - excused(gap)))


def faults():
    """What is wrong with the file of rows, and whether the page is another than the one that is made of it."""
    found = list(faults_of_rows())
    if not found:
        found += faults_of_gaps()
        found += [] if parts.text_of(PAGE) == made()[0] else [f"{PAGE} is another page than the one that is made now (--mend)"]
    return found
