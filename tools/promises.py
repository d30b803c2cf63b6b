"""Makes the blocks of docs/PROMISES.md: of each promise its contracts, definitions, laws, wrong bodies and tests; a table of all promises; and the table of
the crates of docs/ARCHITECTURE.md.

tools/shown.rows has which calls carry a promise, and which laws state it again; the wrong bodies are those whose line in a must-fail/README.md names it."""
import functools
import itertools
import os
import re
import textwrap
from collections import Counter

import code_parts as parts
import crate_graph
import definitions
import headline
import shown

PAGE = "docs/PROMISES.md"
READERS = "fb_laws"
WIDTH = 200


@functools.cache
def titles():
    """Each promise with its title."""
    return dict(re.findall(r"^## (P\d+)\. (.*)$", parts.text_of(PAGE), re.M))


def rows_of(number):
    return [it for it in shown.rows("promise") if number in it.names]


def calls_of(number):
    return list(dict.fromkeys(call for row in rows_of(number) for call in row.calls()))


def laws_of(number):
    return list(dict.fromkeys(law for row in rows_of(number) for law in row.has("laws")))


@functools.cache
def law(name):
    return parts.function(parts.laws()[name], name)


def cited(functions):
    """The definitions that these contracts cite."""
    return list(dict.fromkeys(its for it in functions for its in definitions.cited(it)))


@functools.cache
def edits_of(number):
    named = [name for row in rows_of(number) for name in row.has("edits")]
    return [it for it in parts.edits() if number in re.findall(r"\bP\d+\b", it.promise) or f"{it.crate}: {it.name}" in named]


@functools.cache
def below(number):
    """All definitions on which a promise rests by the contracts of its calls and by its laws, but for those in other words."""
    said = [it for it in map(law, laws_of(number)) if it.crate != READERS]
    return headline.ordered(cited([*(parts.function(*it) for it in calls_of(number)), *said]))


@functools.cache
def tests_of_call(crate, name):
    """The tests of a call. Its row of the page of what is shown, if it has one, says how tests make it."""
    rows = (it for it in shown.rows("call") if it.crate == crate and name in it.names)
    return shown.tests_of(parts.function(crate, name), next(rows, shown.Row("call", crate, [name], {})))


def tests_of(number):
    return {it for call in calls_of(number) for it in tests_of_call(*call)}


# ---- the block of a promise


def linked(it):
    return f"[`{it.full_name}`](../{it.file})"


def wrong_bodies(number):
    gate, beside = ([it for it in edits_of(number) if it.folder == folder] for folder in parts.FOLDERS)
    counts = Counter(it.crate for it in beside)
    in_gate = "; ".join(f"`{crate}`: {shown.quoted(it.name for it in some)}" for crate, some in itertools.groupby(gate, lambda it: it.crate))
    standing = ", ".join(f"[{count} of `{crate}`](../crates/{crate}/must-fail/README.md)" for crate, count in counts.items())
    said = [f"{place} {names}" for place, names in (("in the gate", in_gate), ("outside the gate", standing)) if names]
    return "; ".join(said)


def in_words(names, above):
    """Laws, with the definitions that they cite and that are not named above; of those for readers, which are called like their laws, the files."""
    places = [it for it in cited(map(law, names)) if it not in above]
    files = dict.fromkeys(it.file for it in places if it.crate == READERS)
    told = f"`{READERS}: {'`, `'.join(files)}`" if files else shown.definitions(it.title for it in places)
    return shown.quoted(names) + (f" ({told})" if places else "")


def points_of(number):
    calls = [parts.function(*it) for it in calls_of(number)]
    places = cited(calls)
    all_below = below(number)
    said, readers = ([it for it in laws_of(number) if (law(it).crate == READERS) is is_for_readers] for is_for_readers in (False, True))
    yield "Contracts", ", ".join(map(linked, calls))
    in_all = f"{len(all_below):,} definitions of {headline.lines_of(map(headline.displayed, all_below)):,} lines"
    yield "Definitions", f"{shown.definitions(it.title for it in places) or 'none of the project'}; with all that these and the laws use, {in_all}"
    yield "Laws", in_words(said, places)
    yield "In other words", in_words(readers, places)
    yield "Wrong bodies", wrong_bodies(number)
    yield "Tests", shown.counted(shown.count_tests(tests_of(number)), [])


def wrapped(text):
    """A point of a list in lines that are not too long. (What is between backquotes is one word.)"""
    kept = re.sub(r"`[^`]*`", lambda it: it[0].replace(" ", "\0"), text)
    return textwrap.fill(kept, WIDTH, subsequent_indent="  ", break_long_words=False, break_on_hyphens=False).replace("\0", " ")


def block(number):
    return "\n".join(wrapped(f"- {name}: {text}") for name, text in points_of(number) if text) + "\n"


# ---- the tables


def all_promises():
    rows, above = [], set()
    for number, title in titles().items():
        anchor = f"{number}-{title}".lower().replace(" ", "-")
        folders = Counter(it.folder for it in edits_of(number))
        new = [it for it in below(number) if it not in above]
        above.update(new)
        read = (len(below(number)), *(headline.lines_of(map(headline.displayed, it)) for it in (below(number), new)))
        rows.append([f"[{number} {title}](#{anchor})", *(f"{it:,}" for it in (*read, len(laws_of(number)), *(folders[it] for it in parts.FOLDERS), len(tests_of(number))))])
    return parts.table(["Promise", "Definitions", "Lines", "Lines in no row above", "Laws", "Wrong bodies in the gate", "outside the gate", "Tests"], rows)


def sentence(crate):
    """What a crate is, by the first paragraph at the head of its code."""
    path = next(it for it in (f"crates/{crate}/src/lib.rt", f"crates/{crate}/src/main.rt") if os.path.isfile(f"{parts.TOP}/{it}"))
    head = re.match(r"(?://![^\n]*\n)+", parts.text_of(path))[0]
    return " ".join(re.sub(r"^//! ?", "", head, flags=re.M).split("\n\n")[0].split())


def all_crates():
    rows, graph = [], crate_graph.read(f"{parts.TOP}/crates.txt")
    for crate in graph:
        numbers = [it for it in titles() if any(crate == call[0] for call in calls_of(it)) or any(law(name).crate == crate for name in laws_of(it))]
        rows.append([f"[`{crate}`](../crates/{crate})", sentence(crate), ", ".join(numbers)])
    return parts.table(["Crate", "What it is for", "[Promises](PROMISES.md)"], rows)


def faults():
    """Promises without a row or a heading, and wrong bodies whose line names a promise that is not there by that title."""
    said = {number for it in shown.rows("promise") for number in it.names}
    yield from (f"{shown.ROWS}: there is no promise {it}" for it in sorted(said - set(titles())))
    yield from (f"{shown.ROWS}: no row is for the promise {it}" for it in sorted(set(titles()) - said))
    there = {f"{number} {title}" for number, title in titles().items()}
    named = {name for row in shown.rows("promise") for name in row.has("edits")}
    for it in parts.edits():
        if f"{it.crate}: {it.name}" not in named:
            yield from (f"crates/{it.crate}/must-fail/README.md: there is no promise {name}" for name in re.split(r", (?=P\d)", it.promise) if name not in there)
