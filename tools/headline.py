#!/usr/bin/env python3
"""Makes the pages of all definitions on which a promise rests, each after those that it uses.

tools/headline.py --page NAME     prints a page; without a word it prints the names of the pages, with how much each has

docs/HEADLINE.md is the page `machine`, and has a table of the others with a checksum of the definitions and contracts that each prints. `tools/check-docs`
compares it with what would be made now, and `tools/check-docs --mend` makes it.

A definition is an item of a file of specs/, with the comment above it; a type or constant of the program that definitions name is listed with its Rust text,
and a trait that a call is generic in with what its methods ensure. If a law proves that a relation defines what a function computes, the page has the law and
the relation in place of the function. What the kit defines (numbers, lists, options) is not listed.

Why it is here: rt lists no definitions on which a contract rests."""
import argparse
import functools
import hashlib
import re
import sys
import textwrap
from typing import NamedTuple

import code_parts as parts
from definitions import WORD, Definition, defined, in_file, named, read

PAGE = "docs/HEADLINE.md"
TITLE = """# What the promises rest on

A contract says no more than the definitions that it cites. To believe a promise, read its definitions, and trust what [TRUST.md](TRUST.md) lists. [PROVED.md](PROVED.md) follows one promise through them.

The definitions are in layers. This page has the first, the machine: its states, calls, steps and replies with any `rules` of keys. A workbench (`State`) has those of units, of which this page has only the
types and the law `locality`. The other pages define them, and what is built on the machine. `tools/headline.py --page reading` prints one; the page in a repository is that of this table if its checksum is
the same, and `tools/check-docs` fails if it is not. (`tools/check-docs --mend` makes this page and the table from the crates.)
"""
HOW = """Each definition is after those that it uses and has the comment above it. What a page above has, and what the kit defines (numbers, lists, options, maps), is left out. If a law proves that a relation defines what
a function computes, the function has the law in place of its equations.
"""


class Page(NamedTuple):
    """A page, with the calls whose contracts it is about."""

    name: str
    title: str
    sentence: str
    calls: list


def rows(kind):
    """The rows of this kind of tools/headline.rows, each a list of its parts."""
    return [line.removeprefix(f"{kind} ").split(" | ") for line in parts.text_of("tools/headline.rows").split("\n") if line.startswith(f"{kind} ")]


PAGES = [Page(*words, [it.split(": ") for it in calls.split(", ")]) for *words, calls in rows("page")]
# What all pages but the one that defines it use by its type alone.
OPEN = dict(rows("open"))
# The functions whose values a relation defines, each with the law that proves it.
LAWS = {name: law.split(": ") for name, law in rows("law")}


@functools.cache
def rust_trait(name):
    """A trait of the program with what its required methods ensure, as a definition that cites theirs; None if it is the kit's."""
    methods = [it for crate in parts.crates() for it in parts.functions(crate) if it.owner == name and it.block.startswith(f"pub trait {name}")]
    if not methods:
        return None
    path, uses = methods[0].file, methods[0].uses
    found = re.search(rf"(?:^//[^\n]*\n)*{re.escape(methods[0].block)}", parts.text_of(path), re.M)
    inside = found[0]
    for it in methods:
        if it.body.strip():
            inside = inside.replace("\n".join([it.signature, it.contract, it.body]), "")
    inside = re.sub(r"\n(?: *///[^\n]*\n)+(?=\n*(?:\n *///|\}))", "\n", re.sub(r"^ *ghost use [^\n]*\n", "", inside, flags=re.M))
    line = found.string.count("\n", 0, found.start()) + 1
    return Definition(path, line, name, re.sub(r"\n{2,}(?=\}|\n)|(?<=\{)\n+", "\n", inside), cites=named(uses, inside))


def displayed(it, is_open=False):
    """A definition as a page has it: its type if it is left open, and its type with the law if a relation defines it."""
    if not is_open and it.title not in LAWS:
        return it.text
    lines = it.text.split("\n")
    end = next((at for at, line in enumerate(lines) if line.startswith(f"{it.name} ") and not line.startswith(f"{it.name} :")), len(lines))
    if is_open:
        return "\n".join([*lines[:end], f"-- (left open here: the page {OPEN[it.title]} defines it)"])
    crate, name = LAWS[it.title]
    return "\n".join([*lines[:end], f"-- by the law {name} of {crate}:", textwrap.dedent(parts.function(crate, name).contract)])


@functools.cache
def uses_of(it, is_open=False):
    """The definitions that one uses as a page has it."""
    if it.path.endswith(".rt"):
        return it.cites
    code = "\n".join(line for line in displayed(it, is_open).split("\n") if not line.strip().startswith("--"))
    found = [in_file(it.path, word) or in_file(it.path, word.split(".")[0]) for word in WORD.findall(code)]
    found += cited(*LAWS[it.title]) if it.title in LAWS and not is_open else []
    return [its for its in found if its and its is not it]


def cited(crate, name):
    """The definitions that the contract of a call cites."""
    call = parts.function(crate, name)
    if call is None:
        raise SystemExit(f"headline: {crate} has no {name}")
    traits = [it for bound, trait in re.findall(r"\b([A-Z]): (\w+)", call.signature) if re.search(rf"\b{bound}\.", call.contract) and (it := rust_trait(trait))]
    return [*traits, *named(call.uses, call.contract)]


def ordered(roots, left_open=()):
    """All that these definitions rest on, each after those that it uses."""
    seen, order = set(), []

    def add(some):
        for it in some:
            if it not in seen:
                seen.add(it)
                add(uses_of(it, it.title in left_open))
                order.append(it)

    add(roots)
    return order


def is_ours(path):
    return path.startswith("Rattle.") and path.split(".")[1] in parts.crates()


def missing():
    """What a contract or a definition of the pages takes from a crate and the pages do not find, and what no page has."""
    for crate, name in dict.fromkeys((crate, name) for page in PAGES for crate, name in page.calls):
        call = parts.function(crate, name)
        lost = {word for word in WORD.findall(call.contract) if is_ours(call.uses.get(word, "")) and not defined(call.uses[word], word)}
        yield from (f"{PAGE}: {crate}: {name} cites {word}, which is not found" for word in sorted(lost))
    there = {it.title: it for part in layers() for it in part.whole}
    for it in (it for it in there.values() if it.path.endswith(".antt")):
        names = read(it.path).names
        lost = {word for word in WORD.findall(it.text) if is_ours(names.get(word, ("",))[0]) and not in_file(it.path, word)}
        yield from (f"{PAGE}: {it.title} uses {word}, which is not found" for word in sorted(lost))
    yield from (f"tools/headline.py: no page has {it}" for it in sorted({*OPEN, *LAWS} - {*there}))


def lines_of(texts):
    return sum(it.count("\n") + 1 for it in texts)


class Layer(NamedTuple):
    """A page with all definitions on which its contracts rest, those of them that no page above has, and those that it leaves open."""

    page: Page
    whole: list
    new: list
    left_open: set

    def text(self, it):
        return displayed(it, it.title in self.left_open)

    def lines(self, definitions):
        return lines_of(map(self.text, definitions))

    def sources(self):
        """The contracts and definitions that the page prints."""
        return "\n\n".join([*(contract_of(*call)[0] for call in self.page.calls), *map(self.text, self.new)])

    def checksum(self):
        return hashlib.sha256(self.sources().encode()).hexdigest()[:16]


@functools.cache
def layers():
    """The pages in their order."""
    above, found = set(), []
    for page in PAGES:
        left_open = {it for it, home in OPEN.items() if home != page.name}
        whole = ordered([it for call in page.calls for it in cited(*call)], left_open)
        new = [it for it in whole if it not in above and (it.title not in left_open or page is PAGES[0])]
        above |= {it for it in new if it.title not in left_open}
        found.append(Layer(page, whole, new, left_open))
    return found


def contract_of(crate, name):
    """A call with its contract, and the place at which it is."""
    call = parts.function(crate, name)
    text = parts.text_of(call.file)
    line = text.count("\n", 0, text.index(f"{call.signature}\n{call.contract}")) + 1
    return textwrap.dedent(f"{call.signature}\n{call.contract}").removesuffix("{").rstrip(), f"{call.file}#L{line}"


def table(heads, cells):
    """A table of the pages."""
    rows = [[*cells(it), *(f"{its:,}" for its in (len(it.whole), it.lines(it.whole), len(it.new), it.lines(it.new)))] for it in layers()]
    return parts.table([*heads, "Definitions", "Lines", "Of these on no page above", "Lines"], rows)


def how_much():
    """How much each page has, as a table for other pages."""
    return table(["To believe", "Read"], lambda it: (it.page.title, "[HEADLINE.md](HEADLINE.md)" if it.page is PAGES[0] else f"`tools/headline.py --page {it.page.name}`"))


def body(it, top):
    """The contracts and the definitions of a page, with links from the folder that is so far below the top."""
    contracts = [f"[`{crate}`: `{name}`]({top}{place})\n\n```rust\n{text}\n```\n" for crate, name in it.page.calls for text, place in [contract_of(crate, name)]]
    shown = [f"[`{its.title}`]({top}{its.path}#L{its.line})\n\n```{'rust' if its.path.endswith('.rt') else ''}\n{it.text(its)}\n```\n" for its in it.new]
    return "\n".join([f"{it.page.sentence} The contracts:\n", *contracts, "The definitions that they cite, and that no page above has:\n", *shown]).rstrip("\n") + "\n"


def printed(it):
    """A page that is made when it is asked for."""
    return "\n".join([f"# {it.page.title}\n", f"The checksum of this page is {it.checksum()}; [HEADLINE.md]({PAGE}) has the same. {HOW}", body(it, "")])


def made():
    """The text of docs/HEADLINE.md."""
    first = layers()[0]
    count = f"{len(first.new)} definitions of {first.lines(first.new):,} lines, about an hour of reading"
    rows = table(["Page", "Contracts of", "Checksum"], lambda it: (f"`{it.page.name}`", ", ".join(f"`{crate}`: `{name}`" for crate, name in it.page.calls), f"`{it.checksum()}`"))
    return "\n".join([TITLE, rows, HOW, f"## {first.page.title}\n", f"{count[0].upper()}{count[1:]}.\n", body(first, "../")])


def faults(there):
    """How docs/HEADLINE.md differs from what would be made now, and what the pages do not find."""
    kept = dict(re.findall(r"^\| `(\w+)` \| .*? \| `(\w+)` \|", there, re.M))
    changed = [it.page.name for it in layers() if kept.get(it.page.name) != it.checksum()]
    if there != made():
        yield f"{PAGE}: it would be made otherwise now{', and so would the pages ' + ', '.join(changed) if changed else ''} (--mend)"
    yield from missing()


def main():
    words = argparse.ArgumentParser(description=__doc__, formatter_class=argparse.RawDescriptionHelpFormatter)
    words.add_argument("--page", choices=[it.name for it in PAGES])
    name = words.parse_args().page
    print(next(printed(it) for it in layers() if it.page.name == name) if name else how_much(), end="")


if __name__ == "__main__":
    sys.exit(main())
