"""Reads the parts of the crates that documents are about: functions with their contracts, definitions, refusals, edits and tests."""
import functools
import glob
import os
import re
from collections import defaultdict
from dataclasses import dataclass
from pathlib import Path

TOP = os.path.dirname(os.path.dirname(os.path.abspath(__file__)))
FIVE = ("commit", "take", "deliver", "give_back", "ask")
FOLDERS = ("must-fail", "more-edits")


@dataclass
class Function:
    crate: str
    file: str
    owner: str
    trait: str
    name: str
    is_public: bool
    signature: str
    contract: str
    body: str
    uses: dict
    block: str

    @property
    def full_name(self):
        return f"{self.owner}::{self.name}" if self.owner else self.name


@dataclass(eq=False)
class Edit:
    crate: str
    folder: str
    name: str
    cell: str
    calls: list
    text: str
    promise: str


@dataclass(eq=False)
class Item:
    """A function, a constant or a type of a crate of tests: its text, from what file of the crate its names come, and which come from the crates that are tested."""

    crate: str
    file: str
    name: str
    is_test: bool
    text: str
    words: set
    inside: dict
    outside: set


@functools.cache
def text_of(path):
    return Path(TOP, path).read_text()


def table(heads, rows, rule=" --- "):
    """A table of a page."""
    line = lambda cells: f"| {' | '.join(cells)} |\n"
    return "".join([line(heads), f"|{f'{rule}|' * len(heads)}\n", *map(line, rows)])


def files(pattern):
    return sorted(os.path.relpath(it, TOP) for it in glob.glob(f"{TOP}/{pattern}", recursive=True) if os.path.isfile(it))


def line_of(path, name):
    """The line at which a file of code or of definitions defines the name, or else the first that has it. None if no line has it."""
    lines, has = text_of(path).split("\n"), rf"\b{re.escape(name)}\b"
    defines = rf"\b(?:fn|struct|enum|trait|const|static|abbrev|unfoldable|record|data|def)\s+(?:pub\s+)?{re.escape(name)}\b"
    return next((number for form in (defines, has) for number, line in enumerate(lines, 1) if re.search(form, line)), None)


def reached(start, following):
    """These things, those that follow them, and so on, in the order in which they are found."""
    found, todo = dict.fromkeys(start), list(start)
    while todo:
        new = dict.fromkeys(it for it in following(todo.pop()) if it not in found)
        found |= new
        todo += new
    return found


@functools.cache
def crates():
    return sorted(os.listdir(f"{TOP}/crates"))


# ---- functions


HEAD = re.compile(r"( *)(pub(?:\([\w ]+\))? )?(?:const )?fn (\w+)")
BLOCK = re.compile(r"(?:pub )?(?:impl(?:<[^>]*>)? (?:([\w:]+)(?:<.*>)? for )?&?(?:'\w+ )?(\w+)|trait (\w+))")
USE = re.compile(r"(?:pub |ghost )?use ([\w.]+)\.\{(.*)\};?$")


def head_at(lines, at, indent):
    """Of the function that begins at a line: where its contract begins, the line after it, and whether a body is there."""
    clause = None
    for place in range(at, len(lines)):
        line = lines[place]
        if clause is None and re.match(r" *(?:ensures|requires)\b", line):
            clause = place
        if line in (f"{indent}{{", f"{indent}{{}}"):
            return place if clause is None else clause, place, True
        if line.endswith(";" if clause is None else "};"):
            return clause or place + 1, place + 1, False
        if clause is None and line.endswith(("{", "{}")):
            return place + 1, place + 1, line.endswith("{")
    return len(lines), len(lines), False


def end_of_body(lines, at, indent):
    return next((place + 1 for place in range(at, len(lines)) if lines[place] in (f"{indent}}}", f"{indent}{{}}")), len(lines))


def listed(module, items):
    """The names in the braces of an import, each with its module: `M.{a}` is the name `a` of the module M below this one."""
    modules = [module]
    for name, sign in re.findall(r"\s*([^{},]*?)\s*(\.\{|[,}]|$)", items):
        if sign == ".{":
            modules.append(f"{modules[-1]}.{name}")
        elif name:
            yield modules[-1], name
        if sign == "}":
            modules.pop()


def imports_in(line):
    """The names that a line imports, each with its module."""
    use = USE.match(line.strip())
    return list(listed(use[1], use[2])) if use else []


def function_at(lines, at, place):
    """The function whose head is at a line, and the line after it. A place is its crate, file, owner, trait, imports and block."""
    head = HEAD.match(lines[at])
    clause, behind, has_body = head_at(lines, at, head[1])
    end = end_of_body(lines, behind, head[1]) if has_body else behind
    crate, file, owner, trait, uses, block = place
    signature, contract, body = ("\n".join(it) for it in (lines[at:clause], lines[clause:behind], lines[behind:end]))
    return Function(crate, file, owner, trait, head[3], head[2] == "pub ", signature, contract, body, uses, block), end


def functions_in(crate, file):
    lines = text_of(file).split("\n")
    outer, uses, owner, trait, block, at = {}, {}, "", "", "", 0
    while at < len(lines):
        line = lines[at]
        opens = BLOCK.match(line)
        if opens and line.endswith("{"):
            trait, owner = opens[1] or "", opens[2] or opens[3]
            uses, block = dict(outer), "\n".join(lines[at : end_of_body(lines, at, "")])
        elif line == "}":
            owner, trait, uses, block = "", "", {}, ""
        (uses if owner else outer).update({name: module for module, name in imports_in(line)})
        if HEAD.match(line):
            found, at = function_at(lines, at, (crate, file, owner, trait, uses if owner else outer, block))
            yield found
        else:
            at += 1


@functools.cache
def functions(crate):
    return [it for file in files(f"crates/{crate}/src/**/*.rt") for it in functions_in(crate, file)]


def function(crate, full_name):
    """The function of this name, or None."""
    return next((it for it in functions(crate) if it.full_name == full_name), None)


@functools.cache
def laws():
    """Which crate has each law: a public function without a body that ensures something."""
    some = [it for crate in crates() for it in functions(crate) if not it.owner and it.is_public]
    return {it.name: it.crate for it in some if it.body.strip() == "{}" and "ensures" in it.contract}


@functools.cache
def all_functions():
    """Each function of the crates by its name, those that other crates can call before others of that name."""
    found = [it for crate in crates() for it in functions(crate)]
    return {it.full_name: it for it in sorted(found, key=lambda it: it.is_public)}


# ---- what may want memory


TYPE = re.compile(r"^pub (enum|struct) (\w+)[^\n]*\{\n(.*?)^\}", re.M | re.S)


@functools.cache
def types(crate):
    """The enums and structs of a crate: each with its word and its text."""
    return {name: (word, body) for file in files(f"crates/{crate}/src/**/*.rt") for word, name, body in TYPE.findall(text_of(file))}


def variants(crate, enum):
    return re.findall(r"^    (\w+)", types(crate)[enum][1], re.M)


@functools.cache
def memory_types():
    """The types that can say that there was no memory."""
    all_types = [(name, *it) for crate in crates() for name, it in types(crate).items()]
    enums = [name for name, word, body in all_types if word == "enum" and re.search(r"^    Memory,", body, re.M)]
    structs = [(name, body) for name, word, body in all_types if word == "struct"]
    return set(reached(["AllocError", *enums], lambda fault: [name for name, body in structs if re.search(rf"\bfault: {fault}\b", body)]))


def wants_memory(it):
    """Whether a call has an allocator, by its type or of its own, and gives something that can say that there was no memory."""
    words = set(re.findall(r"\w+", it.signature.rpartition("->")[2]))
    return bool(words & memory_types()) and bool(re.search(r"\bself\b|\bGlobal\b", it.signature))


# ---- edits


def calls_in(cell):
    """The calls that the line of an edit names: `Owner::name`, or the name alone."""
    head, _, behind = cell.partition(", for ")
    head, *within = re.split(r", (?:in|by) ", head)
    found = []
    for part in (head, behind):
        five = re.search(r"the (?:five )?(?:recorded )?calls(?: of `(\w+)`)?", part)
        found += [f"{five[1] or 'Bench'}::{it}" for it in FIVE] if five else []
        of_type = re.fullmatch(r"`(?:\w+::)?(\w+)` of `(\w+)`", part.strip())
        found += [f"{of_type[2]}::{of_type[1]}"] if of_type else [] if five else re.findall(r"`([\w:]+)`", part)
    owners = {it.partition("::")[0] for it in found if "::" in it}
    inner = [name for part in within for name in re.findall(r"`(\w+)`", part)]
    return found + ([f"{owner}::{name}" for owner in owners for name in inner] or inner)


def readme_of(crate):
    """The page of the edits of a crate."""
    return f"crates/{crate}/must-fail/README.md"


def rows_of_edits(crate):
    """Of each line on an edit its folder, its name, what it changes and the promise; none if the crate has no such page."""
    folder = FOLDERS[0]
    for line in text_of(readme_of(crate)).split("\n") if os.path.isfile(f"{TOP}/{readme_of(crate)}") else ():
        folder = FOLDERS[1] if "`../more-edits`" in line else folder
        if row := re.match(r"\| `([\w.-]+)` \| (.+) \| (.+) \|$", line):
            yield folder, *row.groups()


@functools.cache
def edits():
    found = []
    for crate in crates():
        for folder, name, cell, promise in rows_of_edits(crate):
            path = f"crates/{crate}/{folder}/{name}.edit"
            text = text_of(path) if os.path.isfile(f"{TOP}/{path}") else ""
            found.append(Edit(crate, folder, name, cell, calls_in(cell), text, promise))
    return found


# ---- tests


ITEM = re.compile(r"^(?:pub(?:\(\w+\))? )?(?:fn|const|static|struct|enum|type|trait) (\w+)|^impl(?:<[^>]*>)? (?:[\w:<>', ]+ for )?(\w+)", re.M)


def imports_of(text):
    """From each name that a file of tests takes from another file of its crate to that file, and the names that it takes from other crates of the project."""
    inside, outside = {}, set()
    for path, names, name in re.findall(r"^use ([\w:]+)::(?:\{([^}]*)\}|(\w+));", text, re.M):
        own = {it.strip() for it in (names or name).split(",") if it.strip()}
        if path.startswith("crate::"):
            inside |= {it: path.rpartition("::")[2] for it in own}
        elif path.startswith("fb_"):
            outside |= own
    return inside, outside


@functools.cache
def test_items(crate):
    found = []
    for file in files(f"crates/{crate}/src/*.rt"):
        text = text_of(file)
        inside, outside = imports_of(text)
        heads = list(ITEM.finditer(text))
        for it, end in zip(heads, [*(it.start() for it in heads[1:]), len(text)]):
            is_test, own = text[: it.start()].endswith("#[test]\n"), text[it.start() : end]
            found.append(Item(crate, os.path.basename(file)[:-3], it[1] or it[2], is_test, own, set(re.findall(r"\w+", own)), inside, outside))
    return found


@functools.cache
def tests():
    """Each test of the crates of tests, with all items of its crate that it uses."""
    return [(it, reached([it], used_by)) for crate in crates() if crate.endswith("_tests") for it in test_items(crate) if it.is_test]


@functools.cache
def helpers(crate):
    """The items of a crate of tests that are no tests, by file and name."""
    found = defaultdict(list)
    for it in test_items(crate):
        if not it.is_test:
            found[it.file, it.name].append(it)
    return found


def used_by(item):
    """The items of its crate that an item names: those of its file, those that its file imports by name, and what imported files do for a type that it names."""
    by_place = helpers(item.crate)
    imported_files = {item.inside[word] for word in item.words if word in item.inside}
    for word in item.words:
        yield from by_place.get((item.inside.get(word, item.file), word), [])
        for file in imported_files:
            yield from (it for it in by_place.get((file, word), []) if it.text.startswith("impl"))
