"""Reads the definitions of specs/, and finds those that contracts and other definitions cite."""
import functools
import os
import re
import textwrap
from dataclasses import dataclass, field

import code_parts as parts

ITEM = re.compile(r"(?:abbrev |unfoldable )?(?:pub )?(record |data )?([^\s:(){}]+)(?= ?[:({]| :)")
WORD = re.compile(r"(?<![\w'.])((?:[A-Za-z_][\w'-]*\.)*[A-Za-z_][\w'-]*|◌[^\s◌]+◌)")
MODULE = re.compile(r"(?:pub )?use ([\w.]+)(?: as (\w+))?$")
BLOCK = re.compile(r"(?:(?:abbrev |unfoldable )?mutual|module _ .*where)$")
WORDS = set("abbrev pub record data where let in if then else Type use mod infix infixl infixr unfoldable module λ".split())


@dataclass(eq=False)
class Definition:
    path: str
    line: int
    name: str
    text: str
    members: set = field(default_factory=set)
    cites: list = field(default_factory=list)

    @property
    def crate(self):
        return self.path.split("/")[1]

    @property
    def file(self):
        return os.path.basename(self.path).split(".")[0]

    @property
    def title(self):
        return f"{self.crate}: {self.file}.{self.name}"


@dataclass
class File:
    items: dict
    names: dict
    modules: dict


def imports(lines):
    """The names that a file of specs takes from others, and the modules under other names."""
    names, modules = {}, {}
    for line in lines:
        if whole := MODULE.match(line.strip()):
            modules[whole[2] or whole[1].split(".")[-1]] = whole[1]
        for path, it in parts.imports_in(line):
            name, _, other = it.partition(" as ")
            names[other or name] = (path, name)
    return names, modules


def members_of(head, lines, indent):
    """The constructors of a type. (A field is named only where its type is.)"""
    if head != "data ":
        return set()
    return {found[1] for line in lines if (found := re.match(rf"{indent}  (?:pub )?([\w'-]+) :", line))}


def indents(lines):
    """By how many blanks the definitions of each line of a file are set in: those of a module and of a `mutual` block by two."""
    inside = False
    for line in lines:
        inside = bool(BLOCK.match(line)) or inside and (not line.strip() or line.startswith("  "))
        yield "  " if inside else ""


def begins(line, indent, current):
    """The head of the definition that begins in a line, if one does: no equation of the one above it, no import."""
    head = ITEM.match(line.removeprefix(indent)) if line.startswith(indent) else None
    if not head or head[2].startswith("-") or head[2] in WORDS or head[2] == current:
        return None
    return head if head[1] or re.search(r" : |\) :| :$| where$", line) else None


def heads_in(lines):
    """The definitions that begin in lines: each with its place, by how much it is set in, and its head."""
    current = None
    for at, (line, indent) in enumerate(zip(lines, indents(lines))):
        if head := begins(line, indent, current) or begins(line, "", current):
            current = head[2]
            yield at, indent, head


@functools.cache
def read(path):
    """The definitions of a file, and what it imports."""
    lines, found = parts.text_of(path).split("\n"), {}
    heads = list(heads_in(lines))
    for (at, indent, head), end in zip(heads, [*(it[0] for it in heads[1:]), len(lines)]):
        above, behind = at, end
        while above > 0 and lines[above - 1].strip().startswith("-- ") and "----" not in lines[above - 1]:
            above -= 1
        while behind > at + 1 and (not lines[behind - 1].strip() or lines[behind - 1].strip().startswith("--") or BLOCK.match(lines[behind - 1])):
            behind -= 1
        members = members_of(head[1], lines[at + 1 : behind], indent)
        found[head[2]] = Definition(path, at + 1, head[2], textwrap.dedent("\n".join(lines[above:behind])), members)
    return File(found, *imports(lines))


@functools.cache
def rust_item(crate, name):
    """A type or a constant of the program, as a definition."""
    for path in parts.files(f"crates/{crate}/src/**/*.rt"):
        text = parts.text_of(path)
        if found := re.search(rf"(?:^///[^\n]*\n|^#\[[^\n]*\n)*^pub(?:\(crate\))? (?:const {name}\b[^;]*;|(?:enum|struct) {name}\b[^\n;]*(?:;|\{{\n.*?^\}}))", text, re.M | re.S):
            return Definition(path, text.count("\n", 0, found.start()) + 1, name, found[0])
    return None


@functools.cache
def module(path):
    """Where a module of specs is: the path of its file, or the crate and the name of a type of the program; None if it is the kit's."""
    words = path.split(".")
    if words[0] != "Rattle" or not os.path.isdir(f"{parts.TOP}/crates/{words[1]}") or words[2] != "specs":
        return None
    crate, rest = words[1], words[3:]
    if rest[:1] == ["declared"]:
        return (crate, next(it for it in reversed(rest) if it not in ("TheVariants", "TheOpen", "TheFolds")))
    if rest and os.path.exists(f"{parts.TOP}/crates/{crate}/specs/{rest[0]}.antt"):
        return f"crates/{crate}/specs/{rest[0]}.antt"
    other = read(f"crates/{crate}/specs/Lib.antt").modules.get(rest[0]) if rest else None
    return module(".".join([other, *rest[1:]])) if other else None


@functools.cache
def defined(path, name):
    """The definition of a name in a module, or None if it is the kit's."""
    place = module(path)
    if isinstance(place, tuple):
        return rust_item(place[0], name if place[1] == "TheConstants" else place[1])
    return in_file(place, name) if place else None


def in_file(path, name):
    """The definition that a name means in a file."""
    file = read(path)
    its = file.items.get(name) or next((it for it in file.items.values() if name in it.members), None)
    if its or name in file.names:
        return its or defined(*file.names[name])
    first, _, last = name.rpartition(".")
    return defined(file.modules[first], last) if first in file.modules else None


# ---- contracts


def named(uses, text):
    """The definitions that a text names, by what its place imports."""
    return [its for word in dict.fromkeys(WORD.findall(text)) if word in uses and (its := defined(uses[word], word))]


@functools.cache
def models():
    """What contracts see of the types that have a model: under each type the definitions of its value and those of its invariant."""
    found = {}
    for file in parts.files("crates/*/src/**/*.rt"):
        for name, block in re.findall(r"^impl(?:<[^>]*>)? Model for (\w+)[^\n]*\{\n(.*?)^\}", parts.text_of(file), re.M | re.S):
            uses = {name: module for line in block.split("\n") for module, name in parts.imports_in(line)}
            found[name] = [of_specs(uses, re.findall(rf"ghost {word} = \{{(.*?)\}};", block, re.S)) for word in ("Value", "invariant")]
    return found


def of_specs(uses, texts):
    """Those of specs/ that texts name. (A constructor is not listed, its type is.)"""
    return [it for it in named(uses, "\n".join(texts)) if it.path.endswith(".antt") and it.name in uses]


def promised(it):
    """The function with the contract of a call: itself, or that of the trait that it meets without one of its own."""
    return parts.all_functions().get(f"{it.trait}::{it.name}") if it.trait and not it.contract else it


def cited(it):
    """The definitions of specs/ that the contract of a call cites, in its order."""
    by = promised(it)
    if by and by is not it:
        return of_specs(it.uses | by.uses, [by.contract, *re.findall(r"^    ghost \w+ = \{(.*)\};", it.block, re.M)])
    return of_specs(it.uses, [it.contract])


def defining(enum, word):
    """The definitions that name a variant of an enum, in files that take its variants."""
    has = re.compile(rf"^(?! *--).*(?<!\w){word}(?!\w)", re.M)
    found = []
    for file in map(read, parts.files("crates/*/specs/**/*.antt")):
        modules = {*file.modules.values(), *(module for module, _ in file.names.values())}
        if any(it.endswith(f".{enum}.TheVariants") for it in modules):
            found += [it for it in file.items.values() if it.name != word and has.search(it.text)]
    return found
