"""What the comments after an imported unit say about its project."""
from __future__ import annotations

import re
from typing import NamedTuple

from bench61499 import NAME_LIMIT
from bench61499.exchange.names import spelled
from bench61499.language.tokens import RESERVED

_RECORDED = re.compile(r'\(\* (Internal|Constant): name="(\w+)"')
_INTERNAL_BLOCKS = re.compile(r"<InternalFBs\b.*?</InternalFBs>", re.DOTALL)
_RECORDED_NAME = re.compile(rb'\(\* (?:Internal|Constant): name="([^"]*)"')
_BLOCK_GROUPS = re.compile(_INTERNAL_BLOCKS.pattern.encode(), re.DOTALL)
_BLOCK_NAME = re.compile(rb'<FB\b[^>]*?\bName="([^"]*)"')
_BLOCK, _ATTRIBUTE = re.compile(r"<FB\b[^>]*>"), re.compile(r'([\w.]+)="([^"]*)"')
_COMMENT, _LAST_NAME = re.compile(r"\(\* *\w+\b.*?\*\)", re.DOTALL), re.compile(r"[^\W\d]\w*\Z")
_ALL_OF_A_PACKAGE = re.compile(r'\(\* Import: [^\n]*"[^"\n]*\*"')


class Imported(NamedTuple):
    """What is known of a unit by its comments, names in upper case.

    `blocks` are the types of the internal blocks by their names, `known` what the comments name: something of that name is in the project. The project
    has more that is not named if the unit `imports_all` of a package.
    """

    constants: frozenset[str]
    blocks: dict[str, str]
    known: frozenset[str]
    imports_all: bool


def imported(text: str) -> Imported:
    """What the comments of a text say."""
    recorded = [(kind, name.upper()) for kind, name in _RECORDED.findall(text)]
    blocks = {name: "" for kind, name in recorded if kind == "Internal"}
    for group in _INTERNAL_BLOCKS.findall(text):
        for it in (dict(_ATTRIBUTE.findall(block)) for block in _BLOCK.findall(group)):
            blocks[name_of(it.get("Name", ""))] = name_of(it.get("Type", "").rpartition("::")[2])
    constants = frozenset(name for kind, name in recorded if kind == "Constant")
    return Imported(constants, blocks, _known(text), bool(_ALL_OF_A_PACKAGE.search(text)))


def places_of(text: bytes, variable: str) -> list[tuple[int, int]]:
    """Where the comments of a text name one of its variables, in upper case, as a constant or an internal block."""
    recorded = [it.span(1) for it in _RECORDED_NAME.finditer(text)]
    blocks = [it.span(1) for group in _BLOCK_GROUPS.finditer(text) for it in _BLOCK_NAME.finditer(text, *group.span())]
    return [(begin, end) for begin, end in (*recorded, *blocks) if name_of(text[begin:end].decode(errors="replace")) == variable]


def name_of(word: str) -> str:
    """A name of a body, which is as a file has it, as the text declares it, in upper case: import gives another one to what is no name here."""
    upper = word.upper()
    return upper if word.isascii() and len(word) <= NAME_LIMIT and upper not in RESERVED else spelled(word).upper()


def is_odd(name: str) -> bool:
    """Whether a name may be the one that import gives to a reserved word, or a name of a file that was like that."""
    return name.endswith("_") and name.rstrip("_") in RESERVED


def _known(text: str) -> frozenset[str]:
    """The last names of all attributes in comments: of `acme::plant::Sensor` the name SENSOR."""
    values = (value for comment in _COMMENT.findall(text) if '="' in comment for _, value in _ATTRIBUTE.findall(comment))
    return frozenset(name_of(found[0]) for value in values if (found := _LAST_NAME.search(value)))
