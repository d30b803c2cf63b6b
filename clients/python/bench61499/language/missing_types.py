"""Types of values that are nowhere: neither elementary, nor a unit, nor known from a project. By the language they are no faults; clients warn of them."""
from __future__ import annotations

import re
from collections.abc import Callable, Container, Iterator
from typing import NamedTuple

from bench61499.language.declarations import ELEMENTARY, FIELD, VARIABLE, type_of_data
from bench61499.language.full_library import LATER, is_known_type
from bench61499.language.reader import read
from bench61499.language.wording import Names, asked

CODE = "NO_SUCH_TYPE"
OF_CLIENT = "(a warning of this client: the workbench looks up no types of values)"
_SECTION = re.compile(r"(?:VAR|STRUCT)(?:_INPUT|_OUTPUT)?\b(.*?)END_(?:VAR|STRUCT)\b", re.DOTALL)
_TYPE = re.compile(r":\s*(?:ARRAY\s*\[[^\]]*\]\s*OF\s+)?([A-Z_]\w*)")
"""Both are for texts in upper case."""
_ELSEWHERE = re.compile(r"""\(\* (?:Elsewhere|Package): type="(\w+)\"""")
_STAND_IN = re.compile(r"""\[\s*'""")
_ELEMENTARY = Names([*ELEMENTARY, *sorted(LATER)], nearness=0.7)
Near = Callable[[str], str | None]


class Missing(NamedTuple):
    """A type that is nowhere, its place, and what is told of it."""

    name: str
    start: int
    end: int
    explanation: str
    meant: str | None


def missing_types(text: str, units: Container[str], near: Near) -> list[Missing]:
    """The types of the variables and fields of a text that are nowhere. `units` are the names of all units in upper case, `near` gives the one that may be meant."""
    used = {name for section in _SECTION.findall(text.upper()) for name in _TYPE.findall(section)}
    unknown = {it for it in used if not is_known_type(it) and it not in units}
    unknown -= {it.upper() for it in _ELSEWHERE.findall(text)} if unknown else set()
    return list(dict.fromkeys(_found(text, unknown, near))) if unknown else []


def _found(text: str, unknown: set[str], near: Near) -> Iterator[Missing]:
    encoded = text.encode()
    for it in read(text).declared:
        name = type_of_data(it.type) if it.key.space in (VARIABLE, FIELD) else ""
        if name not in unknown or _STAND_IN.match(it.value):
            continue
        words = re.compile(rb"\b" + name.encode() + rb"\b", re.IGNORECASE).search(encoded, it.end)
        if words:
            own = words[0].decode()
            meant = near(own)
            yield Missing(name, *words.span(), f"no type {own} here{asked(meant)}", meant)


def near_type(structures: Names) -> Near:
    """Gives the type that may be meant: an elementary one, or a structure."""
    return lambda words: _ELEMENTARY.near(words) or structures.near(words)
