"""Whether a rename is sure: whose the names in algorithms that the workbench skips are, only this client has read."""
from __future__ import annotations

from itertools import pairwise

from bench61499.language.declarations import FIELD, INSTANCE, LOCAL, VARIABLE, Declaration, Key, Use
from bench61499.language.full_body import Body
from bench61499.language.full_tokens import KEYWORDS
from bench61499.language.imported import name_of
from bench61499.language.plant import Plant, Text
from bench61499.language.tokens import Token

_IN_ALGORITHMS = (VARIABLE, INSTANCE, FIELD, LOCAL)
"""The spaces of the names that an algorithm can have."""


def in_doubt(plant: Plant, key: Key) -> str | None:
    """The place of a name in an algorithm that may or may not be this one; None if there is none."""
    if key.space not in _IN_ALGORITHMS:
        return None
    for text in sorted(plant.texts_with(key.name.rstrip("_") or key.name), key=lambda it: it.uri):
        for it in text.unit.doubts:
            if it.name == key.name and (it.is_member and key.space != LOCAL or not it.is_member and key.space != FIELD and text.unit.name == key.unit):
                return f"{place(text, it.start)}: {text.places.words(it.start, it.end)} in the algorithm {it.algorithm}, which this client can't tell apart from it"
    return _as_other(plant, key)


def _as_other(plant: Plant, key: Key) -> str | None:
    """Where a port of a block is used as if the block were a structure."""
    its = plant.unit(key.unit)
    other = key._replace(space=FIELD)
    for text, uses in plant.uses(other) if its and its.kind == "FUNCTION_BLOCK" and key.space == VARIABLE else ():
        for use in uses:
            if text.unit.is_skipped(use.start):
                return f"{place(text, use.start)}: {text.places.words(use.start, use.end)} behind a variable of this type"
    return None


def captured(plant: Plant, key: Key, name: str) -> str | None:
    """Where a new name, in upper case, would be taken for something else in an algorithm that the workbench skips; None if it would not."""
    for text in plant.declaring(key.unit) if key.space in (VARIABLE, INSTANCE, LOCAL) else ():
        for body in text.unit.bodies:
            own = _own_place(text, body, key)
            if own and name in KEYWORDS:
                return f"{place(text, own)}: {name} is a word of Structured Text there"
            token = _first_of(body, name)
            is_local = any(name_of(it.name.words) == name for it in body.locals)
            if token and (own or key.space != LOCAL and not is_local):
                return f"{place(text, token.start)}: {token.words} is something else in the algorithm {body.algorithm}"
    return None


def _own_place(text: Text, body: Body, key: Key) -> int:
    """The first place in an algorithm that uses a name, else that declares it; 0 if there is none."""
    its: list[Use | Declaration] = [*text.unit.uses, *text.unit.declared]
    return next((it.start for it in its if it.key == key and body.begin <= it.start < body.end), 0)


def _first_of(body: Body, name: str) -> Token | None:
    """The first token of an algorithm that is a name, and no member after a point."""
    its = (it for before, it in pairwise([None, *body.tokens]) if it and it.kind == "word" and not (before and before.words == "."))
    return next((it for it in its if name_of(it.words) == name), None)


def place(text: Text, start: int) -> str:
    """A place as compilers write it."""
    line, column = text.places.line_column(start)
    return f"{text.file.name}:{line}:{column}"
