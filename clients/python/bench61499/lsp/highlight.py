"""What each token of a text is, for editors that colour by it."""
from __future__ import annotations

from collections.abc import Iterator

from bench61499 import Places
from bench61499.language.declarations import (
    ALGORITHM, APPLICATION, DATA_TYPE, DEVICE, EVENT, FIELD, INSTANCE, LOCAL, RESOURCE, STATE, TYPE, VARIABLE, Declaration, Unit,
)
from bench61499.language.plant import Text
from bench61499.language.positions import position, units
from bench61499.language.tokens import RESERVED, Token, pieces

TOKEN_TYPES = (
    "keyword", "comment", "string", "number", "operator", "class", "event", "variable", "property", "enumMember", "method", "namespace",
    "struct", "type",
)
TOKEN_MODIFIERS = ("declaration",)
_BY_KIND = {"comment": "comment", "unclosed": "comment", "string": "string", "number": "number", "typed": "number"}
_STRUCTURE = "structure"
"""The space of a structure's own name, as it were."""
_BY_SPACE = {
    TYPE: "class",
    EVENT: "event",
    VARIABLE: "variable",
    LOCAL: "variable",
    INSTANCE: "property",
    STATE: "enumMember",
    ALGORITHM: "method",
    APPLICATION: "namespace",
    DEVICE: "struct",
    RESOURCE: "struct",
    FIELD: "property",
    DATA_TYPE: "type",
    _STRUCTURE: "struct",
}
_WORDS = frozenset(["IN", "ON", "ST"])
"""Names that the grammar spells out."""
_PUNCTUATION = frozenset(";:,.()[]")


def semantic_tokens(text: Text, start: int, end: int) -> list[int]:
    """The tokens of a span of bytes as LSP wants them: five numbers each, places counted from the token before."""
    data: list[int] = []
    line = character = 0
    for token, kind, is_declaration in _kinds(text):
        if token.end <= start or token.start >= end:
            continue
        for at, length in _lines(text.places, token):
            ahead = at["character"] - (character if at["line"] == line else 0)
            data += [at["line"] - line, ahead, length, TOKEN_TYPES.index(kind), int(is_declaration)]
            line, character = at["line"], at["character"]
    return data


def _kinds(text: Text) -> Iterator[tuple[Token, str, bool]]:
    """The tokens that have a colour, and whether they declare a name."""
    spaces = _spaces(text.unit)
    declared = {it.start for it in text.unit.declared}
    for token in pieces(text.text):
        if space := spaces.get(token.start):
            yield token, _BY_SPACE[space], token.start in declared
        elif kind := _kind(token):
            yield token, kind, False


def _spaces(unit: Unit) -> dict[int, str]:
    """The name spaces by which names are coloured, by their places. A type of data is one, be it elementary or a unit."""
    found: dict[int, str] = {}
    before = ""
    for it in sorted(unit.names(), key=lambda it: it.start):
        found[it.start] = DATA_TYPE if it.key.space == TYPE and before in (VARIABLE, FIELD, LOCAL) else it.key.space
        before = it.key.space if isinstance(it, Declaration) else before
    if unit.kind == "TYPE":
        found |= {it.start: _STRUCTURE for it in unit.declared[:1]}
    return found


def _kind(token: Token) -> str | None:
    if token.kind == "word":
        return "keyword" if token.upper in RESERVED or token.upper in _WORDS else "type"
    if token.kind == "symbol":
        return None if token.words in _PUNCTUATION else "operator"
    return _BY_KIND.get(token.kind)


def _lines(places: Places, token: Token) -> Iterator[tuple[dict[str, int], int]]:
    """The parts of a token by line: where each begins and how many UTF-16 code units it has."""
    at = position(places, token.start)
    if "\n" not in token.words and "\r" not in token.words:
        yield at, units(token.words)
        return
    last = position(places, token.end)
    for line in range(at["line"], last["line"] + 1):
        first = at["character"] if line == at["line"] else 0
        end = last["character"] if line == last["line"] else units(places.line(line + 1))
        if end > first:
            yield {"line": line, "character": first}, end - first
