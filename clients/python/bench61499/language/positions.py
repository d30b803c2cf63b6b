"""Places of a text as editors count them: lines from 0, columns in UTF-16 code units from 0."""
from __future__ import annotations

import re
from typing import Any

from bench61499 import Places

Position = dict[str, int]
Range = dict[str, Position]

_LINE_END = re.compile(r"\r\n|\n|\r")
_HALF = re.compile("[\ud800-\udfff]")
_UNIT = 2
"""Bytes of a UTF-16 code unit."""


def line_character(places: Places, place: int) -> tuple[int, int]:
    """The line and the column, as an editor counts them, of a place in bytes of UTF-8."""
    line, column = places.line_column(place)
    return line - 1, column - 1 if places.is_plain else units(places.line(line)[: column - 1])


def position(places: Places, place: int) -> Position:
    """Where a place, in bytes of UTF-8, is for an editor."""
    line, character = line_character(places, place)
    return {"line": line, "character": character}


def range_of(places: Places, start: int, end: int) -> Range:
    return {"start": position(places, start), "end": position(places, end)}


def range_of_name(places: Places, start: int, end: int) -> Range:
    """The same of a name, which stands in one line and has characters of one byte and one unit alone."""
    line, character = line_character(places, start)
    return {"start": {"line": line, "character": character}, "end": {"line": line, "character": character + end - start}}


def place(places: Places, at: Position) -> int:
    """The place at a position. Behind the end of a line it is that end, behind the last line the end of the text."""
    if at["line"] >= places.line_count():
        return len(places.encoded)
    line = places.line(at["line"] + 1)
    before = _encoded(line)[: _UNIT * at["character"]]
    return places.place(at["line"] + 1, 1) + len(before.decode("utf-16-le", "ignore").encode())


def changed(text: str, change: dict[str, Any]) -> str:
    """The text after one change of an editor: of a range of it, or of the whole.

    The text may hold halves of characters, as an editor may send the two halves one by one.
    """
    if "range" not in change:
        return change["text"]
    ends = [it.end() for it in _LINE_END.finditer(text)]
    start, end = (_unit_at(text, [0, *ends], change["range"][side]) for side in ("start", "end"))
    units = _encoded(text)
    joined = units[: _UNIT * start] + _encoded(change["text"]) + units[_UNIT * max(start, end) :]
    return joined.decode("utf-16-le", "surrogatepass")


def edited(text: str, edits: list[dict[str, Any]]) -> str:
    """The text after edits of ranges that don't overlap, which are all ranges of the text before."""
    for it in sorted(edits, key=lambda it: (it["range"]["start"]["line"], it["range"]["start"]["character"]), reverse=True):
        text = changed(text, {"range": it["range"], "text": it["newText"]})
    return text


def sound(text: str) -> str:
    """A text without the halves of characters that UTF-8 can't spell; the columns stay."""
    return _HALF.sub("\ufffd", text)


def _unit_at(text: str, starts: list[int], at: Position) -> int:
    """How many code units stand before a position."""
    number = at["line"]
    if number < 0 or at["character"] < 0:
        raise ValueError(f"no position {at}")
    if number >= len(starts):
        return units(text)
    line = _LINE_END.split(text[starts[number] :], 1)[0]
    return units(text[: starts[number]]) + min(at["character"], units(line))


def units(text: str) -> int:
    """UTF-16 code units of a text."""
    return len(_encoded(text)) // _UNIT


def _encoded(text: str) -> bytes:
    return text.encode("utf-16-le", "surrogatepass")
