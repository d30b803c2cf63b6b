"""A line of a text as a terminal shows it, with a row of carets under a span."""
from __future__ import annotations

import unicodedata

from bench61499 import Places

_TAB = 8
_LONGEST = 120
_MARGIN = 20
_CUT = "…"
# Marks that turn the direction of what follows them on a terminal.
_TURNING = "\u202a\u202b\u202c\u202d\u202e\u2066\u2067\u2068\u2069"


def excerpt(places: Places, start: int, end: int) -> tuple[str, str]:
    """The line where a span begins and the carets under the span, as far as it goes in that line.

    Tabs become blanks, other control characters `�`; wide characters count two columns, combining ones none. Of a line of more than
    `_LONGEST` characters so many round the span are shown.
    """
    number, column = places.line_column(start)
    text = places.line(number)
    last, last_column = places.line_column(end)
    begin, stop = column - 1, last_column - 1 if last == number else len(text)
    first = max(0, begin - _MARGIN) if len(text) > _LONGEST else 0
    cells = _cells(text[first : first + _LONGEST])
    left, right = _CUT if first else "", _CUT if first + _LONGEST < len(text) else ""
    before = len(left) + sum(_width(cell) for cell in cells[: begin - first])
    under = sum(_width(cell) for cell in cells[begin - first : stop - first])
    return f"{left}{''.join(cells)}{right}", " " * before + "^" + "~" * (under - 1)


def _cells(text: str) -> list[str]:
    """What is shown for each character."""
    cells: list[str] = []
    at = 0
    for character in text:
        cell = character
        if character == "\t":
            cell = " " * (_TAB - at % _TAB)
        elif unicodedata.category(character) in ("Cc", "Cs", "Zl", "Zp") or character in _TURNING:
            cell = "\ufffd"
        cells.append(cell)
        at += _width(cell)
    return cells


def _width(shown: str) -> int:
    return sum(_character_width(character) for character in shown)


def _character_width(character: str) -> int:
    if unicodedata.category(character) in ("Mn", "Me", "Cf"):
        return 0
    return 2 if unicodedata.east_asian_width(character) in ("W", "F") else 1
