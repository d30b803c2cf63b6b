"""The blanks of a text in their one form: lines indented by nesting, single blanks between tokens or none.

No token changes, and no line is broken or joined. Blanks before and behind comments in a line stay as they are.
"""
from __future__ import annotations

import re
from collections.abc import Iterator
from functools import lru_cache

from bench61499.language.nesting import Nesting
from bench61499.language.surroundings import Surroundings
from bench61499.language.tokens import Token, is_name, pieces

_INDENT = "  "
_LINE_END = re.compile(r"\r\n|\n|\r")
_TIGHT_BEFORE = frozenset([";", ",", ")", "]", ".", ".."])
_TIGHT_BEHIND = frozenset(["(", "[", ".", ".."])
_OPERATORS = frozenset([":=", "->", "=", "<>", "<", ">", "<=", ">=", "+", "-", "*", "/", "**", "&", "AND", "OR", "XOR", "NOT", "MOD"])
_GOES_ON_BEHIND = _OPERATORS | {",", "(", "[", ".", "..", "TO", "WITH", "BY"}
_GOES_ON_BEFORE = (_OPERATORS - {"NOT"}) | {",", ")", "]", ".", "..", ":", "TO", "WITH", "BY"}

Edit = tuple[int, int, str]
"""The span in bytes that is replaced, and by what."""


def formatted(text: str) -> list[Edit]:
    """The edits that lay a text out. None where it could not be done without changing a token."""
    edits = list(Layout(text).edits())
    return edits if _words(applied(text, edits)) == _words(text) else []


def applied(text: str, edits: list[Edit]) -> str:
    """The text after edits, which are in order and don't overlap."""
    encoded, at, parts = text.encode(), 0, []
    for start, end, new in edits:
        parts += [encoded[at:start], new.encode()]
        at = end
    return b"".join([*parts, encoded[at:]]).decode()


def _words(text: str) -> list[tuple[str, str]]:
    return [(it.kind, _trimmed(it)) for it in pieces(text)]


def _trimmed(it: Token) -> str:
    """The words of a piece, without the blanks at the end of a `//` comment: these are a gap too."""
    return it.words.rstrip(" \t\r") if it.words.startswith("//") else it.words


class Layout:
    """The pieces of a text, tokens and comments, and the gaps between them."""

    def __init__(self, text: str):
        self._encoded = text.encode()
        self._pieces = list(pieces(text))
        nesting = Nesting(self._pieces)
        self._depths, self._foreign = nesting.depths, nesting.foreign
        self._at = Surroundings(text)
        # A CR alone ends no `//` comment.
        self._line_end = "\r\n" if "\r\n" in text else "\n"

    def edits(self) -> Iterator[Edit]:
        """What has to change in the gaps, in order."""
        start, is_kept = 0, False
        for at, piece in enumerate(self._pieces):
            gap = self._encoded[start : piece.start].decode()
            # Behind a quote that is never closed may stand what is meant to be a text.
            is_kept = (is_kept or at > 0 and self._pieces[at - 1].kind == "other") and not _LINE_END.search(gap)
            is_foreign = at in self._foreign or at - 1 in self._foreign
            wanted = gap if is_kept or is_foreign else self._wanted(at, gap)
            if wanted != gap:
                yield start, piece.start, wanted
            start = piece.start + len(_trimmed(piece).encode())
        if self._pieces and self._pieces[-1].kind != "unclosed" and self._encoded[start:].decode() != self._line_end:
            yield start, len(self._encoded), self._line_end

    def _wanted(self, at: int, gap: str) -> str:
        """The gap before a piece."""
        if at == 0:
            return ""
        before, piece = self._pieces[at - 1], self._pieces[at]
        if lines := len(_LINE_END.findall(gap)):
            return self._line_end * min(lines, 2) + _INDENT * self._depth(at)
        if "comment" in (before.kind, piece.kind):
            return gap
        return "" if self._is_tight(at) and _stay_two(before.words, piece.words) else " "

    def _depth(self, at: int) -> int:
        """How far a line is indented that begins with a piece: one step more where it goes on with the item of the line before."""
        piece = self._pieces[at]
        before = self._before(at)
        goes_on = before >= 0 and (
            self._pieces[before].upper in _GOES_ON_BEHIND or piece.upper in _GOES_ON_BEFORE or self._is_on(before) or self._is_on(at)
        )
        return self._depths[at] + (goes_on and piece.kind != "comment")

    def _before(self, at: int) -> int:
        """The token before a piece; -1 where there is none."""
        return next((index for index in range(at - 1, -1, -1) if self._pieces[index].kind != "comment"), -1)

    def _is_on(self, at: int) -> bool:
        """Whether a piece is the ON of a mapping, and no name that is spelled so."""
        before = self._before(at)
        return self._pieces[at].upper == "ON" and self._section(at) == "MAPPINGS" and before >= 0 and is_name(self._pieces[before])

    def _section(self, at: int) -> str:
        """The word that begins the section of a piece."""
        return self._at.section(self._at.token_at(self._pieces[at].start))

    def _is_tight(self, at: int) -> bool:
        """Whether no blank belongs before a piece."""
        before, piece = self._pieces[at - 1], self._pieces[at]
        if piece.words in _TIGHT_BEFORE or before.words in _TIGHT_BEHIND:
            return True
        if piece.words == ":":
            return self._section(at) == "ALGORITHM"
        if piece.words == "[":
            return is_name(before) and not self._begins_guard(at)
        return piece.words == "(" and is_name(before) or self._is_sign(at - 1)

    def _begins_guard(self, at: int) -> bool:
        return self._section(at) == "EC_TRANSITIONS" and self._at.is_guard(self._at.token_at(self._pieces[at].start) + 1)

    def _is_sign(self, at: int) -> bool:
        """Whether a piece is a sign and no operator between two operands."""
        if self._pieces[at].words not in ("+", "-"):
            return False
        before = self._pieces[at - 1] if at else None
        return before is None or not (before.kind in ("number", "typed", "string") or before.words in (")", "]") or is_name(before))


@lru_cache(4096)
def _stay_two(one: str, other: str) -> bool:
    """Whether two tokens are still two where nothing stands between them."""
    return [it.words for it in pieces(one + other)] == [one, other]
