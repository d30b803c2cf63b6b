"""How deep each token of a text stands in units, sections and statements, also where the text is broken."""
from __future__ import annotations

from collections.abc import Sequence

from bench61499.language.declarations import ENDS, LEVELS, STATEMENTS
from bench61499.language.tokens import Token

_ENDS = {**ENDS, **{word: f"END_{word}" for word in STATEMENTS}}
_SECTION, _STATEMENT = 3, 4
_BETWEEN = frozenset(["ELSE", "ELSIF", "UNTIL", "END_STRUCT"])
"""Words that stand as deep as the word that begins their statement, or their structure."""


class Nesting:
    """Of tokens, perhaps with comments: their depths, the pairs of words that begin and end something, and what lies in foreign bodies.

    A body is foreign where the language skips it: that of a SERVICE, and of an algorithm in another language than ST.
    """

    def __init__(self, of: Sequence[Token]):
        self.depths: list[int] = []
        self.pairs: list[tuple[int, int]] = []
        self.foreign: set[int] = set()
        self._of = of
        self._open: list[int] = []
        for at, token in enumerate(of):
            self.depths.append(self._inside() if at in self.foreign or token.kind != "word" else self._depth(at, token.upper))

    def _depth(self, at: int, word: str) -> int:
        if word in _ENDS:
            self._begin(at, word)
            return self._inside() - 1
        if word.startswith("END_"):
            self._end(at, word)
        return self._inside() - (word in _BETWEEN and bool(self._open))

    def _inside(self) -> int:
        """How deep it is behind what is open. A STRUCT stands as deep as its TYPE."""
        return len(self._open) - (len(self._open) > 1 and self._word(self._open[1]) == "STRUCT")

    def _begin(self, at: int, word: str) -> None:
        level = _level(word)
        while self._open and level <= _SECTION and _level(self._word(self._open[-1])) >= level:
            self._open.pop()
        self._open.append(at)
        if word in ("SERVICE", "ALGORITHM"):
            self._skip(at, word)

    def _end(self, at: int, word: str) -> None:
        """Ends what a word ends, and all that is open within it."""
        its = next((index for index in reversed(range(len(self._open))) if _ENDS[self._word(self._open[index])] == word), None)
        if its is not None:
            self.pairs.append((self._open[its], at))
            del self._open[its:]

    def _skip(self, at: int, word: str) -> None:
        """Marks a foreign body that begins at a word, up to its end where there is one."""
        first = at + 1
        if word == "ALGORITHM":
            head = [index for index in range(at, min(at + 20, len(self._of))) if self._of[index].kind != "comment"][:4]
            if len(head) < 4 or self._word(head[2]) != "IN" or self._word(head[3]) == "ST":
                return
            first = head[3] + 1
        end = next((index for index in range(first, len(self._of)) if self._word(index) == _ENDS[word]), first)
        self.foreign.update(range(first, end))

    def _word(self, at: int) -> str:
        return self._of[at].upper


def _level(word: str) -> int:
    return LEVELS.get(word, _STATEMENT if word in STATEMENTS else _SECTION)
