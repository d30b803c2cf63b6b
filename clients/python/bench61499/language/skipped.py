"""Algorithms that the workbench does not read: those in another language than ST."""
from __future__ import annotations

import re
from collections.abc import Iterator
from typing import NamedTuple

from bench61499.language.tokens import Token, is_name, tokens

CODE = "NOT_CHECKED"
FULL = "ST_FULL"
GUARD = "GUARD__"
"""What the name of an algorithm begins with that keeps a guard of a file of XML."""
_READ = "ST"
_OTHER_HEAD = re.compile(r"ALGORITHM(?<!\wALGORITHM)\b(?!\s+\w+\s+IN\s+ST\b)")
"""What may begin an algorithm in another language, in a text in upper case. It begins with letters, as a search for these is fast."""


class Head(NamedTuple):
    """The head of an algorithm, `ALGORITHM A IN ST`, and the token behind its body; None if that is missing."""

    words: tuple[Token, ...]
    end: Token | None

    @property
    def name(self) -> str:
        return self.words[1].words

    @property
    def language(self) -> Token:
        return self.words[3]

    @property
    def is_read(self) -> bool:
        return self.language.upper == _READ

    @property
    def is_guard(self) -> bool:
        return self.name.startswith(GUARD)

    @property
    def explanation(self) -> str:
        if self.is_guard:
            return f"the guard that the algorithm {self.name} keeps is IN {self.language.words}, which the workbench does not read"
        return f"the algorithm {self.name} is IN {self.language.words}, which the workbench does not read"


def heads(text: str) -> Iterator[Head]:
    """The heads of all algorithms of a text, of a broken one too."""
    its = list(tokens(text))
    at = 0
    while at < len(its):
        words = tuple(its[at : at + 4])
        if len(words) == 4 and words[0].upper == "ALGORITHM" and words[2].upper == "IN" and all(map(is_name, words[1:])):
            end = next((index for index in range(at + 4, len(its)) if its[index].upper == "END_ALGORITHM"), len(its))
            yield Head(words, its[end] if end < len(its) else None)
            at = end
        at += 1


def skipped(text: str) -> list[Head]:
    """The algorithms that the workbench does not read."""
    return [it for it in heads(text) if not it.is_read] if _OTHER_HEAD.search(text.upper()) else []
