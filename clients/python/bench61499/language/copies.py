"""Types that import made for parameters of subapplications: copies of others, as a record behind each says."""
from __future__ import annotations

import re
from collections.abc import Mapping

_MADE_FROM = re.compile(r"""\(\* MadeFrom: type="(\w+)" \*\)""")
_TWICE = re.compile(r"\b(\w+)(?:(?:, | and )\1\b)+", re.IGNORECASE)
_NAME = re.compile(r"""\(\* Name: text="(\w+)" file="([^"]*)\"""")
_GIVEN = re.compile(r"""\(\* Given: name="(\w+)" value="([^"]*)\"""")


def original(text: str) -> str:
    """The name of the type that a text is a copy of; empty if it is none."""
    found = _MADE_FROM.search(text)
    return found[1] if found else ""


class Originals:
    """What the copies among texts by their units are copies of."""

    def __init__(self, texts: Mapping[str, str]):
        self._names = {unit: name for unit, text in texts.items() if (name := original(text))}
        self._texts = texts
        self._words = re.compile(rf"\b(?:{'|'.join(map(re.escape, self._names))})\b", re.IGNORECASE)

    def __bool__(self) -> bool:
        return bool(self._names)

    def of(self, unit: str) -> str:
        """The original of a unit in upper case; empty if it is no copy."""
        return self._names.get(unit, "").upper()

    def words(self, words: str) -> str:
        """Words with the names of originals in the place of those of copies."""
        return _TWICE.sub(r"\1", self._words.sub(lambda it: self._names[it[0].upper()], words))

    def described(self, unit: str) -> str:
        """A copy as the original with its parameters."""
        text = self._texts[unit]
        files = dict(_NAME.findall(text))
        given = (f"{name} := {files.get(value, value)}" for name, value in _GIVEN.findall(text))
        return f"{self._names[unit]} with {', '.join(given)}"
