"""Which units a change can reach, as far as texts tell: what a workbench has computed again."""
from __future__ import annotations

import re
from collections.abc import Iterable, Mapping
from functools import cached_property

from bench61499.language.declarations import FIELD, VARIABLE, type_of_data
from bench61499.language.reader import read
from bench61499.language.tokens import declared_kind


def words_of(text: str) -> frozenset[str]:
    """The words of a text in upper case, comments and strings included: all names that it can mention are among them."""
    return frozenset(it.upper() for it in re.findall(r"[A-Za-z_]\w*", text, re.ASCII))


class _Mentioned:
    """What one text can mention."""

    def __init__(self, text: str):
        self.text, self.words, self.is_structure = text, words_of(text), declared_kind(text) == "TYPE"

    @cached_property
    def types_of_data(self) -> frozenset[str]:
        """The names in the types of its variables or fields."""
        return frozenset(type_of_data(it.type) for it in read(self.text).declared if it.key.space in (VARIABLE, FIELD))


class Mentions:
    """What texts can mention, each read once after it has changed."""

    def __init__(self) -> None:
        self._known: dict[str, _Mentioned] = {}

    def reached(self, changed: Iterable[str], texts: Mapping[str, str]) -> set[str]:
        """The units that are changed, and those of which a change of these can change the faults.

        They mention one of these or a structure that holds it, or a unit whose data do.
        """
        names, its = set(changed), {unit: self._of(unit, text) for unit, text in texts.items()}
        held = set(names)
        while more := {unit for unit, it in its.items() if it.is_structure and unit not in held and not held.isdisjoint(it.words)}:
            held |= more
        using = {unit for unit, it in its.items() if not held.isdisjoint(it.words)}
        parts = {unit for unit in using if not held.isdisjoint(its[unit].types_of_data)}
        return names | using | {unit for unit, it in its.items() if not parts.isdisjoint(it.words)}

    def above(self, changed: Iterable[str], texts: Mapping[str, str]) -> set[str]:
        """The units that are changed, and all that lead to one of these: a change of these can change their networks and plans."""
        found = set(changed)
        while more := {unit for unit, text in texts.items() if unit not in found and not found.isdisjoint(self._of(unit, text).words)}:
            found |= more
        return found

    def below(self, unit: str, texts: Mapping[str, str]) -> set[str]:
        """The unit and all that it leads to, of those with texts: what its network and its plan rest on."""
        found, waiting = set[str](), [unit]
        while waiting:
            its = waiting.pop()
            if its in texts and its not in found:
                found.add(its)
                waiting += self._of(its, texts[its]).words
        return found

    def near(self, units: Iterable[str], texts: Mapping[str, str]) -> set[str]:
        """These units and those whose change can change their faults, of those with texts."""
        mine = set(units) & texts.keys()
        found = mine | {name for unit in mine for name in self._of(unit, texts[unit]).words if name in texts}
        new = found
        while new := {name for unit in new for name in self._carried(unit, texts[unit]) if name in texts} - found:
            found |= new
        return found

    def _carried(self, unit: str, text: str) -> frozenset[str]:
        """The names that one leads to who mentions the unit: by its fields if it is a structure, else by the types of its data."""
        it = self._of(unit, text)
        return it.words if it.is_structure else it.types_of_data

    def _of(self, unit: str, text: str) -> _Mentioned:
        known = self._known.get(unit)
        if not known or known.text != text:
            known = self._known[unit] = _Mentioned(text)
        return known
