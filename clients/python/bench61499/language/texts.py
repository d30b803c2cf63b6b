"""The units that belong together, as the words for a fault in one of them need them."""
from __future__ import annotations

from collections import defaultdict
from collections.abc import Callable, Iterable, Mapping
from functools import cache

from bench61499.language.declarations import FIELD, INSTANCE, Declaration, Key, Unit, Walk, type_with_fields
from bench61499.language.reader import read
from bench61499.language.tokens import head
from bench61499.language.wording import Names

NEAR = 0.6
"""How near a name has to be that was meant among the few of one unit."""


class Texts:
    """Finds units by their names in upper case, and names in them. Each table is made when it is first asked for, once."""

    def __init__(self, unit: Callable[[str], Unit | None], kinds: Callable[[str], Iterable[str]]):
        """`kinds` gives the names of all units that a word begins: FUNCTION_BLOCK, ADAPTER and so on."""
        self.unit = unit
        self._kinds = kinds
        self._units: dict[str, Names] = {}
        self._names: dict[tuple[str, tuple[str, ...]], Names] = {}

    @classmethod
    def of(cls, texts: Mapping[str, str]) -> Texts:
        """Of texts by their units, each read once."""
        units = cache(lambda name: read(texts[name]) if name in texts else None)
        return cls(units, lambda kind: _by_kind(texts)[kind])

    def units(self, kind: str) -> Names:
        """The names of all units of a kind."""
        if kind not in self._units:
            self._units[kind] = Names(self._kinds(kind))
        return self._units[kind]

    def names(self, of: Unit, *sections: str) -> Names:
        """The names that a unit declares in these sections."""
        if (of.name, sections) not in self._names:
            self._names[of.name, sections] = Names((it.words for it in of.declared if it.section in sections), NEAR)
        return self._names[of.name, sections]

    def declaration(self, key: Key) -> Declaration | None:
        its = self.unit(key.unit)
        return its.first.get(key) if its else None

    def owner(self, walk: Walk) -> str:
        return owner(walk, self.unit)


def owner(walk: Walk, unit: Callable[[str], Unit | None]) -> str:
    """The unit that a way leads to; empty where it leads nowhere."""
    of, space = walk.unit, walk.space
    for step in walk.steps:
        known = unit(of)
        its = known.first.get(Key(of, space, "", step.name)) if known else None
        if not its:
            return ""
        of = its.type.upper() if space == INSTANCE else type_with_fields(its.type, step.is_subscripted)
        space = INSTANCE if space == INSTANCE else FIELD
    return of


def _by_kind(texts: Mapping[str, str]) -> Mapping[str, list[str]]:
    found: defaultdict[str, list[str]] = defaultdict(list)
    for name, text in texts.items():
        kind, declared = head(text)
        found[kind].append(declared.words if declared and declared.upper == name else name)
    return found


NOTHING = Texts(lambda _: None, lambda _: ())
"""Where no other texts are known."""
