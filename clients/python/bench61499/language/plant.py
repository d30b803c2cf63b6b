"""The units of a folder: each is found by its head at once, and by the names that it uses once its text is read."""
from __future__ import annotations

import gc
import math
import time
from bisect import bisect_right
from collections import defaultdict
from collections.abc import Iterable, Iterator
from functools import cached_property
from pathlib import Path

from bench61499 import Places
from bench61499.language.declarations import FIELD, INSTANCE, KINDS, NAMELESS, Declaration, Key, Unit, Use, Walk
from bench61499.language.positions import Range, line_character, range_of, range_of_name
from bench61499.language.reader import read
from bench61499.language.texts import Texts, owner
from bench61499.language.tokens import Token, head
from bench61499.language.wording import Names
from bench61499.language.written import written

LEAST_READ = 8_000
"""Bytes of texts that are read for a question in any case: as many as take a moment."""
_MOST_READ = 64
"""Texts that are read for a question: where there are more, there is no time for all, and so for none."""
_FREEZE_EACH = 50
"""Texts after which what was read is passed over by the garbage collector."""


class Text:
    """The text of a file, and what is read of it: its head at once, and the rest when it is asked for.

    `declared` is the name behind its first word, if any; `kind` and `name` are those of the unit that it declares.
    """

    def __init__(self, file: Path, text: str, uri: str | None = None):
        self.file, self.text = file, text
        self._uri = uri
        word, self._head = head(text)
        self.declared = self._head.upper if self._head else None
        self.kind = word if word in KINDS else ""
        self.name = self.declared if self.kind and self.declared else NAMELESS

    @property
    def words(self) -> str:
        """The name as it is declared."""
        return self._head.words if self._head and self.kind else self.name

    @cached_property
    def uri(self) -> str:
        return self._uri or self.file.as_uri()

    @cached_property
    def unit(self) -> Unit:
        return read(self.text)

    @cached_property
    def places(self) -> Places:
        return Places(self.text)

    @cached_property
    def _written_uri(self) -> str:
        return written(self.uri)

    @cached_property
    def head(self) -> str | None:
        """The location of the name of the unit, written."""
        if not self._head or not self.kind:
            return None
        front = Places(self.text.encode()[: self._head.end].decode())
        return next(self._written_locations(front, [self._head]))

    def prepare(self) -> None:
        """Has all that is made of the text made now, and not when somebody asks."""
        self.unit.prepare()
        self.places, self.head

    @cached_property
    def _upper(self) -> str:
        return self.text.upper()

    def has(self, words: Iterable[str]) -> bool:
        """Whether these words, in upper case, stand somewhere in the text, be it in others."""
        upper = self._upper
        return all(word in upper for word in words)

    def range(self, start: int, end: int) -> Range:
        return range_of(self.places, start, end)

    def name_range(self, start: int, end: int) -> Range:
        return range_of_name(self.places, start, end)

    def written_locations(self, names: Iterable[Declaration | Use]) -> Iterator[str]:
        """Where names stand, written: of each `{"uri": .., "range": ..}`."""
        return self._written_locations(self.places, names)

    def _written_locations(self, places: Places, names: Iterable[Declaration | Use | Token]) -> Iterator[str]:
        head, starts, is_plain = f'{{"uri":{self._written_uri},"range":{{"start":{{"line":', places.starts, places.is_plain
        for it in names:
            if is_plain:
                line = bisect_right(starts, it.start) - 1
                first = it.start - starts[line]
            else:
                line, first = line_character(places, it.start)
            last = first + it.end - it.start
            yield f'{head}{line},"character":{first}}},"end":{{"line":{line},"character":{last}}}}}}}'


class Plant:
    """The texts by file. A text is read after it has changed: by `refresh`, or when a question needs it.

    A question has texts read up to the time `until`, and some in any case. It has `missed` some where there were more of them.
    """

    def __init__(self) -> None:
        self.until = math.inf
        self.missed = False
        self._texts: dict[Path, Text] = {}
        self._unread: set[Path] = set()
        self._names: dict[Path, tuple[str, ...]] = {}
        self._declaring: defaultdict[str, set[Path]] = defaultdict(set)
        self._using: defaultdict[str, set[Path]] = defaultdict(set)
        self._walking: defaultdict[str, set[Path]] = defaultdict(set)
        self._frozen = 0
        self._near: dict[str, tuple[frozenset[str], Names]] = {}
        self._known: Texts | None = None

    def put(self, file: Path, text: str | None, uri: str | None = None) -> Text | None:
        """Gives a file a text; None takes it away."""
        known = self._texts.get(file)
        if known and known.text == text and known.uri == (uri or file.as_uri()):
            return known
        self._known = None
        if known:
            self._forget(known)
        if text is None:
            return None
        made = self._texts[file] = Text(file, text, uri)
        self._declaring[made.name].add(file)
        self._unread.add(file)
        return made

    @property
    def known(self) -> Texts:
        """The units as the words for faults need them, with tables that last until a text changes."""
        self._known = self._known or Texts(self.unit, self.kinds)
        return self._known

    def is_read(self) -> bool:
        return not self._unread

    def counts(self) -> tuple[int, int]:
        """How many texts are read, and how many there are."""
        return len(self._names), len(self._texts)

    def refresh(self, end: float = math.inf) -> None:
        """Reads the texts that have changed: all of them, or one and then more until a time of the monotonic clock."""
        while self._unread:
            self._read(self._texts[next(iter(self._unread))])
            if time.monotonic() >= end:
                return

    def _read_those(self, *words: str) -> None:
        """Has the texts read that have these words, where there is time for all of them."""
        those = [it for file in self._unread if (it := self._texts[file]).has(words)]
        if len(those) > _MOST_READ and self.until < math.inf:
            self.missed = True
            return
        count = 0
        for text in those:
            if count > LEAST_READ and time.monotonic() >= self.until:
                self.missed = True
                return
            self._read(text)
            count += len(text.text)

    def _read(self, text: Text) -> None:
        text.prepare()
        unit, file = text.unit, text.file
        self._unread.discard(file)
        used, walking = {use.key.unit for use in unit.uses}, unit.walking
        for name in used:
            self._using[name].add(file)
        for name in walking:
            self._walking[name].add(file)
        self._names[file] = tuple(used | walking)
        self._freeze()

    def _freeze(self) -> None:
        """Tells the garbage collector now and then to pass over what is there, which otherwise takes a third of a second in a large plant."""
        if len(self._names) >= self._frozen + _FREEZE_EACH:
            self._frozen = len(self._names)
            gc.freeze()

    def _forget(self, text: Text) -> None:
        file = text.file
        del self._texts[file]
        self._unread.discard(file)
        self._declaring[text.name].discard(file)
        for name in self._names.pop(file, ()):
            self._using[name].discard(file)
            self._walking[name].discard(file)

    # What is there

    def text(self, file: Path) -> Text | None:
        return self._texts.get(file)

    def texts(self) -> Iterable[Text]:
        """All of them, in no order."""
        return self._texts.values()

    def texts_with(self, word: str) -> list[Text]:
        """Those with a word somewhere, which are read."""
        self._read_those(word)
        return [it for file in self._names if (it := self._texts[file]).has([word])]

    def skipping(self, names: Iterable[str]) -> set[Path]:
        """The texts that were read, have algorithms that the workbench skips, and use one of these units: the warnings on them can change."""
        return {file for name in names for file in self._using.get(name, ()) if self._texts[file].unit.bodies}

    def declaring(self, name: str) -> list[Text]:
        """The texts that declare a unit: one, or more where the user has not seen to it yet."""
        return [self._texts[file] for file in sorted(self._declaring.get(name, ()), key=str)]

    def unit(self, name: str) -> Unit | None:
        its = self.declaring(name)
        return its[0].unit if its else None

    def near(self, kind: str, words: str) -> str | None:
        """The unit of a kind with the name that is nearest to a wrong one. It is looked for once, until a unit comes or goes."""
        names = frozenset(self.kinds(kind))
        if self._near.get(kind, (None,))[0] != names:
            self._near[kind] = names, Names(names, nearness=0.8)
        return self._near[kind][1].near(words)

    def kinds(self, kind: str) -> Iterator[str]:
        """The names of all units of a kind, as they are declared."""
        return (text.words for text in self._texts.values() if text.kind == kind)

    def declarations(self, key: Key) -> Iterator[tuple[Text, Declaration]]:
        """What a name stands for; more than one where a unit is declared by more than one text."""
        for text in self.declaring(key.unit):
            if found := text.unit.first.get(key):
                yield text, found

    def declaration(self, key: Key) -> Declaration | None:
        return next((found for _, found in self.declarations(key)), None)

    def texts_of(self, key: Key) -> list[Text]:
        """The texts that may have a name: that of its unit, those that mention this one, and those with such a name deep in a path."""
        name = key.name.rstrip("_") or key.name  # Algorithms may have it as a file did: Type for TYPE_.
        self._read_those(name, *() if key.space in (INSTANCE, FIELD) else [key.unit])
        files = self._declaring.get(key.unit, set()) | self._using.get(key.unit, set()) | self._walking.get(key.name, set())
        return [self._texts[file] for file in sorted(files, key=str)]

    def uses(self, key: Key) -> Iterator[tuple[Text, list[Use]]]:
        """All uses of what a name stands for, by text."""
        for text in self.texts_of(key):
            if found := self.uses_in(text, key):
                yield text, found

    def uses_in(self, text: Text, key: Key) -> list[Use]:
        """The uses of what a name stands for in one text."""
        found = text.unit.uses_of(key)
        if key.name in text.unit.walking:
            deep = text.unit.uses_of(Key("", key.space, "", key.name))
            its = {walk for walk in {use.walk for use in deep} if walk and self.owner(walk) == key.unit}
            found = [use for use in found if not use.walk] + [use for use in deep if use.walk in its]
        return found

    def key(self, use: Use) -> Key:
        """What a used name stands for, also where only other units tell."""
        return use.key._replace(unit=self.owner(use.walk)) if use.walk else use.key

    def owner(self, walk: Walk) -> str:
        """The unit that a way leads to; empty where it leads nowhere."""
        return owner(walk, self.unit)
