"""The texts of an editor and of the files of its folders, and the units that they are."""
from __future__ import annotations

import time
from collections.abc import Callable, Iterator
from itertools import chain
from pathlib import Path
from typing import Any

from bench61499.language.folder import Stamp, read_at_once, stamp_of, stamps_of
from bench61499.language.merging import is_marked
from bench61499.language.plant import Plant
from bench61499.language.positions import changed, sound
from bench61499.language.tokens import declared_name
from bench61499.language.units import Misuse, can_be_unit, leads_out, read_text, stand_in_name
from bench61499.lsp.documents import Document, Source, path_of

LONGEST_RENAMING = 10.0
"""Seconds in which an editor makes the edit that renames a unit."""
LEAST_FILES = 32
"""Files that are looked at in any case."""


class Sources:
    """What is open in the editor, which counts as it is there, and the files beside it. `plant` has all texts as they are now.

    `warn` shows words to the user.
    """

    def __init__(self, warn: Callable[[str], None]):
        self._warn = warn
        self.folders: list[Path] = []
        self.documents: dict[Path, Document] = {}
        self.plant = Plant()
        self.owners: dict[str, Path] = {}
        self._sources: dict[Path, Source] = {}
        self._changed: dict[Path, Source | None] = {}
        self._expected: dict[Path, str] = {}
        self._renaming: dict[str, str] = {}
        self._renamed_by = 0.0
        self._links: set[Path] = set()
        self._look: Iterator[Path | None] | None = None

    # What the editor does

    def open(self, uri: str, version: int | None, raw: str) -> None:
        path, text = path_of(uri), sound(raw)
        written = _written(path)
        self.documents[path] = Document(uri, version, raw, text, text if written is None else written, written)
        self._take(path)

    def change(self, uri: str, version: int | None, changes: list[dict[str, Any]]) -> Path:
        """Makes the changes one after the other, or none of them where one makes no sense."""
        path = path_of(uri)
        document = self.documents[path]
        raw = document.raw
        for it in changes:
            raw = changed(raw, it)
        document.version, document.raw, document.text, document.is_published = version, raw, sound(raw), False
        self._take(path)
        return path

    def shut(self, uri: str) -> Path:
        path = path_of(uri)
        del self.documents[path]
        self._take(path)
        return path

    def expect(self, texts: dict[Path, str]) -> None:
        """Tells that the editor is going to give files these texts by one edit."""
        self._expected = texts
        units = {path: it.unit for path in texts if (it := self._sources.get(path)) and it.unit}
        self._renaming = {unit: name for path, unit in units.items() if (name := declared_name(texts[path])) and name != unit}
        self._renamed_by = time.monotonic() + LONGEST_RENAMING

    def take_renamed(self) -> dict[str, str]:
        """The units that have another name since that edit was made, with this. The file of one may get its other name a moment later."""
        its = self._renaming if time.monotonic() < self._renamed_by else {}
        renamed = {unit: name for unit, name in its.items() if unit not in self.owners and name in self.owners}
        self._renaming = {unit: name for unit, name in its.items() if unit not in renamed}
        return renamed

    def is_expecting(self) -> bool:
        return bool(self._expected)

    def is_unsaved(self, path: Path) -> bool:
        """Whether the user has changed a document since it had the text of its file."""
        document = self.documents[path]
        if document.text != document.written and _written(path) == document.text:
            document.written = document.text
        return document.text != document.written

    # Files

    def refresh(self) -> None:
        """Has the files looked at again."""
        self._look = self._changed_files()

    def is_taken(self) -> bool:
        """Whether all files are taken in."""
        return not self._look

    def is_read(self) -> bool:
        """Whether all files are taken in, and all texts read."""
        return self.is_taken() and self.plant.is_read()

    def catch_up(self, end: float) -> bool:
        """Takes in the files that have changed, until a time and some in any case; tells whether that is all of them."""
        for count, path in enumerate(self._look or (), 1):
            if path:
                self._take(path)
            if count >= LEAST_FILES and time.monotonic() >= end:
                return False
        self._look = None
        return True

    def _changed_files(self) -> Iterator[Path | None]:
        """The files that have changed, of those in the folders, those beside open documents, and those that were known; None for each other one."""
        beside = {path.parent for path in self.documents if not any(path.is_relative_to(folder) for folder in self.folders)}
        found, unread = set[Path](), list[Path]()
        for file, stamp in chain(stamps_of(self.folders), stamps_of(beside, with_inner=False)):
            path = Path(file)
            if stamp:
                found.add(path)
            elif can_be_unit(path.name) and path.is_symlink():
                self._warn_of_link(path)
            else:
                unread.append(path)
            yield path if stamp and self._is_new(path, stamp) else None
        for path in (self._sources.keys() | self._changed.keys()) - found:
            if any(map(path.is_relative_to, unread)):
                continue  # Nobody knows whether it is there: it stays what it was.
            yield path if self._is_new(path, stamp_of(path)) else None

    def _warn_of_link(self, path: Path) -> None:
        if path not in self._links and path not in self.documents:
            self._links.add(path)
            self._warn(str(leads_out(path)))

    def _is_new(self, file: Path, stamp: Stamp | None) -> bool:
        return file not in self.documents and not self._is_known(file, stamp)

    def _is_known(self, file: Path, stamp: Stamp | None) -> bool:
        known = self._changed.get(file) or self._sources.get(file)
        return known is not None and known.stamp == stamp

    def _take(self, path: Path) -> None:
        """Takes in the text of a document, or of a file that is not open."""
        source, document = self._read(path), self.documents.get(path)
        self._changed[path] = source
        if source and source.text is not None and source.text == self._expected.get(path):
            del self._expected[path]
        text = self.plant.put(path, source.text if source else None, document.uri if document else None)
        if source and text:
            source.declares = text.declared

    def _read(self, path: Path) -> Source | None:
        if document := self.documents.get(path):
            return Source(path, None if document.is_too_long else document.text)
        if its := read_at_once(path):
            return Source(path, *its)
        stamp = None if path.is_symlink() else stamp_of(path)  # Where a link may lead, the file is known by its own name.
        if not stamp:
            return None
        try:
            return Source(path, read_text(path), stamp)
        except Misuse as error:
            self._warn(str(error))
            return Source(path, None, stamp)

    # Units

    def has_changed(self) -> bool:
        return bool(self._changed)

    def settle(self) -> set[Path]:
        """Finds which units the texts are that have changed, and gives their files."""
        self._expected = {}
        taken = dict(sorted(self._changed.items(), key=lambda it: (it[0] not in self._sources, it[0].parts)))
        self._changed = {}
        freed = [self._place(path, source) for path, source in taken.items()]
        if any(freed):  # Another file may be that unit now.
            doubles = {it.file: it for it in self._sources.values() if it.text is not None and it.unit is None}
            taken |= doubles
            for path, source in doubles.items():
                self._place(path, source)
        return set(taken)

    def _place(self, path: Path, source: Source | None) -> bool:
        """Finds which unit a text is, and tells whether it was another one before."""
        known = self._sources.pop(path, None)
        former = known.unit if known else None
        self.owners.pop(former or "", None)
        if source:
            source.unit = self._unit_of(source, former)
            self._sources[path] = source
            if source.unit:
                self.owners[source.unit] = path
        return former is not None and (not source or source.unit != former)

    def _unit_of(self, source: Source, former: str | None) -> str | None:
        """The unit that a text is: as it declares, or as before while it declares none or has marked lines of a conflict; none where another file is that unit."""
        if source.text is None:
            return None
        kept = former if is_marked(source.text) else None
        name = kept or source.declares or former or stand_in_name(source.file, self.owners)
        owner = self.owners.get(name)
        if owner and source.file not in self.documents:
            self._warn(f"{owner} and {source.file} both declare the unit {name}; the first one counts.")
        return None if owner else name

    def source(self, path: Path) -> Source | None:
        """The text of a file as it was when it was settled last."""
        return self._sources.get(path)

    def units(self) -> dict[str, str]:
        """The texts by unit."""
        return {unit: text for unit, path in self.owners.items() if (text := self._sources[path].text) is not None}


def _written(path: Path) -> str | None:
    """The text of a file; None if it has none."""
    try:
        return read_text(path) if stamp_of(path) else None
    except Misuse:
        return None
