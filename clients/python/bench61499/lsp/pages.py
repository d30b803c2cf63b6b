"""What an editor shows of a file: its faults, why they are not known, or who has changed its unit."""
from __future__ import annotations

import time
from collections.abc import Mapping
from functools import partial
from itertools import zip_longest
from pathlib import Path

from bench61499 import TEXT_LIMIT, Places
from bench61499.language.explain import Names
from bench61499.language.merging import is_marked
from bench61499.language.tokens import declaration
from bench61499.language.warned import warned
from bench61499.lsp.commits import Faults, News, Unit
from bench61499.lsp.diagnoses import changed, conflicts, diagnostic, explained, marked, of_others, remark, warnings, whose
from bench61499.lsp.documents import Diagnostic, Document, Source
from bench61499.lsp.related import related
from bench61499.lsp.sources import Sources

OLD = "as last known"
LEAST_AGE = 5.0
"""Seconds after which the age of a change is shown again, at the earliest; later once it is twice as old."""


class Pages:
    """What there is to show. `units` and `faults` are what is known of the workbench, whose identity is `workbench` if it gives texts; there is `trouble` if nothing is
    known now. `caller` is the number of this editor's session.

    A workbench that `gives_texts` is compared with the texts here; one that is `shared` gets none with marked lines of a merge. It `relates` faults to other places if the editor can show that.
    """

    def __init__(self, sources: Sources, shared: bool):
        self._sources, self._shared = sources, shared
        self.units: dict[str, Unit] = {}
        self.faults: dict[str, Faults | None] = {}
        self.workbench, self.trouble, self.caller = "", "", 0
        self.gives_texts = self.relates = False
        self._found: dict[Path, list[Diagnostic]] = {}
        self._others: dict[Path, list[Diagnostic]] = {}
        self._ages: dict[Path, float] = {}

    def take(self, news: News) -> None:
        """Takes what is known of the workbench."""
        if news.is_other:
            self.units.clear()
            self.faults.clear()
        self.workbench = news.workbench
        for unit in news.units:
            self.faults.pop(unit, None)
        self.units |= news.units
        self.faults |= news.faults

    def elsewhere(self) -> dict[str, str]:
        """The texts of the units of the workbench that have no file here, as far as they are known."""
        return {unit: it.text or "" for unit, it in self.units.items() if it.revision and unit not in self._sources.owners}

    def due(self) -> float | None:
        """When the age of a change must be shown again."""
        return min(self._ages.values(), default=None)

    def aged(self) -> list[Path]:
        """The files of which the age of a change must be shown again."""
        now = time.monotonic()
        return [path for path, due in self._ages.items() if due <= now]

    def page(self, path: Path, document: Document | None, source: Source | None) -> list[Diagnostic] | None:
        """What to show of a file; None while that is not known, and what is shown stays."""
        if document and document.is_too_long:
            too_long = f"the text has {document.size:,} bytes, and that of a unit has at most {TEXT_LIMIT:,}"
            return [diagnostic(Places(""), 0, 0, too_long)]
        if document and (not source or source.text != document.text):
            return None  # It is not settled yet.
        if not source or source.text is None:
            return []
        if source.unit is None:
            return [self._double(document.text)] if document else []
        self._ages.pop(path, None)
        if self._shared and is_marked(source.text):
            return [*conflicts(source.text), *marked(self._found.get(path, []), OLD)]
        if self.trouble:
            return self._unknown(path, source.text, f"not checked: {self.trouble}", bool(document))
        it = self.units.get(source.unit)
        return self._known(path, source.text, source.unit, it, bool(document)) if it else None

    def _known(self, path: Path, text: str, unit: str, it: Unit, is_open: bool) -> list[Diagnostic] | None:
        """Of a unit of which it is known what the workbench has."""
        faults = self.faults.get(unit)
        names, texts = Names(filter(self._is_there, self._sources.owners) if faults else ()), self._sources.plant.known
        if it.text is not None and not it.is_changed:
            if it.text != text or faults is None:
                return None
            self._others.pop(path, None)
            self._found[path] = [*self._related(path, text, faults, explained(text, faults, names, texts)), *self._warnings(unit, text, faults)]
            return self._found[path]
        why = self._changed(path, unit, it) if self.gives_texts else whose(unit, it, text, faults or ())
        if not it.revision or path in self._found and is_open:
            return self._unknown(path, text, why, True)
        self._others[path] = of_others(text, faults or (), names, texts)
        return [*([remark(text, why)] if is_open or self.gives_texts else []), *self._others[path]]

    def _is_there(self, unit: str) -> bool:
        """Whether the workbench has a unit of a file, as far as that is known: somebody may have removed it."""
        it = self.units.get(unit)
        return it is None or it.revision > 0

    def _changed(self, path: Path, unit: str, it: Unit) -> str:
        """Who has changed a unit, and when; that is shown again as time goes by."""
        now = time.monotonic()
        if it.author and it.author.heard is not None:
            self._ages[path] = now + max(LEAST_AGE, now - it.author.heard)
        return changed(unit, it, now, self.caller)

    def _unknown(self, path: Path, text: str, why: str, is_told: bool) -> list[Diagnostic]:
        """The last faults that were found of a text, marked as such, and why there are no newer ones."""
        return [*([remark(text, why)] if is_told else []), *marked(self._found.get(path) or self._others.get(path) or [], OLD)]

    def _related(self, path: Path, text: str, faults: Faults, shown: list[Diagnostic]) -> list[Diagnostic]:
        """Faults with the places where what they name is declared."""
        its = self._sources.plant.text(path) if self.relates and faults else None
        if not its or its.text != text:
            return shown
        places = (related(self._sources.plant, its, fault.start, fault.end) for fault in faults)
        return [{**it, **({"relatedInformation": more} if more else {})} for it, more in zip_longest(shown, places)]

    def _warnings(self, unit: str, text: str, faults: Faults) -> list[Diagnostic]:
        """What this client warns of in a text whose faults are known."""
        broken = partial(_is_broken, {**self.faults, unit: faults})
        its = warned(text, unit, _There(self._sources.owners, self.units), self._sources.plant.known, broken)
        return warnings(text, its) if its else []

    def _double(self, text: str) -> Diagnostic:
        name = declaration(text)
        assert name, "only a name that is declared can be another's"
        owner = self._sources.owners[name.upper].name
        return diagnostic(Places(text), name.start, name.end, f"{owner} declares the unit {name.upper} too; a unit has one text")


class _There:
    """The units that have a file here, or are in the workbench."""

    def __init__(self, owners: Mapping[str, Path], units: Mapping[str, Unit]):
        self._owners, self._units = owners, units

    def __contains__(self, name: object) -> bool:
        its = self._units.get(name) if isinstance(name, str) else None
        return name in self._owners or its is not None and its.revision > 0


def _is_broken(faults: Mapping[str, Faults | None], unit: str) -> bool:
    return any(it.code == "SYNTAX" for it in faults.get(unit) or ())
