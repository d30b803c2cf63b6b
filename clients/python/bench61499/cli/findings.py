"""What check has found: faults of the workbench, notes of the client, and reasons for missing plans, each with its place and its words."""
from __future__ import annotations

from collections.abc import Callable, Iterable, Iterator, Mapping, Sequence
from contextlib import suppress
from dataclasses import dataclass, field, replace
from typing import Any, Literal

from bench61499 import Deploy, Fault, Key, Net, NoSuchKey, OutOfMemory, Places, Session, There
from bench61499.cli.command import Progress
from bench61499.cli.comparing import Difference, Judged, named
from bench61499.language.copies import Originals
from bench61499.language.explain import Explainer, Names
from bench61499.language.plans import Reason, Reasons
from bench61499.language.skipped import CODE, Head, skipped
from bench61499.language.spelling import CODE as SPELLING
from bench61499.language.spelling import differing
from bench61499.language.texts import Texts
from bench61499.language.tokens import declared_kind
from bench61499.language.unchecked import notes
from bench61499.language.units import Unit
from bench61499.language.warned import warned

Level = Literal["error", "warning", "note"]
KEYS: dict[str, Literal["net", "deploy"]] = {"SUBAPPLICATION": "net", "SYSTEM": "deploy"}
"""What is asked for of units by their first word."""


@dataclass(frozen=True)
class Finding:
    """Something to be mended: `start` and `end` are its place in bytes, `shown` is what is underlined."""

    unit: Unit
    code: str
    start: int
    end: int
    explanation: str
    places: Places
    shown: tuple[int, int]
    level: Level = "error"

    @property
    def begin(self) -> tuple[int, int]:
        """The line and the column."""
        return self.places.line_column(self.shown[0])

    @property
    def words(self) -> str:
        """What is underlined."""
        return self.places.words(*self.shown)

    @property
    def behind(self) -> tuple[int, int]:
        return self.places.line_column(self.shown[1])


@dataclass
class Answers:
    """The networks of subapplications and the plans of systems, as the workbench answered."""

    nets: dict[str, Net | There | None] = field(default_factory=dict)
    deploys: dict[str, Deploy | There | None] = field(default_factory=dict)

    def of(self, unit: str) -> Net | Deploy | There | None:
        return self.nets.get(unit) or self.deploys.get(unit)


@dataclass
class Found:
    """All that was found in units, in the order of the files."""

    units: Sequence[Unit]
    faults: list[Finding] = field(default_factory=list)
    notes: list[Finding] = field(default_factory=list)
    reasons: list[Finding] = field(default_factory=list)
    warnings: list[Finding] = field(default_factory=list)
    """What this client warns of, which is no fault by the language: types of values that are nowhere, and names in algorithms that the workbench skips."""
    skipped: list[Finding] = field(default_factory=list)
    """The algorithms and guards that the workbench does not read."""
    guards: int = 0
    """How many of these are guards."""
    answers: Answers | None = None
    judged: Judged = Judged.FILES
    differences: Sequence[Difference] = ()
    lent: Sequence[str] = ()
    """The units that only the workbench has, and on which those of the files rest."""
    is_strict: bool = False
    """Whether warnings count."""
    failed: str = ""
    """Why networks and plans are not known although they were asked for."""

    @property
    def lending(self) -> str:
        """That units rest on others that no file has; empty if none does."""
        return f"units rest on others that only the workbench has: {named([*self.lent])}" if self.lent else ""

    @property
    def unchecked(self) -> list[str]:
        """The units of which the workbench has no text, or another one than the file."""
        return sorted(it.unit for it in self.differences if it.file)

    @property
    def is_faulty(self) -> bool:
        """Whether there is anything that the status shows; notes are nothing of that kind, and warnings only if they count."""
        return bool(self.faults or self.reasons or self.is_strict and self.warnings)

    def all(self) -> list[Finding]:
        """By file: faults, then notes, warnings and reasons."""
        return self._by_file([*self.faults, *self.notes, *self.warnings, *self.reasons])

    def all_and_skipped(self) -> list[Finding]:
        """The same, and then what the workbench does not read."""
        return self._by_file([*self.faults, *self.notes, *self.warnings, *self.reasons, *self.skipped])

    def _by_file(self, its: list[Finding]) -> list[Finding]:
        order = {unit.name: at for at, unit in enumerate(self.units)}
        return sorted(its, key=lambda it: order[it.unit.name])


def find(units: Sequence[Unit], faults: Mapping[str, tuple[Fault, ...]], answers: Answers | None, around: Mapping[str, str] | None = None) -> Found:
    """Puts faults, and reasons where plans were asked for, into words. `around` are the texts of all units that were there, if there were others than these."""
    of = {unit.name: unit.text for unit in units} if around is None else around
    texts = Texts.of(of)
    names, reasons = Names(of), Reasons(texts)
    found = Found(units, answers=answers)
    by_name = {unit.name: unit for unit in units}
    broken = {name for name, its in faults.items() if any(it.code == "SYNTAX" for it in its)}
    for unit in units:
        if its := faults.get(unit.name):
            explainer = Explainer(unit.text, names, texts)
            found.faults += _explained(unit, its, explainer)
            if unit.name in broken:
                found.notes += _explained(unit, notes(unit.text, texts, broken.__contains__), explainer, "note")
        if answers and (answer := answers.of(unit.name)):
            told = sorted(reasons.of(unit.name, unit.text, answer), key=lambda it: it.start)
            found.reasons += (_reason(by_name[it.unit], it) for it in told if it.unit in by_name)
    found.warnings = list(_warnings(units, names, texts, broken.__contains__))
    found.notes += _spellings(units, texts)
    heads = [(unit, it) for unit in units for it in skipped(unit.text)]
    found.skipped, found.guards = [_skipped(*it) for it in heads], sum(it.is_guard for _, it in heads)
    return _of_originals(found)


def _warnings(units: Sequence[Unit], names: Names, texts: Texts, is_broken: Callable[[str], bool]) -> Iterator[Finding]:
    for unit in units:
        for it in warned(unit.text, unit.name, names, texts, is_broken):
            yield Finding(unit, it.code, it.start, it.end, it.explanation, Places(unit.text), (it.start, it.end), "warning")


def _spellings(units: Sequence[Unit], texts: Texts) -> Iterator[Finding]:
    found = differing({unit.name: unit.text for unit in units}, texts)
    for unit, it in ((unit, it) for unit in units for it in found.get(unit.name, ())):
        yield Finding(unit, SPELLING, it.start, it.end, it.explanation, Places(unit.text), (it.start, it.end), "note")


def _skipped(unit: Unit, it: Head) -> Finding:
    span = it.words[0].start, it.words[-1].end
    return Finding(unit, CODE, *span, it.explanation, Places(unit.text), span, "note")


def _of_originals(found: Found) -> Found:
    """Tells what was found in copies of types once, in the original, unless it is in the copy alone."""
    originals = Originals({unit.name: unit.text for unit in found.units})
    if not originals:
        return found
    kinds = (found.faults, found.notes, found.warnings, found.reasons)
    told = {(it.unit.name, it.code, it.words) for its in kinds for it in its if not originals.of(it.unit.name)}
    for its in kinds:
        its[:] = (_renamed(it, originals) for it in its if (originals.of(it.unit.name), it.code, it.words) not in told)
    return found


def _renamed(it: Finding, originals: Originals) -> Finding:
    where = f" (in {originals.described(it.unit.name)})" if originals.of(it.unit.name) else ""
    return replace(it, explanation=originals.words(it.explanation) + where)


def _explained(unit: Unit, faults: Iterable[Fault], explainer: Explainer, level: Level = "error") -> Iterator[Finding]:
    places = Places(unit.text)
    for it in faults:
        yield Finding(unit, it.code, it.start, it.end, explainer.explain(it), places, explainer.span(it), level)


def _reason(unit: Unit, it: Reason) -> Finding:
    return Finding(unit, it.code, it.start, it.end, it.explanation, Places(unit.text), (it.start, it.end))


def keys_of(units: Iterable[Unit]) -> list[Key]:
    """The keys of the networks of subapplications and of the plans of systems."""
    return [(kind, unit.name) for unit in units if (kind := KEYS.get(declared_kind(unit.text) or ""))]


def answers_of(values: Mapping[Key, Any], keys: Iterable[Key]) -> Answers:
    """Networks and plans by their keys; None for one that is not there, as the text spells no unit."""
    answers = Answers()
    for kind, unit in keys:
        if kind == "net":
            answers.nets[unit] = values.get((kind, unit))
        else:
            answers.deploys[unit] = values.get((kind, unit))
    return answers


def try_plans(session: Session, units: Iterable[Unit], progress: Progress) -> tuple[Answers | None, str]:
    """The networks of all subapplications and the plans of all systems, or why they are not known: the memory of the workbench does not suffice for them."""
    try:
        return ask_plans(session, units, lambda known: progress.show(f"computing networks and plans: {known:,} results")), ""
    except OutOfMemory as error:
        return None, f"the networks and plans are not known: {error}"


def ask_plans(session: Session, units: Iterable[Unit], progress: Callable[[int], object]) -> Answers:
    """The networks of all subapplications and the plans of all systems; None for a text that spells no unit."""
    keys = keys_of(units)
    session.work_off(progress=progress)
    values: dict[Key, Any] = session.ask_all(keys, is_brief=True)
    for key in [key for key, value in values.items() if value is None]:
        with suppress(NoSuchKey):
            values[key] = session.wait(*key)
    return answers_of(values, keys)
