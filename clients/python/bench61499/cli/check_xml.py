"""Checks projects of XML where they are: they are imported in memory, and what is found is shown in their files."""
from __future__ import annotations

import argparse
from collections.abc import Iterator
from dataclasses import replace
from functools import lru_cache
from pathlib import Path

from bench61499 import TEXT_LIMIT, Places
from bench61499.cli.command import Progress, open_session, tell
from bench61499.cli.findings import Finding, Found, find, try_plans
from bench61499.exchange.exchanged import Instance
from bench61499.exchange.imports import Made, Project, are_same, written_in_room
from bench61499.exchange.located import Lines
from bench61499.exchange.lowering import made_from, subapplications
from bench61499.exchange.xmlfile import xml_text
from bench61499.language.units import Misuse, Unit, commit_units


def check_project(options: argparse.Namespace) -> tuple[Found, int]:
    """What is found in the files of a project, and how many of them could not be read."""
    failed: list[str] = []
    project = XmlUnits(Project(options.path, failed.append), failed.append)
    for words in failed:
        tell(f"check: {words}")
    if not project.units:
        raise Misuse(f"no unit in {', '.join(map(str, options.path))}")
    with open_session(options) as session, Progress() as progress:
        commit_units(session, project.units, lambda put: progress.show(f"putting units: {put:,} of {len(project.units):,}"))
        faults = session.find_faults(lambda results: progress.show(f"checking {len(project.units):,} units: {results:,} results"))
        answers, lack = try_plans(session, project.units, progress) if options.plans else (None, "")
    found = project.located(find(project.units, faults, answers))
    found.failed = lack
    return found, len(failed)


class XmlUnits:
    """The units of a project, and where their parts are in its files. `fail` is told of units that are not checked."""

    def __init__(self, project: Project, fail: object):
        self.units: list[Unit] = []
        self._made: dict[str, Made] = {}
        self._lines: dict[str, Lines] = {}
        assert callable(fail)
        for it, text in ((each, written_in_room(each)) for each in project.made):
            name = it.unit.name.upper()
            first = next((unit for unit in self.units if unit.name == name), None) if name in self._made else None
            if first and not are_same(first.text, text):
                fail(f"{first.file} and {it.file} both declare the unit {name}; the first one is checked")
            elif len(text.encode()) > TEXT_LIMIT:
                fail(f"{it.file}: {it.unit.name} would have {len(text.encode()):,} bytes, and the text of a unit has at most {TEXT_LIMIT:,}")
            elif not first:
                self.units.append(Unit(name, it.file, text))
                self._made[name] = it

    def located(self, found: Found) -> Found:
        """What was found in the texts, in the files of the project."""
        for its in (found.faults, found.notes, found.warnings, found.reasons, found.skipped):
            its[:] = self._in_files(its)
        return found

    def _in_files(self, its: list[Finding]) -> Iterator[Finding]:
        for it in its:
            user = self._user(it.unit.name)
            made = user[0] if user else self._made[it.unit.name]
            text, places = _content(made.file)
            lines = self._lines_of(made, text)
            at = lines.shown(user[1].line, f"SubApp {user[1].name}", "") if user else lines.located(it.start, it.end)
            unit = replace(it.unit, file=made.file, text=text)
            explanation = f"{it.explanation} ({at.element})"
            yield replace(it, unit=unit, start=at.start, end=at.end, explanation=explanation, places=places, shown=(at.start, at.end))

    def _user(self, name: str) -> tuple[Made, Instance] | None:
        """An instance whose parameters a copy was made for, and its owner; None if a unit is no copy."""
        if not made_from(self._made[name].unit):
            return None
        its = ((made, it) for made in self._made.values() for _, it in subapplications(made.unit) if it.type.upper() == name)
        return min(its, key=lambda each: bool(made_from(each[0].unit)))

    def _lines_of(self, made: Made, xml: str) -> Lines:
        name = made.unit.name.upper()
        if name not in self._lines:
            self._lines[name] = Lines(made.unit, next(it.text for it in self.units if it.name == name), xml)
        return self._lines[name]


@lru_cache(1024)
def _content(file: Path) -> tuple[str, Places]:
    text = xml_text(file)
    return text, Places(text)
