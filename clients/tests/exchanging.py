"""What the tests of the exchange share: the samples, and runs within this process."""
from __future__ import annotations

import json
import os
from collections.abc import Iterable, Iterator
from contextlib import contextmanager
from dataclasses import dataclass
from pathlib import Path
from typing import Any

from support import CLIENTS, InFolder, workbench

from bench61499 import Session
from bench61499.exchange.exports import Export
from bench61499.exchange.folders import Target
from bench61499.exchange.imports import Import
from bench61499.exchange.outgoing import MODERN
from bench61499.language.tokens import pieces, tokens
from bench61499.language.units import commit_units, read_units

SAMPLES = CLIENTS / "tests" / "exchange"
OUT = "OUT"


@dataclass(frozen=True)
class Ran:
    """What a run printed and gave back."""

    status: int
    lines: list[str]
    errors: list[str]


@dataclass(frozen=True)
class Sample:
    folder: Path
    expected: dict[str, Any]

    @property
    def files(self) -> list[str]:
        endings = (".fb", ".json", ".fboot")
        return self.expected.get("files") or sorted(it.name for it in self.folder.iterdir() if it.suffix not in endings)

    def texts(self) -> dict[str, str]:
        return texts(self.folder)


def samples() -> Iterator[Sample]:
    for folder in sorted(it for it in SAMPLES.iterdir() if it.is_dir()):
        yield Sample(folder, json.loads((folder / "expect.json").read_text()))


def texts(folder: Path) -> dict[str, str]:
    """The texts of a folder by the names of their files."""
    return {it.name: it.read_bytes().decode() for it in sorted(folder.glob("*.fb"))}


def spelling(text: str) -> list[str]:
    return [it.words for it in tokens(text)]


def spelling_with_comments(text: str) -> list[str]:
    return [it.words for it in pieces(text)]


def imported(paths: Iterable[Path | str], to: Path, *, replace: bool = False) -> Ran:
    errors: list[str] = []
    ran = Import([Path(it) for it in paths], Target(to, replace), errors.append)
    return Ran(ran.status, list(ran.lines(False)), errors)


def exported(paths: Iterable[Path | str], to: Path, tool: str = MODERN, *, replace: bool = False) -> Ran:
    errors: list[str] = []
    ran = Export([Path(it) for it in paths], Target(to, replace), tool, errors.append)
    return Ran(ran.status, list(ran.lines(False)), errors)


@contextmanager
def at(folder: Path) -> Iterator[None]:
    """Names of files are those in this folder."""
    before = os.getcwd()
    os.chdir(folder)
    try:
        yield
    finally:
        os.chdir(before)


def faults(folder: Path) -> list[list[str]]:
    """What the workbench finds in the units of a folder: unit, code, and the words at the place."""
    units = read_units([folder])
    with Session.script(workbench()) as session:
        commit_units(session, units)
        found = {it.name: session.wait("faults", it.name) for it in units}
    return [[it.name, fault.code, it.text.encode()[fault.start : fault.end].decode()] for it in units for fault in found[it.name]]


class ExchangeTest(InFolder):
    """A test with a folder of its own, in which `lib` is imported to."""

    def setUp(self) -> None:
        super().setUp()
        self.lib = self.folder / "lib"

    def unit(self, words: str, ending: str = "fbt") -> tuple[list[str], str]:
        """The lines and the text for a type of a file that has this root."""
        file = self.write(f"X.{ending}", f'<?xml version="1.0" encoding="UTF-8"?>\n{words}\n')
        with at(self.folder):
            ran = imported([file.name], self.lib, replace=True)
        self.assertEqual(ran.errors, [])
        found = texts(self.lib)
        self.assertEqual(len(found), 1, found.keys())
        return ran.lines, found.popitem()[1]
