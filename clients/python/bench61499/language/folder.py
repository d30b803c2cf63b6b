"""A folder of units that is looked at again and again: what its files are as units, and which of them have changed."""
from __future__ import annotations

import os
import stat
from collections.abc import Iterable, Iterator
from dataclasses import dataclass
from pathlib import Path

from bench61499 import TEXT_LIMIT
from bench61499.language.bounded import walk
from bench61499.language.names import shown
from bench61499.language.tokens import declared_name
from bench61499.language.units import Misuse, Unit, can_be_unit, find_files, is_hidden, is_of_folders, read_text, stand_in_name

Stamp = tuple[int, int, int]
"""When a file was written, when it became what it is under its name, as by a move, and its size."""


@dataclass(frozen=True)
class File:
    """A file as it was read: its text, or why it can't be that of a unit, and the name that the text declares."""

    stamp: Stamp
    text: str | None
    declares: str | None
    problem: str = ""


class Folder:
    """The `*.fb` files of folders as units, by their declarations.

    Files that can be no unit are `problems`, and so are files that declare the unit of another one. A text that declares nothing is the unit
    that it was, or one that is named by its file.
    """

    def __init__(self, paths: list[Path]):
        self._paths = paths
        self._files: dict[Path, File] = {}
        self._names: dict[Path, str] = {}
        self._stamps: dict[str, Stamp | None] = {}
        self._looked = False
        self.units: dict[str, Unit] = {}
        self.problems: tuple[str, ...] = ()

    def look(self) -> bool:
        """Reads the files that have changed, and tells whether there is anything new.

        Raises `Misuse` where a folder is not there at the first look; later that is a problem, and the units stay. A look that finds nothing
        new is cheap.
        """
        stamps = dict(stamps_of(self._paths))
        if self._looked and stamps == self._stamps:
            return False
        untaken: list[Misuse] = []
        try:
            found = list(self._files) if self._are_there(stamps) else find_files(self._paths, untaken.append)
        except Misuse as error:
            if not self._looked:
                raise
            self._stamps, self.problems = stamps, (f"{error}; what was read before is shown",)
            return True
        self._looked, self._stamps = True, stamps
        self._files = dict(self._read_all(found))
        self._name_all()
        self.problems = (*map(str, untaken), *self.problems)
        return True

    def _are_there(self, stamps: dict[str, Stamp | None]) -> bool:
        """Whether the files are those that were there before: to list them takes longer."""
        return stamps.keys() == self._stamps.keys() and None not in (*stamps.values(), *self._stamps.values())

    def _read_all(self, found: list[Path]) -> Iterator[tuple[Path, File]]:
        """The files, each read again only where it has changed."""
        for file in found:
            if stamp := stamp_of(file):
                known = self._files.get(file)
                yield file, known if known and known.stamp == stamp else read_file(file, stamp)

    def _name_all(self) -> None:
        owners: dict[str, Path] = {}
        problems = [it.problem for it in self._files.values() if it.problem]
        for file, it in self._files.items():
            if it.declares in owners:
                problems.append(f"{shown(owners[it.declares])} and {shown(file)} both declare the unit {it.declares}; the first one counts")
            elif it.declares:
                owners[it.declares] = file
        for file, it in self._files.items():
            if it.text is not None and not it.declares:
                former = self._names.get(file)
                name = former if former and former not in owners else stand_in_name(file, owners)
                owners[name] = file
        self._names = {file: name for name, file in owners.items()}
        self.units = {name: Unit(name, file, self._files[file].text or "") for name, file in owners.items()}
        self.problems = tuple(problems)


def stamps_of(paths: Iterable[str | Path], with_inner: bool = True) -> Iterator[tuple[str, Stamp | None]]:
    """The state of each file that can be a unit, as the folders, and perhaps inner ones, tell it, by the name that it has where a link to it leads.

    There is none of a folder that can't be read, and of a link that leads out of the folders.
    """
    its = list(paths)
    folders = [Path(os.path.realpath(it)) for it in its]
    failed: list[tuple[str, OSError]] = []
    for path in its:
        for entry in walk(path, lambda inner, error: failed.append((inner, error)), is_hidden if with_inner else lambda _: True):
            if can_be_unit(entry.name):
                yield _state_of(entry, folders) if entry.is_symlink() else (entry.path, stamp_of(entry))
    for name, error in failed:
        yield name, stamp_of(Path(name)) if isinstance(error, NotADirectoryError) else None


def _state_of(link: os.DirEntry[str], folders: list[Path]) -> tuple[str, Stamp | None]:
    target = Path(os.path.realpath(link.path))
    return (str(target), stamp_of(link)) if is_of_folders(Path(link.path), target, folders) else (link.path, None)


def stamp_of(file: Path | os.DirEntry[str]) -> Stamp | None:
    """The state of a file; None of what is no file, or can't be looked at."""
    try:
        return _stamp(file.stat())
    except OSError:
        return None


def _stamp(state: os.stat_result) -> Stamp | None:
    return (state.st_mtime_ns, state.st_ctime_ns, state.st_size) if stat.S_ISREG(state.st_mode) else None


def read_at_once(file: Path) -> tuple[str, Stamp] | None:
    """The text and the state of a file, by few calls of the system. None if the file is a link, if its text can't be that of a unit, or if it changes meanwhile."""
    try:
        descriptor = os.open(file, os.O_RDONLY | os.O_NONBLOCK | os.O_CLOEXEC | os.O_NOFOLLOW)
        try:
            stamp, content = _stamp(os.fstat(descriptor)), os.read(descriptor, TEXT_LIMIT + 1)
        finally:
            os.close(descriptor)
        is_whole = stamp and len(content) == stamp[-1] <= TEXT_LIMIT
        return (content.decode(), stamp) if stamp and is_whole else None
    except (OSError, UnicodeDecodeError):
        return None


def read_file(file: Path, stamp: Stamp) -> File:
    """Reads a file whose state is known."""
    try:
        text = read_text(file)
    except Misuse as error:
        return File(stamp, None, None, str(error))
    return File(stamp, text, declared_name(text))
