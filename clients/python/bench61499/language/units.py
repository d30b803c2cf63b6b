"""Files as units: which unit a file is, and how a whole folder is put into a workbench."""
from __future__ import annotations

import errno
import os
import stat
from collections.abc import Callable, Container, Iterable, Iterator
from dataclasses import dataclass, replace
from pathlib import Path
from typing import NoReturn

from bench61499 import NAME_LIMIT, TEXT_LIMIT, UNITS_LIMIT, Put, Session, StaleBase, batches
from bench61499.language.bounded import NO_FILE, read_at_most, walk
from bench61499.language.merging import MARKED, conflict_lines
from bench61499.language.names import shown
from bench61499.language.tokens import RESERVED, declared_name
from bench61499.language.wording import counted

ENDING = ".fb"
"""What the name of a file ends with that is a unit, in small letters or capitals."""


class Misuse(Exception):
    """What was asked for can't be done; the text tells the user why."""


@dataclass(frozen=True)
class Unit:
    """A file and the unit that it is. `file` is as the user named it."""

    name: str
    file: Path
    text: str


def find_files(paths: Iterable[Path], failed: Callable[[Misuse], object] | None = None) -> list[Path]:
    """The files themselves and the `*.fb` files of the folders, inner folders included, each once and sorted.

    Raises `Misuse`; where `failed` is given it is told of the inner folders that can't be read, of links that lead elsewhere or nowhere, and of pipes, and the others are looked at.
    """
    named = [(path, _is_folder(path)) for path in paths]
    folders = [path.resolve() for path, is_folder in named if is_folder]
    found: dict[str, Path] = {}
    for path, is_folder in named:
        its = _files_in(path, failed or _refuse) if is_folder else [(os.path.realpath(path), path)]
        for real, file in sorted(its, key=lambda it: it[1].parts):
            if is_folder and not is_of_folders(file, Path(real), folders):
                (failed or _refuse)(leads_out(file))
            else:
                found.setdefault(real, file)
    return sorted(found.values(), key=lambda it: it.parts)


def is_of_folders(file: Path, target: Path, folders: Iterable[Path], endings: Container[str] = (ENDING,)) -> bool:
    """Whether a file is no link, or one that leads to a file with such an ending in the folders. A project from elsewhere could have another link read any file of its user."""
    return not os.path.islink(file) or target.suffix.lower() in endings and any(map(target.is_relative_to, folders))


def leads_out(file: str | Path) -> Misuse:
    """The message about a link that is not read."""
    return Misuse(f"{shown(file)}: is a link that leads to no *{ENDING} file of the folders that are named, so it is not read")


def _is_folder(path: Path) -> bool:
    """Whether it is a folder, and no file. Raises `Misuse` where it is neither, or can't be looked at."""
    try:
        mode = path.stat().st_mode
    except (FileNotFoundError, NotADirectoryError):
        mode = 0
    except OSError as error:
        raise _unreadable(path, error) from error
    if not stat.S_ISDIR(mode) and not stat.S_ISREG(mode):
        raise Misuse(f"{shown(path)}: there is no such file or folder")
    return stat.S_ISDIR(mode)


def _files_in(folder: Path, failed: Callable[[Misuse], object]) -> Iterator[tuple[str, Path]]:
    """The `*.fb` files of a folder and of its inner ones, but for hidden ones, each after the path to which its links lead. Links to folders are not followed."""
    root, real = os.fspath(folder), os.path.realpath(folder)

    def tell(path: str, error: OSError) -> None:
        if not isinstance(error, FileNotFoundError):  # It has gone since it was listed.
            failed(_unreadable(path, error))

    for entry in walk(folder, tell, is_hidden):
        if not can_be_unit(entry.name):
            continue
        if _is_file(entry):
            yield os.path.realpath(entry.path) if entry.is_symlink() else real + entry.path[len(root):], Path(entry.path)
        elif os.path.lexists(entry.path):
            failed(leads_out(entry.path) if entry.is_symlink() else _unreadable(entry.path, OSError(errno.EINVAL, NO_FILE)))


def is_hidden(name: str) -> bool:
    """Whether the units in a folder of this name are none of the plant: version control and editors keep older texts in such folders."""
    return name.startswith(".")


def can_be_unit(name: str) -> bool:
    """Whether a file of this name is a unit: by its ending, in small letters or capitals."""
    return name.lower().endswith(ENDING) and not is_hidden(name)


def _is_file(entry: os.DirEntry[str]) -> bool:
    """Whether it is a file, or what can't be looked at: that is told when it is read."""
    try:
        return entry.is_file()
    except PermissionError:
        return True
    except OSError:
        return False  # A link to itself.


def _refuse(error: Misuse) -> NoReturn:
    raise error


def _unreadable(path: str | Path, error: OSError) -> Misuse:
    return Misuse(f"{shown(path)}: can't be read: {error.strerror}")


def read_text(file: Path) -> str:
    """The text of a file, with its line ends as they are. Raises `Misuse` for one that no unit can have."""
    try:
        content, size = read_at_most(file, TEXT_LIMIT)
    except OSError as error:
        raise _unreadable(file, error) from error
    if size > TEXT_LIMIT:
        raise Misuse(f"{shown(file)}: has {size:,} bytes, and the text of a unit has at most {TEXT_LIMIT:,}")
    try:
        return content.decode()
    except UnicodeDecodeError as error:
        line = content.count(b"\n", 0, error.start) + 1
        raise Misuse(f"{shown(file)}:{line}: is not UTF-8: byte {error.start} is 0x{content[error.start]:02x}") from error


def read_units(paths: Iterable[Path]) -> list[Unit]:
    """The files as units, by their declarations. Raises `Misuse`, also where two files are one unit, and where no workbench has room for them."""
    files = find_files(paths)
    if len(files) > UNITS_LIMIT:
        raise Misuse(f"{len(files):,} units, and a workbench has at most {UNITS_LIMIT:,}")
    texts = {file: read_text(file) for file in files}
    names = {file: name for file, text in texts.items() if (name := declared_name(text))}
    owners: dict[str, Path] = {}
    for file, name in names.items():
        if name in owners:
            raise Misuse(f"{shown(owners[name])} and {shown(file)} both declare the unit {name}; a unit has one text")
        owners[name] = file
    for file in texts.keys() - names.keys():
        names[file] = stand_in_name(file, owners)
        owners[names[file]] = file
    return [Unit(names[file], file, text) for file, text in texts.items()]


def refuse_marked(units: Iterable[Unit]) -> None:
    """Raises `Misuse` where a text has the marked lines of a conflict: nobody else is to get it."""
    marked = [f"{shown(it.file)}:{lines[0]}" for it in units if (lines := conflict_lines(it.text))]
    if marked:
        more = f"; so {'has' if len(marked) == 2 else 'have'} {counted(len(marked) - 1, 'other file')}" if marked[1:] else ""
        raise Misuse(f"{marked[0]}: {MARKED}{more}")


def stand_in_name(file: Path, taken: Iterable[str]) -> str:
    """A name, not taken yet, for a text that declares none: that of the file where it can be a name."""
    stem = "".join(it if it.isascii() and it.isalnum() else "_" for it in file.stem.upper())[: NAME_LIMIT - 5]
    stem = stem if stem[:1].isalpha() and stem not in RESERVED else f"_{stem}"
    tries = (f"{stem}{number or ''}" for number in range(10_000))
    taken = set(taken)
    return next(name for name in tries if name not in taken)


def commit_units(session: Session, units: list[Unit], progress: Callable[[int], object] | None = None) -> int:
    """Puts the units into the workbench, over what it may have of them, and gives how many it had.

    Calls `progress` with the number of units that are put.
    """
    replaced = put = 0
    for batch in batches(Put(unit.name, 0, unit.text) for unit in units):
        replaced += _put_over(session, batch)
        put += len(batch)
        if progress:
            progress(put)
    return replaced


def _put_over(session: Session, batch: list[Put]) -> int:
    """Puts units over the present ones, and gives how many there were. Units mostly came by one commit, so the revision of one is tried for those after it.

    Raises `Misuse` where somebody changes one meanwhile: of two that put one folder over another without an end none would win.
    """
    bases = dict.fromkeys((it.unit for it in batch), 0)
    waiting = list(bases)
    while True:
        try:
            session.commit([replace(it, base=bases[it.unit]) for it in batch])
            return sum(base > 0 for base in bases.values())
        except StaleBase as refusal:
            if refusal.unit not in waiting:
                raise Misuse(f"{refusal.unit} was changed by somebody else meanwhile") from refusal
            waiting = waiting[waiting.index(refusal.unit) :]
            bases |= dict.fromkeys(waiting, refusal.current)
            del waiting[0]
