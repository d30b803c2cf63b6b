"""The work of `exchange export`: texts of units become files of XML in a folder."""
from __future__ import annotations

from collections.abc import Callable, Iterator
from pathlib import Path

from bench61499.exchange.exchanged import Unit, recorded
from bench61499.exchange.folders import Target, Unwritable
from bench61499.exchange.from_text import NoUnit, Read, read_unit
from bench61499.exchange.generic import generic_type
from bench61499.exchange.lowering import Raising, made_from
from bench61499.exchange.others import Other, content_of, place_in, without_unit
from bench61499.exchange.outgoing import FBDK, Outgoing, recorded_names
from bench61499.exchange.names import restored
from bench61499.exchange.report import LEFT_OUT, NOTE, RENAMED, Report, Run, counted, cut
from bench61499.exchange.to_xml import NotWritten, file_name, tree
from bench61499.exchange.untyped import untyped
from bench61499.exchange.xmlfile import ENDINGS, Unreadable, find_xml, read_xml
from bench61499.exchange.xmltext import Tag, document
from bench61499.language.spelling import Differing, differing, respelled
from bench61499.language.texts import Texts as Around
from bench61499.language.tokens import declared_name
from bench61499.language.units import Misuse, find_files, read_text

Tell = Callable[[str], object]
_DOCTYPE = '<!DOCTYPE {} SYSTEM "../LibraryElement.dtd" >'


class Texts:
    """The units of files of texts. `failed` is told what is no unit, or could not be read."""

    def __init__(self, paths: list[Path], failed: Tell):
        self.read: dict[Path, Read] = {}
        self._failed = failed
        self.spelled: dict[Path, list[Differing]] = {}
        for file, text in self._texts(paths):
            try:
                self.read[file] = read_unit(text)
            except NoUnit as error:
                failed(f"{file}:{error.line}: is no unit: {error}")
        self._drop_doubles()
        self.types = {it.unit.name.upper(): it.unit for it in self.read.values()}

    def _texts(self, paths: list[Path]) -> Iterator[tuple[Path, str]]:
        """The texts of files, with names spelled as they are declared."""
        files = self._files(paths)
        read = {file: _text(file) for file in files}
        texts = {file: text for file, text in read.items() if isinstance(text, str)}
        owners = {name: file for file, text in reversed(texts.items()) if (name := declared_name(text))}
        own = {name: texts[file] for name, file in owners.items()}
        self.spelled = {owners[name]: its for name, its in differing(own, Around.of(own)).items()}
        for file, text in read.items():
            if isinstance(text, Misuse):
                self._failed(str(text))
            else:
                yield file, respelled(text, self.spelled.get(file, []))

    def _files(self, paths: list[Path]) -> list[Path]:
        try:
            return find_files(paths, lambda error: self._failed(str(error)))
        except Misuse as error:
            self._failed(str(error))
            return []

    def _drop_doubles(self) -> None:
        owners: dict[str, Path] = {}
        for file, it in list(self.read.items()):
            name = it.unit.name.upper()
            if owners.setdefault(name, file) != file:
                self._failed(f"{owners[name]} and {file} both declare the unit {name}; the first one is written")
                del self.read[file]


def _text(file: Path) -> str | Misuse:
    try:
        return read_text(file)
    except Misuse as error:
        return error


class Export(Run):
    """A run of `export`."""

    def __init__(self, paths: list[Path], target: Target, tool: str, tell: Tell):
        super().__init__(tell)
        self._target, self._tool = target, tool
        self._written: dict[str, Path] = {}
        self._missing = 0
        self._there = types_in(target.folder)
        texts = Texts(paths, self.fail)
        if not texts.read and not self.has_failed:
            self.fail(f"{', '.join(map(str, paths))}: has no *.fb file")
        self._raising = Raising(texts.types)
        self._types = self._raising.units
        self._spelled = texts.spelled
        names = untyped(self._types) if tool != FBDK else ()
        self._inner = {it.unit.name.upper(): Report(str(file)) for file, it in texts.read.items() if it.unit.name.upper() in names}
        self.reports = [self._put(file, it) for file, it in texts.read.items() if self._is_written(it.unit)]
        self._units = len(self.reports)
        for it in without_unit(paths, target.folder, self.fail) if texts.read else ():
            self._copy(it, place_in(it.file, paths))

    def _is_written(self, unit: Unit) -> bool:
        """Whether a unit is written, with a file or within another one; types that import made are not."""
        return unit.name.upper() in self._types and not generic_type(unit)

    def _put(self, file: Path, read: Read) -> Report:
        name = read.unit.name.upper()
        unit, report = self._types[name], self._inner.get(name) or Report(str(file))
        if unit.name in self._raising.changed:
            report.tell(LEFT_OUT, unit.line, f"that {unit.name} was {made_from(unit)} with parameters: it is no longer, and is a type of its own")
        for it in self._spelled.get(file, ()):
            report.tell(RENAMED, unit.line, f"{it.used} to {it.declared}, as it is declared")
        for line, words in read.left_out:
            report.tell(LEFT_OUT, line, cut(words))
        if name not in self._inner:
            self._put_file(file, unit, report)
        self._missing += sum(int(it["things"]) for it in recorded(unit, "Missing") if it.get("things", "").isdecimal())
        return report

    def _put_file(self, file: Path, unit: Unit, report: Report) -> None:
        try:
            root = tree(unit, Outgoing(unit, self._types, self._tool, report, self._inner))
        except NotWritten as error:
            self.fail(f"{file}:{unit.line}: {unit.name} {error}; it is not written")
            return
        doctype = _DOCTYPE.format(root.name) if self._tool == FBDK else ""
        text, is_changed = document(root, unit.comments[:-1], doctype)
        if is_changed:
            report.tell(LEFT_OUT, unit.line, "characters that XML can't have; U+FFFD is in their place")
        self._write(file, self._place(unit, root), text)

    def _place(self, unit: Unit, root: Tag) -> str:
        """Where the file of a unit is written: over the one that has the type, else where it was in the project."""
        its = self._there.get((root.name, root.attributes["Name"].upper()))
        own = file_name(unit, restored(unit.name, recorded_names(unit)))
        return its or next(filter(is_place, (unit.record("File", "path"), own)))

    def _write(self, file: Path, place: str, text: str) -> None:
        first = self._written.setdefault(place.upper(), file)
        if first != file:
            self.fail(f"{first} and {file} would both be {place}; the first one is written")
            return
        try:
            self._target.write(place, text)
        except Unwritable as error:
            self.fail(str(error))
            del self._written[place.upper()]

    def _copy(self, it: Other, place: str) -> None:
        """Takes along a file without a unit. One that the project has stays: nobody changes it in texts."""
        own = self._there.get((it.root, it.name)) or (place if (self._target.folder / place).exists() else "")
        try:
            content = content_of(it.file)
            if not own:
                self._target.copy(place, content)
            elif content_of(self._target.folder / own) != content:
                self.reports.append(Report(str(it.file)))
                self.reports[-1].tell(NOTE, 1, f"{own} has another content, and stays as it is")
            self._written[(own or place).upper()] = it.file
        except (OSError, Unwritable) as error:
            self.fail(str(error))

    @property
    def status(self) -> int:
        return max(super().status, int(self._missing > 0))

    def outcome(self) -> str:
        return f"{counted(self._units, 'unit')}, {counted(len(self._written), 'file')} in {self._target.folder}"

    def remark(self) -> str:
        return f"{counted(self._missing, 'thing')} of the imported project {'is' if self._missing == 1 else 'are'} not in them" if self._missing else ""


def types_in(folder: Path) -> dict[tuple[str, str], str]:
    """The files of a folder that have types or systems, by the roots and the names in upper case."""
    found: dict[tuple[str, str], str] = {}
    for file in find_xml([folder], lambda _: None) if folder.is_dir() else ():
        try:
            root = read_xml(file).root
        except Unreadable:
            continue
        found.setdefault((root.name, root.get("Name").upper()), file.relative_to(folder).as_posix())
    return found


def is_place(path: str) -> bool:
    """Whether a path leads to a file of XML within a folder."""
    parts = path.split("/")
    return all(it not in ("", ".", "..") and it.isprintable() and "\\" not in it for it in parts) and Path(path).suffix.lower() in ENDINGS
