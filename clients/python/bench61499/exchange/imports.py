"""The work of `exchange import`: files of XML become texts of units in a folder."""
from __future__ import annotations

from collections.abc import Callable, Iterable, Iterator
from pathlib import Path
from typing import NamedTuple

from bench61499 import TEXT_LIMIT
from bench61499.exchange import names
from bench61499.exchange.context import Context, Library, has_unit
from bench61499.exchange.exchanged import FULL, Unit, record, written
from bench61499.exchange.folders import Target, Unwritable
from bench61499.exchange.from_text import read_or_none
from bench61499.exchange.from_xml import check_root, units
from bench61499.exchange.kept import is_kept, is_of_positions
from bench61499.exchange.lowering import Lowering, made_from
from bench61499.exchange.others import content_of, is_in, manifests, place_in
from bench61499.exchange.report import LEFT_OUT, NOTE, Report, Run, counted
from bench61499.exchange.to_xml import file_name
from bench61499.exchange.widening import Conversions
from bench61499.exchange.xmlfile import TOGETHER_LIMIT, Document, Element, Unreadable, find_xml, read_xml
from bench61499.language.declarations import type_of_data
from bench61499.language.tokens import tokens

Tell = Callable[[str], object]


class Made(NamedTuple):
    """A unit, the file that it is of, and what is told of that."""

    unit: Unit
    file: Path
    report: Report


def lowered(made: list[Made]) -> list[Made]:
    """The units without parameters of subapplications, and behind them the types that are made for these."""
    owners = {it.unit.name.upper(): it for it in reversed(made)}

    def owner(unit: Unit) -> Made:
        return owners[(made_from(unit) or unit.name).upper()]

    lowering = Lowering({name: it.unit for name, it in owners.items()}, lambda unit, line, kind, words: owner(unit).report.tell_once(kind, line, words))
    own = [Made(lowering.lowered(it.unit), it.file, it.report) for it in made]
    return [*own, *(Made(it, *owner(it)[1:]) for it in lowering.made.values())]


class Project:
    """The units of files of XML and of those in folders. `fail` is told what is not read. Of the folder that is written to nothing is read if it is within
    one of them."""

    def __init__(self, paths: list[Path], fail: Tell, to: Path | None = None):
        self.has_failed, self._tell = False, fail
        is_inner = to is not None and any(is_in(to, it) and not is_in(it, to) for it in paths)
        files = [it for it in find_xml(paths, self._fail) if not (to and is_inner and is_in(it, to))]
        self._places = {file: place_in(file, paths) for file in files}
        documents = list(self._documents(files))
        self.others = [(it.file, self._places[it.file]) for it in documents if not has_unit(it.root)]
        self.others += [(it, place_in(it, paths)) for it in manifests(paths)]
        self.reports = [Report(str(it.file)) for it in documents]
        if not files and not self.has_failed:
            self._fail(f"{', '.join(map(str, paths))}: has no file of IEC 61499-2")
        self.made = self._units(documents)

    def _fail(self, words: str) -> None:
        self.has_failed = True
        self._tell(words)

    def _documents(self, files: list[Path]) -> Iterator[Document]:
        left = TOGETHER_LIMIT
        for file in files:
            try:
                document = read_xml(file)
                check_root(document)
            except Unreadable as error:
                self._fail(str(error))
                continue
            left -= document.elements
            if left < 0:
                return self._fail(f"{file}: is not read, nor are the files after it: together they have more than {TOGETHER_LIMIT:,} elements")
            yield document

    def _units(self, documents: list[Document]) -> list[Made]:
        library = Library()
        for document in documents:
            library.add(document.root)
        made: list[Made] = []
        for document, report in zip(documents, self.reports):
            its = [Made(it, document.file, report) for it in units(document, Context(report, library))]
            if its:
                self._record(its[0], document)
            made += its
        self._record_types(made, {names.spelled(it.root.get("Name")).upper() for it in documents if it.root.name == "DataType"} - {it.unit.name.upper() for it in made})
        self._record_names(made, names_without_unit([it.root for it in documents if not has_unit(it.root)]))
        conversions = Conversions({it.unit.name.upper(): it.unit for it in reversed(made)})
        for it in made:
            for conversion in conversions.of(it.unit):
                it.report.tell(NOTE, conversion.connection.line, conversion.words)
        return lowered(made)

    def _record_types(self, made: list[Made], without_unit: set[str]) -> None:
        """Notes behind units which types of their variables are in the project, though no unit."""
        for it in made if without_unit else ():
            used = {type_of_data(each.type) for its in it.unit.variables.values() for each in its}
            it.unit.records += [record("Elsewhere", {"type": name}) for name in sorted(used & without_unit)]

    def _record_names(self, made: list[Made], known: frozenset[str]) -> None:
        """Notes behind units which names in algorithms that are kept unchecked are those of functions, constants and values of the project."""
        for it in made if known else ():
            used = {token.upper for each in it.unit.algorithms if each.language == FULL for token in tokens(each.body) if token.kind == "word"}
            it.unit.records += [record("Elsewhere", {"name": name}) for name in sorted(used & known)]

    def _record(self, it: Made, document: Document) -> None:
        """Notes behind a unit where its file was in the project, and how many things of it are lost."""
        place = self._places[document.file]
        if place != file_name(it.unit, document.root.get("Name")):
            it.unit.records.append(record("File", {"path": place}))
        if it.report.missing:
            it.unit.records.append(record("Missing", {"things": f"{it.report.missing}"}))


def written_in_room(it: Made) -> str:
    """The text of a unit, with all that comments keep if there is room: positions go first."""
    text = written(it.unit)
    for is_kept_aside in (is_of_positions, is_kept):
        if len(text.encode()) <= TEXT_LIMIT or not any(map(is_kept_aside, it.unit.records)):
            continue
        lost = [words for words in it.unit.records if is_kept_aside(words)]
        it.unit.records = [words for words in it.unit.records if words not in lost]
        it.unit.records.append(record("Missing", {"things": f"{len(lost)}"}))
        what = "its positions" if is_kept_aside is is_of_positions else f"{counted(len(lost), 'part')} that would be kept in comments"
        it.report.tell(LEFT_OUT, it.unit.line, f"{what}: the text of {it.unit.name} has no room for more")
        text = written(it.unit)
    return text


class Import(Run):
    """A run of `import`."""

    def __init__(self, paths: list[Path], target: Target, tell: Tell):
        super().__init__(tell)
        self._target = target
        self._written = self._copied = 0
        self._owners: dict[str, tuple[Path, str]] = {}
        project = Project(paths, self.fail, target.folder)
        self.reports = project.reports
        for it in project.made:
            self._put(it.file, it.unit.name, written_in_room(it))
        for file, place in project.others if project.made else ():
            self._copy(file, place)

    def _put(self, file: Path, name: str, text: str) -> None:
        """Writes the text of a unit, unless another file has given one."""
        first, its = self._owners.setdefault(name.upper(), (file, text))
        if its is not text:
            if not are_same(its, text):
                self.fail(f"{first} and {file} both declare the unit {name.upper()}; the first one is written")
            return
        size = len(text.encode())
        if size > TEXT_LIMIT:
            self.fail(f"{file}: {name} would have {size:,} bytes, and the text of a unit has at most {TEXT_LIMIT:,}")
            return
        try:
            self._target.write(f"{name}.fb", text, lambda old: are_same(old, text) and records_of(old) == records_of(text))
            self._written += 1
        except Unwritable as error:
            self.fail(str(error))

    def _copy(self, file: Path, place: str) -> None:
        """Puts a file without a unit beside the texts."""
        try:
            self._target.copy(place, content_of(file))
            self._copied += 1
        except (OSError, Unwritable) as error:
            self.fail(str(error))

    def outcome(self) -> str:
        made = counted(self._written, "unit") + (f" and {counted(self._copied, 'file')} without one" if self._copied else "")
        return f"{counted(len(self.reports), 'file')}, {made} in {self._target.folder}"


def names_without_unit(roots: Iterable[Element]) -> frozenset[str]:
    """Of files without a unit the names of functions, of global constants and their lists, and of values of enumerations, in upper case."""
    functions = {root.get("Name") for root in roots if root.name != "DataType"}
    groups = [group for root in roots for group in root.children]
    values = {it.get("Name") for group in groups if group.name in ("GlobalConstants", "EnumeratedType") for it in group.children}
    return frozenset(it.upper() for it in functions | values if it)


def records_of(text: str) -> list[str]:
    """What the comments behind a unit keep."""
    unit = read_or_none(text)
    return unit.records if unit else []


def are_same(one: str, other: str) -> bool:
    """Whether two texts have the same tokens."""
    return [it.words for it in tokens(one)] == [it.words for it in tokens(other)]
