"""XML files as elements with their lines. A file is untrusted: nothing that it declares or refers to is read or expanded."""
from __future__ import annotations

import codecs
import os
import re
from collections.abc import Callable, Iterable, Iterator
from dataclasses import dataclass, field
from pathlib import Path
from xml.parsers import expat

from bench61499.language.bounded import read_at_most, walk
from bench61499.language.names import shown
from bench61499.language.units import is_of_folders

SIZE_LIMIT = 16 * 1024 * 1024
ELEMENT_LIMIT = 500_000
TOGETHER_LIMIT = 2_000_000
"""Elements of all files of a run, which are held at once: about 400 bytes each."""
DEPTH_LIMIT = 200
ENDINGS = frozenset([".fbt", ".adp", ".sub", ".sys", ".dtp", ".dev", ".res", ".seg", ".fct", ".gcf", ".atp"])

_MARKS = {codecs.BOM_UTF8: "utf-8", codecs.BOM_UTF16_LE: "utf-16-le", codecs.BOM_UTF16_BE: "utf-16-be"}
_ENCODINGS = {
    **dict.fromkeys(["utf-8", "utf8"], "utf-8"),
    **dict.fromkeys(["us-ascii", "ascii"], "ascii"),
    **dict.fromkeys(["iso-8859-1", "latin1", "iso_8859-1"], "iso-8859-1"),
    "iso-8859-15": "iso-8859-15",
    "windows-1252": "cp1252",
}
_DECLARATION = re.compile(rb"""<\?xml\s[^>]*?encoding\s*=\s*["']([^"'>]*)["']""")


class Unreadable(Exception):
    """A file is not read; the text, which begins with the file, tells why."""


@dataclass(slots=True)
class Element:
    """An element with its inner ones. `text` are all words that are directly in it; `asides` are comments and instructions in it."""

    name: str
    line: int
    attributes: dict[str, str]
    children: list[Element] = field(default_factory=list)
    text: str = ""
    asides: list[tuple[int, str, str]] = field(default_factory=list)

    def get(self, attribute: str) -> str:
        """An attribute without blanks at both ends; empty if it is absent."""
        return self.attributes.get(attribute, "").strip()

    def named(self, *names: str) -> list[Element]:
        """The inner elements of these names, in the order of the file."""
        return [it for it in self.children if it.name in names]


@dataclass(slots=True)
class Document:
    """The root of a file, the comments before it, and how many elements it has."""

    file: Path
    root: Element
    comments: list[tuple[int, str]]
    elements: int


def find_xml(paths: Iterable[Path], failed: Callable[[str], object]) -> list[Path]:
    """The files themselves, and the files of the folders with an ending of XML of IEC 61499, inner folders included. Each is there once, in the
    order of the paths and then of the names. Tells `failed` what can't be looked at, and of links that lead out of the folders."""
    its = list(paths)
    folders = [Path(os.path.realpath(it)) for it in its if os.path.isdir(it)]
    found: dict[Path, Path] = {}
    for path in its:
        is_folder = os.path.isdir(path)
        for file in sorted(_files_in(path, failed)) if is_folder else [path]:
            target = Path(os.path.realpath(file))
            if is_folder and not is_of_folders(file, target, folders, ENDINGS):
                failed(f"{shown(file)}: is a link that leads to no file of IEC 61499-2 in the folders that are named, so it is not read")
            else:
                found.setdefault(target, file)
    return list(found.values())


def _files_in(folder: Path, failed: Callable[[str], object]) -> Iterator[Path]:
    for entry in walk(folder, lambda path, error: failed(f"{shown(path)}: can't be read: {error.strerror}")):
        if Path(entry.name).suffix.lower() in ENDINGS and os.path.isfile(entry.path):
            yield Path(entry.path)


def read_xml(file: Path) -> Document:
    """The elements of a file. Raises `Unreadable`."""
    return _Reading(file, _without_doctype(file, xml_text(file).encode())).document()


def xml_text(file: Path) -> str:
    """The text of a file. Raises `Unreadable`."""
    return _decoded(file, _content(file))


def read_fragment(words: str) -> Element:
    """An element that stands in a text. Raises `Unreadable`."""
    file = Path("a comment")
    return _Reading(file, _without_doctype(file, words.encode("utf-8", "replace"))).document().root


def _content(file: Path) -> bytes:
    try:
        content, size = read_at_most(file, SIZE_LIMIT)
    except (FileNotFoundError, NotADirectoryError):
        raise Unreadable(f"{file}: there is no such file or folder") from None
    except (OSError, ValueError) as error:
        raise Unreadable(f"{file}: can't be read: {getattr(error, 'strerror', error)}") from None
    if size > SIZE_LIMIT:
        raise Unreadable(f"{file}: has {size:,} bytes, and at most {SIZE_LIMIT:,} are read")
    return content


def _decoded(file: Path, content: bytes) -> str:
    """The text of a file, by its byte order mark or its first line."""
    mark = next((it for it in _MARKS if content.startswith(it)), b"")
    said = _DECLARATION.match(content)
    encoding = _MARKS.get(mark) or (_named_encoding(file, said[1]) if said else "utf-8")
    try:
        return content[len(mark) :].decode(encoding)
    except UnicodeDecodeError as error:
        at = error.start + len(mark)
        line = content[len(mark) : at].decode(encoding, "replace").count("\n") + 1
        by_itself = ", as it says" if said or mark else ""
        raise Unreadable(f"{file}:{line}: is not in {encoding}{by_itself}: byte {at} is 0x{content[at]:02x}") from None


def _named_encoding(file: Path, name: bytes) -> str:
    said = name.decode("ascii", "replace")
    if said.lower() not in _ENCODINGS:
        raise Unreadable(f"{file}:1: says that it is in {said[:40]}, which is not read here")
    return _ENCODINGS[said.lower()]


class _Found(Exception):
    """The first pass knows what it was made for."""


class _Doctype:
    """The first pass: finds where the DOCTYPE is. Raises `Unreadable` for an internal subset."""

    def __init__(self, file: Path, data: bytes):
        self._file, self._data = file, data
        self._parser = expat.ParserCreate("utf-8")
        self._parser.DefaultHandler = self._other
        self._parser.StartElementHandler = self._begin
        self._bounds: list[int] = []

    def span(self) -> tuple[int, int]:
        """Where it begins and ends; twice 0 if there is none."""
        try:
            self._parser.Parse(self._data, True)
        except _Found:
            pass
        except expat.ExpatError as error:
            raise _no_xml(self._file, error) from None
        begin, end = self._bounds if len(self._bounds) == 2 else (0, 0)
        return begin, end

    def _other(self, words: str) -> None:
        if words == "<!DOCTYPE":
            self._bounds = [self._parser.CurrentByteIndex]
        elif len(self._bounds) == 1 and words == "[":
            line = self._data.count(b"\n", 0, self._bounds[0]) + 1
            raise Unreadable(f"{self._file}:{line}: its DOCTYPE declares things of its own (entities, say); such a file is not read")
        elif len(self._bounds) == 1 and words == ">":
            self._bounds.append(self._parser.CurrentByteIndex + 1)

    def _begin(self, *_: object) -> None:
        raise _Found


def _without_doctype(file: Path, data: bytes) -> bytes:
    """The bytes with blanks in place of the DOCTYPE: so an entity that is not defined is an error."""
    begin, end = _Doctype(file, data).span()
    return data[:begin] + re.sub(rb"[^\r\n]", b" ", data[begin:end]) + data[end:]


def _no_xml(file: Path, error: expat.ExpatError) -> Unreadable:
    return Unreadable(f"{file}:{error.lineno}: is no XML: {expat.ErrorString(error.code)}")


class _Reading:
    """The second pass: makes the elements."""

    def __init__(self, file: Path, data: bytes):
        self._file, self._data = file, data
        self._parser = expat.ParserCreate("utf-8")
        self._parser.buffer_text = True
        self._parser.StartElementHandler = self._begin
        self._parser.EndElementHandler = self._end
        self._parser.CharacterDataHandler = self._words
        self._parser.CommentHandler = self._comment
        self._parser.ProcessingInstructionHandler = self._instruction
        self._root: Element | None = None
        self._open: list[Element] = []
        self._texts: list[list[str]] = []
        self._comments: list[tuple[int, str]] = []
        self._later: list[tuple[int, str, str]] = []
        self._count = 0

    def document(self) -> Document:
        try:
            self._parser.Parse(self._data, True)
        except expat.ExpatError as error:
            raise _no_xml(self._file, error) from None
        assert self._root
        self._root.asides += self._later
        return Document(self._file, self._root, self._comments, self._count)

    @property
    def _line(self) -> int:
        return self._parser.CurrentLineNumber

    def _begin(self, name: str, attributes: dict[str, str]) -> None:
        self._count += 1
        if self._count > ELEMENT_LIMIT:
            raise Unreadable(f"{self._file}: has more than {ELEMENT_LIMIT:,} elements")
        if len(self._open) >= DEPTH_LIMIT:
            raise Unreadable(f"{self._file}:{self._line}: elements stand more than {DEPTH_LIMIT} deep")
        element = Element(name, self._line, attributes)
        if self._open:
            self._open[-1].children.append(element)
        else:
            self._root = element
        self._open.append(element)
        self._texts.append([])

    def _end(self, _: str) -> None:
        self._open.pop().text = "".join(self._texts.pop())

    def _words(self, words: str) -> None:
        self._texts[-1].append(words)

    def _comment(self, words: str) -> None:
        if self._root:
            self._aside("comment", words)
        else:
            self._comments.append((self._line, words))

    def _instruction(self, target: str, words: str) -> None:
        self._aside("instruction", f"{target} {words}")

    def _aside(self, kind: str, words: str) -> None:
        asides = self._open[-1].asides if self._open else self._later
        asides.append((self._line, kind, words))
