"""What the parts of the import of one file share: names, comments, and that nothing is lost without a word."""
from __future__ import annotations

import re
from collections.abc import Container, Iterable, Iterator, Sequence
from dataclasses import dataclass, field

from bench61499.exchange import names
from bench61499.exchange.kept import POSITIONS, Kept, paths
from bench61499.exchange.report import CLASH, LEFT_OUT, NOTE, RENAMED, REPLACED, Report, cut
from bench61499.exchange.xmlfile import Element

ELEMENTS = frozenset(
    """ASN1Tag AdapterConnections AdapterDeclaration AdapterType Algorithm Application ArrayType ArrayVarDeclaration Attribute BasicFB Compiler CompilerInfo
    Connection DataConnections DataType Device DirectlyDerivedType ECAction ECC ECState ECTransition EnumeratedType EnumeratedValue Event EventConnections
    EventInputs EventOutputs FB FBD FBNetwork FBType Group Identification Import InOutVars InputPrimitive InputVars InterfaceList InternalConstVars InternalFBs
    InternalVars LD Link Mapping Method Other OutputPrimitive OutputVars Parameter Plugs Resource Rung ST Segment Service ServiceSequence ServiceTransaction
    SimpleFB Sockets StructuredType SubApp SubAppEvent SubAppEventInputs SubAppEventOutputs SubAppInterfaceList SubAppNetwork Subrange SubrangeType
    SubrangeVarDeclaration System VarDeclaration VersionInfo With""".split()
)
"""The elements of IEC 61499-2 and of 4diac."""
KINDS = {"FBType": "FUNCTION_BLOCK", "AdapterType": "ADAPTER", "SubAppType": "SUBAPPLICATION", "System": "SYSTEM", "DataType": "TYPE"}
"""The kinds of units by the roots of files."""
_LINE_END = re.compile(r"\r\n|\r|\n")


def has_unit(root: Element) -> bool:
    """Whether a file becomes a unit: of data types structures alone do, of functions, devices and the like none."""
    return root.name in KINDS and (root.name != "DataType" or bool(root.named("StructuredType"))) and not (root.name == "FBType" and root.named("FunctionBody"))


@dataclass
class Library:
    """The types among the files of a run: their roots by their names in texts, in upper case, and their packages."""

    roots: dict[str, Element] = field(default_factory=dict)
    packages: dict[str, str] = field(default_factory=dict)

    def add(self, root: Element) -> None:
        name = names.spelled(root.get("Name")).upper()
        if name not in self.roots:
            self.roots[name] = root
            self.packages[name] = next((it.get("packageName") for it in root.named("CompilerInfo")), "")


class Context:
    """A file that is imported. `records` are the names of the present unit that can't be told from their names in its text, `generics` the types that are
    made for structures; `types` are those of variables that are kept as names, with their sizes and the types of the file."""

    def __init__(self, report: Report, library: Library):
        self.report, self.library = report, library
        self.records: dict[str, str] = {}
        self.kept, self.packages, self.types, self._paths = Kept(), dict[str, str](), dict[str, tuple[str, str]](), dict[int, str]()
        self.generics: dict[str, tuple[str, str, Element, Element]] = {}

    def begin(self, root: Element) -> None:
        """Begins the unit of an element."""
        self.kept, self.packages, self.types, self._paths = Kept(), {}, {}, paths(root)

    def left_out(self, at: Element, words: str) -> None:
        """Tells what is lost."""
        self.report.tell(LEFT_OUT, at.line, words)
        self.report.missing += 1

    def left_to_comments(self, at: Element, words: str) -> None:
        """Tells what the language has no place for, and a comment has."""
        self.report.tell(LEFT_OUT, at.line, words)

    def keep_attribute(self, at: Element, name: str) -> None:
        self.kept.part(self._paths[id(at)], at.name).attributes[name] = at.attributes[name]

    def keep(self, parent: Element, *children: Element) -> None:
        """Keeps inner elements of one of the unit."""
        self.kept.part(self._paths[id(parent)], parent.name).children.extend(children)

    def replaced(self, at: Element, words: str) -> None:
        self.report.tell(REPLACED, at.line, words)

    # names

    def name(self, at: Element, name: str, absent: str = names.NO_NAME) -> str:
        """A name of the file as a name of the text."""
        if not name:
            self.replaced(at, f"a name that is not there, by {absent}")
            return absent
        new = names.spelled(name)
        if new != name:
            self.report.tell_once(RENAMED, at.line, f"{cut(name, 200)} to {new}: {names.why_renamed(name)}")
            if names.needs_record(name):
                self.records[new] = name
        return new

    def own_name(self, at: Element) -> str:
        return self.name(at, at.get("Name"))

    def last_name(self, at: Element, name: str) -> str:
        """The name of a type or a constant, without its package. That is kept if no unit has it, and told if no file has it."""
        package, last = names.without_package(name)
        new = self.name(at, last)
        root = self.library.roots.get(new.upper())
        is_of_file = self.library.packages.get(new.upper()) == package
        if package and not is_of_file:
            self.left_to_comments(at, f"the package {cut(package)} of {cut(last)}")
        if package and not (is_of_file and root and has_unit(root)):
            self.packages[new] = package
        return new

    def instance_type(self, at: Element) -> str:
        """The type of an instance, a plug, a socket, a device or a resource."""
        if at.get("Type"):
            return self.last_name(at, at.get("Type"))
        self.replaced(at, f"the type of {cut(at.get('Name'))} that is not there, by {names.NO_TYPE}")
        return names.NO_TYPE

    def path(self, at: Element, parts: Sequence[str]) -> str:
        """Names of the file with points between them, as a path of the text. One that is not there is told with its path."""
        path = ".".join(self.name(at, it) if it else names.NO_NAME for it in parts)
        if not all(parts):
            self.replaced(at, f"a name that is not there, by {path}")
        return path

    def end(self, at: Element, words: str, *known: Container[str]) -> str:
        """An end of a connection: one name or two. `known` are names that it may begin with, as a text has them; in a file some may be no words."""
        if not words:
            self.replaced(at, f"an end that is not there, by {names.NO_END}")
            return names.NO_END
        parts = [it.strip() for it in words.split(".")]
        if len(parts) == 2 and not all(parts):
            return self.path(at, parts)
        is_path = all(map(names.is_word_of_any_alphabet, parts)) or any(names.spelled(parts[0]) in its for its in known) and all(parts)
        if is_path and len(parts) < 3:
            return ".".join(self.name(at, it) for it in parts)
        new = f"{self.name(at, parts[0])}.{self.name(at, '__'.join(parts[1:]))}" if is_path else names.spelled(words)
        self.replaced(at, f"the end {cut(words)} by {new}: an end has one name or two")
        return new

    # comments

    def comment(self, at: Element, *more: str) -> str:
        """The comment of an element, perhaps with more words behind it."""
        return self.comment_of(at.line, "\n".join(filter(None, [at.get("Comment"), *more])))

    def comment_of(self, line: int, words: str) -> str:
        words = _LINE_END.sub("\n", words).strip()
        if "*)" in words:
            self.report.tell(NOTE, line, 'a comment\'s "*)" is written "* )"')
        return words.replace("*)", "* )").strip()

    # what is left

    def known(self, at: Element, attributes: str, children: str = "", text: bool = False, keeps: bool = True) -> None:
        """Tells, and keeps if it is to, what an element has beside these attributes and inner elements."""
        path = self._paths.get(id(at)) if keeps else None
        for name, value in at.attributes.items():
            if name in POSITIONS:
                if keeps:
                    self._position(path, name, value)
            elif name not in attributes.split() and value.strip() and not name.startswith(("xmlns", "xsi:")):
                self.left_to_comments(at, f"attribute {name} of {at.name}")
                self._part(path, at).attributes[name] = value
        for child in at.children:
            if child.name not in children.split():
                self.tell_part(child, _described(child, at))
                self._part(path, at).children.append(child)
        self._asides(at)
        if at.asides:
            self._part(path, at).asides += at.asides
        if not text and at.text.strip():
            self.left_to_comments(at, f"the words {cut(at.text)} in {at.name}")
            self._part(path, at).text += at.text

    def _position(self, path: str | None, name: str, value: str) -> None:
        self.report.has_positions |= path is None
        if path is not None:
            self.kept.positions.setdefault(path, {})[name] = value

    def _part(self, path: str | None, at: Element) -> Element:
        return self.kept.part(path, at.name) if path is not None else Element(at.name, 0, {})

    def _asides(self, at: Element) -> None:
        for line, kind, words in at.asides:
            self.report.tell(LEFT_OUT, line, f"the {kind} {cut(words)}".rstrip())

    def part_left_out(self, at: Element, words: str, parent: Element | None = None) -> None:
        """Tells an element that is left out with all that is in it, and keeps it if the unit has the element around it."""
        self.tell_part(at, words)
        if parent is None or id(parent) not in self._paths:
            self.report.missing += 1
        else:
            self.keep(parent, at)

    def tell_part(self, at: Element, words: str) -> None:
        """Words, comments and elements that IEC 61499 does not have are told each."""
        self.left_to_comments(at, words)
        for around, it in _within(at):
            if around and it.name not in ELEMENTS:
                self.left_to_comments(it, _described(it, around))
            self._asides(it)
            if it.text.strip() and cut(it.text) not in words:
                self.left_to_comments(it, f"the words {cut(it.text)} in {it.name}")

    def clashes(self, kind: str, of: Iterable[tuple[str, Element]]) -> None:
        """Tells names of one name space that differ in case alone."""
        found: dict[str, tuple[str, int]] = {}
        for name, at in of:
            first, line = found.setdefault(name.upper(), (name, at.line))
            if name != first:
                self.report.tell(CLASH, at.line, f"the {kind} {cut(first)} (line {line}) and {cut(name)} have one name here")


def _within(at: Element, parent: Element | None = None) -> Iterator[tuple[Element | None, Element]]:
    """An element and all that are in it, each with the one around it but the first."""
    yield parent, at
    for it in at.children:
        yield from _within(it, at)


def _described(it: Element, parent: Element) -> str:
    if it.name == "Attribute":
        owner = parent.get("Name") or " -> ".join(filter(None, [parent.get("Source"), parent.get("Destination")]))
        return f"attribute {cut(it.get('Name'))} = {cut(it.get('Value') or it.text)} of {parent.name} {cut(owner)}".rstrip()
    inner = ", ".join(filter(None, (each.get("Name") for each in it.children)))
    words = it.get("Name") or it.text.strip() or inner
    return f"element {it.name} of {parent.name}" + (f": {cut(words)}" if words else "")
