"""Changes that mend a fault: a name that is near to a wrong one, the declaration that is missing, or a symbol."""
from __future__ import annotations

from collections.abc import Iterator
from dataclasses import dataclass

from bench61499.language.declarations import CONNECTION_SECTIONS, ENDS, EVENT, INSTANCE, KINDS, TYPE, TYPE_KINDS, VARIABLE, Key, Use, Wanted
from bench61499.language.explain import Names
from bench61499.language.grammar import first_stop
from bench61499.language.nesting import Nesting
from bench61499.language.plant import Plant, Text
from bench61499.language.reader import read
from bench61499.language.skipped import FULL, heads
from bench61499.language.tokens import Token, pieces, tokens
from bench61499.language.warned import CODES as WARNINGS
from bench61499.language.warned import warned
from bench61499.lsp.completion import ACROSS, declared, port_sections
from bench61499.lsp.conversion import Edit, conversion_at, mapping_of, new_name, rerouted
from bench61499.lsp.hover import WHAT

_MOST_TYPES = 5
"""Types that are offered for a missing instance."""
_NAMES = frozenset(
    """UNKNOWN_TYPE WITH_UNKNOWN STATE_UNKNOWN EVENT_UNKNOWN ALGORITHM_UNKNOWN VARIABLE_UNKNOWN PORT_UNKNOWN PARAMETER_UNKNOWN
    NO_SUCH_RESOURCE MEMBER_UNKNOWN""".split()
)
"""The faults of names that nothing declares."""


@dataclass(frozen=True)
class Fix:
    """What is offered: its title, and new words for a span of a text, in bytes. `more` are further ones in the same text; `creates` is the name and the text of
    a file beside it."""

    title: str
    text: Text
    start: int
    end: int
    new: str
    more: tuple[Edit, ...] = ()
    creates: tuple[str, str] | None = None


@dataclass(frozen=True)
class Wrong:
    """A used name that is none of those that may stand at its place. `at` is its number among the uses of its text."""

    text: Text
    at: int
    wanted: Wanted

    @property
    def use(self) -> Use:
        return self.text.unit.uses[self.at]

    @property
    def name(self) -> str:
        """The name as it is written."""
        return self.text.places.words(self.use.start, self.use.end)

    @property
    def leads_on(self) -> bool:
        """Whether the name of a port stands behind it."""
        return self.use.key.space == INSTANCE and _point_follows(self.text, self.use)


def fixes(plant: Plant, text: Text, code: str, start: int, end: int) -> list[Fix]:
    """What would mend a fault at a span, the most probable first."""
    if code == "SYNTAX":
        return [*_symbols(text)] or [*_unread(text, start)]
    if code in WARNINGS:
        return [it for it in _meant(plant, text) if (it.start, it.end) == (start, end)]
    if code == "DATA_TYPE":
        return list(_converted(plant, text, start, end))
    wrong = _wrong(plant, text, start, end) if code in _NAMES else None
    if not wrong:
        return []
    return [*_nearest(plant, wrong), *(_missing(plant, wrong) if code in ("PORT_UNKNOWN", "EVENT_UNKNOWN") else ())]


def _symbols(text: Text) -> Iterator[Fix]:
    """A `:=` where `=` is written, or a `;` that is missing, if the text can be read further then."""
    of = list(tokens(text.text))
    stop = first_stop(of)
    if not stop or not 0 < stop.at < len(of):
        return
    at, before = of[stop.at], of[stop.at - 1]
    if at.words == "=" and _goes_on([*of[: stop.at], at._replace(words=":="), *of[stop.at + 1 :]], stop.at):
        yield Fix("Change = to :=", text, at.start, at.end, ":=")
    if ";" in (*stop.needed, *stop.possible) and _goes_on([*of[: stop.at], at._replace(kind="symbol", words=";"), *of[stop.at :]], stop.at + 1):
        yield Fix(f"Put ; behind {before.words}", text, before.end, before.end, ";")


def _goes_on(of: list[Token], at: int) -> bool:
    """Whether tokens can be read beyond one of them."""
    stop = first_stop(of)
    return not stop or stop.at > at


def _unread(text: Text, place: int) -> Iterator[Fix]:
    """An algorithm that can't be read is kept in another language, so that all else of its unit is checked."""
    for it in heads(text.text):
        if it.is_read and it.end and it.language.end <= place <= it.end.start:
            colon = text.places.encoded[it.language.end : place].lstrip()[:1] == b":"
            end = text.places.encoded.index(b":", it.language.end) + 1 if colon else it.language.end
            yield Fix(f"Keep {it.name} as IN {FULL}, not checked by the workbench", text, it.language.start, end, FULL)


def _meant(plant: Plant, text: Text) -> Iterator[Fix]:
    """The names that may be meant by one of which this client warns."""
    units = frozenset(name.upper() for kind in KINDS for name in plant.kinds(kind))
    for it in warned(text.text, text.name, units, plant.known, lambda _: False):
        if it.meant:
            yield Fix(f"Change {text.places.words(it.start, it.end)} to {it.meant}", text, it.start, it.end, it.meant)


def _converted(plant: Plant, text: Text, start: int, end: int) -> Iterator[Fix]:
    """A block in between that converts the data."""
    it = conversion_at(plant, text, start, end)
    if not it:
        return
    name = new_name(text, it.connection.scope)
    edits = rerouted(plant, text, it, name)
    edits.append(added(text, "FBS", f"{name} : {it.type};", it.connection.scope))
    if mapped := mapping_of(text, it, name):
        edits.append(added(text, "MAPPINGS", mapped))
    creates = None if plant.declaring(it.type) else (f"{it.type}.fb", it.type_text)
    yield Fix(f"Put the block {it.type} in between", text, *edits[0], tuple(edits[1:]), creates)


def _wrong(plant: Plant, text: Text, start: int, end: int) -> Wrong | None:
    """The first wrong name at a span."""
    for at, use in enumerate(text.unit.uses):
        if start <= use.start and use.end <= end:
            wanted = read(text.places.words(0, use.start)).wanted
            wrong = Wrong(text, at, wanted[0]) if wanted else None
            if wrong and (use.key.space == TYPE or use.key.name not in map(str.upper, _names(plant, wrong))):
                return wrong
    return None


def _names(plant: Plant, wrong: Wrong) -> list[str]:
    """The declared names that may stand where the wrong one stands."""
    spaces = {wrong.use.key.space} | ({INSTANCE} if wrong.use.key.space == VARIABLE and _point_follows(wrong.text, wrong.use) else set())
    return [it.words for it in declared(plant, wrong.text.unit, wrong.wanted) if it.key.space in spaces]


def _nearest(plant: Plant, wrong: Wrong) -> Iterator[Fix]:
    if wrong.wanted.space == TYPE:
        near = plant.near(TYPE_KINDS[wrong.wanted.section], wrong.name)
    else:
        near = Names(_names(plant, wrong), nearness=0.6).near(wrong.name)
    if near:
        yield Fix(f"Change {wrong.name} to {near}", wrong.text, wrong.use.start, wrong.use.end, near)


def _missing(plant: Plant, wrong: Wrong) -> Iterator[Fix]:
    """Declarations of the wrong name: as an instance, or as a port of the unit or of the type of the instance before it."""
    if wrong.leads_on:
        if wrong.wanted.section in CONNECTION_SECTIONS:
            yield from _missing_instance(plant, wrong)
        return
    sections = port_sections(wrong.text.unit, wrong.wanted)
    owners = plant.declaring(wrong.use.key.unit)
    known = plant.declaration(wrong.use.key)
    if not sections or not owners or known:
        return
    item = _port(plant, wrong)
    if item and owners[0].unit.declared:
        what = f"Declare the {WHAT[sections[0]]} {wrong.name} in {owners[0].unit.declared[0].words}"
        yield Fix(what, owners[0], *added(owners[0], sections[0], item))


def _port(plant: Plant, wrong: Wrong) -> str | None:
    """The declaration of a port, with the type of the other end of its connection; None where that is not known."""
    if wrong.wanted.space == EVENT:
        return f"{wrong.name};"
    other = _other_end(wrong)
    its = plant.declaration(plant.key(other)) if other else None
    return f"{wrong.name} : {its.type};" if its and its.type else None


def _other_end(wrong: Wrong) -> Use | None:
    """The name of the port at the other end of the connection that a wrong one is an end of."""
    for it in wrong.text.unit.connections:
        if wrong.use in it.source:
            return it.destination[-1] if it.destination else None
        if wrong.use in it.destination:
            return it.source[-1]
    return None


def _missing_instance(plant: Plant, wrong: Wrong) -> Iterator[Fix]:
    """Instances of types that have the port that is asked for: first types of this unit, then those with the name in theirs."""
    unit, wanted = wrong.text.unit, wrong.wanted
    port = unit.uses[wrong.at + 1].key.name
    kinds = {"FUNCTION_BLOCK": "FBS"} if unit.kind == "FUNCTION_BLOCK" else {"FUNCTION_BLOCK": "FBS", "SUBAPPLICATION": "SUBAPPS"}
    sections = ACROSS[wanted.side][wanted.space]
    here = {it.type.upper() for it in unit.declared}
    found = [
        (it.words, kinds[it.kind])
        for it in {*plant.texts_with(port), *(it for name in here for it in plant.declaring(name))}
        if it.kind in kinds and (its := it.unit.first.get(Key(it.name, wanted.space, "", port))) and its.section in sections
    ]
    found.sort(key=lambda it: (it[0].upper() not in here, wrong.name.upper() not in it[0].upper(), it[0].upper()))
    for of, section in found[:_MOST_TYPES]:
        if of.upper() != unit.name:
            place = added(wrong.text, section, f"{wrong.name} : {of};", wanted.scope)
            yield Fix(f"Declare {wrong.name} : {of} in {section}", wrong.text, *place)


def _point_follows(text: Text, use: Use) -> bool:
    follower = next(pieces(text.places.words(use.end, len(text.places.encoded))), None)
    return follower is not None and follower.words == "."


def added(text: Text, section: str, item: str, application: str = "") -> tuple[int, int, str]:
    """Where an item is to be put in, and the words for it: at the end of a section, or in a new one at the begin of its unit or application; subapplications
    follow blocks."""
    its = [it for it in pieces(text.text) if it.kind != "comment"]
    head = text.unit.declared[0]
    if application:
        name, _, number = application.partition("#")
        head = [it for it in text.unit.declared if it.section == "APPLICATION" and it.key.name == name][int(number or 1) - 1]
    sections: dict[str, tuple[Token, Token]] = {}
    for begin, end in Nesting(its).pairs:
        if head.begin <= its[begin].start < head.last:
            sections.setdefault(its[begin].upper, (its[begin], its[end]))
    if section in sections:
        return at_end(text, sections[section][1].start, item)
    indent, words = _indent(text, head.begin) or "", f"{section} {item} {ENDS[section]}"
    if section == "SUBAPPS" and "FBS" in sections:
        first, last = sections["FBS"]
        its_indent = _indent(text, first.start)
        return _behind(text, last.end, f"{indent}  " if its_indent is None else its_indent, words)
    return _behind(text, head.end, f"{indent}  ", words)


def at_end(text: Text, place: int, item: str) -> tuple[int, int, str]:
    """Before the word that ends a section: in a line of its own where that word has one."""
    indent = _indent(text, place)
    if indent is None:
        return place, place, f"{item} "
    return place, place, f"  {item}{_line_end(text)}{indent}"


def _behind(text: Text, end: int, indent: str, words: str) -> tuple[int, int, str]:
    """In a line of its own, after a place and the comments in its line."""
    encoded = text.places.encoded
    for piece in pieces(text.text):
        if piece.start >= end:
            if piece.kind != "comment" or b"\n" in encoded[end : piece.start]:
                break
            end = piece.end
    return end, end, f"{_line_end(text)}{indent}{words}"


def _indent(text: Text, place: int) -> str | None:
    """The blanks between the begin of a line and a place; None where something stands there."""
    line, column = text.places.line_column(place)
    before = text.places.line(line)[: column - 1]
    return before if not before.strip() else None


def _line_end(text: Text) -> str:
    return "\r\n" if "\r\n" in text.text else "\n"
