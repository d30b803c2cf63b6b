"""The faults of the language in the words of an engineer."""
from __future__ import annotations

from bench61499 import Fault
from bench61499.language.declarations import (
    ADAPTER_SECTIONS, DATA_SECTIONS, EVENT_SECTIONS, INTERFACE, TYPE_KINDS, VARIABLE, Declaration, Key, Unit, type_with_fields,
)
from bench61499.language.surroundings import Surroundings, side, sort
from bench61499.language.syntax import explained
from bench61499.language.texts import NEAR, NOTHING, Texts
from bench61499.language.widening import is_converted
from bench61499.language.wording import Names, asked, listed, one_line, quoted

__all__ = ["Explainer", "Names"]

_WORDS = {"PLUGS": "adapter", "SOCKETS": "adapter", "FBS": "function block", "SUBAPPS": "subapplication"}
KIND_NAMES = {"FUNCTION_BLOCK": "a function block", "ADAPTER": "an adapter", "SUBAPPLICATION": "a subapplication", "SYSTEM": "a system", "TYPE": "a structure"}
"""What a unit is, by its first word."""
_SPACES = {
    **dict.fromkeys(["EVENT_INPUT", "EVENT_OUTPUT"], "events"),
    **dict.fromkeys(["VAR", "VAR_INPUT", "VAR_OUTPUT"], "variables"),
    **dict.fromkeys(["PLUGS", "SOCKETS", "FBS", "SUBAPPS"], "instances"),
    "EC_STATES": "states",
    "STRUCT": "fields",
}
_OWN_SPACES = {"ALGORITHM": "algorithms", "APPLICATION": "applications", "DEVICE": "devices", "RESOURCE": "resources of this device"}
_PORTS = {
    "EVENT_CONNECTIONS": ("event", *EVENT_SECTIONS),
    "DATA_CONNECTIONS": ("data port", *DATA_SECTIONS),
    "ADAPTER_CONNECTIONS": ("plug or socket", *ADAPTER_SECTIONS),
}
_COMPARISONS = frozenset(["=", "<>", "<", ">", "<=", ">="])
_WHOLE = frozenset(["SINT", "INT", "DINT", "LINT", "USINT", "UINT", "UDINT", "ULINT"])
_BITS = frozenset(["BYTE", "WORD", "DWORD", "LWORD"])


class Explainer:
    """Explains the faults of one text.

    `units` are the names, in upper case, of the units that are known to be in the workbench; `texts` are those of the units that belong to this
    one, where they are known: then types are told by their names, and names that were meant are looked for in them too.
    """

    def __init__(self, text: str, units: Names = Names(), texts: Texts = NOTHING):
        self._at = Surroundings(text)
        self._units = units
        self._texts = texts
        self._declared: dict[tuple[str, ...], Names] = {}

    @property
    def _unit(self) -> Unit:
        return self._at.unit

    def span(self, fault: Fault) -> tuple[int, int]:
        """Where to show a fault: its place, or the last token where its place is the bare end of the text."""
        its = self._at.tokens
        return (its[-1].start, its[-1].end) if fault.start == fault.end and its else (fault.start, fault.end)

    def explain(self, fault: Fault) -> str:
        """One sentence without a full stop that names the words at the place."""
        at = self._at.token_at(fault.start)
        words = quoted(self._at.spelled(at, self._at.token_at(fault.end)))
        explain = getattr(self, f"_explain_{fault.code.lower()}", None)
        return explain(at, words) if explain else f"{words} breaks the rule {fault.code}"

    def _names(self, *sections: str) -> Names:
        """The names that are declared in these sections of the text."""
        if sections not in self._declared:
            self._declared[sections] = Names((it.words for it in self._unit.declared if it.section in sections), NEAR)
        return self._declared[sections]

    def _meant(self, words: str, *sections: str) -> str:
        """Asks whether one of the names that are declared in these sections was meant, where one is near."""
        return asked(self._names(*sections).near(words))

    def _port(self, at: int) -> Declaration | None:
        """The declaration of the port at an end of a connection that begins at `at`."""
        its = self._at.port(at)
        if not its or its.walk:
            return None
        return self._unit.first.get(its.key) if its.key.unit == self._unit.name else self._texts.declaration(its.key)

    def _not_in_type(self, at: int, what: str, *sections: str) -> str | None:
        """Why the type of an instance at `at` has no port of the name behind it; None where it has one, or nothing is known of it."""
        its = self._at.instance(at)
        of = self._texts.unit(its.type.upper()) if its else None
        if not its or not of:
            return None
        port = self._at.words(at + 2)
        other = next((it for it in of.of(*INTERFACE) if it.key.name == port.upper()), None)
        if other and other.section in sections:
            return None
        if other:
            return f"{port} is {sort(other)} of {its.type}, and no {what}"
        return f"{its.type} has no {what} {port}{asked(self._texts.names(of, *sections).near(port))}"

    # One explanation for each code, named as the code is. `at` is the first token at the place.

    def _explain_syntax(self, at: int, words: str) -> str:
        return explained(self._at.text, self._at.tokens, at)

    def _explain_name_differs(self, at: int, words: str) -> str:
        return f"this text declares {words}, and is kept under another name"

    def _explain_duplicate(self, at: int, words: str) -> str:
        before, section = self._at.before(at), self._at.section(at)
        if section == "FBS" and before in ("(", ","):
            return f"the parameter {words} is given a second time"
        space = _OWN_SPACES.get(before) or _SPACES.get(section, "names")
        return f"{words} is declared already among the {space}"

    def _explain_mixed_kind(self, at: int, words: str) -> str:
        return f"{words} has both a chart (EC_STATES) and a network (FBS or connections); a block has one of the two"

    def _explain_unknown_type(self, at: int, words: str) -> str:
        if words in self._units:
            return f"the type {words} can't be used: its own text has a SYNTAX fault"
        near = self._near_type(at, words) or self._units.near(words)
        is_other = near and near.upper() != words.upper()  # Of a unit that others have removed there may be a file.
        return f"there is no type {words}{asked(near if is_other else None)}"

    def _near_type(self, at: int, words: str) -> str | None:
        """The unit with a near name that can stand in the section at `at`."""
        kind = TYPE_KINDS.get(self._at.section(at))
        return self._texts.units(kind).near(words) if kind else None

    def _explain_wrong_kind(self, at: int, words: str) -> str:
        section, its = self._at.section(at), self._texts.unit(words.upper())
        if not its or its.kind not in KIND_NAMES:
            return f"{words} is no {_WORDS.get(section, 'such type')}, and {section} takes nothing else"
        meant = asked(self._near_type(at, words))
        return f"{words} is {KIND_NAMES[its.kind]}{meant or f', and {section} takes none'}"

    def _explain_with_unknown(self, at: int, words: str) -> str:
        way, section = ("input", "VAR_INPUT") if self._at.section(at) == "EVENT_INPUT" else ("output", "VAR_OUTPUT")
        return f"no data {way} {words} to go with this event{self._meant(words, section)}"

    def _explain_state_unknown(self, at: int, words: str) -> str:
        return f"no state {words} in this chart{self._meant(words, 'EC_STATES')}"

    def _explain_event_unknown(self, at: int, words: str) -> str:
        comes_in = self._at.section(at) == "EC_TRANSITIONS"
        if why := self._not_in_type(at, "event", *EVENT_SECTIONS):
            return why
        first, dot, _ = words.partition(".")
        meant = self._meant(first, *ADAPTER_SECTIONS) if dot and first not in self._names(*ADAPTER_SECTIONS) else ""
        if comes_in:
            return f"no event {words} comes in here, so no transition can wait for it{meant or self._meant(words, 'EVENT_INPUT')}"
        return f"no event {words} goes out from here, so no state can send it{meant or self._meant(words, 'EVENT_OUTPUT')}"

    def _explain_algorithm_unknown(self, at: int, words: str) -> str:
        return f"no algorithm {words} in this block{self._meant(words, 'ALGORITHM')}"

    def _explain_variable_unknown(self, at: int, words: str) -> str:
        first, dot, port = words.partition(".")
        its = (*DATA_SECTIONS, "VAR")
        if not dot:
            return f"no variable {words} in this block{self._meant(words, *its)}"
        if why := self._not_in_type(at, "data port", *DATA_SECTIONS):
            return why
        meant = "" if first in self._names(*its, *ADAPTER_SECTIONS) else self._meant(first, *its, *ADAPTER_SECTIONS)
        return f"no variable {words} in this block: {first} is no plug or socket with data {port}{meant}"

    def _explain_member_unknown(self, at: int, words: str) -> str:
        last = max(at - 2, 0)
        begin = self._at.reference_begin(last)
        before, first = self._at.spelled(begin, last + 1), self._at.tokens[begin]
        if of := self._owner(at):
            unit = self._texts.unit(of)
            return f"no field {words} in {of}, the type of {before}{asked(self._texts.names(unit, 'STRUCT').near(words)) if unit else ''}"
        its = self._unit.first.get(Key(self._unit.name, VARIABLE, "", first.upper))
        if not its or begin != self._at.name_of(last):
            return f"no field {words} in {before}"
        if type_with_fields(its.type, True):
            return f"no field {words} in {before}, which is an array: its elements have fields"
        return f"no field {words} in {before}: {first.words} is of the type {one_line(its.type)}"

    def _owner(self, at: int) -> str:
        """The unit that should have the field at `at`; empty where nothing tells."""
        its = self._at.use(at)
        return self._texts.owner(its.walk) if its and its.walk else its.key.unit if its else ""

    def _explain_struct_recursive(self, at: int, words: str) -> str:
        return f"{words} contains itself, by the types of its fields"

    def _explain_class(self, at: int, words: str) -> str:
        return self._operator(at, words) or self._wanted(at, words)

    def _operator(self, at: int, words: str) -> str | None:
        match self._at.tokens[at].upper:
            case ":=":
                return self._assigned(at)
            case "NOT":
                return f"{words} takes a truth value or a bit string"
            case "AND" | "OR" | "XOR" | "&":
                return f"{words} takes two truth values or two bit strings, not numbers or a mixture"
            case "MOD":
                return f"{words} takes whole numbers"
            case "+" | "-" | "*" | "/" | "**":
                return f"{words} takes numbers, times and the like, not truth values or bit strings"
            case comparison if comparison in _COMPARISONS:
                return f"{words} compares two values of one kind, and these are of different kinds"
        return None

    def _assigned(self, at: int) -> str:
        """Of an assignment: told by the variable left of the `:=` at `at`, with its fields and subscripts, and by its type where it has none."""
        begin = self._at.reference_begin(at - 1)
        variable = self._at.spelled(begin, at)
        its = self._unit.first.get(Key(self._unit.name, VARIABLE, "", variable.upper()))
        if its and its.type:
            return f'{variable} is {one_line(its.type)}, and the value behind ":=" does not fit'
        return f'the value behind ":=" does not fit the type of {variable}'

    def _wanted(self, at: int, words: str) -> str:
        """Of a condition, a bound, a subscript or a selector: told by the word before it."""
        before = self._at.before(at)
        guard = self._at.section(at) == "EC_TRANSITIONS" and self._at.is_guard(at)
        if guard or before in ("IF", "ELSIF", "WHILE", "UNTIL"):
            return f"a condition has to be a truth value, and {words} is none"
        if before == "CASE":
            return f"CASE can't select by a truth value, which {words} is"
        if before == "FOR":
            return f"FOR counts with a variable for whole numbers, and {words} is none"
        if before in ("[", ","):
            return f"a subscript has to be a whole number, and {words} is none"
        return f"FOR counts from, to and by whole numbers, and {words} is none"

    def _explain_port_unknown(self, at: int, words: str) -> str:
        what, *sections = _PORTS[self._at.section(at)]
        if why := self._not_in_type(at, what, *sections):
            return why
        instance, dot, _ = words.partition(".")
        its = (*ADAPTER_SECTIONS, "FBS", "SUBAPPS") if dot else sections
        meant = "" if dot and instance in self._names(*its) else self._meant(instance, *its)
        return f"no {what} {words} to connect{meant}"

    def _explain_port_side(self, at: int, words: str) -> str:
        if turned := self._turned_round(at, words):
            return turned
        if self._at.before(at) == "TO":
            return f"{words} can't be the destination of a connection, only the source of one"
        return f"{words} can't be the source of a connection, only the destination of one"

    def _turned_round(self, at: int, words: str) -> str | None:
        """What is said of a link whose source and destination have changed places."""
        other = self._at.other_end(at)
        port, opposite = self._port(at), self._port(other)
        is_source = self._at.before(at) != "TO"
        if not port or not opposite or self._at.is_source(at, port) == is_source or self._at.is_source(other, opposite) != is_source:
            return None
        here = "" if self._at.words(at + 1) == "." else " here"
        if is_source:
            return f"{words} is {side(port)}{here}: did you mean {self._at.end(other)} TO {words}?"
        return f"{words} is {side(port)}{here}: this link is turned round"

    def _explain_data_type(self, at: int, words: str) -> str:
        other = self._at.other_end(at)
        source, its = self._port(other), self._port(at)
        if source and its and source.type and its.type:
            types = f"{self._at.end(other)} is {one_line(source.type)}, {words} is {one_line(its.type)}"
            return f"{types}; 4diac converts this, the workbench compares the names of types" if is_converted(source.type, its.type) else types
        return f"{self._at.end(other)} and {words} are of different types"

    def _explain_second_source(self, at: int, words: str) -> str:
        return f"{words} has a source already; data come from one source"

    def _explain_second_adapter(self, at: int, words: str) -> str:
        return f"{words} is connected already; a plug or a socket has one connection"

    def _explain_pass_through(self, at: int, words: str) -> str:
        return f"{words} leads straight through the subapplication, past all its blocks"

    def _explain_parameter_unknown(self, at: int, words: str) -> str:
        instance, type_name = self._at.instance_before(at)
        of = self._texts.unit(type_name.upper())
        meant = asked(self._texts.names(of, "VAR_INPUT").near(words)) if of else ""
        return f"{type_name}, the type of {instance}, has no data input {words}{meant}"

    def _explain_literal(self, at: int, words: str) -> str:
        assign = self._at.back_to(":=", at)
        if self._at.section(at) != "FBS":
            return f"{words} is no initial value for the type {self._at.spelled(self._at.back_to(':', assign) + 1, assign)}"
        name, its = self._at.words(assign - 1), self._port(assign - 1)
        if its and its.type:
            return f"{name} is {one_line(its.type)}, and {words} {_misfit(its.type.upper())}"
        return f"{words} does not fit the type of {name}"

    def _explain_mapped_twice(self, at: int, words: str) -> str:
        return f"{words} is mapped already"

    def _explain_no_such_resource(self, at: int, words: str) -> str:
        device, _, resource = words.partition(".")
        if device not in self._names("DEVICE"):
            return f"no device {device} with a resource {resource} in this system{self._meant(device, 'DEVICE')}"
        its = [it.words for it in self._unit.of("RESOURCE", scope=device.upper())]
        return f"{device} has no resource {resource}; it has {listed(its, 'and') or 'none'}"


def _misfit(type_name: str) -> str:
    """What is said of a constant that does not fit a type."""
    if type_name in _WHOLE:
        return "is no whole number"
    if type_name in _BITS:
        return "is no bit string"
    if type_name.startswith("ARRAY"):
        return "is no list"
    return "is no truth value" if type_name == "BOOL" else "does not fit"
