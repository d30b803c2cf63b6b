"""Types and values of files as those of a text, and what is written in their place if the language has no words for them."""
from __future__ import annotations

import re
from collections.abc import Callable, Iterator, Mapping
from itertools import islice
from typing import NamedTuple

from bench61499 import TEXT_LIMIT
from bench61499.exchange import names
from bench61499.exchange.context import Context
from bench61499.exchange.exchanged import record
from bench61499.exchange.forms import is_array, is_constant, is_type
from bench61499.exchange.report import NOTE, UNCHECKED, cut
from bench61499.exchange.xmlfile import Element
from bench61499.language.declarations import type_of_data
from bench61499.language.full_body import is_type as is_full_type
from bench61499.language.full_body import is_value
from bench61499.language.full_library import is_known_type

_RANGE = re.compile(r"([+-]?\d{1,18})\s*\.\.\s*([+-]?\d{1,18})", re.ASCII)
_COUNT = re.compile(r"\d{1,18}", re.ASCII)
_WORDS = re.compile(r"\w+", re.ASCII)
_TYPE_WORDS = names.OPERATOR_WORDS | {"ARRAY", "OF"}
_QUOTED = re.compile(r"'((?:[^'$\r\n]|\$[$'N])*)'")
_OF, _IS = re.compile(r"\] OF "), re.compile(" := ")
_TRIES = 20
_EXPONENT = re.compile(r"([+-]?\s*\d[\d_]*)([eE][+-]?\d+)", re.ASCII)
_STRUCTURE = re.compile(r"\(.*:=.*\)", re.DOTALL)
_TYPED_NAME = re.compile(r"([A-Za-z_]\w*)#[A-Za-z_]\w*", re.ASCII)
NOT_A_TYPE = "no type"


class Typed(NamedTuple):
    """A type and a value as a file has them. `ranges` is what is between the brackets of an array; None if it is none."""

    type: str
    ranges: str | None
    value: str

    @property
    def words(self) -> str:
        """All in one, as the value of a type that can't be spelled."""
        type_ = self.type or NOT_A_TYPE
        whole = type_ if self.ranges is None else f"ARRAY [{self.ranges}] OF {type_}"
        return f"{whole} := {self.value}" if self.value else whole


class Spelled(NamedTuple):
    """A type and a value as a text has them, and whether each is in the place of one that the language has no words for."""

    type: str
    value: str
    is_type_replaced: bool = False
    is_value_replaced: bool = False


Change = Callable[[str], str]
"""What makes a name of a text of one of a file."""


def quoted(words: str) -> str:
    """Words as a string."""
    lines = words.replace("\r\n", "\n").replace("\r", "\n")
    return "'" + lines.replace("$", "$$").replace("'", "$'").replace("\n", "$N") + "'"


def unquoted(value: str) -> str | None:
    """The words of such a string; None if it is none."""
    found = _QUOTED.fullmatch(value)
    return re.sub(r"\$([$'N])", lambda it: "\n" if it[1] == "N" else it[1], found[1]) if found else None


def spelled(it: Typed, change: Change = names.spelled) -> Spelled:
    """The type and the value of a variable as a text has them."""
    ranges, type_ = spelled_ranges(it.ranges), _spelled_type(it.type, change) if len(it.type) <= TEXT_LIMIT else ""
    if ranges is None or not type_ or ranges and not names.is_word(type_):
        return Spelled(_stand_in(it), f"[{quoted(it.words)}]", is_type_replaced=True)
    whole = f"ARRAY [{ranges}] OF {type_}" if ranges else type_
    value, is_replaced = spelled_value(it.value, is_array(whole), change)
    return Spelled(whole, value, is_value_replaced=is_replaced)


def spelled_value(value: str, in_array: bool = False, change: Change = names.spelled) -> tuple[str, bool]:
    """A value as a constant; as a string, or a list of one, if it is none, and whether it is so."""
    if len(value) > TEXT_LIMIT:
        return f"[{quoted(value)}]", True
    package, last = names.without_package(value)
    new = names.replace_words(last if package and (names.is_word(last) or _TYPED_NAME.fullmatch(last)) else with_point(value), names.OPERATOR_WORDS, change)
    if not value or is_constant(new):
        return new, False
    return quoted(value) if in_array else f"[{quoted(value)}]", True


def with_point(value: str) -> str:
    """A number with an exponent and no point, such as `1e5`, as `1.0E5`; those of a list as `1.0e5`."""
    found = _EXPONENT.fullmatch(value)
    return f"{found[1]}.0{found[2].upper()}" if found else names.with_points(value) if value.startswith("[") else value


def _spelled_type(type_: str, change: Change) -> str:
    """A type without a size of its own; empty if it can't be spelled."""
    _, last = names.without_package(type_)
    if names.is_word_of_any_alphabet(last):
        return change(last)
    new = names.replace_words(type_, _TYPE_WORDS, change)
    return new if is_type(new) else ""


def spelled_ranges(ranges: str | None) -> str | None:
    """What is between the brackets of an array; empty if there is none, None if it can't be spelled."""
    if ranges is None:
        return ""
    parts = [_spelled_range(it.strip()) for it in ranges.split(",")]
    return ", ".join(parts) if all(parts) else None


def _spelled_range(words: str) -> str:
    if _COUNT.fullmatch(words) and int(words):
        return f"0..{int(words) - 1}"
    found = _RANGE.fullmatch(words)
    return f"{found[1]}..{found[2]}" if found else ""


def _stand_in(it: Typed) -> str:
    """The name of a type that can't be spelled."""
    if not it.type:
        return names.NO_TYPE
    words = "_".join(_WORDS.findall(it.type)) or "ANY"
    if it.ranges is None:
        return names.spelled(f"TYPE_{words}")
    return names.spelled(f"ARRAY_{'_'.join(_WORDS.findall(it.ranges)) or 'ANY'}_OF_{words}")


def original(type_: str, value: str) -> Typed | None:
    """What a file had, if a text has words in the place of a type that can't be spelled."""
    words = unquoted(value[1:-1]) if value.startswith("[") and value.endswith("]") else None
    if words is None:
        return None
    tries = (it._replace(type="") if it.type == NOT_A_TYPE else it for it in _typed_in(words))
    return next((it for it in tries if spelled(it) == Spelled(type_, value, is_type_replaced=True)), None)


def _typed_in(words: str) -> Iterator[Typed]:
    """All that words can be of: a type, perhaps an array, and perhaps a value."""
    arrays: list[tuple[str | None, str]] = [(None, words)]
    if words.startswith("ARRAY ["):
        arrays += [(words[7 : it.start()], words[it.end() :]) for it in islice(_OF.finditer(words), _TRIES)]
    for ranges, rest in reversed(arrays):
        yield Typed(rest, ranges, "")
        yield from (Typed(rest[: it.start()], ranges, rest[it.end() :]) for it in islice(_IS.finditer(rest), _TRIES))


def is_structure(context: Context, type_: str) -> bool:
    """Whether a type of a file is a structure that is among the files."""
    root = context.library.roots.get(names.spelled(names.without_package(type_)[1]).upper())
    return root is not None and bool(root.named("StructuredType"))


def _as_name(context: Context, at: Element, value: str, name: str) -> str:
    """The name in the place of a value of a structure or a list, which fits every type; a record has the value."""
    new = names.spelled(value)
    context.records[new] = value
    context.report.tell(UNCHECKED, at.line, f"the value {cut(value)} of {name} is kept as the name {new}, which is not checked")
    return new


def _type_as_name(context: Context, at: Element, it: Typed, new: str) -> tuple[str, str]:
    """The name in the place of the type of an array, such as one whose bounds have names, and the value as another one."""
    name, own, words = cut(at.get("Name")), (it.ranges or "", it.type), it._replace(value="").words
    new = new if context.types.get(new, own) == own else names.spelled(words)
    context.types[new] = own
    context.report.tell(UNCHECKED, at.line, f"the type {cut(words)} of {name} is kept as the name {new}, which is not checked")
    return new, _as_name(context, at, it.value, name) if it.value else ""


def type_records(types: Mapping[str, tuple[str, str]]) -> Iterator[str]:
    """What comments keep of types that are names in the text, and that these are no types that are nowhere."""
    for new, (ranges, type_) in types.items():
        yield record("Type", {"text": new, "ranges": ranges, "type": type_})
        yield record("Elsewhere", {"type": new.upper()})


def _is_kept(context: Context, value: str, type_: str, may_be_array: bool) -> bool:
    """Whether a value that is no constant of the language is one of full Structured Text, of a form that its type may have: a repetition in a list, the
    fields of a structure, an expression. The type is empty if it is not known."""
    if len(value) > TEXT_LIMIT or not is_value(value):
        return False
    if _STRUCTURE.fullmatch(value):
        return not type_ or is_structure(context, type_) or not (may_be_array or _is_known(context, type_))
    return may_be_array if value.startswith("[") else not (type_ and may_be_array)


def _is_known(context: Context, type_: str) -> bool:
    name = names.spelled(names.without_package(type_)[1]).upper()
    return name in context.library.roots or is_known_type(type_of_data(type_))


def variable(context: Context, at: Element, it: Typed) -> tuple[str, str]:
    """The type and the value of a variable of a file; tells what is replaced or left out."""
    if it.ranges is not None and _COUNT.fullmatch(it.ranges) and not int(it.ranges):
        context.left_out(at, f"ArraySize {it.ranges} of {cut(at.get('Name'))}")
        it = it._replace(ranges=None)
    found, name = spelled(it), cut(at.get("Name"))
    if found.is_type_replaced and it.ranges is not None and len(it.words) <= TEXT_LIMIT and is_full_type(it._replace(value="").words):
        return _type_as_name(context, at, it, found.type)
    if found.is_type_replaced:
        words = f"the type {cut(it._replace(value='').words)} of {name} by {found.type}: it can't be spelled here"
        context.replaced(at, words if it.type else f"the type of {name} that is not there, by {found.type}")
        return found.type, found.value
    if found.is_value_replaced and _is_kept(context, it.value, it.type, it.ranges is not None):
        return variable(context, at, it._replace(value=""))[0], _as_name(context, at, it.value, name)
    if not found.is_value_replaced:
        constant(context, at, it.value, name)
    else:
        _tell_value(context, at, it.value, found.value, name)
    if names.without_package(it.type)[0]:
        context.last_name(at, it.type)
    return spelled(it, lambda word: context.name(at, word))[:2]


def constant(context: Context, at: Element, value: str, name: str, type_: str = "") -> str:
    """The value of a parameter whose type may be known, or a value that is known to be a constant."""
    if spelled_value(value)[1] and _is_kept(context, value, type_, not type_):
        return _as_name(context, at, value, name)
    if with_point(value) != value:
        context.report.tell(NOTE, at.line, f"the value {value} of {name} is written {with_point(value)}")
    new, is_replaced = spelled_value(value)
    if is_replaced:
        _tell_value(context, at, value, new, name)
        return new
    package, last = names.without_package(value)
    if package and names.is_word(last):
        return context.last_name(at, value)
    if package and _TYPED_NAME.fullmatch(last):
        context.packages[last] = package
        return last
    return spelled_value(value, change=lambda word: context.name(at, word))[0]


def _tell_value(context: Context, at: Element, value: str, new: str, name: str) -> None:
    context.replaced(at, f"the value {cut(value)} of {name} by {cut(new)}: it is no constant of this language")
