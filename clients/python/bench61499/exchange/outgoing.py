"""What the parts of the export of one unit share: names, types and values as files have them."""
from __future__ import annotations

import re
from collections.abc import Mapping
from types import MappingProxyType

from bench61499.exchange import names
from bench61499.exchange.exchanged import Unit, Variable, recorded
from bench61499.exchange.generic import generic_type
from bench61499.exchange.report import LEFT_OUT, REPLACED, Report, cut
from bench61499.exchange.values import Typed, original, spelled, spelled_value, unquoted, with_point
from bench61499.language.tokens import tokens

TOOLS = ("4diac", "4diac1", "fbdk")
MODERN, FBDK = TOOLS[0], TOOLS[2]
_ARRAY = re.compile(r"ARRAY\s*\[(.*)\]\s*OF\s+(\w+)", re.IGNORECASE | re.DOTALL)
_COUNTED = re.compile(r"0\s*\.\.\s*(0|[1-9]\d{0,16})", re.ASCII)
_SIGNED = re.compile(r"([+-]?)\s*(\d{1,18})", re.ASCII)


def recorded_names(unit: Unit) -> dict[str, str]:
    """The names that the records of a unit give back, by those in its text."""
    return {it["text"]: it["file"] for it in recorded(unit, "Name") if names.spelled(it.get("file", "")) == it.get("text")}


class Outgoing:
    """A unit that is written as XML. `types` are all units by their names in upper case, `inner` those that are written within others, with what is told of
    them."""

    def __init__(self, unit: Unit, types: Mapping[str, Unit], tool: str, report: Report, inner: Mapping[str, Report] = MappingProxyType({})):
        self.unit, self.types, self.tool, self._report, self._inner = unit, dict(types), tool, report, inner
        self._recorded = recorded_names(unit)
        self._types = {it.get("text", ""): (it.get("type", ""), it.get("ranges", "")) for it in recorded(unit, "Type")}
        self._packages = {it.get("type", ""): it.get("package", "") for it in recorded(unit, "Package")}

    def within(self, type_: str) -> Outgoing | None:
        """The unit of a type that is written where its instance is; None if it has a file."""
        report = self._inner.get(type_.upper())
        return Outgoing(self.types[type_.upper()], self.types, self.tool, report, self._inner) if report else None

    def tell(self, kind: str, line: int, words: str) -> None:
        self._report.tell(kind, line, words)

    def name(self, name: str) -> str:
        return names.restored(name, self._recorded)

    def word(self, name: str) -> str:
        """A name in an expression or a constant: that of the file only if it is a word."""
        file = self.name(name)
        return file if names.is_word_of_any_alphabet(file) else name

    def path(self, path: str) -> str:
        """Names with points between them: each as the file had it, if it has no point in it."""
        parts = [(it, self.name(it)) for it in path.split(".")]
        return ".".join(name if "." in file else file for name, file in parts)

    def type(self, type_: str) -> str:
        """A type with its package, if it is among the texts and the tool knows packages."""
        unit = self.types.get(type_.upper())
        if generic := generic_type(unit):
            return self.type(generic)
        package = self._packages.get(type_) or (unit.record("CompilerInfo", "packageName").strip() if unit else "")
        package = package if self.tool == MODERN else ""
        name = self.name(type_)
        fits = bool(package) and names.without_package(f"{package}::{name}") == (package, name)
        return f"{package}::{name}" if fits else name

    def value(self, value: str, in_array: bool, line: int) -> str:
        """A constant as a file has it; words in the place of which it is become these words again."""
        words = unquoted(value if in_array else value[1:-1]) if in_array or value[:1] == "[" else None
        if words is not None and words.strip() == words and (spelled_value(words, in_array) == (value, True) or with_point(words) != words):
            return words
        if value in self._packages:
            return self.type(value)
        if value in self._recorded and not names.is_word_of_any_alphabet(self._recorded[value]):
            return self._recorded[value]
        new = names.replace_words(value, names.OPERATOR_WORDS, self.word)
        if not _same(spelled_value(new, in_array)[0], value):
            self.tell(REPLACED, line, f"the value {cut(value)} by {cut(new)}, which is read as another one")
        return new

    def typed(self, it: Variable) -> Typed:
        """The type, the size and the value of a variable."""
        found = original(it.type, it.value)
        if found:
            return found
        if it.type in self._types:
            return Typed(*self._types[it.type], self.value(it.value, True, it.line))
        array = _ARRAY.fullmatch(it.type)
        value = self.value(it.value, array is not None, it.line)
        if not array:
            plain = re.fullmatch(r"\w+", it.type)
            return Typed(self.type(it.type) if plain else names.replace_words(it.type, frozenset(), self.word), None, value)
        ranges = self._ranges(it, array[1])
        if ranges is None:
            words = names.replace_words(it.type, frozenset(["ARRAY", "OF"]), self.word)
            return Typed(words, None, value)
        return Typed(self.type(array[2]), ranges, value)

    def _ranges(self, it: Variable, ranges: str) -> str | None:
        """The size of an array: a number, if it begins with 0, or ranges; None if these can't be an ArraySize."""
        counted = _COUNTED.fullmatch(ranges.strip())
        if counted:
            return f"{int(counted[1]) + 1}"
        if self.tool != MODERN:
            self.tell(LEFT_OUT, it.line, f"for {self.tool} the ranges {cut(ranges)} of {it.name}, which are written: it reads a number alone")
        bounds = [_SIGNED.fullmatch(bound.strip()) for each in ranges.split(",") for bound in each.split("..")]
        if not all(bounds):
            return None
        signed = [f"{bound[1]}{bound[2]}" for bound in bounds if bound]
        return ",".join(f"{low}..{high}" for low, high in zip(signed[::2], signed[1::2]))


def _same(one: str, other: str) -> bool:
    return [it.words for it in tokens(one)] == [it.words for it in tokens(other)]


def comes_back(it: Variable, typed: Typed) -> bool:
    """Whether a variable is read as it was."""
    back = spelled(typed)
    return _same(back.type, it.type) and _same(back.value, it.value)
