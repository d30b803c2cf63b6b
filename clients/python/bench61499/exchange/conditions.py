"""Conditions of transitions as the editions of IEC 61499 and the tools write them."""
from __future__ import annotations

from collections.abc import Callable, Sequence
from dataclasses import dataclass
from itertools import chain, count
from typing import NamedTuple

from bench61499 import TEXT_LIMIT
from bench61499.exchange import names
from bench61499.exchange.forms import Cursor, spell
from bench61499.language.tokens import Token, is_name, pieces

NO_CONDITION, NOT_READ = "NO_CONDITION", "NOT_READ"
_NO_CONDITION = "it is none of this language"
_NO_GUARD = "its guard is none of this language"


class Condition(NamedTuple):
    """A condition of a text; why it is in the place of another one, if it is; the comments that were in it; and the guard if that alone could not be read."""

    text: str
    why: str = ""
    remarks: tuple[str, ...] = ()
    guard: str = ""


@dataclass(frozen=True)
class Chart:
    """What conditions are of: own event inputs, variables, plugs and sockets, by their names in upper case; and of adapters whose type is known, their
    events as `P.E`, and their data."""

    events: frozenset[str]
    variables: frozenset[str]
    adapters: frozenset[str]
    adapter_events: frozenset[str] = frozenset()
    adapter_data: frozenset[str] = frozenset()

    @property
    def not_read(self) -> str:
        """A name that no variable or adapter has."""
        tries = chain([NOT_READ], (f"{NOT_READ}_{number}" for number in count(1)))
        return next(it for it in tries if it not in self.variables and it not in self.adapters)


def condition(words: str, chart: Chart, change: Callable[[str], str] = names.spelled) -> Condition:
    """The condition of a text for the one of a file."""
    if len(words) > TEXT_LIMIT:
        return Condition(NO_CONDITION, _NO_CONDITION)
    new = names.with_points(names.replace_words(words, names.OPERATOR_WORDS, change))
    found = list(pieces(new))
    if any(it.kind == "unclosed" for it in found):
        return Condition(NO_CONDITION, _NO_CONDITION)
    remarks = tuple(it.words for it in found if it.kind == "comment")
    tokens = [it for it in found if it.kind != "comment"]
    if remarks:
        new = _spelled(tokens)
        tokens = [it for it in pieces(new) if it.kind != "comment"]
    return _Reading(new, tokens, chart).result()._replace(remarks=remarks)


def _spelled(tokens: Sequence[Token]) -> str:
    """Tokens with a blank where something was between them."""
    words, end = "", 0
    for it in tokens:
        words += " " * (it.start > end and bool(words)) + it.words
        end = it.end
    return words


class _Reading:
    """A condition without comments, by its tokens."""

    def __init__(self, words: str, tokens: list[Token], chart: Chart):
        self._encoded, self._tokens, self._chart = words.encode(), tokens, chart
        self._size = self._end_at_front()
        self._front = "".join(it.upper for it in tokens[: self._size])

    def _end_at_front(self) -> int:
        """The number of tokens of the end at the front: a name, or two with a point between them."""
        tokens = self._tokens
        if not tokens or not is_name(tokens[0]):
            return 0
        return 3 if len(tokens) > 2 and tokens[1].words == "." and is_name(tokens[2]) else 1

    def _words(self, begin: int, end: int | None = None) -> str:
        its = self._tokens[begin:end]
        return self._encoded[its[0].start : its[-1].end].decode() if its else ""

    def result(self) -> Condition:
        upper = [it.upper for it in self._tokens]
        if not upper:
            return Condition(NO_CONDITION, _NO_CONDITION)
        if upper in (["1"], ["TRUE"]):
            return Condition("1")
        rest = upper[self._size :]
        is_data = self._is_data(self._front)
        if self._size and rest in ([], ["[", "]"]):
            front = self._words(0, self._size)
            return Condition(f"[{front}]" if is_data and not rest else front)
        if rest[:1] == ["["] and not (self._size and is_data) and self._closes(self._size):
            return self._guarded(self._size + 1, len(upper) - 1)
        return self._joined()

    def _is_data(self, front: str) -> bool:
        """Whether an end is known to be data and no event."""
        first, point, _ = front.partition(".")
        if point and first in self._chart.adapters:
            return False
        return first in self._chart.variables and not (not point and first in self._chart.events)

    def _is_event(self, front: str, is_first: bool) -> bool:
        first, point, _ = front.partition(".")
        if not point or first not in self._chart.adapters:
            return front in self._chart.events
        return front in self._chart.adapter_events or is_first and front not in self._chart.adapter_data

    def _closes(self, at: int) -> bool:
        """Whether the bracket at a place is closed by the last token."""
        return self._depths()[at + 1 :].count(0) == 1 and self._depths()[-1] == 0

    def _depths(self) -> list[int]:
        """How many brackets are open behind each token."""
        depths, open_ = [], 0
        for it in self._tokens:
            open_ += it.words in ("(", "[")
            open_ -= it.words in (")", "]")
            depths.append(open_)
        return depths

    def _guarded(self, begin: int, end: int) -> Condition:
        event, guard = self._words(0, begin - 1), self._words(begin, end)
        if spell(self._tokens[begin:end], Cursor.expression):
            return Condition(f"{event} [{guard}]".lstrip())
        return Condition(f"{event} [{self._chart.not_read}]".lstrip(), _NO_GUARD, guard=guard)

    def _joined(self) -> Condition:
        """An event and a guard with an operator between them, or an expression."""
        operators = [(at, it.upper) for at, (it, depth) in enumerate(zip(self._tokens, self._depths())) if not depth]
        has_or = any(word in ("OR", "XOR") for _, word in operators)
        joins = [at for at, word in operators if word in ("&", "AND")]
        begins_with_event = self._size and joins[:1] == [self._size] and self._is_event(self._front, True)
        if begins_with_event and not has_or:
            if spell(self._tokens[self._size + 1 :], Cursor.expression):
                return Condition(self._words(0))
            return Condition(f"{self._words(0, self._size)} [{self._chart.not_read}]", _NO_GUARD, guard=self._words(self._size + 1))
        if not spell(self._tokens, Cursor.expression):
            return Condition(NO_CONDITION, _NO_CONDITION)
        events = self._events()
        if not events and not begins_with_event:
            return Condition(f"[{self._words(0)}]")
        return (not has_or and self._event_first(joins, events)) or Condition(NO_CONDITION, _NO_CONDITION)

    def _events(self) -> list[int]:
        """The places of names that are own events."""
        found = []
        for at, it in enumerate(self._tokens):
            is_behind_point = at > 0 and self._tokens[at - 1].words == "."
            if it.kind != "word" or is_behind_point:
                continue
            inner = self._tokens[at + 1 : at + 3]
            path = f"{it.upper}.{inner[1].upper}" if len(inner) > 1 and inner[0].words == "." else it.upper
            if self._is_event(path, False) and not self._is_data(path):
                found.append(at)
        return found

    def _event_first(self, joins: list[int], events: list[int]) -> Condition | None:
        """Operands joined by `&`, one of which is an event: that one before the others."""
        bounds = [-1, *joins, len(self._tokens)]
        operands = [(begin + 1, end) for begin, end in zip(bounds, bounds[1:])]
        alone = [(begin, end) for begin, end in operands if begin in events and end - begin == self._length(begin)]
        if len(events) != 1 or len(alone) != 1:
            return None
        others = [it for it in operands if it != alone[0]]
        return Condition(" & ".join(self._words(*it) for it in (*alone, *others)))

    def _length(self, at: int) -> int:
        return 3 if self._tokens[at + 1 : at + 2] and self._tokens[at + 1].words == "." else 1
