"""What stands round a place of a text, by the tokens and by what is declared and used there."""
from __future__ import annotations

from bisect import bisect_left
from collections.abc import Iterator
from functools import cached_property

from bench61499.language.declarations import ADAPTER_SECTIONS, EVENT_SECTIONS, Declaration, Unit, Use
from bench61499.language.reader import read
from bench61499.language.tokens import Token, spelled, tokens
from bench61499.language.wording import one_line

_SECTIONS = frozenset(
    """EVENT_INPUT EVENT_OUTPUT VAR VAR_INPUT VAR_OUTPUT PLUGS SOCKETS FBS SUBAPPS EVENT_CONNECTIONS DATA_CONNECTIONS ADAPTER_CONNECTIONS
    EC_STATES EC_TRANSITIONS ALGORITHM MAPPINGS STRUCT""".split()
)
_OUTPUTS = frozenset(["EVENT_OUTPUT", "VAR_OUTPUT", "PLUGS"])


class Surroundings:
    """One text. Places are numbers of tokens, comments left out."""

    def __init__(self, text: str):
        self.text = text
        self.tokens = list(tokens(text))
        self._starts = [token.start for token in self.tokens]
        self._sections = list(_sections(self.tokens))

    @cached_property
    def unit(self) -> Unit:
        return read(self.text)

    @cached_property
    def _uses(self) -> dict[int, Use]:
        return {use.start: use for use in self.unit.uses}

    def token_at(self, place: int) -> int:
        """The first token that begins at a place in bytes or behind it."""
        return bisect_left(self._starts, place)

    def words(self, at: int) -> str:
        return self.tokens[at].words if 0 <= at < len(self.tokens) else ""

    def before(self, at: int) -> str:
        return self.tokens[at - 1].upper if at else ""

    def section(self, at: int) -> str:
        """The word that begins the section."""
        return self._sections[at] if at < len(self._sections) else ""

    def spelled(self, begin: int, end: int) -> str:
        """Tokens in one line of their own."""
        return one_line(spelled(self.tokens[begin:end]))

    def back_to(self, words: str, at: int) -> int:
        """The last token before `at` that is spelled so; 0 where there is none."""
        return next((index for index in range(at - 1, 0, -1) if self.tokens[index].words == words), 0)

    def is_guard(self, at: int) -> bool:
        """Whether the guard of a transition begins at `at`, behind `[`, `&` or `AND`, and not a subscript in one."""
        between = [token.upper for token in self.tokens[self.back_to(":=", at) + 1 : at]]
        event = between[:-1]
        is_event = len(event) == 1 or (len(event) == 3 and event[1] == ".")
        return between[-1:] == ["["] and not event or between[-1:] in (["["], ["&"], ["AND"]) and is_event

    # Connections and instances

    def other_end(self, at: int) -> int:
        """The first token of the other end of a connection that has an end at `at`."""
        if self.before(at) != "TO":
            return at + (4 if self.words(at + 1) == "." else 2)
        return at - (4 if at >= 4 and self.words(at - 3) == "." else 2)

    def end(self, at: int) -> str:
        """The end of a connection that begins at `at`."""
        return self.spelled(at, at + (3 if self.words(at + 1) == "." else 1))

    def instance_before(self, at: int) -> tuple[str, str]:
        """The name and the type of the instance whose parameters `at` is among."""
        while at > 0 and self.tokens[at].words != "(":
            at -= 1
        return (self.tokens[at - 3].words, self.tokens[at - 1].words) if at >= 3 else ("", "")

    def use(self, at: int) -> Use | None:
        """The use of a name that begins at `at`."""
        return self._uses.get(self.tokens[at].start) if 0 <= at < len(self.tokens) else None

    def port(self, at: int) -> Use | None:
        """The name of a port at an end of a connection, or in a chart, that begins at `at`."""
        return self.use(at + 2 if self.words(at + 1) == "." else at)

    def instance(self, at: int) -> Declaration | None:
        """The instance, plug or socket at `at`, where a point follows."""
        its = self.use(at) if self.words(at + 1) == "." else None
        return self.unit.first.get(its.key) if its else None

    def is_source(self, at: int, port: Declaration) -> bool:
        """Whether a port can be the source of a connection that has it as the end at `at`: inside, own inputs and those of own plugs are."""
        its = self.instance(at)
        return is_output(port) != (its is None or its.section == "PLUGS" and self.unit.kind == "FUNCTION_BLOCK")

    # References

    def reference_begin(self, at: int) -> int:
        """The first token of the reference that ends with the token at `at`, be that a name or the end of its subscripts."""
        at = self.name_of(at)
        while at >= 2 and self.tokens[at - 1].words == ".":
            at = self.name_of(at - 2)
        return at

    def name_of(self, at: int) -> int:
        """The name at `at`, or the one whose subscripts end there."""
        depth = 0
        while at > 0 and (depth or self.tokens[at].words == "]"):
            depth += {"]": 1, "[": -1}.get(self.tokens[at].words, 0)
            at -= 1
        return at


def is_output(port: Declaration) -> bool:
    return port.section in _OUTPUTS


def side(port: Declaration) -> str:
    """What a port is, in words."""
    if port.section in ADAPTER_SECTIONS:
        return "a plug" if port.section == "PLUGS" else "a socket"
    return "an output" if is_output(port) else "an input"


def sort(port: Declaration) -> str:
    """What a port is, in words that tell events, data and adapters apart."""
    if port.section in ADAPTER_SECTIONS:
        return side(port)
    way = "output" if is_output(port) else "input"
    return f"an event {way}" if port.section in EVENT_SECTIONS else f"a data {way}"


def _sections(of: list[Token]) -> Iterator[str]:
    """For each token the word that begins its section."""
    section = ""
    for token in of:
        yield section
        if token.kind == "word" and token.upper in _SECTIONS:
            section = token.upper
