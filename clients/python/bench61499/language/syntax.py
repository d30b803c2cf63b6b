"""SYNTAX faults in words: what was expected, what is not closed, and texts that are no units at all."""
from __future__ import annotations

from collections.abc import Sequence
from itertools import takewhile

from bench61499 import NAME_LIMIT
from bench61499.language.declarations import ENDS, KINDS, STATEMENTS
from bench61499.language.grammar import DEEPEST, NAME, Close, Stop, stops
from bench61499.language.merging import is_marked
from bench61499.language.tokens import RESERVED, Token, is_name
from bench61499.language.wording import Names, asked, listed, one_line, quoted

_ENDING = frozenset([*ENDS.values(), *(f"END_{word}" for word in STATEMENTS)])
_MOST_EXPECTED = 4
_WORDS = Names(RESERVED)
MARKED = "these are the marked lines of a merge: keep what is meant, and delete the lines that begin with <<<<<<<, ======= and >>>>>>>"
XML = "this is XML (IEC 61499-2), which bench61499 does not read; clients/exchange import translates it"


def explained(text: str, of: Sequence[Token], at: int) -> str:
    """Why a text can't go on with the token at `at`, or can't end where that is behind the last one."""
    if is_marked(text):
        return MARKED
    if text.lstrip("\ufeff \t\r\n").startswith("<"):
        return XML
    if not of:
        return f"there is nothing here: a unit begins with {listed(KINDS)}"
    its = next((stop for stop in takewhile(lambda stop: stop.at <= at, stops(of)) if stop.at == at), None)
    if at == len(of):
        return _early_end(text, of, its)
    return _of_token(of[at], at) or (_Sentences(text, of, its).sentence() if its else _cant_follow(of, at))


def _of_token(token: Token, at: int) -> str:
    """What is wrong with a token wherever it stands."""
    words = one_line(token.words)
    if token.kind == "unclosed":
        return "this comment is never closed: *) is missing"
    if words == "U+FEFF":
        return "a byte order mark is no part of the language; save the file as UTF-8 without one"
    if at == 0:
        return f"a unit begins with {listed(KINDS)}, and not with {quoted(words)}"
    if token.words in ("'", '"'):
        return f"the text behind this {token.words} is not closed on its line"
    if token.kind == "word" and len(token.words) > NAME_LIMIT:
        return f"the name {words} has more than 64 characters"
    return ""


def _early_end(text: str, of: Sequence[Token], stop: Stop | None) -> str:
    first = of[0].upper
    missing = f"{ENDS.get(first, 'its end')} is missing"
    if stop and len(stop.open) > 1:
        missing = f"{stop.open[-1].end} is missing, for {_opening(text, of, stop.open[-1])}"
    return f"the text ends too early, behind {_shown(of[-1])}: {missing}"


def _cant_follow(of: Sequence[Token], at: int) -> str:
    what = f"the reserved word {of[at].words}" if of[at].upper in RESERVED else _shown(of[at])
    return f"{what} can't follow {_shown(of[at - 1])}"


def _shown(token: Token) -> str:
    return quoted(one_line(token.words))


def _line(text: str, place: int) -> int:
    return text.encode().count(b"\n", 0, place) + 1


def _opening(text: str, of: Sequence[Token], close: Close) -> str:
    token = of[close.opening]
    return f"the {token.words} in line {_line(text, token.start)}"


class _Sentences:
    """What is said of a token that a text can't go on with."""

    def __init__(self, text: str, of: Sequence[Token], stop: Stop):
        self._text, self._of, self._stop = text, of, stop
        self._token, self._before = of[stop.at], of[stop.at - 1]

    def sentence(self) -> str:
        stop, word = self._stop, self._token.upper
        if not stop.open:
            return self._behind_the_end()
        if stop.is_too_deep:
            return f"statements and expressions nest at most {DEEPEST} deep"
        innermost = _opening(self._text, self._of, stop.open[-1])
        if stop.unclosed:
            return f"{innermost} is not closed: {stop.open[-1].end} is missing"
        if stop.closable and word in KINDS:
            return f"a file holds one unit, and {innermost} is not closed: {stop.open[-1].end} is missing"
        if stop.closable and word in _ENDING:
            return f"{self._token.words} ends nothing here: open is {innermost}"
        if stop.closable and word in ENDS:
            return f"{self._token.words} is no part of {innermost}"
        if word == "(" and is_name(self._before) and "an operator" in stop.possible:
            return f"{self._before.words} can't be called: this language has no functions"
        return self._expected()

    def _behind_the_end(self) -> str:
        line = _line(self._text, self._before.start)
        if self._token.upper in KINDS:
            return f"a file holds one unit, and this one ends in line {line}"
        return f"nothing can follow {_shown(self._before)}: the unit ends in line {line}"

    def _expected(self) -> str:
        """What was expected: what might have been there before the end of a part too, as there it is what is meant."""
        its = [*self._stop.possible, *self._stop.needed] if self._stop.closable else self._stop.needed
        expected = [it if it.startswith("a ") or it.isidentifier() else quoted(it) for it in its]
        if not 0 < len(expected) <= _MOST_EXPECTED:
            return _cant_follow(self._of, self._stop.at)
        return f"expected {listed(expected)} after {_shown(self._before)}{self._instead()}"

    def _instead(self) -> str:
        """Names what stands there instead, where it is not the begin of what comes next."""
        if self._token.upper in RESERVED:
            is_a_name = NAME in self._stop.needed + self._stop.possible and self._token.upper not in ENDS and self._token.upper not in _ENDING
            return f", and {self._token.words} is a reserved word" if is_a_name else ""
        between = self._text.encode()[self._before.end : self._token.start]
        meant = asked(_WORDS.near(self._token.words)) if self._token.kind == "word" else ""
        return meant if b"\n" in between or b"\r" in between else f", not {_shown(self._token)}{meant}"
