"""The tokens of a unit's text, as far as a client needs them: to name a unit by its declaration and to tell what stands round a place."""
from __future__ import annotations

import re
from collections.abc import Generator, Iterator, Sequence
from sys import intern
from typing import NamedTuple

from bench61499 import NAME_LIMIT

_BLANKS = re.compile(rb"[ \t\r\n]*+")
_TOKEN = rb"""(?:
         (?P<comment> //[^\n]* | \(\* .*? \*\) )
       | (?P<unclosed> \(\* .* )
       | (?P<typed> (?i: D|DATE|TOD|TIME_OF_DAY|DT|DATE_AND_TIME ) \# [+-]? (?: [\w\#] | [.:-](?=\d) )+
                  | (?i: L?REAL ) \# [+-]? (?: [\w\#] | \.(?=\d) | (?<=[Ee])[+-](?=\d) )+
                  | [A-Za-z_]\w* \# [+-]? (?: [\w\#] | \.(?=\d) )+ )
       | (?P<word> [A-Za-z_]\w* )
       | (?P<number> \d[\d_]* (?: \#\w+ | \.\d+ (?: [Ee][+-]?\d+ )? )? )
       | (?P<string> STRING )
       | (?P<symbol> := | <= | >= | <> | \*\* | -> | \.\. | [;:,.()\[\]=<>+\-*/&] )
       | (?P<other> . [\x80-\xbf]* ) )"""

_SINGLE = rb"""'(?: [^'$\r\n]++ | \$[^\r\n] )*+'"""
_DOUBLE = _SINGLE.replace(b"'", b'"')


def _pattern(strings: bytes, before: bytes = b"", behind: bytes = b"") -> re.Pattern[bytes]:
    return re.compile(before + b"(?:" + _TOKEN.replace(b"STRING", strings) + behind + b")", re.VERBOSE | re.DOTALL)


# The next token behind blanks, or the end; and tokens where a quote of a kind, or of both, is known to be closed nowhere before the end of its line.
_NEXT = _pattern(_SINGLE + b"|" + _DOUBLE, rb"[ \t\r\n]*+", rb"| \Z")
_ONLY = {b"'": _pattern(_DOUBLE), b'"': _pattern(_SINGLE)}
_NEITHER = _pattern(b"(?!)")
_HEAD = re.compile(r"[ \t\r\n]*+([A-Za-z_]\w*+)[ \t\r\n]++([A-Za-z_]\w*+)(?!#)", re.ASCII)
"""The first two words of a text that begins with them, as most do."""

RESERVED = frozenset(
    """FUNCTION_BLOCK END_FUNCTION_BLOCK ADAPTER END_ADAPTER SUBAPPLICATION END_SUBAPPLICATION SYSTEM END_SYSTEM APPLICATION
    END_APPLICATION DEVICE END_DEVICE RESOURCE END_RESOURCE MAPPINGS END_MAPPINGS TYPE END_TYPE STRUCT END_STRUCT
    EVENT_INPUT EVENT_OUTPUT END_EVENT VAR VAR_INPUT VAR_OUTPUT END_VAR PLUGS END_PLUGS SOCKETS END_SOCKETS FBS END_FBS SUBAPPS
    END_SUBAPPS EVENT_CONNECTIONS DATA_CONNECTIONS ADAPTER_CONNECTIONS END_CONNECTIONS EC_STATES END_STATES EC_TRANSITIONS
    END_TRANSITIONS ALGORITHM END_ALGORITHM SERVICE END_SERVICE WITH TO ARRAY OF IF THEN ELSIF ELSE END_IF CASE END_CASE FOR BY DO
    END_FOR WHILE END_WHILE REPEAT UNTIL END_REPEAT EXIT RETURN AND OR XOR NOT MOD TRUE FALSE""".split()
)


class Token(NamedTuple):
    """`kind` is typed, word, number, string, symbol, other, comment or unclosed (a comment); the place is in bytes; `words` are as written."""

    kind: str
    start: int
    end: int
    words: str

    @property
    def upper(self) -> str:
        """The words in upper case: one text for all that are the same, as a plant has many."""
        return intern(self.words.upper())


def _pattern_without(unclosed: set[bytes]) -> re.Pattern[bytes]:
    """The tokens that are looked for where these quotes are closed nowhere before the end of the line."""
    return _NEITHER if len(unclosed) > 1 else _ONLY[min(unclosed)]


def _matches(data: bytes) -> Iterator[re.Match[bytes]]:
    """The tokens and the comments of a text in order."""
    at = 0
    while at < len(data):
        for found in _NEXT.finditer(data, at):
            yield found
            if found.lastgroup == "other" and found["other"] in _ONLY:
                break
        else:
            return
        at = yield from _rest_of_line(data, found)


def _rest_of_line(data: bytes, quote: re.Match[bytes]) -> Generator[re.Match[bytes], None, int]:
    """Those behind a quote that is not closed before the end of its line; gives where they end. No later quote of its kind there is closed:
    each stands behind a `$`, and what follows it was looked at when the first one was. So none of them is tried again."""
    at, end = quote.end(), _end_of_line(data, quote.end())
    unclosed = {quote["other"]}
    while (at := _behind_blanks(data, at)) < end and (found := _pattern_without(unclosed).match(data, at)):
        yield found
        at = found.end()
        if found.lastgroup == "other" and found["other"] in _ONLY:
            unclosed.add(found["other"])
    return at


def _behind_blanks(data: bytes, at: int) -> int:
    blanks = _BLANKS.match(data, at)
    return blanks.end() if blanks else at


def _end_of_line(data: bytes, at: int) -> int:
    ends = [end for end in (data.find(b"\r", at), data.find(b"\n", at)) if end >= 0]
    return min(ends, default=len(data))


def pieces(text: str) -> Iterator[Token]:
    """The tokens and the comments of a text in order. A comment that is never closed is one token, up to the end."""
    for found in _matches(text.encode()):
        if kind := found.lastgroup:
            start, end = found.span(kind)
            yield Token(kind, start, end, found[kind].decode(errors="replace"))


def tokens(text: str) -> Iterator[Token]:
    """The tokens of a text in order, without comments."""
    return (piece for piece in pieces(text) if piece[0] != "comment")


def is_name(token: Token) -> bool:
    return token.kind == "word" and len(token.words) <= NAME_LIMIT and token.words.upper() not in RESERVED


def spelled(of: Sequence[Token]) -> str:
    """Tokens as they are written, without comments, on one line, and without blanks round a point."""
    words = ""
    for index, token in enumerate(of):
        before = of[index - 1]
        apart = index > 0 and before.end < token.start and "." not in (token.words, before.words)
        words += " " * apart + token.words
    return words


def head(text: str) -> tuple[str, Token | None]:
    """The first word of a text in upper case, and the name behind it; None where there is none that a unit can have."""
    if found := _HEAD.match(text):
        second = Token("word", *found.span(2), found[2])
        return found[1].upper(), second if is_name(second) else None
    first = tokens(text)
    begin, name = next(first, None), next(first, None)
    if not begin:
        return "", None
    return begin.upper, name if name and begin.kind == "word" and is_name(name) else None


def declaration(text: str) -> Token | None:
    """The name behind the first word of a text; None where there is none that a unit can have."""
    return head(text)[1]


def declared_name(text: str) -> str | None:
    """The declared name in upper case, if any."""
    name = declaration(text)
    return name.upper if name else None


def declared_kind(text: str) -> str | None:
    """The first word of a text in upper case: FUNCTION_BLOCK, ADAPTER, SUBAPPLICATION, SYSTEM, TYPE, or what stands there instead."""
    return head(text)[0] or None
