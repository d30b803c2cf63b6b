"""The tokens of an algorithm in full Structured Text, `IN ST_FULL`, which the workbench skips: those of IEC 61131-3, and names of any alphabet."""
from __future__ import annotations

import re
from collections.abc import Iterator

from bench61499.language.tokens import Token

KEYWORDS = frozenset(
    """IF THEN ELSIF ELSE END_IF CASE OF END_CASE FOR TO BY DO END_FOR WHILE END_WHILE REPEAT UNTIL END_REPEAT EXIT CONTINUE RETURN AND OR XOR NOT MOD AND_THEN
    OR_ELSE TRUE FALSE VAR VAR_TEMP VAR_INPUT VAR_OUTPUT VAR_IN_OUT VAR_EXTERNAL VAR_GLOBAL VAR_STAT VAR_INST END_VAR ARRAY""".split()
)
"""Words that are no names in such an algorithm. Words that only units reserve, such as TYPE, are names there."""
_DATES = "D|DATE|TOD|TIME_OF_DAY|DT|DATE_AND_TIME|LD|LDATE|LTOD|LTIME_OF_DAY|LDT|LDATE_AND_TIME"
_TOKEN = re.compile(
    rf"""(?P<comment> //[^\n]* | \(\*.*?\*\) | /\*.*?\*/ | \{{[^}}]*\}} )
       | (?P<typed> (?i:{_DATES})\#[+-]?\d[\d:._-]*
                  | (?i:L?REAL)\#[+-]?\d[\d_]*(?:\.\d[\d_]*)?(?:[eE][+-]?\d+)?
                  | [^\W\d]\w*(?:::[^\W\d]\w*)*\#(?: '(?:[^'$\r\n]|\$[^\r\n])*' | "(?:[^"$\r\n]|\$[^\r\n])*" | [+-]?[\w\#]+(?:\.\d\w*)* ) )
       | (?P<word> [^\W\d]\w* )
       | (?P<number> \d[\d_]*\#\w+ | \d[\d_]*(?:\.\d[\d_]*)?(?:[eE][+-]?\d+)? )
       | (?P<string> '(?:[^'$\r\n]|\$[^\r\n])*' | "(?:[^"$\r\n]|\$[^\r\n])*" )
       | (?P<direct> %\w+(?:\.\d+)* )
       | (?P<symbol> := | => | <= | >= | <> | \*\* | \.\. | :: | [;:,.()\[\]=<>+\-*/&^] )
       | (?P<other> \S )""",
    re.VERBOSE | re.DOTALL,
)


def full_tokens(text: bytes, begin: int, end: int) -> list[Token]:
    """The tokens of a part of a text, without comments and pragmas. Places are bytes of the text."""
    return list(_tokens(text[begin:end].decode(errors="replace"), begin))


def _tokens(body: str, begin: int) -> Iterator[Token]:
    is_plain, before, place = body.isascii(), 0, begin
    for found in _TOKEN.finditer(body):
        kind, (start, end) = found.lastgroup or "", found.span()
        if is_plain:
            place, behind = begin + start, begin + end
        else:
            place += len(body[before:start].encode())
            behind = place + len(found[0].encode())
        if kind != "comment":
            yield Token(kind, place, behind, found[0])
        before, place = end, behind


def is_full_name(token: Token) -> bool:
    """Whether a token is a name in such an algorithm."""
    return token.kind == "word" and token.upper not in KEYWORDS
