"""Names of files as names of the language, and back.

One function, which knows nothing of where a name is: so declarations and uses fit, in all files of all runs.
"""
from __future__ import annotations

import re
from binascii import crc32
from collections.abc import Callable

from bench61499.language.tokens import RESERVED
from bench61499 import NAME_LIMIT

NO_NAME, NO_TYPE, NO_END, NO_SOURCE = "NO_NAME", "NO_TYPE", "NO_END", "NO_SOURCE"
OPERATOR_WORDS = frozenset("AND OR XOR NOT MOD TRUE FALSE".split())
STATEMENT_WORDS = OPERATOR_WORDS | frozenset(
    """IF THEN ELSIF ELSE END_IF CASE END_CASE FOR BY DO END_FOR WHILE END_WHILE REPEAT UNTIL END_REPEAT EXIT RETURN ARRAY OF TO""".split()
)
_WORD = re.compile(r"[A-Za-z_]\w*", re.ASCII)
_ANY_WORD = re.compile(r"[^\W\d]\w*")
_PACKAGE = re.compile(r"\s*\w+\s*(::\s*\w+\s*)*")
_NO_WORD_SIGN = re.compile(r"\W", re.ASCII)
ASIDES = r"""//[^\n]* | \(\*(?:.*?\*\)|.*) | /\*(?:.*?\*/|.*) | '(?:[^'$\r\n]|\$[^\r\n])*+'? | "(?:[^"$\r\n]|\$[^\r\n])*+"?"""
"""Comments and strings, as a verbose pattern. One that is not closed goes on to the end of the text or of the line, so that nothing is looked at twice."""
# What is in a body or an expression: comments, strings, typed literals and numbers are kept; words of any alphabet are names.
_PIECES = re.compile(
    rf"""(?P<kept> {ASIDES} | [A-Za-z_]\w*\#[+-]?[\w\#]*(?:\.\d\w*)* | \d[\w\#.]*) | (?P<word>[^\W\d]\w*)""",
    re.VERBOSE | re.DOTALL,
)
_NUMBERS = re.compile(
    rf"""{ASIDES} | [^\W\d]\w*(?:\#[+-]?[\w\#.]*)? | \d\w*\#\w* | \d[\d_]*\.\w+(?:(?<=[eE])[+-]\d+)? | (?P<digits>\d[\d_]*)(?P<exponent>[eE][+-]?\d+)(?!\w)""",
    re.VERBOSE | re.DOTALL | re.ASCII,
)
_UPPER = str.maketrans("abcdefghijklmnopqrstuvwxyz", "ABCDEFGHIJKLMNOPQRSTUVWXYZ")


def spelled(name: str) -> str:
    """A name of a file as a name of the language."""
    if _WORD.fullmatch(name) and len(name) <= NAME_LIMIT:
        name_ = f"{name}_" if _is_reserved(name) else name
        if len(name_) <= NAME_LIMIT:
            return name_
    return _stand_in(name)


def _is_reserved(name: str) -> bool:
    return name.upper().rstrip("_") in RESERVED


def _stand_in(name: str) -> str:
    """A name for one that is too long or has other signs: its beginning and a number that is made of the whole."""
    beginning = _NO_WORD_SIGN.sub("_", name)
    beginning = beginning[:55] if not beginning[:1].isdigit() else f"_{beginning[:54]}"
    return f"{beginning}_{crc32(name.translate(_UPPER).encode()):08X}"


def why_renamed(name: str) -> str:
    if not _WORD.fullmatch(name):
        return "it is no name here"
    if len(name) > NAME_LIMIT or len(spelled(name)) > NAME_LIMIT or not _is_reserved(name):
        return "it is longer than 64 bytes"
    return "it would be read as one that was renamed" if name.endswith("_") else "it is a reserved word here"


def needs_record(name: str) -> bool:
    """Whether the name of a file can't be told from its name in a text."""
    return spelled(name) not in (name, f"{name}_")


def restored(name: str, recorded: dict[str, str]) -> str:
    """A name of a text as the file had it."""
    if name in recorded:
        return recorded[name]
    return name[:-1] if name.endswith("_") and _is_reserved(name) else name


def replace_words(body: str, kept: frozenset[str], change: Callable[[str], str]) -> str:
    """A body or an expression with all names changed. Comments, literals and the words of the language in `kept` stay."""

    def changed(found: re.Match[str]) -> str:
        word = found["word"]
        return found[0] if word is None or word.upper() in kept else change(word)

    return _PIECES.sub(changed, body)


def with_points(body: str) -> str:
    """A body or an expression with `1.0e5` for `1e5`."""
    return _NUMBERS.sub(lambda it: f"{it['digits']}.0{it['exponent']}" if it["digits"] else it[0], body)


def without_package(name: str) -> tuple[str, str]:
    """Of `pkg::sub::T` the package and the last part."""
    package, _, last = name.rpartition("::")
    return (package.strip(), last.strip()) if _PACKAGE.fullmatch(package) else ("", name)


def is_word(name: str) -> bool:
    return bool(_WORD.fullmatch(name))


def is_word_of_any_alphabet(name: str) -> bool:
    return bool(_ANY_WORD.fullmatch(name))
