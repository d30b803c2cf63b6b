#!/usr/bin/env python3
"""Makes the TextMate grammar of the language, syntaxes/fb61499.tmLanguage.json, from the reserved words and elementary types of the clients.

Each pattern is one kind of token, so that a grammar finds the tokens that the clients find."""
import json
import sys
from pathlib import Path

HERE = Path(__file__).resolve().parent
FILE = HERE / "syntaxes" / "fb61499.tmLanguage.json"
sys.path.insert(0, str(HERE.parents[1] / "clients" / "python"))

from bench61499.language.declarations import ELEMENTARY  # noqa: E402
from bench61499.language.tokens import RESERVED  # noqa: E402

CONTROL = frozenset(
    "IF THEN ELSIF ELSE END_IF CASE OF END_CASE FOR TO BY DO END_FOR WHILE END_WHILE REPEAT UNTIL END_REPEAT EXIT RETURN".split()
)
OPERATORS = frozenset("AND OR XOR NOT MOD".split())
CONSTANTS = frozenset("TRUE FALSE".split())

NAME = "[A-Za-z_][A-Za-z0-9_]*"
DIGITS = "[0-9][0-9_]*"
DATE = r"(?i:D|DATE|TOD|TIME_OF_DAY|DT|DATE_AND_TIME)#[+-]?(?:[A-Za-z0-9_#]|[.:-](?=[0-9]))+"
REAL = r"(?i:L?REAL)#[+-]?(?:[A-Za-z0-9_#]|\.(?=[0-9])|(?<=[Ee])[+-](?=[0-9]))+"
TYPED = rf"{NAME}#[+-]?(?:[A-Za-z0-9_#]|\.(?=[0-9]))+"


def words(those):
    return rf"(?i:{'|'.join(sorted(those, key=lambda it: (-len(it), it)))})(?![A-Za-z0-9_])"


def named(scope, match):
    return {"name": f"{scope}.fb61499", "match": match}


def grammar():
    """The grammar. The first pattern that matches at a place counts, so a name that is no word of a kind is a pattern without a scope."""
    return {
        "$schema": "https://raw.githubusercontent.com/martinring/tmlanguage/master/tmlanguage.json",
        "name": "IEC 61499",
        "scopeName": "source.fb61499",
        "patterns": [
            named("comment.line.double-slash", "//.*$"),
            {"name": "comment.block.fb61499", "begin": r"\(\*", "end": r"\*\)"},
            named("constant.numeric.typed", f"{DATE}|{REAL}|{TYPED}"),
            named("keyword.control", words(CONTROL)),
            named("keyword.operator.word", words(OPERATORS)),
            named("constant.language", words(CONSTANTS)),
            named("keyword.other", words(RESERVED - CONTROL - OPERATORS - CONSTANTS)),
            named("support.type", words(ELEMENTARY)),
            {"match": NAME},
            named("constant.numeric", rf"{DIGITS}(?:#[A-Za-z0-9_]+|\.[0-9]+(?:[Ee][+-]?[0-9]+)?)?"),
            named("string.quoted.single", r"'(?:[^'$\r\n]|\$[^\r\n])*'"),
            named("string.quoted.double", r'"(?:[^"$\r\n]|\$[^\r\n])*"'),
            named("keyword.operator", r":=|<=|>=|<>|\*\*|->|\.\.|[=<>+\-*/&]"),
            named("punctuation", r"[;:,.()\[\]]"),
        ],
    }


def written():
    return json.dumps(grammar(), indent=2) + "\n"


if __name__ == "__main__":
    FILE.write_text(written())
