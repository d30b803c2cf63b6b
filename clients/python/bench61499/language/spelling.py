"""Uses that are spelled in other capitals than their declarations. The language does not tell them apart, and other tools do."""
from __future__ import annotations

import re
from collections import defaultdict
from collections.abc import Iterator, Mapping
from typing import NamedTuple

from bench61499.language.declarations import Use, is_elementary
from bench61499.language.reader import read
from bench61499.language.texts import Texts
from bench61499.language.tokens import RESERVED

CODE = "SPELLING"
_ASIDE = re.compile(r"""\(\*.*?\*\)|//[^\n]*|'[^'\n]*'|"[^"\n]*\"""", re.DOTALL)
"""Comments and strings; one that holds a quote or is not closed is taken for words, and its unit is looked at."""
_WORD = re.compile(r"[A-Za-z_]\w*", re.ASCII)
_SMALL = re.compile(r"[a-z]")


class Differing(NamedTuple):
    """A use at its place, and how its declaration is spelled."""

    start: int
    end: int
    used: str
    declared: str

    @property
    def explanation(self) -> str:
        return f"{self.used} is declared as {self.declared}; tools such as 4diac tell capitals apart"


def differing(texts: Mapping[str, str], around: Texts) -> dict[str, list[Differing]]:
    """By unit the uses whose declarations are spelled otherwise. `around` finds the units that declare them."""
    if not any(_SMALL.search(_ASIDE.sub(" ", text)) for text in texts.values() if text != text.upper()):
        return {}
    words = {unit: set(_WORD.findall(_ASIDE.sub(" ", text))) for unit, text in texts.items()}
    spellings: defaultdict[str, set[str]] = defaultdict(set)
    for word in set().union(*words.values()):
        spellings[word.upper()].add(word)
    several = {word for upper, its in spellings.items() if len(its) > 1 and upper not in RESERVED and not is_elementary(upper) for word in its}
    return {unit: found for unit, own in words.items() if own & several and (found := list(differing_in(texts[unit], around)))}


def differing_in(text: str, around: Texts) -> Iterator[Differing]:
    """The uses of one text whose declarations are spelled otherwise."""
    encoded = text.encode()
    for use in read(text).uses:
        used = encoded[use.start : use.end].decode()
        declared = _declared(use, around)
        if declared and used not in declared and used.upper() == declared[0].upper():
            yield Differing(use.start, use.end, used, declared[0])


def _declared(use: Use, around: Texts) -> list[str]:
    """The spellings of the declarations of a name; those that have other capitals are one name here."""
    key = use.key._replace(unit=around.owner(use.walk)) if use.walk else use.key
    its = around.unit(key.unit)
    return [it.words for it in its.declared if it.key == key] if its and key in its.first else []


def respelled(text: str, its: list[Differing]) -> str:
    """A text with its uses spelled as their declarations."""
    encoded = text.encode()
    for it in sorted(its, reverse=True):
        encoded = encoded[: it.start] + it.declared.encode() + encoded[it.end :]
    return encoded.decode()
