"""What the exchange calls a unit, and what the workbench does; and units that go to XML and back."""
from __future__ import annotations

import random
import re
import unittest
from collections import Counter
from collections.abc import Iterator

from exchanging import ExchangeTest, exported, imported, spelling, texts
from generated import faults_of
from support import workbench

from generate import Gen, Nets, deep_library, token_library  # isort: skip

from bench61499 import Places, Session
from bench61499.exchange.exchanged import Unit, written
from bench61499.exchange.forms import broken_statement, is_array, is_constant, is_type
from bench61499.exchange.from_text import NoUnit, read_or_none, read_unit
from bench61499.language.layout import formatted

JOINED = re.compile(r"(\w+(?:\.\w+)?)\s*(?:&|\bAND\b)\s*(.*)", re.IGNORECASE | re.DOTALL)
OR = re.compile(r"\bX?OR\b", re.IGNORECASE)


def libraries(seed: int, count: int) -> Iterator[dict[str, str]]:
    """Random units of all kinds, with faults, with odd characters, with deep nesting, and in networks."""
    rng = random.Random(seed)
    faulty, nets = Gen(rng), Nets(rng)
    for _ in range(count):
        yield faulty.library()
        yield token_library(rng)
        yield deep_library(rng)
        yield nets.library()


def outside_brackets(words: str) -> str:
    while (less := re.sub(r"\([^()]*\)|\[[^][]*\]", "", words)) != words:
        words = less
    return words


class FormsTest(ExchangeTest):
    def test_what_is_whole(self) -> None:
        counts: Counter[bool] = Counter()
        with Session.script(workbench()) as session:
            for library in libraries(1, 40):
                for name, faults in faults_of(session, library).items():
                    broken = [it for it in faults if it.code == "SYNTAX"]
                    counts[bool(broken)] += 1
                    if broken:
                        with self.assertRaises(NoUnit, msg=library[name]) as found:
                            read_unit(library[name])
                        if not library[name].endswith("\r"):
                            self.assertEqual(found.exception.line, Places(library[name].replace("\r", " ")).line_column(broken[0].start)[0], library[name])
                    else:
                        again = written(read_unit(library[name]).unit)
                        self.assertEqual(written(read_unit(again).unit), again)
                        self.assertEqual(formatted(again), [])
        self.assertGreater(counts[True], 50)
        self.assertGreater(counts[False], 500)

    def test_there_and_back(self) -> None:
        counts: Counter[str] = Counter()
        with Session.script(workbench()) as session:
            for number, library in enumerate(libraries(2, 25)):
                lib, xml, back = (self.folder / f"{it}{number}" for it in ("lib", "xml", "back"))
                whole = {name: written(it) for name, text in library.items() if (it := self.whole(text)) and it.name.upper() == name}
                for name, text in whole.items():
                    self.write(f"lib{number}/{name}.fb", text)
                if not whole:
                    continue
                told = exported([lib], xml).lines
                told += imported([xml], back).lines if xml.exists() else []
                found, faults = texts(back), faults_of(session, whole)
                for name, text in whole.items():
                    has_no_event = any(it.code == "EVENT_UNKNOWN" for it in faults[name])
                    is_told = f"{name}.fb" not in found or any(f"/{name}." in it and ": note: " not in it for it in told)
                    counts["all"] += 1
                    if not is_told and not has_no_event:
                        counts["same"] += 1
                        self.assertEqual(spelling(found[f"{name}.fb"]), spelling(text))
        self.assertGreater(counts["same"], counts["all"] // 2)

    def whole(self, text: str) -> Unit | None:
        """A unit as it is to come back: a guard with OR that is joined to its event is in brackets."""
        unit = read_or_none(text)
        for it in unit.transitions if unit else ():
            joined = JOINED.fullmatch(it.condition)
            if joined and OR.search(outside_brackets(joined[2])):
                it.condition = f"{joined[1]} [{joined[2]}]"
        return unit

    def test_constants_and_types(self) -> None:
        for words in ("1", "-5", "+ 5", "16#FF", "T#1h", "'a$'b'", '"w"', "[1, -2]", "RED", "TRUE", "1.5E-3"):
            self.assertTrue(is_constant(words), words)
        for words in ("", "1e5", "2*3", "[3(0)]", "(X := 1)", "STRING#'x'", "two words", "[]", "-RED", "'a", "1 (* one *)", "[1, 2", "WITH"):
            self.assertFalse(is_constant(words), words)
        for words in ("INT", "STRING[20]", "ARRAY [0..3] OF INT", "array[-1..+1,0..1]of X"):
            self.assertTrue(is_type(words), words)
        for words in ("", "POINTER TO INT", "STRING(20)", "ARRAY [3] OF INT", "ARRAY [0..1] OF STRING[3]", "1"):
            self.assertFalse(is_type(words), words)
        self.assertTrue(is_array("array [0..1] OF X"))
        self.assertFalse(is_array("ARRAY_1_OF_X"))

    def test_the_word_that_breaks_statements(self) -> None:
        told = {
            "X := 1; Y := X;": "",
            "": "",
            "X := ABS(X);": "(",
            "CASE X OF RED: Y := 1; END_CASE;": "RED",
            "VAR_TEMP i : INT; END_VAR": "VAR_TEMP",
            "VAR i : INT; END_VAR": "VAR",
            "X := 1; CONTINUE;": "CONTINUE",
            "X := 1e5;": "e5",
            "{once} X := 1;": "{",
            "X := 1": "its end",
            "IF X THEN": "its end",
            f"X := {'(' * 65}1{')' * 65};": "(",
            f"X := {'(' * 64}1{')' * 64};": "",
        }
        self.assertEqual({body: broken_statement(body) for body in told}, told)


if __name__ == "__main__":
    unittest.main()
