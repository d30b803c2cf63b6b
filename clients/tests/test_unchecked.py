"""What the clients report of names without the workbench: the same as the workbench, and of broken texts no more than it reports of them once corrected."""
from __future__ import annotations

import random
import unittest
from collections import Counter
from collections.abc import Iterator
from itertools import chain

from generated import faults_of, faulty_libraries, so_many, sound_libraries
from structures import structured_libraries
from support import workbench

from bench61499 import Fault, Session
from bench61499.language.texts import Texts
from bench61499.language.tokens import RESERVED, Token, tokens
from bench61499.language.unchecked import Judge, notes

EXACT = frozenset(
    """WITH_UNKNOWN STATE_UNKNOWN ALGORITHM_UNKNOWN EVENT_UNKNOWN VARIABLE_UNKNOWN PORT_UNKNOWN PORT_SIDE PARAMETER_UNKNOWN NO_SUCH_RESOURCE
    WRONG_KIND""".split()
)
"""Codes of which all faults are found; of the others it may be some."""


def libraries(seed: int, units: int) -> Iterator[dict[str, str]]:
    return chain.from_iterable(so_many(made(seed), units) for made in (faulty_libraries, sound_libraries, structured_libraries))


def broken_units(faults: dict[str, tuple[Fault, ...]]) -> set[str]:
    return {name for name, its in faults.items() if any(it.code == "SYNTAX" for it in its)}


class JudgeTest(unittest.TestCase):
    def test_names_are_judged_as_by_the_workbench(self) -> None:
        counts: Counter[str] = Counter()
        with Session.script(workbench()) as session:
            for texts in libraries(21, 600):
                faults = faults_of(session, texts)
                broken = broken_units(faults)
                for name in texts.keys() - broken:
                    found = list(Judge(texts[name], Texts.of(texts), broken.__contains__).faults())
                    self.assertLessEqual(set(found), set(faults[name]), texts)
                    self.assertEqual([it for it in faults[name] if it.code in EXACT and it not in found], [], texts)
                    counts.update(it.code for it in found)
        self.assertGreater(min(counts[code] for code in EXACT), 5, counts)

    def test_fields_after_a_type_that_can_not_be_used(self) -> None:
        """After a plug or a structure that is broken, absent or of another kind no name is checked."""
        head = "FUNCTION_BLOCK A SOCKETS F : T; END_SOCKETS VAR V : INT; W : S; END_VAR ALGORITHM Q IN ST"
        texts = {"A": f"{head} V := F.X.IN; V := W.X.IN; END_ALGORITHM END_FUNCTION_BLOCK", "B": "TYPE B : STRUCT END_STRUCT END_TYPE"}
        adapter, structure = "ADAPTER T VAR_INPUT X : B; END_VAR END_ADAPTER", "TYPE S : STRUCT X : B; END_STRUCT END_TYPE"
        cases: list[tuple[dict[str, str], int]] = [
            ({"T": adapter, "S": structure}, 2), ({"T": adapter.replace("ADAPTER", "FUNCTION_BLOCK")}, 0), ({"T": adapter[:-11]}, 0), ({"S": structure[:-8]}, 0), ({}, 0),
        ]
        with Session.script(workbench()) as session:
            for more, count in cases:
                faults = faults_of(session, texts | more)
                found = [it for it in Judge(texts["A"], Texts.of(texts | more), broken_units(faults).__contains__).faults() if it.code == "MEMBER_UNKNOWN"]
                self.assertEqual((len(found), set(found)), (count, {it for it in faults["A"] if it.code == "MEMBER_UNKNOWN"}), more)


class NotesTest(unittest.TestCase):
    def test_notes_are_faults_of_the_whole_text(self) -> None:
        """Of texts without one of their symbols or reserved words."""
        self.chance = random.Random(5)
        count = 0
        with Session.script(workbench()) as session:
            for texts in libraries(31, 300):
                before = faults_of(session, texts)
                name = self.chance.choice(sorted(texts))
                if name in broken_units(before):
                    continue
                text = self.torn(texts[name])
                after = faults_of(session, {**texts, name: text})
                broken = broken_units(after)
                if name in broken:
                    found = notes(text, Texts.of({**texts, name: text}), broken.__contains__)
                    count += self.check(texts[name], before[name], text, found)
        self.assertGreater(count, 60)

    def torn(self, text: str) -> str:
        it = self.chance.choice([it for it in tokens(text) if it.kind == "symbol" or it.upper in RESERVED])
        encoded = text.encode()
        return (encoded[: it.start] + b" " + encoded[it.end :]).decode()

    def check(self, whole: str, faults: tuple[Fault, ...], text: str, found: list[Fault]) -> int:
        """Gives how many notes on names there are."""
        known = {(it.code, spelled(whole, it)) for it in faults}
        its = [it for it in found if it.code != "SYNTAX"]
        self.assertEqual([it for it in its if (it.code, spelled(text, it)) not in known], [], text)
        return len(its)

    def notes(self, text: str, **others: str) -> list[tuple[str, str]]:
        texts = Texts.of({"A": text, **others})
        return [(it.code, spelled(text, it)) for it in notes(text, texts, lambda name: name == "A")]

    def test_names_that_may_be_declared_where_the_text_is_broken(self) -> None:
        head, end = "FUNCTION_BLOCK A EVENT_INPUT E WITH X, Y; END_EVENT ", " END_FUNCTION_BLOCK"
        self.assertEqual(self.notes(f"{head} VAR_INPUT X INT; END_VAR {end}"), [("WITH_UNKNOWN", "Y")])
        self.assertEqual(self.notes(f"{head} VARINPUT X, Y : INT; END_VAR {end}"), [])
        self.assertEqual(self.notes(f"{head} (* VAR_INPUT X, Y : INT; END_VAR {end}"), [])
        self.assertEqual(self.notes(f"{head} VAR_INPUT X : INT;"), [])

    def test_a_text_that_is_not_broken_has_none(self) -> None:
        """The workbench may have another text of the unit."""
        self.assertEqual(self.notes("FUNCTION_BLOCK A EVENT_INPUT E WITH X; END_EVENT END_FUNCTION_BLOCK"), [])
        self.assertEqual(self.notes(""), [])

    def test_further_places_that_can_not_be_read(self) -> None:
        text = "FUNCTION_BLOCK A VAR X INT; Y : INT Z : INT; END_VAR EVENT_INPUT 5; END_EVENT VAR_INPUT END_FUNCTION_BLOCK"
        self.assertEqual(self.notes(text), [("SYNTAX", "Z"), ("SYNTAX", "5"), ("SYNTAX", "END_FUNCTION_BLOCK")])

    def test_a_second_unit_is_not_taken_for_a_part_of_the_first(self) -> None:
        text = "FUNCTION_BLOCK A EVENT_INPUT E WITH X; END_EVENT END_FUNCTION_BLOCK FUNCTION_BLOCK B EVENT_INPUT E; F; END_EVENT END_FUNCTION_BLOCK"
        self.assertEqual(self.notes(text), [("WITH_UNKNOWN", "X")])
        self.assertEqual(self.notes(text.replace("END_FUNCTION_BLOCK", "", 1)), [])

    def test_types_that_are_broken_or_absent(self) -> None:
        text = "SUBAPPLICATION A FBS X : B; Y : C; END_FBS EVENT_CONNECTIONS X.E TO X.F; Y.E TO Y.F; END_CONNECTIONS"
        self.assertEqual(self.notes(text, C="FUNCTION_BLOCK C END_FUNCTION_BLOCK"), [("UNKNOWN_TYPE", "B"), ("PORT_UNKNOWN", "Y.E"), ("PORT_UNKNOWN", "Y.F")])


def spelled(text: str, fault: Fault) -> str:
    """The words at a fault, without blanks and comments."""
    its: list[Token] = list(tokens(text))
    return "".join(it.upper for it in its if fault.start <= it.start and it.end <= fault.end)


if __name__ == "__main__":
    unittest.main()
