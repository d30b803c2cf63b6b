"""Where a text leaves the grammar: the place of the workbench's SYNTAX fault, and what was expected there."""
from __future__ import annotations

import random
import unittest
from collections.abc import Iterator

from generated import faults_of, faulty_libraries, so_many, sound_libraries
from structures import structured_libraries
from support import workbench

from bench61499 import Session
from bench61499.language.grammar import DEEPEST, first_stop
from bench61499.language.tokens import tokens

MENDABLE = ["", ";", "END_IF", "END_VAR", "IF", "X", "(", "[", "1", "..", ".", ":=", "IN", "ON", "ST", "AND", "FUNCTION_BLOCK", "END_STRUCT", "'", "ELSE"]


def broken(texts: dict[str, str], chance: random.Random) -> dict[str, str]:
    """The texts with a token that is gone or another one in its place; some stay as they are."""
    made = {}
    for name, text in texts.items():
        it = chance.choice([*tokens(text), *tokens("A")])
        encoded = text.encode()
        made[name] = (encoded[: it.start] + f" {chance.choice(MENDABLE)} ".encode() + encoded[it.end :]).decode()
    return made


def libraries() -> Iterator[dict[str, str]]:
    chance = random.Random(9)
    for made in (faulty_libraries(11), sound_libraries(11), structured_libraries(11)):
        for texts in so_many(made, 400):
            yield texts
            yield broken(texts, chance)


class PlaceTest(unittest.TestCase):
    def test_it_is_that_of_the_workbench(self) -> None:
        count = 0
        with Session.script(workbench()) as session:
            for texts in libraries():
                for name, faults in faults_of(session, texts).items():
                    wanted = next((it.start for it in faults if it.code == "SYNTAX"), None)
                    self.assertEqual(self.place(texts[name]), wanted, texts[name])
                    count += wanted is not None
        self.assertGreater(count, 800)

    def place(self, text: str) -> int | None:
        its = list(tokens(text))
        stop = first_stop(its)
        if not stop:
            return None
        return its[stop.at].start if stop.at < len(its) else len(text.encode())

    def test_the_deepest_level(self) -> None:
        """What nests as deep as it may, and one level deeper."""
        head = "FUNCTION_BLOCK A ALGORITHM X IN ST "
        forms = {
            "parentheses": ("Y := ", "(", "1", ")", ";"),
            "subscripts": ("Y := ", "Z[", "1", "]", ";"),
            "statements": ("", "IF 1 THEN ", "Y := Z[1];", " END_IF", ""),
            "mixed": ("", "REPEAT Y[(1)] := 1; UNTIL 1 END_REPEAT; WHILE 1 DO ", ";", " END_WHILE", ""),
        }
        with Session.script(workbench()) as session:
            for what, (begin, opening, inner, closing, end) in forms.items():
                for depth in (DEEPEST - 2, DEEPEST - 1, DEEPEST, DEEPEST + 1):
                    text = head + begin + opening * depth + inner + closing * depth + end + " END_ALGORITHM END_FUNCTION_BLOCK"
                    faults = faults_of(session, {"A": text})["A"]
                    wanted = next((it.start for it in faults if it.code == "SYNTAX"), None)
                    self.assertEqual(self.place(text), wanted, (what, depth))


if __name__ == "__main__":
    unittest.main()
