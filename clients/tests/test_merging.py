"""Three-way merges of texts."""
from __future__ import annotations

import random
import time
import unittest

from support import TestCase

from bench61499 import TEXT_LIMIT
from bench61499.language.merging import Merged, conflict_lines, is_marked, merged
from bench61499.language.syntax import MARKED, explained
from bench61499.language.tokens import tokens

BASE = "one\ntwo\nthree\nfour\nfive\n"


class MergingTest(TestCase):
    def check(self, mine: str, theirs: str, expected: str, conflicts: int = 0, base: str = BASE) -> None:
        self.assertEqual(merged(base, mine, theirs), Merged(expected, conflicts))

    def test_lines_apart(self) -> None:
        self.check("one\nTWO\nthree\nfour\nfive\n", "one\ntwo\nthree\nFOUR\nfive\n", "one\nTWO\nthree\nFOUR\nfive\n")
        self.check("zero\none\ntwo\nthree\nfour\nfive\n", "one\nthree\nfour\nfive\nsix\n", "zero\none\nthree\nfour\nfive\nsix\n")
        self.check("two\nthree\nfour\nfive\n", "one\ntwo\nthree\nfour\n", "two\nthree\nfour\n")

    def test_one_side_only(self) -> None:
        for text in ("", "one", "x\n", BASE):
            self.check(text, BASE, text)
            self.check(BASE, text, text)
            self.check(text, text, text)

    def test_the_same_change_on_both_sides(self) -> None:
        self.check("one\nTWO\nthree\nfour\nfive\n", "one\nTWO\nthree\nfour\n5\n", "one\nTWO\nthree\nfour\n5\n")

    def test_the_same_line_and_lines_side_by_side_are_conflicts(self) -> None:
        marked = "one\n<<<<<<< mine\nTWO\n=======\nZWEI\n>>>>>>> theirs\nthree\nfour\nfive\n"
        self.check("one\nTWO\nthree\nfour\nfive\n", "one\nZWEI\nthree\nfour\nfive\n", marked, 1)
        marked = "one\n<<<<<<< mine\nTWO\nthree\n=======\ntwo\nTHREE\n>>>>>>> theirs\nfour\nfive\n"
        self.check("one\nTWO\nthree\nfour\nfive\n", "one\ntwo\nTHREE\nfour\nfive\n", marked, 1)
        self.assertEqual(merged(BASE, f"{BASE}6\n", f"{BASE}7\n", ("here", "session 3")).text, f"{BASE}<<<<<<< here\n6\n=======\n7\n>>>>>>> session 3\n")

    def test_a_last_line_without_an_end(self) -> None:
        self.check("one\ntwo", "ONE\ntwo\n", "<<<<<<< mine\none\ntwo\n=======\nONE\ntwo\n>>>>>>> theirs\n", 1, "one\ntwo\nthree")
        self.check("ONE\ntwo\nthree", "one\ntwo\nthree\n", "ONE\ntwo\nthree\n", 0, "one\ntwo\nthree")

    def test_only_line_feeds_end_lines(self) -> None:
        self.check("a\x0bb\r\nc\u2028d\nE\n", "A\r\nc\u2028d\ne\n", "A\r\nc\u2028d\nE\n", 0, "a\x0bb\r\nc\u2028d\ne\n")

    def test_changes_of_random_lines_that_are_apart(self) -> None:
        """Each side replaces, removes or adds at lines of its own; what has to come is made from the list of all changes."""
        rng = random.Random(61499)
        for _ in range(300):
            lines = [f"{number} {rng.choice('xy')}\n" for number in range(rng.randrange(4, 60))]
            touched = rng.sample(range(0, len(lines), 2), k=rng.randrange(1, len(lines) // 2 + 1))
            changed = {at: rng.choice(["", f"new {at}\n", f"{lines[at]}added {at}\n", f"added {at}\n{lines[at]}"]) for at in touched}
            sides = [{at: text for at, text in changed.items() if at % 4 == rest} for rest in (0, 2)]
            none: dict[int, str] = {}
            base, mine, theirs, both = ("".join(side.get(at, line) for at, line in enumerate(lines)) for side in (none, *sides, changed))
            self.assertEqual(merged(base, mine, theirs), Merged(both, 0))

    def test_texts_that_are_made_to_be_slow_are_one_conflict(self) -> None:
        rng = random.Random(61499)
        many = [rng.choice("ab") + "\n" for _ in range(TEXT_LIMIT // 2)]
        begun = time.process_time()
        it = merged("".join(many), "".join(many[::-1]), "".join(rng.sample(many, len(many))))
        self.assertEqual(it.conflicts, 1)
        self.assertLess(time.process_time() - begun, 5)

    def test_marked_lines_are_known(self) -> None:
        self.assertTrue(is_marked(merged(BASE, f"{BASE}6\n", f"{BASE}7\n").text))
        self.assertTrue(is_marked("<<<<<<< a\r\nx\r\n=======\r\ny\r\n>>>>>>> b\r\n"))
        for text in ("", BASE, "(* <<<<<<< a *)\n=======\n>>>>>>> b\n", "=======\n", "<<<<<<< a\n=======\n"):
            self.assertFalse(is_marked(text))
        first = merged(BASE, f"0\n{BASE}6\n", f"00\n{BASE}7\n").text
        self.assertEqual([first.splitlines()[number - 1] for number in conflict_lines(first)], ["<<<<<<< mine"] * 2)

    def test_marked_lines_are_explained(self) -> None:
        text = merged("A", "B", "C").text
        self.assertEqual(explained(text, list(tokens(text)), 0), MARKED)


if __name__ == "__main__":
    unittest.main()
