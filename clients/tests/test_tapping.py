"""The tests' own network: it counts each recorded call that clients make, and nothing gets past it unseen."""
from __future__ import annotations

import unittest
from contextlib import ExitStack
from unittest import TestCase

from support import hosting, until
from tapping import Tap

from bench61499 import ConnectionEnded, NoWorkbench, Put, Session, StaleBase, WorkbenchError

TEXT = "FUNCTION_BLOCK A END_FUNCTION_BLOCK"


class TapTest(TestCase):
    def setUp(self) -> None:
        stack = ExitStack()
        self.addCleanup(stack.close)
        self.host = stack.enter_context(hosting("--open"))
        self.tap = stack.enter_context(Tap(self.host))
        self.session = stack.enter_context(Session.connect("127.0.0.1", self.tap.port))
        self.other = stack.enter_context(Session.connect("127.0.0.1", self.host))
        self.session.commit([Put("A", 0, TEXT)])
        until(lambda: self.session.peek("faults", "A") == ())

    def unexplained(self) -> str:
        until(lambda: not self.session.status().pending)
        return self.tap.unexplained(self.session.status())

    def test_commits_and_reads_are_explained(self) -> None:
        with self.assertRaises(StaleBase):
            self.session.commit([Put("A", 7, TEXT)])
        with self.assertRaises(WorkbenchError):
            self.session.commit([Put("1", 0, TEXT)])
        self.session.text("A")
        self.session.watch(0)
        self.assertEqual(self.unexplained(), "")
        self.assertEqual(self.tap.commits, {True: 1, False: 1})

    def test_a_recorded_question_is_not(self) -> None:
        self.session.faults("A")
        self.assertIn("{'ask': 1} was asked", self.unexplained())
        self.session.revision("A")
        self.assertIn("{'ask': 1, 'question': 1} was asked", self.unexplained())

    def test_what_gets_past_it_is_not(self) -> None:
        self.other.faults("A")
        self.assertIn("3 calls of workers", self.unexplained())
        self.other.commit([Put("A", 1, TEXT)])
        self.assertIn("1 of 2 good commits", self.unexplained())

    def test_a_network_that_is_cut_and_mended(self) -> None:
        self.tap.cut()
        with self.assertRaises(ConnectionEnded):
            self.session.status()
        with self.assertRaises(NoWorkbench):
            Session.connect("127.0.0.1", self.tap.port)
        self.tap.mend()
        with Session.connect("127.0.0.1", self.tap.port) as session:
            self.assertEqual(session.status().commits, 1)


if __name__ == "__main__":
    unittest.main()
