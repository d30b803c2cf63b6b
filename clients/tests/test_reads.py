"""What a host answers without recording it, over sessions of the library."""
from __future__ import annotations

import unittest
from typing import Any

from support import answering, hosting, serving, until, GREETING, HISTORY

from bench61499 import (
    BadReply, Blocked, Commit, Fault, Flat, Key, NoReads, NoSuchKey, NoSuchUnit, Put, Refused, Remove, Result, Revision, Revisions, Session, Text, There, Watched,
)

A = "FUNCTION_BLOCK A END_FUNCTION_BLOCK"
FAULTY = "FUNCTION_BLOCK A EVENT_INPUT E WITH X; END_EVENT END_FUNCTION_BLOCK"
FAULT = Fault("WITH_UNKNOWN", 36, 37)


class ReadsTest(unittest.TestCase):
    def setUp(self) -> None:
        self.port = self.enterContext(hosting())
        self.session = self.connected()

    def connected(self) -> Session:
        return self.enterContext(Session.connect("127.0.0.1", self.port))

    def settled(self, units: int) -> int:
        """The number of the last call once the faults of all units are there, and the workers rest."""
        def state() -> tuple[int, int]:
            status = self.session.status()
            return status.pending, status.calls

        until(lambda: state()[0] == 0)
        self.assertEqual(self.session.status().units, units)
        return state()[1]

    def test_status(self):
        other = self.connected()
        self.session.commit([Put("A", 0, A), Put("P", 0, "SYSTEM P END_SYSTEM")])
        self.settled(2)
        status = self.session.status()
        self.assertEqual((status.commits, status.units, status.keys, status.pending), (1, 2, 4, 0))  # Faults of both, a net and a plan.
        self.assertEqual(other.status().calls, status.calls)
        self.assertEqual(other.status().workbench, status.workbench)
        self.assertNotEqual(other.status().session, status.session)

    def test_texts(self):
        self.session.commit([Put("A", 0, A)])
        self.session.commit([Put("B", 0, "ä\n"), Put("A", 1, FAULTY)])
        at = self.settled(2)
        self.assertEqual(self.session.text("a"), Text("A", 2, FAULTY, at))
        self.assertEqual(self.session.texts(["b", "NO", "A"]), {"B": Text("B", 2, "ä\n", at), "A": Text("A", 2, FAULTY, at)})
        with self.assertRaisesRegex(NoSuchUnit, "^there is no unit NO$"):
            self.session.text("NO")
        self.assertRaisesRegex(Refused, "a name is", self.session.texts, ["A", "0", "B"])
        self.assertEqual(self.session.text("B").text, "ä\n")  # No reply is left over.

    def test_values(self):
        self.session.commit([Put("A", 0, FAULTY), Put("S", 0, "SUBAPPLICATION S END_SUBAPPLICATION")])
        self.settled(2)
        self.assertEqual(self.session.peek("faults", "a"), (FAULT,))
        self.assertEqual(self.session.peek("net", "S"), Flat((), (), ()))
        self.assertRaises(NoSuchKey, self.session.peek, "net", "A")
        self.assertEqual(self.session.peek_all([("faults", "A"), ("net", "A"), ("net", "S")]), {("faults", "A"): (FAULT,), ("net", "S"): Flat((), (), ())})

    def test_of_a_network_or_a_plan_it_is_enough_that_it_is_there(self):
        system = "SYSTEM Y DEVICE D : A RESOURCE R : A END_RESOURCE END_DEVICE END_SYSTEM"
        empty, blocked = ("SUBAPPLICATION {0} {1} END_SUBAPPLICATION".format(*it) for it in (("S", ""), ("T", "FBS B : NO; END_FBS")))
        self.session.commit([Put("S", 0, empty), Put("T", 0, blocked), Put("Y", 0, system)])
        self.settled(3)
        keys: list[Key] = [("net", "S"), ("net", "T"), ("deploy", "Y"), ("faults", "S"), ("net", "A")]
        expected = {("net", "S"): There(), ("net", "T"): Blocked(("NO", "T")), ("deploy", "Y"): There(), ("faults", "S"): ()}
        self.assertEqual(self.session.peek_all(keys, is_brief=True), expected)
        self.assertEqual(self.session.ask_all(keys, is_brief=True), expected)
        self.assertEqual(self.session.ask_all(keys)["net", "S"], Flat((), (), ()))

    def test_pending_values(self):
        with Session.connect("127.0.0.1", self.enterContext(hosting("--workers", "1"))) as session:
            blocks = "".join(f"B{at} : A;" for at in range(2_000))
            session.commit([Put("A", 0, A), Put("S", 0, f"SUBAPPLICATION S FBS {blocks} END_FBS END_SUBAPPLICATION")])
            first = session.peek_all([("net", "S"), ("net", "A")])
            self.assertEqual(first.keys(), {("net", "S")})
            until(lambda: session.peek("net", "S") is not None)
            self.assertEqual(len(session.peek("net", "S").blocks), 2_000)

    def test_pages(self):
        names = sorted(f"U{at}" for at in range(1_201))
        with Session.connect("127.0.0.1", self.enterContext(hosting("--units", "2000"))) as session:
            for at in range(0, len(names), 16):
                session.commit([Put(name, 0, "") for name in names[at : at + 16]])
            found = session.units()
            self.assertEqual(found.units, tuple(Revision(name, at // 16 + 1) for at, name in enumerate(names)))
            self.assertEqual([it.unit for it in session.units_after("u2").units], names[names.index("U2") + 1 :][:1_000])
            self.assertEqual(session.units_after("V").units, ())

    def test_events(self):
        other = self.connected()
        session = self.session.status().session
        self.session.commit([Put("A", 0, A), Put("B", 0, "")])
        self.assertRaises(Refused, self.session.commit, [Put("A", 0, A)])
        at = self.settled(2)
        watched = other.watch(0)
        self.assertEqual(watched.events[0], Commit(1, session, ("A", "B"), ()))
        self.assertEqual(set(watched.events[1:]), {Result("faults", "A"), Result("faults", "B")})
        self.assertEqual((watched.at, watched.missed), (at, False))
        self.assertEqual(other.watch(at), Watched(at))
        self.assertEqual(other.watch(at, 0.05), Watched(at))
        other.commit([Remove("A", 1), Put("C", 0, "")])
        self.assertEqual(self.session.watch(at, 30).events[0], Commit(2, other.status().session, ("C",), ("A",)))
        self.assertTrue(self.session.watch(at + 1_000_000).missed)

    def test_nothing_is_recorded(self):
        self.session.commit([Put("A", 0, A)])
        at = self.settled(1)
        for _ in range(3):
            self.session.units()
            self.session.text("A")
            self.session.peek("faults", "A")
            self.session.watch(at)
            self.assertRaises(NoSuchUnit, self.session.text, "B")
            self.assertRaises(NoSuchKey, self.session.peek, "net", "A")
        self.assertEqual(self.session.status().calls, at)

    def test_a_watch_waits_longer_than_other_replies_may_take(self):
        with Session.connect("127.0.0.1", self.port, timeout=0.2) as session:
            self.assertEqual(session.watch(0, 1), Watched(0))

    def test_requests_that_are_none(self):
        cases: list[tuple[dict[str, Any], str]] = [
            ({"op": "watch", "after": -1, "wait": 0}, "`after` has to be a whole number"),
            ({"op": "watch", "after": 0, "wait": 30_001}, "`wait` has to be a whole number from 0 to 30,000"),
            ({"op": "peek", "kind": "text", "unit": "A"}, "`kind` has to be faults, net or deploy"),
            ({"op": "text"}, "`unit` has to be a text"),
        ]
        for request, wrong in cases:
            with self.assertRaisesRegex(Refused, wrong) as caught:
                self.session.request(request)
            self.assertNotIsInstance(caught.exception, NoReads)


class WithoutReadsTest(unittest.TestCase):
    def test_a_server_that_answers_none(self):
        with serving(2, "--history", str(HISTORY)) as port, Session.connect("127.0.0.1", port) as session, hosting() as other:
            self.assertFalse(session.answers_reads())
            for read in (session.status, session.units, lambda: session.text("A"), lambda: session.peek("net", "A"), lambda: session.watch(0), lambda: session.texts("A")):
                self.assertRaises(NoReads, read)
            self.assertEqual(session.commit([Put("A", 0, A)]), 1)
            with Session.connect("127.0.0.1", other) as host:
                self.assertTrue(host.answers_reads())

    def test_replies_of_the_wrong_form(self):
        for reply in b'{"at":1}', b'{"at":1,"events":[["commit",1]]}', b'{"at":1,"events":[["value","sum","A"]]}', b'{"events":[]}':
            with answering(GREETING, reply + b"\n") as port, Session.connect("127.0.0.1", port) as session:
                self.assertRaises(BadReply, session.watch, 0)
        with answering(GREETING, b'{"at":1,"units":[["A"]]}\n') as port, Session.connect("127.0.0.1", port) as session:
            self.assertRaises(BadReply, session.units)

    def test_revisions_are_of_the_first_page(self):
        pages = b'{"at":7,"units":[["A",1]]}\n', b'{"at":9,"units":[["B",2]]}\n', b'{"at":9,"units":[]}\n'
        with answering(GREETING, *pages) as port, Session.connect("127.0.0.1", port) as session:
            self.assertEqual(session.units(), Revisions(7, (Revision("A", 1), Revision("B", 2))))


if __name__ == "__main__":
    unittest.main()
