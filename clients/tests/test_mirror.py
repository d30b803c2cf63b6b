"""A copy of a workbench that is kept up to date by what its host reports."""
from __future__ import annotations

import random
import threading
import time
import unittest
from collections.abc import Callable, Iterable
from contextlib import suppress
from functools import partial
from itertools import repeat
from unittest.mock import patch

from support import free_port, hosting, serving, until

from bench61499 import Commit, ConnectionEnded, Fault, Flat, Kind, NoReads, NoWorkbench, Put, Remove, Session, WorkbenchError
from bench61499.mirror import ABSENT, Came, Changed, Connected, Disconnected, Loaded, Mirror, News, NoKey, OtherWorkbench, UnitChange, Version

A = "FUNCTION_BLOCK A END_FUNCTION_BLOCK"
FAULTY = "FUNCTION_BLOCK A EVENT_INPUT E WITH X; END_EVENT END_FUNCTION_BLOCK"
USER = "SUBAPPLICATION S FBS X : A; END_FBS END_SUBAPPLICATION"
FAULTS = (Fault("WITH_UNKNOWN", 36, 37),)


class MirrorTest(unittest.TestCase):
    """A host with one engineer, and mirrors of it."""

    def host(self, *words: str) -> None:
        self.port = self.enterContext(hosting(*words))
        self.engineer = self.enterContext(Session.connect("127.0.0.1", self.port))

    def mirror(self, all_texts: bool = False, kinds: Iterable[Kind] = ("faults",)) -> Mirror:
        """A mirror that has begun. It reports to `self.news`, and its sessions are `self.sessions`."""
        self.news: list[News] = []
        self.sessions: list[Session] = []

        def connect() -> Session:
            self.sessions.append(Session.connect("127.0.0.1", self.port))
            return self.sessions[-1]

        return self.enterContext(Mirror(connect, self.news.append, all_texts=all_texts, kinds=kinds))

    def loaded(self, all_texts: bool = False, kinds: Iterable[Kind] = ("faults",)) -> Mirror:
        mirror = self.mirror(all_texts, kinds)
        until(lambda: Loaded() in self.news)
        return mirror

    def of(self, kind: type) -> list:
        return [it for it in self.news if isinstance(it, kind)]

    def test_what_is_there(self):
        self.host()
        self.engineer.commit([Put("A", 0, FAULTY), Put("S", 0, USER)])
        until(lambda: not self.engineer.status().pending)
        calls = self.engineer.status().calls
        mirror = self.loaded()
        self.assertEqual(mirror.revisions(), {"A": 1, "S": 1})
        self.assertEqual(mirror.version("a"), Version(1, None))
        self.assertEqual(mirror.text("a"), Version(1, FAULTY))
        self.assertEqual(mirror.version("A"), Version(1, FAULTY))
        self.assertEqual((mirror.text("NO"), mirror.version("NO"), mirror.value("faults", "NO")), (ABSENT, ABSENT, NoKey()))
        self.assertEqual(mirror.values("faults"), {"A": FAULTS, "S": ()})
        self.assertIsNone(mirror.value("net", "S"))
        self.assertEqual(mirror.want("net", "S").units, ("A",))
        self.assertEqual((mirror.want("net", "A"), mirror.value("net", "A")), (NoKey(), NoKey()))
        self.assertEqual(self.engineer.status().calls, calls)
        self.assertIsNone(mirror.error)

    def test_all_texts(self):
        self.host()
        self.engineer.commit([Put("A", 0, A), Put("S", 0, USER)])
        mirror = self.loaded(all_texts=True, kinds=())
        self.assertEqual(mirror.versions(), {"A": Version(1, A), "S": Version(1, USER)})
        self.assertEqual((mirror.values("faults"), self.of(Came)), ({}, []))

    def test_a_commit_and_its_results(self):
        self.host()
        self.engineer.commit([Put("A", 0, A), Put("S", 0, USER), Put("Z", 0, A.replace(" A", " Z"))])
        caller = self.engineer.status().session
        until(lambda: not self.engineer.status().pending)
        mirror = self.loaded(all_texts=True)
        self.assertEqual(mirror.want("net", "S").blocks[0].type, "A")
        self.engineer.commit([Put("A", 1, FAULTY), Remove("Z", 1)])
        until(lambda: mirror.value("faults", "A") == FAULTS and not isinstance(mirror.value("net", "S"), Flat))
        changes = UnitChange("A", Version(1, A), Version(2, FAULTY)), UnitChange("Z", Version(1, A.replace(" A", " Z")), ABSENT)
        self.assertEqual(self.of(Changed), [Changed(Commit(2, caller, ("A",), ("Z",)), changes)])
        self.assertIn(Came("faults", "A", FAULTS), self.news[self.news.index(self.of(Changed)[0]) :])
        self.assertEqual(mirror.versions(), {"A": Version(2, FAULTY), "S": Version(1, USER)})
        self.assertEqual(mirror.value("faults", "Z"), NoKey())
        until(lambda: any(it.kind == "net" and it.unit == "S" and isinstance(it.before, Flat) for it in self.of(Came)))

    def test_texts_that_were_not_asked_for_are_not_read(self):
        self.host()
        self.engineer.commit([Put("A", 0, A), Put("B", 0, A)])
        mirror = self.loaded()
        mirror.text("A")
        self.engineer.commit([Put("A", 1, FAULTY), Put("B", 1, FAULTY)])
        until(lambda: self.of(Changed))
        self.assertEqual(self.of(Changed)[0].units, (UnitChange("A", Version(1, A), Version(2, FAULTY)), UnitChange("B", Version(1), Version(2))))
        self.assertEqual(mirror.text("B"), Version(2, FAULTY))

    def test_its_user_commits(self):
        self.host()
        mirror = self.loaded(all_texts=True)
        with mirror.session(mirror.workbench) as session:
            self.assertEqual(session.commit([Put("A", 0, A)]), 1)
        until(lambda: self.of(Changed))
        self.assertEqual(self.of(Changed)[0].commit, Commit(1, mirror.caller, ("A",), ()))
        with self.assertRaises(OtherWorkbench), mirror.session("0" * 32):
            self.fail("a session of another workbench")

    def test_a_connection_that_ends(self):
        self.host()
        self.engineer.commit([Put("A", 0, A)])
        mirror = self.loaded(all_texts=True)
        for session in self.sessions[:2]:
            session.close()
        self.engineer.commit([Put("A", 1, FAULTY)])
        until(lambda: self.of(Changed) and self.of(Connected)[1:] and mirror.value("faults", "A") == FAULTS)
        self.assertEqual([it.is_other for it in self.of(Connected)], [True, False])
        self.assertEqual(self.of(Changed)[0].units, (UnitChange("A", Version(1, A), Version(2, FAULTY)),))
        self.assertIsInstance(self.of(Disconnected)[0].error, ConnectionEnded)

    def test_a_connection_that_ends_while_the_units_are_listed(self):
        """It is begun again from nothing."""
        class Ending(Session):
            ends = [True]

            def units(self):
                if self.ends and self.ends.pop():
                    raise ConnectionEnded("it ended")
                return super().units()

        self.host()
        self.engineer.commit([Put("A", 0, A)])
        news: list[News] = []
        with Mirror(lambda: Ending.connect("127.0.0.1", self.port), news.append, all_texts=True) as mirror:
            until(lambda: mirror.is_loaded)
            self.assertEqual(mirror.version("A"), Version(1, A))
        self.assertEqual([it.is_other for it in news if isinstance(it, Connected)], [True])
        self.assertEqual([str(it.error) for it in news if isinstance(it, Disconnected)], ["it ended"])
        self.assertEqual(Ending.ends, [])

    def test_the_session_for_reads_ends_alone(self):
        self.host()
        self.engineer.commit([Put("A", 0, A)])
        mirror = self.loaded()
        with self.assertRaises(ConnectionEnded), mirror.session() as session:
            session.close()
            session.status()
        self.assertEqual(mirror.text("A"), Version(1, A))
        self.assertEqual(self.of(Disconnected), [])

    def test_a_host_that_is_started_again(self):
        """Its revisions begin again: the unit of another text has the same one."""
        port = free_port()
        with hosting("--port", str(port)) as self.port, Session.connect("127.0.0.1", port) as engineer:
            engineer.commit([Put("A", 0, FAULTY)])
            mirror = self.loaded(all_texts=True)
            former = mirror.workbench
            self.assertEqual(mirror.version("A"), Version(1, FAULTY))
        until(lambda: self.of(Disconnected))
        self.assertEqual(mirror.version("A"), Version(1, FAULTY))
        with hosting("--port", str(port)), Session.connect("127.0.0.1", port) as engineer:
            engineer.commit([Put("A", 0, A)])
            until(lambda: mirror.version("A") == Version(1, A) and mirror.value("faults", "A") == ())
            self.assertEqual([it.is_other for it in self.of(Connected)], [True, True])
            self.assertNotEqual(mirror.workbench, former)
            with self.assertRaises(OtherWorkbench), mirror.session(former) as session:
                session.commit([Put("A", 1, FAULTY)])
            self.assertEqual(engineer.text("A").text, A)

    def test_a_history_that_was_missed(self):
        """Only what really differs is reported; a commit of which nothing is known is reported as none."""
        self.host("--history", "100")
        self.engineer.commit([Put("A", 0, A), Put("B", 0, A), Put("C", 0, A)])
        until(lambda: not self.engineer.status().pending)
        stopped, go_on = threading.Event(), threading.Event()
        self.addCleanup(go_on.set)
        news: list[News] = []
        told = partial(self.stopping, news, stopped, go_on)
        with Mirror(lambda: Session.connect("127.0.0.1", self.port), told, all_texts=True) as mirror:
            self.assertTrue(stopped.wait(30))
            until(lambda: mirror.values("faults").keys() == {"A", "B", "C"})
            before = len(news)
            self.engineer.commit([Remove("C", 1), Put("A", 1, FAULTY), Put("D", 0, A)])
            for _ in range(200):  # The history rolls twice.
                self.engineer.faults("B")
            until(lambda: not self.engineer.status().pending)
            self.engineer.commit([Put("Z", 0, "")])
            go_on.set()
            until(lambda: len(mirror.values("faults")) == 4)
        changes = {it.unit: it for changed in news[before:] if isinstance(changed, Changed) for it in changed.units}
        self.assertEqual(changes, {
            "A": UnitChange("A", Version(1, A), Version(2, FAULTY)),
            "C": UnitChange("C", Version(1, A), ABSENT),
            "D": UnitChange("D", ABSENT, Version(2, A)),
            "Z": UnitChange("Z", ABSENT, Version(3, "")),
        })
        came = {it.unit for it in news[before:] if isinstance(it, Came)}
        self.assertNotIn("B", came)
        self.assertEqual(mirror.value("faults", "A"), FAULTS)

    def test_what_was_read_before_it_was_told(self):
        """It is reported all the same, from what was reported before."""
        self.host()
        self.read_before_it_is_told([])

    def test_what_was_read_before_all_is_listed_again(self):
        self.host("--history", "100")
        self.read_before_it_is_told(["B"] * 200)  # The history rolls twice.

    def read_before_it_is_told(self, asked: list[str]) -> None:
        """Reads a text between its commit and the news of it; the engineer asks for these faults meanwhile."""
        self.engineer.commit([Put("A", 0, A), Put("B", 0, A)])
        stopped, go_on = threading.Event(), threading.Event()
        self.addCleanup(go_on.set)
        news: list[News] = []
        with Mirror(lambda: Session.connect("127.0.0.1", self.port), partial(self.stopping, news, stopped, go_on)) as mirror:
            self.assertTrue(stopped.wait(30))
            self.engineer.commit([Put("A", 1, FAULTY)])
            self.assertEqual(mirror.text("A"), Version(2, FAULTY))
            for unit in asked:
                self.engineer.faults(unit)
            go_on.set()
            until(lambda: any(isinstance(it, Changed) for it in news))
        (changed,) = [it for it in news if isinstance(it, Changed)]
        self.assertEqual((changed.commit is None, changed.units), (bool(asked), (UnitChange("A", Version(1), Version(2, FAULTY)),)))

    def stopping(self, news: list[News], stopped: threading.Event, go_on: threading.Event, it: News) -> None:
        """Takes news, and stops the mirror once all was read until it may continue."""
        news.append(it)
        if isinstance(it, Loaded):
            stopped.set()
            go_on.wait(30)

    def test_no_server_and_none_that_reads(self):
        self.port = free_port()
        mirror = self.mirror()
        until(lambda: self.news)
        self.assertIsInstance(mirror.error, NoWorkbench)
        self.assertEqual((mirror.revisions(), mirror.workbench), ({}, ""))
        with self.assertRaises(NoWorkbench), mirror.session():
            pass
        self.assertIsNone(mirror.want("net", "A"))
        with serving(9, "--port", str(self.port)):
            until(lambda: isinstance(mirror.error, NoReads))
        mirror.close()
        self.assertEqual([type(it) for it in self.news[:2]], [Disconnected, Disconnected])

    def test_it_ends_at_once(self):
        self.host()
        mirror = self.loaded()
        start = time.monotonic()
        mirror.close()
        self.assertLess(time.monotonic() - start, 4)  # A watch waits 25 s.
        self.assertFalse(mirror.is_running())

    def test_it_ends_at_any_moment(self):
        """Also while it connects, and while it reads: its thread ends without a word."""
        self.host()
        self.engineer.commit([Put("A", 0, A)])
        failed: list[object] = []
        with patch("threading.excepthook", failed.append):
            for at in range(60):
                mirror = Mirror(lambda: Session.connect("127.0.0.1", self.port), all_texts=True)
                mirror.start()
                time.sleep(at / 4_000)
                mirror.close()
                self.assertFalse(mirror.is_running())
        self.assertEqual(failed, [])

    def test_what_is_wanted_is_kept(self):
        self.host()
        mirror = self.loaded()
        self.assertEqual(mirror.want("net", "S"), NoKey())
        self.engineer.commit([Put("A", 0, A), Put("S", 0, USER)])
        until(lambda: isinstance(mirror.value("net", "S"), Flat))
        mirror.unwant("net", "S")
        self.assertEqual(mirror.values("net"), {})
        self.engineer.commit([Put("S", 1, USER.replace("X", "Y"))])
        until(lambda: len(self.of(Changed)) == 2 and mirror.value("faults", "S") == ())
        self.assertEqual(mirror.values("net"), {})


class Follower:
    """A mirror, and what it has reported."""

    def __init__(self, connect: Callable[[], Session], all_texts: bool):
        self.mirror = Mirror(connect, self.hear, all_texts=all_texts)
        self.all_texts = all_texts
        self.versions: dict[str, Version] = {}
        self.faults: dict[str, object] = {}
        self.wrong: list[UnitChange] = []

    def hear(self, news: News) -> None:
        match news:
            case Connected(is_other=True):
                self.versions = {unit: Version(it) for unit, it in self.mirror.revisions().items()}
                self.faults.clear()
            case Changed(_, units):
                for it in units:
                    self.wrong += [it] if self.versions.get(it.unit, ABSENT).revision != it.before.revision else []
                    self.versions[it.unit] = it.after
                    self.faults.pop(it.unit, None)
            case Came("faults", unit, value):
                self.faults[unit] = value

    def follows(self, engineer: Session, texts: dict[str, str], revisions: dict[str, int]) -> bool:
        """Whether nothing is being computed, and the mirror has the texts, faults and networks of the workbench, and has reported so."""
        if engineer.status().pending:
            return False
        held = self.mirror.versions()
        told = {unit: it.revision for unit, it in self.versions.items() if it.revision}
        nets = {unit: engineer.peek("net", unit) if unit in texts else NoKey() for unit in self.mirror.values("net")}
        return (
            self.mirror.revisions() == told == revisions
            and all(it.text == texts[unit] or it.text is None and not self.all_texts for unit, it in held.items())
            and self.mirror.values("faults") == self.faults == {unit: engineer.peek("faults", unit) for unit in texts}
            and self.mirror.values("net") == nets
        )


class RandomTest(unittest.TestCase):
    """Three mirrors of a host with a short history, of which connections end at random, and which is started again."""

    def setUp(self) -> None:
        self.chance, self.port = random.Random(61499), free_port()
        self.sessions: list[Session] = []
        self.enterContext(patch("bench61499.mirror.pauses", lambda: repeat(0.05)))
        self.followers = [Follower(self.connect, all_texts) for all_texts in (True, True, False)]

    def connect(self) -> Session:
        session = Session.connect("127.0.0.1", self.port)
        self.sessions.append(session)
        return session

    def test_three_mirrors(self):
        for it in self.followers:
            self.enterContext(it.mirror)
        for history in 30, 5_000, 60, 20:
            with hosting("--port", str(self.port), "--history", str(history)), Session.connect("127.0.0.1", self.port) as engineer:
                texts, revisions = self.play(engineer, 120)
                for it in self.followers:
                    until(partial(it.follows, engineer, texts, revisions))
                    self.assertEqual(it.wrong, [])

    def play(self, engineer: Session, commits: int) -> tuple[dict[str, str], dict[str, int]]:
        """Makes commits of up to four units, ends some connections, and reads some texts and networks; gives the texts and the revisions at the end."""
        texts: dict[str, str] = {}
        revisions: dict[str, int] = {}
        for at in range(commits):
            names = self.chance.sample([f"U{number}" for number in range(20)], self.chance.randrange(1, 5))
            gone = [name for name in names if name in texts and self.chance.random() < 0.4]
            new = {it: f"SUBAPPLICATION {it} FBS X : U{self.chance.randrange(20)}; END_FBS (* {at} *) END_SUBAPPLICATION" for it in names if it not in gone}
            number = engineer.commit([*(Put(it, revisions.get(it, 0), text) for it, text in new.items()), *(Remove(it, revisions[it]) for it in gone)])
            texts = {it: text for it, text in (texts | new).items() if it not in gone}
            revisions = {it: number if it in new else revisions[it] for it in texts}
            if self.chance.random() < 0.05:
                self.chance.choice(self.sessions[-6:]).close()
            self.read(self.chance.choice(self.followers).mirror)
        return texts, revisions

    def read(self, mirror: Mirror) -> None:
        with suppress(WorkbenchError):
            mirror.text(f"U{self.chance.randrange(20)}")
            mirror.want("net", f"U{self.chance.randrange(20)}")


if __name__ == "__main__":
    unittest.main()
