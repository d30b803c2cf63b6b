"""A large folder is opened: what is open is checked and shown at once, and nothing is shown that is not so."""
from __future__ import annotations

import os
import threading
import unittest
from collections.abc import Callable, Iterable
from typing import Any
from unittest.mock import patch

from hall import CELLS, hall, write_hall
from support import InFolder, hosting, until, workbench

from bench61499 import TEXT_LIMIT, Change, Key, Put, Remove, Session
from bench61499.language.folder import read_at_once, stamp_of
from bench61499.language.units import commit_units, read_units
from bench61499.lsp.checking import Checking
from bench61499.lsp.commits import News, Wanted
from bench61499.lsp.team import TeamTexts
from bench61499.mirror import Connected, Loaded, Mirror
from bench61499.mirror import News as Told

CELL = hall()["CELL_B"].replace("S3.DONE TO", "S3.DUN TO")
"""A text with one fault."""
FAULTS = ["PORT_UNKNOWN"]
BAD = "FUNCTION_BLOCK ZONE EVENT_INPUT E WITH X; END_EVENT END_FUNCTION_BLOCK"


class Recording(Session):
    """Notes which units are put."""

    events: list[tuple[object, ...]] = []

    def commit(self, changes: Iterable[Change]) -> int:
        its = list(changes)
        self.events += [("put", it.unit) for it in its]
        return super().commit(its)


class Racing(Session):
    """Does something before it asks for values."""

    meanwhile: list[Callable[[], None]] = []

    def peek_all(self, keys: Iterable[Key], is_brief: bool = False) -> dict[Key, Any]:
        its = list(keys)
        while its and self.meanwhile:
            self.meanwhile.pop()()
        return super().peek_all(its, is_brief)


class OpeningTest(InFolder):
    """An editor opens one file of a folder. What happens is kept in its order."""

    def setUp(self) -> None:
        super().setUp()
        write_hall(self.folder)
        self.file = self.write("CELL_B.fb", CELL)
        self.write("zone.fb", BAD)
        self.woken = threading.Event()
        self.events: list[tuple[object, ...]] = []
        Recording.events = self.events

    def keep(self, message: dict) -> None:
        if message["method"] == "textDocument/publishDiagnostics":
            its = message["params"]["diagnostics"]
            self.events.append(("shown", message["params"]["uri"].rpartition("/")[2], *(it.get("code", it["message"]) for it in its)))

    def opened(self, checking: Checking) -> Checking:
        self.addCleanup(checking.close)
        checking.watch([self.folder])
        checking.open(self.file.as_uri(), 1, CELL)
        return checking

    def step_until(self, checking: Checking, event: tuple[object, ...]) -> None:
        def is_there() -> bool:
            self.woken.wait(min(0.1, 0.1 if (wait := checking.patience()) is None else wait))
            self.woken.clear()
            self.events.append(("step",))
            checking.step()
            return event in self.events

        until(is_there, 60)

    def shown(self) -> list[tuple[object, ...]]:
        """What was shown, but for files without a fault."""
        return [it[1:] for it in self.events if it[0] == "shown" and it[2:]]


class OwnTest(OpeningTest):
    """With a workbench of its own."""

    def setUp(self) -> None:
        super().setUp()
        for name, value in {"shared.MANY_NEW": 5, "shared.MOST_PUT": 4, "checking.PIECE": 0}.items():
            self.enterContext(patch(f"bench61499.lsp.{name}", value))
        self.checking = self.opened(Checking(lambda: Recording.script(workbench()), False, self.keep, self.woken.set))

    def test_the_open_unit_is_shown_before_the_folder_is_put(self) -> None:
        self.step_until(self.checking, ("shown", "zone.fb", "WITH_UNKNOWN"))
        self.assertEqual(self.shown(), [("CELL_B.fb", *FAULTS), ("zone.fb", "WITH_UNKNOWN")])
        put = [it[1] for it in self.events[: self.events.index(("shown", "CELL_B.fb", *FAULTS))] if it[0] == "put"]
        self.assertTrue({"CELL_B", *CELLS["CELL_B"]} <= set(put) < {*hall(), "ZONE"}, put)
        self.assertEqual(sorted(it[1] for it in self.events if it[0] == "put"), sorted([*hall(), "ZONE"]))

    def test_a_step_shows_few_files(self) -> None:
        """So a message of the editor waits for none but one of them."""
        for number in range(40):
            self.write(f"bad_{number}.fb", BAD.replace("ZONE", f"ZONE_{number}"))
        self.step_until(self.checking, ("shown", "zone.fb", "WITH_UNKNOWN"))
        while self.checking.patience() == 0:
            self.step_until(self.checking, ("step",))
        steps = [at for at, it in enumerate(self.events) if it[0] == "step"]
        between = [self.events[one:other] for one, other in zip(steps, [*steps[1:], len(self.events)])]
        most = max(sum(it[0] == "shown" and it[1] != "CELL_B.fb" for it in its) for its in between)
        self.assertEqual((most, len(self.shown())), (1, 42))


class HostTest(OpeningTest):
    """With a host that has all units. As long as nothing may be read of it at once, its mirror has the names only."""

    def setUp(self) -> None:
        super().setUp()
        self.port = self.enterContext(hosting())
        self.other = self.connect()
        self.addCleanup(self.other.close)
        commit_units(self.other, read_units([self.folder]))
        until(lambda: not self.other.status().pending)
        self.at_once = patch("bench61499.mirror.AT_ONCE", 0)
        self.at_once.start()
        self.addCleanup(patch.stopall)

    def connect(self) -> Session:
        return Racing.connect("127.0.0.1", self.port)

    def test_the_open_unit_is_shown_before_the_host_is_read(self) -> None:
        checking = self.opened(Checking(self.connect, True, self.keep, self.woken.set))
        self.step_until(checking, ("shown", "CELL_B.fb", *FAULTS))
        self.assertEqual(self.shown(), [("CELL_B.fb", *FAULTS)])
        self.at_once.stop()
        self.step_until(checking, ("shown", "zone.fb", "WITH_UNKNOWN"))
        self.assertEqual(self.shown(), [("CELL_B.fb", *FAULTS), ("zone.fb", "WITH_UNKNOWN")])

    def begun(self, **texts: str) -> News:
        """What is known before the host is read, of these texts and those of the folder."""
        self.told: list[Told] = []
        self.texts = TeamTexts(self.enterContext(Mirror(self.connect, self.told.append, all_texts=True)))
        self.wanted = Wanted({it.name: it.text for it in read_units([self.folder])} | texts, open={"CELL_B": CELL})
        return self.turn(Connected)

    def turn(self, after: type) -> News:
        until(lambda: any(isinstance(it, after) for it in self.told))
        told, self.told[:] = list(self.told), []
        self.texts.turn(self.wanted, told, True)
        return self.texts.take_news()

    def test_what_is_known_before_is_the_same_behind(self) -> None:
        early = self.begun()
        self.assertEqual((self.texts.is_loaded, early.units.keys(), [it.code for it in early.faults["CELL_B"] or ()]), (False, {"CELL_B"}, FAULTS))
        self.at_once.stop()
        late = self.turn(Loaded)
        self.assertEqual((self.texts.is_loaded, late.units["CELL_B"], late.faults["CELL_B"]), (True, early.units["CELL_B"], early.faults["CELL_B"]))
        self.assertEqual(late.units.keys(), {*hall(), "ZONE"})

    def test_a_colleague_changes_it_meanwhile(self) -> None:
        early = self.begun()
        number = self.other.commit([Put("CELL_B", early.units["CELL_B"].revision, hall()["CELL_B"])])
        self.at_once.stop()
        late = self.turn(Loaded).units["CELL_B"]
        self.assertEqual((late.revision, late.is_changed, late.text, late.common), (number, True, hall()["CELL_B"], CELL))

    def test_another_text_waits(self) -> None:
        self.assertEqual(self.begun(CELL_B=f"{CELL} ").units, {})

    def test_a_colleague_changes_it_while_it_is_asked_for(self) -> None:
        """Faults of the later text are not shown of the one before."""
        other = Session.connect("127.0.0.1", self.port)
        self.addCleanup(other.close)

        def change() -> None:
            other.commit([Put("CELL_B", other.text("CELL_B").revision, hall()["CELL_B"])])
            until(lambda: not other.status().pending)

        self.addCleanup(Racing.meanwhile.clear)
        Racing.meanwhile.append(change)
        self.assertEqual((self.begun().units, Racing.meanwhile), ({}, []))

    def test_what_rests_on_a_unit_without_a_file_waits(self) -> None:
        (self.folder / "STEP_05.fb").unlink()
        self.assertEqual(self.begun().units, {})

    def test_what_rests_on_a_unit_that_the_host_lacks_waits(self) -> None:
        self.other.commit([Remove("STEP_05", self.other.text("STEP_05").revision)])
        until(lambda: not self.other.status().pending)
        self.assertEqual(self.begun().units, {})


class ReadingTest(InFolder):
    def test_what_is_read_at_once(self) -> None:
        file = self.write("a.fb", "\u00e4 \r\n")
        self.assertEqual(read_at_once(file), ("\u00e4 \r\n", stamp_of(file)))
        file.write_text("x" * TEXT_LIMIT)
        self.assertEqual(read_at_once(file), ("x" * TEXT_LIMIT, stamp_of(file)))

    def test_a_file_that_grows_meanwhile(self) -> None:
        file, fstat = self.write("a.fb", "a"), os.fstat

        def before(descriptor: int) -> os.stat_result:
            state = fstat(descriptor)
            file.write_text("ab")
            return state

        with patch("os.fstat", before):
            self.assertIsNone(read_at_once(file))
        self.assertEqual(read_at_once(file), ("ab", stamp_of(file)))

    def test_what_is_not(self) -> None:
        """A link, a folder, a pipe, nothing, too long a text, and bytes that are no UTF-8."""
        (self.folder / "link").symlink_to(self.write("a.fb", "a"))
        (self.folder / "folder").mkdir()
        os.mkfifo(self.folder / "pipe")
        self.write("long", "x" * (TEXT_LIMIT + 1))
        (self.folder / "latin").write_bytes(b"\xe4")
        self.assertEqual([read_at_once(self.folder / it) for it in ("link", "folder", "pipe", "nothing", "long", "latin")], [None] * 6)


if __name__ == "__main__":
    unittest.main()
