"""A team: language servers that share one workbench, with each other and with other sessions."""
from __future__ import annotations

import subprocess
import time
import unittest
from contextlib import contextmanager
from pathlib import Path
from unittest.mock import patch

from editing import Editor, LspTest
from hall import CELLS, hall, write_hall
from support import HISTORY, InFolder, free_port, hosting, serving, used, workbench

from bench61499 import ConnectionEnded, HistoryFull, Put, Remove, Session
from bench61499.lsp.checking import QUIET, Checking
from bench61499.lsp.commits import News, Unit, Wanted
from bench61499.lsp.shared import SharedTexts
from bench61499.lsp.talk import NO_TEXTS
from bench61499.lsp.teamtalk import STARTED_AGAIN

GOOD = "FUNCTION_BLOCK A END_FUNCTION_BLOCK"
BAD = "FUNCTION_BLOCK A EVENT_INPUT E WITH X; END_EVENT END_FUNCTION_BLOCK"
PERHAPS = "perhaps not checked: the workbench has A from another session, at revision {}; edit or save to put this text over it"
ANOTHER = "not checked: the workbench has another text of A, from another session, at revision 1, with 1 fault; edit or save to put this text over it"


class TeamTest(LspTest):
    def connected(self, port: int, *words: object) -> Editor:
        editor = self.editor("--connect", f":{port}", *words)
        editor.start(self.folder)
        return editor

    def session(self, port: int) -> Session:
        session = Session.connect("127.0.0.1", port)
        self.addCleanup(session.close)
        return session

    def told(self, editor: Editor, file: str) -> list[tuple[int, str]]:
        """The severities and words of what is shown of a file."""
        return [(it["severity"], it["message"]) for it in editor.shown[file]]

    def await_told(self, editor: Editor, file: str, expected: list[tuple[int, str]]) -> None:
        while file not in editor.shown or self.told(editor, file) != expected:
            editor.read()


class OthersTest(TeamTest):
    """Nobody's text is replaced unasked, also where the server gives none back."""

    def connected(self, port: int, *words: object) -> Editor:
        editor = super().connected(port, *words)
        editor.passed_over = {f"bench61499: {NO_TEXTS}"}
        return editor

    def test_the_user_is_told_that_texts_are_not_compared(self) -> None:
        file = self.write("a.fb", GOOD)
        with serving(1) as port:
            editor = super().connected(port)
            editor.open(file)
            editor.await_codes(a=[])
            self.assertEqual(editor.messages, [f"bench61499: {NO_TEXTS}"])

    def test_a_text_of_somebody_else_is_there_already(self) -> None:
        file = self.write("a.fb", GOOD)
        with serving(2) as port:
            other = self.session(port)
            other.commit([Put("A", 0, BAD)])
            editor = self.connected(port)
            editor.open(file)
            self.await_told(editor, "a.fb", [(3, ANOTHER)])
            self.assertEqual(other.revision("A"), 1)
            editor.change(file, f"{GOOD} ")
            editor.await_codes(a=[])
            self.assertEqual(other.revision("A"), 2)
            self.assertEqual(editor.messages, [])

    def test_faults_that_fit_are_shown_as_those_of_the_workbench(self) -> None:
        file = self.write("a.fb", BAD)
        with serving(2) as port:
            self.session(port).commit([Put("A", 0, BAD)])
            editor = self.connected(port)
            editor.open(file)
            words = "no data input X to go with this event"
            self.await_told(editor, "a.fb", [(3, PERHAPS.format(1)), (2, f"{words} (in the workbench's text)")])
            editor.save(file)
            self.await_told(editor, "a.fb", [(1, words)])

    def test_the_same_text_from_somebody_else(self) -> None:
        """Nobody can know that it is the same, so nothing says that the text is not checked, and nothing that it is."""
        file = self.write("a.fb", GOOD)
        with serving(2) as port:
            other = self.session(port)
            other.commit([Put("A", 0, GOOD)])
            editor = self.connected(port)
            editor.open(file)
            self.await_told(editor, "a.fb", [(3, PERHAPS.format(1))])
            editor.save(file)
            self.await_told(editor, "a.fb", [])
            self.assertEqual((editor.messages, other.revision("A")), ([], 2))
            other.commit([Put("A", 2, GOOD)])
            self.await_told(editor, "a.fb", [(3, PERHAPS.format(3))])
            self.assertEqual(editor.await_message(), f"bench61499: A is {PERHAPS.format(3)}.")

    def test_a_text_is_changed_by_somebody_else(self) -> None:
        file = self.write("a.fb", BAD)
        with serving(2) as port:
            editor, other = self.connected(port), self.session(port)
            editor.open(file)
            editor.await_codes(a=["WITH_UNKNOWN"])
            other.commit([Put("A", 1, GOOD)])
            editor.change(file, f"{BAD} ")
            old = (2, "no data input X to go with this event (as last known)")
            self.await_told(editor, "a.fb", [(3, PERHAPS.format(2)), old])
            self.assertEqual(editor.await_message(), f"bench61499: A is {PERHAPS.format(2)}.")
            self.assertEqual(other.revision("A"), 2)
            editor.change(file, GOOD, 3)
            editor.await_codes(a=[])
            self.assertEqual(other.revision("A"), 3)

    def test_many_texts_are_changed_by_somebody_else(self) -> None:
        """One message reports all that one look has found."""
        units = [f"U{at}" for at in range(5)]
        files = [self.write(f"{unit}.fb", f"FUNCTION_BLOCK {unit} END_FUNCTION_BLOCK") for unit in units]
        none: dict[str, list[str]] = {unit: [] for unit in units}
        with serving(2) as port:
            editor, other = self.connected(port), self.session(port)
            for file in files:
                editor.open(file)
            editor.await_codes(**none)
            other.commit([Put(unit, other.revision(unit), f"FUNCTION_BLOCK {unit} END_FUNCTION_BLOCK ") for unit in units])
            why = "not checked, or perhaps not, as another session has put or removed them"
            said = f"5 open units are {why}: U0, U1, U2 and 2 more; edit or save one to put its text."
            self.assertEqual(editor.await_message(), f"bench61499: {said}")
            for file in files:
                editor.save(file)
            editor.await_codes(**none)
            self.assertEqual(editor.messages, [])

    def test_a_unit_is_removed_by_somebody_else(self) -> None:
        file = self.write("a.fb", GOOD)
        with serving(2) as port:
            editor, other = self.connected(port), self.session(port)
            editor.open(file)
            editor.await_codes(a=[])
            other.commit([Remove("A", 1)])
            self.assertIn("another session has removed A from the workbench; edit or save to put it back", editor.await_message())
            self.assertEqual(other.revision("A"), 0)
            editor.shown.clear()
            editor.save(file)
            editor.await_codes(a=[])
            self.assertEqual(other.revision("A"), 3)

    def test_marked_lines_are_not_put(self) -> None:
        file, text = self.write("a.fb", GOOD), f"{GOOD}\n<<<<<<< mine\n=======\n// 2\n>>>>>>> theirs\n"
        with serving(2) as port:
            editor, other = self.connected(port), self.session(port)
            editor.open(file)
            editor.await_codes(a=[])
            editor.change(file, text)
            words = "both you and others have changed these lines: the text is not put while it has marked ones"
            self.await_told(editor, "a.fb", [(2, words)])
            editor.save(file)
            new = self.write("b.fb", GOOD.replace("A", "B", 1))
            editor.open(new)
            editor.await_codes(b=[])
            self.assertEqual((other.revision("A"), other.revision("B")), (1, 2))
            editor.change(file, f"{GOOD}\n", 3)
            editor.await_codes(a=[])
            self.assertEqual(other.revision("A"), 3)

    def test_a_file_changes_on_disk_under_the_text_of_somebody_else(self) -> None:
        file, mine = self.write("a.fb", GOOD), self.write("b.fb", GOOD.replace("A", "B", 1))
        with serving(2) as port:
            other = self.session(port)
            other.commit([Put("A", 0, BAD)])
            editor = self.connected(port)
            editor.open(mine)
            editor.await_codes(b=[])
            file.write_text(f"{GOOD} (* pulled *)")
            editor.save(mine)
            editor.change(mine, mine.read_text() + " ")
            editor.await_codes(b=[])
            self.assertEqual(other.revision("A"), 1)


class ConnectionTest(TeamTest):
    """Connections that end, and workbenches that are full."""

    @contextmanager
    def host(self, port: int, *more: str):
        words = [workbench(), "host", "--port", str(port), *more]
        with subprocess.Popen(words, stdout=subprocess.PIPE, stderr=subprocess.DEVNULL, text=True) as server:
            try:
                server.stdout.readline()
                yield server
            finally:
                server.kill()

    def test_a_host_that_ends_and_comes_again(self) -> None:
        file, port = self.write("a.fb", BAD), free_port()
        words = "no data input X to go with this event"
        with self.host(port):
            editor = self.connected(port)
            editor.open(file)
            self.await_told(editor, "a.fb", [(1, words)])
        while len(editor.shown["a.fb"]) < 2:
            editor.read()
        (information, why), old = self.told(editor, "a.fb")
        self.assertEqual((information, old), (3, (2, f"{words} (as last known)")))
        self.assertRegex(why, f"^not checked: the .*127.0.0.1:{port}.*; trying again$")
        with self.host(port):
            self.await_told(editor, "a.fb", [(1, words)])
            lost, again, back = editor.messages
            self.assertRegex(lost, "^bench61499: the .*; trying again$")
            self.assertEqual(again, f"bench61499: {STARTED_AGAIN}")
            self.assertRegex(back, r"^bench61499: The workbench answers again(; this editor is session \d+ now)?\.$")
            self.assertEqual(self.session(port).revision("A"), 1)

    def test_all_sessions_are_in_use(self) -> None:
        file = self.write("a.fb", GOOD)
        with hosting("--sessions", "2") as port:
            others = [Session.connect("127.0.0.1", port) for _ in range(2)]
            editor = self.connected(port)
            editor.open(file)
            self.assertEqual(editor.await_message(), "bench61499: all sessions of the workbench are in use; trying again")
            self.await_told(editor, "a.fb", [(3, "not checked: all sessions of the workbench are in use; trying again")])
            for other in others:
                other.close()
            editor.await_codes(a=[])

    def test_a_secret(self) -> None:
        file = self.write("a.fb", GOOD)
        secret, wrong = self.write("secret", "open sesame, please\nmore\n"), self.write("wrong", "sesame, open, please\n")
        for it in (secret, wrong):
            it.chmod(0o600)
        with hosting("--secret", str(secret)) as port:
            editor = self.connected(port, "--secret", secret)
            editor.open(file)
            editor.await_codes(a=[])
            editor = self.connected(port, "--secret", wrong)
            editor.open(file)
            self.assertRegex(editor.await_message(), ": the secret may be wrong; trying again$")

    def test_a_full_history_costs_no_session(self) -> None:
        file = self.write("a.fb", BAD)
        with serving(2, "--history", "20") as port:
            editor = self.connected(port)
            editor.passed_over = {f"bench61499: {NO_TEXTS}"}
            editor.open(file)
            editor.await_codes(a=["WITH_UNKNOWN"])
            other = self.session(port)
            with self.assertRaises(HistoryFull):
                while True:
                    other.revision("A")
            editor.change(file, f"{BAD} ")
            full = "the history of the workbench is full: start it again with a higher --history, or run a host, whose history never fills"
            self.assertEqual(editor.await_message(), f"bench61499: {full}; it is asked again once a minute")
            for version in range(3):
                editor.save(file)
                editor.change(file, f"{BAD} {version}", version)
            self.assertEqual(editor.ask("documentSymbol", file)[0]["name"], "A")
            self.assertEqual(editor.messages, [])
            self.assertEqual([it[0] for it in self.told(editor, "a.fb")], [3, 2])

    def test_a_workbench_without_room(self) -> None:
        """A refusal is shown, and the next change is tried."""
        file, other = self.write("a.fb", GOOD), self.write("b.fb", GOOD.replace("A", "B", 1))
        with hosting("--units", "1") as port:
            editor = self.connected(port)
            editor.open(file)
            self.assertRegex(editor.await_message(), "no room for more units; .*; the next change tries again$")
            other.unlink()
            editor.save(file)
            editor.await_codes(a=[])


class CountsTest(TeamTest):
    """What clients cost: recorded calls, those of the workers included."""

    def calls_with(self, keys: int) -> int:
        file = self.folder / "STEP_01.fb"
        with serving(2, "--history", str(HISTORY)) as port:
            editor, other = self.connected(port), self.session(port)
            for it in sorted(self.folder.glob("*.fb")):
                editor.open(it)
            while len(editor.shown) < len(hall()):
                editor.read()
            for at in range(1, keys + 1):
                editor.change(file, f"{hall()['STEP_01']}(* {'x' * at} *)", at)
            while keys and editor.versions.get("STEP_01.fb") != keys:
                editor.read()
            if keys:
                self.assertEqual(other.revision("STEP_01"), max(other.present(hall()).values()))
            editor.close()
            other.settle()
            return used(other)

    def test_thirty_keys(self) -> None:
        write_hall(self.folder)
        self.assertLessEqual(self.calls_with(30) - self.calls_with(0), 40)


class Counting(Session):
    """A session that counts its recorded calls, and may lose one: before it is made, or its reply."""

    calls = 0
    loses = ""

    def _exchange(self, request, read):
        self.calls += 1
        if self.loses == "request":
            raise ConnectionEnded("it ended")
        reply = super()._exchange(request, read)
        if self.loses == "reply":
            raise ConnectionEnded("it ended")
        return reply


class TextsTest(unittest.TestCase):
    """The units of a workbench as a language server knows them."""

    def setUp(self) -> None:
        serve = hosting()
        self.port = serve.__enter__()
        self.addCleanup(serve.__exit__, None, None, None)
        self.session, self.other = self.connect(), self.connect()
        self.texts = SharedTexts(self.session, True)

    def connect(self) -> Counting:
        session = Counting.connect("127.0.0.1", self.port)
        self.addCleanup(session.close)
        session.calls = 0
        return session

    def wanted(self, insists: bool = False, **texts: str) -> Wanted:
        return Wanted(texts, frozenset(texts if insists else ()), texts)

    def settle(self, wanted: Wanted) -> None:
        """Turns until all is known."""
        self.texts.turn(wanted)
        while self.texts._waiting:
            time.sleep(0.01)
            self.texts.turn(None)

    def test_nobody_types(self) -> None:
        """One recorded call in six seconds, also where units are many."""
        texts = hall() | {f"U{at}": f"FUNCTION_BLOCK U{at} END_FUNCTION_BLOCK" for at in range(200)}
        self.settle(Wanted(texts, open=dict(list(hall().items())[:18])))
        clock = [time.monotonic() + 1]
        with patch("bench61499.lsp.shared.time.monotonic", lambda: clock[0]):
            self.texts.turn(None)
            self.session.calls, end = 0, clock[0] + 600
            while clock[0] < end:
                clock[0] += max(self.texts.turn(None), 0.01)
            self.assertLessEqual(self.session.calls, 600 / 5)
            self.other.commit([Put("LIMITS", self.other.revision("LIMITS"), f"{hall()['LIMITS']} ")])
            number = self.other.revision("LIMITS")
            while self.texts.news.units.get("LIMITS", Unit(0)).revision != number:
                clock[0] += max(self.texts.turn(None), 0.01)
            self.assertLess(clock[0], end + 60)

    def lose(self, what: str) -> None:
        """A connection ends in a commit of another text of A."""
        self.settle(self.wanted(A=GOOD))
        self.session.loses = what
        self.assertRaises(ConnectionEnded, self.texts.turn, self.wanted(A=BAD))
        self.texts.take_news()

    def test_a_commit_that_was_made_though_no_reply_came(self) -> None:
        self.lose("reply")
        self.texts.resume(self.connect(), False)
        self.settle(self.wanted(A=BAD))
        news = self.texts.take_news()
        self.assertEqual((news.units["A"], [it.code for it in news.faults["A"]], news.taken), (Unit(2, BAD), ["WITH_UNKNOWN"], set()))
        self.assertEqual(self.other.revision("A"), 2)

    def test_a_commit_that_was_not_made(self) -> None:
        self.lose("request")
        self.texts.resume(self.connect(), False)
        self.settle(self.wanted(A=BAD))
        self.assertEqual((self.texts.take_news().units["A"], self.other.revision("A")), (Unit(2, BAD), 2))

    def test_somebody_else_has_changed_it_meanwhile(self) -> None:
        self.lose("request")
        self.other.commit([Put("B", 0, "")])
        self.other.commit([Put("A", 1, f"{GOOD} ")])
        self.texts.resume(self.connect(), False)
        self.settle(self.wanted(A=BAD))
        news = self.texts.take_news()
        self.assertEqual((news.units["A"], news.taken), (Unit(3, None, True), {"A"}))
        self.settle(self.wanted(insists=True, A=BAD))
        self.assertEqual(self.texts.take_news().units["A"], Unit(4, BAD))

    def test_a_workbench_that_was_started_again(self) -> None:
        self.settle(self.wanted(A=GOOD, B=""))
        with hosting() as port, Counting.connect("127.0.0.1", port) as session, Session.connect("127.0.0.1", port) as other:
            other.commit([Put("B", 0, "x")])
            self.texts.resume(session, True)
            self.settle(self.wanted(A=GOOD, B=""))
            units = self.texts.take_news().units
            self.assertEqual((units["A"], units["B"]), (Unit(2, GOOD), Unit(1)))


class QuietTest(InFolder):
    """Changes wait for the last key."""

    def opened(self) -> tuple[Checking, Session, Path, list[dict]]:
        """An open file, its workbench, and what is sent to the editor from now on."""
        file, session = self.write("a.fb", GOOD), Session.script(workbench())
        shown: list[dict] = []
        checking = Checking(lambda: session, False, shown.append, lambda: None)
        self.addCleanup(checking.close)
        checking.open(file.as_uri(), 1, GOOD)
        self.until(checking, lambda: shown)
        shown.clear()
        return checking, session, file, shown

    def test_thirty_keys_in_six_seconds_are_one_commit(self) -> None:
        checking, session, file, shown = self.opened()
        clock = [time.monotonic()]
        with patch("bench61499.lsp.checking.time.monotonic", lambda: clock[0]):
            for at in range(30):
                checking.change(file.as_uri(), 2 + at, [{"text": f"{GOOD}(* {'x' * at} *)"}])
                checking.step()
                clock[0] += 0.2
                checking.step()
            self.assertEqual((session.revisions, shown), ({"A": 1}, []))
            clock[0] += QUIET
            self.until(checking, lambda: shown)
        self.assertEqual((session.revisions, shown[0]["params"]["version"]), ({"A": 2}, 31))

    def test_a_change_waits(self) -> None:
        checking, _, file, shown = self.opened()
        checking.change(file.as_uri(), 2, [{"text": BAD}])
        checking.step()
        self.assertLess(0, checking.patience())
        self.assertLessEqual(checking.patience(), QUIET)
        checking.save(file)
        checking.step()
        self.until(checking, lambda: shown)
        self.assertEqual(shown[0]["params"]["version"], 2)

    def until(self, checking: Checking, condition) -> None:
        end = time.perf_counter() + 120
        while not condition() and time.perf_counter() < end:
            checking.step()
            time.sleep(0.01)


class LargeTest(unittest.TestCase):
    """A folder of which an own workbench does not get all at once."""

    def turns(self, texts: dict[str, str], then: str = "CELL_B") -> list[News]:
        """What the turns find until all is known, with CELL_B open, and another unit once its faults are known."""
        turns, opened = list[News](), {"CELL_B": texts["CELL_B"]}
        with Session.script(workbench()) as session, patch("bench61499.lsp.shared.MANY_NEW", 5), patch("bench61499.lsp.shared.MOST_PUT", 2):
            its, is_over = SharedTexts(session, False), False
            while not is_over:
                is_over = its.turn(Wanted(texts, open=opened)) is None
                turns.append(its.take_news())
                opened |= {then: texts[then]} if "CELL_B" in turns[-1].faults else {}
        return turns

    def test_what_open_texts_rest_on_comes_first(self) -> None:
        texts = hall()
        turns = self.turns(texts)
        first = next(at for at, it in enumerate(turns) if it.faults)
        self.assertEqual(turns[first].faults, {"CELL_B": ()})
        put = {unit for it in turns[: first + 1] for unit, unit_now in it.units.items() if unit_now.revision}
        self.assertTrue({"CELL_B", *CELLS["CELL_B"]} <= put < texts.keys(), put)
        self.assertFalse(any(it.is_brought for it in turns[: first + 1]))
        self.assertEqual({unit: faults for it in turns for unit, faults in it.faults.items()}, dict.fromkeys(texts, ()))

    def test_what_is_broken_is_known_with_the_open_texts(self) -> None:
        """As no name in it is warned of."""
        turns = self.turns(hall() | {"STEP_08": "FUNCTION_BLOCK STEP_08 ?"})
        opened = next(at for at, it in enumerate(turns) if "CELL_B" in it.faults)
        known = {unit: [fault.code for fault in faults or ()] for it in turns[: opened + 1] for unit, faults in it.faults.items() if unit != "CELL_B"}
        self.assertEqual(known, {"STEP_08": ["SYNTAX"]})

    def test_a_further_text_is_opened_meanwhile(self) -> None:
        """What it rests on comes with it, so that no fault of it is one that does not stay."""
        turns = self.turns(dict(reversed(hall().items())), "HALL")
        found = [it.faults["HALL"] for it in turns if "HALL" in it.faults]
        self.assertFalse(turns[next(at for at, it in enumerate(turns) if "HALL" in it.faults)].is_brought)
        self.assertEqual(found, [()] * len(found))


if __name__ == "__main__":
    unittest.main()
