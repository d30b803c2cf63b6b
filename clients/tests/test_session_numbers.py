"""Each client says by which number others know its session, and says it again if that is another one after a new connection."""
from __future__ import annotations

import re
import subprocess
import unittest
from contextlib import suppress

from boards import board
from editing import Editor
from support import CLIENTS, InFolder, until
from syncing import TEXT, Host, Syncing
from tapping import Tap

from bench61499 import Commit, NoSeat, Put, Session
from bench61499.lsp.commits import Author, Unit
from bench61499.lsp.diagnoses import changed

A, B = TEXT.format(name="A"), TEXT.format(name="B")


class NumbersTest(InFolder):
    def setUp(self) -> None:
        super().setUp()
        self.host = Host("--open", "--sessions", "8")
        self.addCleanup(self.host.end)
        self.tap = self.enterContext(Tap(self.host.port))
        self.sessions: list[Session] = []
        self.address = f"127.0.0.1:{self.tap.port}"

    def session(self) -> Session:
        self.sessions.append(self.enterContext(self.host.session()))
        return self.sessions[-1]

    def authors(self) -> dict[str, int]:
        """Who has committed each unit last."""
        with self.host.session() as session:
            return {unit: it.caller for it in session.watch(0).events if isinstance(it, Commit) for unit in it.put}

    def occupy(self, number: int) -> None:
        """Waits until another session has this number, which was that of a client, and ends those that got others meanwhile."""
        tried: list[Session] = []
        while not tried or tried[-1].status().session != number:
            with suppress(NoSeat):
                tried.append(self.host.session())
                continue
            tried.pop().close()
        self.sessions.append(self.enterContext(tried.pop()))
        for it in tried:
            it.close()

    def is_anothers(self, number: int) -> bool:
        return number in {it.status().session for it in self.sessions}

    def test_sync(self) -> None:
        one = Syncing(self.folder / "one", self.tap.port)
        self.write("one/A.fb", A)
        one.start()
        self.addCleanup(one.end)
        until(lambda: "is kept the same" in one.said())
        first = self.authors()["A"]
        self.assertEqual(one.said().splitlines()[0], f"connected to {self.address} as session {first}")
        self.tap.cut()
        until(lambda: "trying again" in one.said())
        self.occupy(first)
        self.tap.mend()
        self.write("one/B.fb", B)
        until(lambda: "B" in self.authors())
        second = self.authors()["B"]
        self.assertNotEqual(first, second)
        until(lambda: f"the host answers again\nconnected to {self.address} as session {second}\nB.fb: committed" in one.said())

    def test_an_editor(self) -> None:
        editor = Editor("--connect", f":{self.tap.port}")
        self.addCleanup(editor.close)
        file = self.write("A.fb", A)
        editor.start(self.folder)
        editor.open(file)
        editor.await_codes(A=[])
        first = self.authors()["A"]
        self.assertEqual((editor.logged, editor.messages), ([f"bench61499: This editor is session {first} of the workbench."], []))
        self.tap.cut()
        self.assertIn("trying again", editor.await_message())
        self.occupy(first)
        self.sessions[-1].commit([Put("A", 1, f"{A} ")])
        self.tap.mend()
        message = editor.await_message()
        (second,) = re.findall(r"^bench61499: The workbench answers again; this editor is session (\d+) now\.$", message)
        editor.await_told("A.fb", (3, rf"A was changed by session {first} \(commit 2\) \d+ s ago; you are session {second}"))
        self.assertEqual(editor.logged[1:], [f"bench61499: This editor is session {second} of the workbench."])
        editor.open(self.write("B.fb", B))
        editor.await_codes(B=[])
        self.assertEqual(self.authors()["B"], int(second))

    def test_an_author_who_had_the_number_of_this_editor_before(self) -> None:
        it = Unit(4, A, True, False, Author(3, 4, 1.0))
        self.assertEqual(changed("A", it, 3.0, 2), "A was changed by session 3 (commit 4) 2 s ago; you are session 2")
        self.assertEqual(changed("A", it, 3.0, 3), "A was changed by an earlier session 3 (commit 4) 2 s ago; you are session 3")
        self.assertEqual(changed("A", Unit(4, A, True, False, Author(0, 4, 1.0)), 3.0, 2), "A was changed by others (commit 4) 2 s ago")

    def test_a_board(self) -> None:
        self.session()
        with board("--connect", f":{self.tap.port}") as at, at.viewer() as viewer:
            first = viewer.until(lambda it: it.session).session
            self.assertFalse(self.is_anothers(first))
            self.tap.cut()
            viewer.until(lambda it: it.ended)
            self.occupy(first)
            self.tap.mend()
            second = viewer.until(lambda it: not it.ended and it.session != first).session
            self.assertFalse(self.is_anothers(second))

    def test_a_log(self) -> None:
        self.session().commit([Put("A", 0, A)])
        said = self.folder / "said"
        with open(said, "wb") as output:
            log = subprocess.Popen([CLIENTS / "log", "--connect", f":{self.tap.port}", "--follow"], stdout=output, stderr=subprocess.STDOUT)
        self.addCleanup(log.wait)
        self.addCleanup(log.kill)
        words = re.compile(rf"^log: connected to {self.address} as session (\d+), which only reads$", re.MULTILINE)
        until(lambda: "commit 1 by session" in said.read_text())
        self.assertRegex(said.read_text(), words)
        first = int(words.findall(said.read_text())[0])
        self.assertFalse(self.is_anothers(first))
        self.tap.cut()
        until(lambda: "trying again" in said.read_text())
        self.occupy(first)
        self.tap.mend()
        until(lambda: "the host answers again" in said.read_text() and words.findall(said.read_text())[1:])
        self.assertFalse(self.is_anothers(int(words.findall(said.read_text())[1])))


if __name__ == "__main__":
    unittest.main()
