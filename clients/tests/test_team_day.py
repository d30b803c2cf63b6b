"""A day of a team of three: Ann and Ben have folders that `sync` keeps, Cid an editor; a board and a log look on. They join with nothing, edit the same unit, lose the
network and the host, come back, merge and leave. Nobody's text is lost, and each message has a reason."""
from __future__ import annotations

import signal
import subprocess
import time
import unittest
from pathlib import Path
from subprocess import CompletedProcess

from boards import Viewer, board
from editing import Editor
from support import CLIENTS, CONVEYOR, WITH_CTRL_C, InFolder, run, until
from syncing import Host, Syncing, team_texts
from tapping import Tap

from bench61499.language.positions import edited
from bench61499.lsp.choices import TAKE
from bench61499.lsp.teamtalk import STARTED_AGAIN

PATIENCE = 60.0
CAN = {"workspace": {"applyEdit": True, "workspaceEdit": {"documentChanges": True}}}
ALL = sorted(it.stem for it in CONVEYOR.glob("*.fb"))


class Cid:
    """Somebody with an editor, and a folder that he has pulled once."""

    def __init__(self, folder: Path, port: int):
        self.file = folder / "LIFTER.fb"
        self.editor = Editor("--connect", f":{port}")
        self.editor.start(folder, CAN)
        self.text, self._version = self.file.read_text(), 1
        self.editor.open(self.file)
        self.editor.await_codes(LIFTER=[])

    def type(self, text: str) -> None:
        self.text, self._version = text, self._version + 1
        self.editor.change(self.file, text, self._version)

    def save(self) -> None:
        self.file.write_text(self.text)
        self.editor.save(self.file)

    def do(self, command: str) -> None:
        """Has the editor's text changed by a command, and makes the edit that the server asks for."""
        self.editor.asked.clear()
        self.editor.request("workspace/executeCommand", command=command, arguments=[self.file.as_uri()])
        asked = self.editor.await_asked("workspace/applyEdit")
        (change,) = asked["params"]["edit"]["documentChanges"]
        after = edited(self.text, change["edits"])
        self.editor.answer(asked, {"applied": True})
        self.type(after)


class DayTest(InFolder):
    def setUp(self) -> None:
        super().setUp()
        self.host = Host("--open")
        self.addCleanup(lambda: self.host.end())
        self.tap = self.enterContext(Tap(self.host.port))
        self.ann, self.ben = (Syncing(self.folder / name, self.tap.port) for name in ("ann", "ben"))
        self.saved: list[bytes] = []
        self.replaced: set[bytes] = set()

    def save(self, who: Syncing, unit: str, text: str) -> None:
        file = who.folder / f"{unit}.fb"
        self.replaced |= {file.read_bytes()} if file.exists() else set()
        file.write_text(text)
        self.saved.append(text.encode())

    def text(self, who: Syncing, unit: str) -> str:
        return (who.folder / f"{unit}.fb").read_text()

    def team(self) -> dict[str, str]:
        with self.host.session() as session:
            return team_texts(session)

    def await_agreement(self, *people: Syncing) -> None:
        until(lambda: all(it.units() == self.team() for it in people), PATIENCE)

    def check(self, folder: Path) -> CompletedProcess[str]:
        return run("check", folder, "--connect", f":{self.tap.port}")

    def start(self, who: Syncing) -> None:
        who.start()
        self.addCleanup(lambda: who.is_running() and who.end())

    def test_a_day(self) -> None:
        self.join()
        self.edit_the_same_unit()
        self.edit_the_same_line()
        self.lose_the_network()
        self.lose_the_host()
        self.come_back()
        self.leave()

    def join(self) -> None:
        """Ann has the plant; the others have nothing."""
        self.ann.folder.mkdir()
        for unit in ALL:
            self.save(self.ann, unit, (CONVEYOR / f"{unit}.fb").read_text())
        self.start(self.ann)
        self.await_agreement(self.ann)
        self.start(self.ben)
        self.await_agreement(self.ben)
        cid = self.folder / "cid"
        self.assertEqual(run("sync", cid, "--connect", f":{self.tap.port}", "--pull").returncode, 0)
        self.cid = Cid(cid, self.tap.port)
        self.addCleanup(self.cid.editor.process.kill)
        address = self.enterContext(board("--connect", f":{self.tap.port}"))
        self.viewer: Viewer = self.enterContext(address.viewer())
        self.viewer.settled(len(ALL))
        self.history = self.folder / "history"
        self.log_said = self.folder / "log"
        with open(self.log_said, "wb") as said:
            log = subprocess.Popen(
                [*WITH_CTRL_C, CLIENTS / "log", "--connect", f":{self.tap.port}", "--follow", "--git", self.history], stdout=said, stderr=subprocess.STDOUT)
        self.addCleanup(log.wait)
        self.addCleanup(log.kill)
        for folder in (self.ann.folder, self.ben.folder, cid):
            self.assertIn("The workbench has the same texts.", self.check(folder).stdout)

    def edit_the_same_unit(self) -> None:
        """At other lines: all is merged. Cid, who has not typed, takes the team's text, types, and the others get that."""
        text = self.text(self.ann, "LIFTER")
        self.save(self.ann, "LIFTER", f"// Ann\n{text}")
        self.save(self.ben, "LIFTER", f"{text}// Ben\n")
        until(lambda: self.team()["LIFTER"] == f"// Ann\n{text}// Ben\n", PATIENCE)
        self.await_agreement(self.ann, self.ben)
        with self.host.session() as session:
            commit = session.text("LIFTER").revision
        self.cid.editor.await_told("LIFTER.fb", (3, rf"LIFTER was changed by session \d+ \(commit {commit}\) \d+ s ago; you are session \d+"))
        self.cid.do(TAKE)
        self.cid.editor.await_codes(LIFTER=[])
        self.assertEqual(self.cid.text, self.team()["LIFTER"])
        self.cid.type(f"{self.cid.text}// Cid\n")
        self.cid.save()
        until(lambda: self.team()["LIFTER"].endswith("// Ben\n// Cid\n"), PATIENCE)
        self.await_agreement(self.ann, self.ben)
        self.assertTrue(self.text(self.ben, "LIFTER").endswith("// Ben\n// Cid\n"))

    def edit_the_same_line(self) -> None:
        """One of them finds the other's text beside his own, and ends it."""
        text = self.text(self.ann, "FEEDER")
        self.save(self.ann, "FEEDER", f"// one\n{text}")
        self.save(self.ben, "FEEDER", f"// other\n{text}")
        until(lambda: self.ann.conflicts() or self.ben.conflicts(), PATIENCE)
        who = self.ann if self.ann.conflicts() else self.ben
        (beside,) = who.conflicts()
        self.assertIn("// o", self.text(who, "FEEDER"))
        self.save(who, "FEEDER", f"// one and other\n{text}")
        beside.unlink()
        until(lambda: self.team()["FEEDER"] == f"// one and other\n{text}", PATIENCE)
        self.await_agreement(self.ann, self.ben)
        self.assertEqual([*self.ann.conflicts(), *self.ben.conflicts()], [])

    def lose_the_network(self) -> None:
        """All continue to work, and get one message. What they have done comes together afterwards."""
        self.tap.cut()
        text = self.text(self.ann, "STATION")
        self.save(self.ann, "STATION", f"// Ann, alone\n{text}")
        self.save(self.ben, "STATION", f"{text}// Ben, alone\n")
        self.save(self.ben, "GAUGE", "FUNCTION_BLOCK GAUGE\nEND_FUNCTION_BLOCK\n")
        self.cid.editor.messages.clear()
        self.cid.type(f"// Cid, alone\n{self.cid.text}")
        self.cid.save()
        until(lambda: all("trying again" in it.said() for it in (self.ann, self.ben)), PATIENCE)
        self.assertIn("trying again", self.cid.editor.await_message())
        self.cid.editor.await_told("LIFTER.fb", (3, "not checked: .*; trying again"))
        ran = self.check(self.ben.folder)
        self.assertEqual((ran.returncode, ran.stdout), (2, ""))
        self.assertIn("check: no workbench at", ran.stderr)
        self.viewer.until(lambda it: "trying again" in it.ended)
        self.tap.mend()
        self.assertIn("answers again", self.cid.editor.await_message())
        self.cid.editor.await_codes(LIFTER=[])
        self.viewer.until(lambda it: not it.ended)
        until(lambda: self.team()["STATION"] == f"// Ann, alone\n{text}// Ben, alone\n" and self.team()["LIFTER"] == self.cid.text, PATIENCE)
        self.await_agreement(self.ann, self.ben)
        self.viewer.until(lambda it: it.state("GAUGE") == "fine")
        until(lambda: "the host answers again" in self.log_said.read_text(), PATIENCE)
        for it in (self.ann, self.ben):
            before, again, _ = it.said().partition("the host answers again\n")
            self.assertTrue(before.endswith("trying again\n") and before.count("trying again") == 1 and again, it.said())

    def lose_the_host(self) -> None:
        """It is killed and started again, with nothing. The folders have all."""
        before = self.team()
        self.host.end()
        text = self.text(self.ann, "PLANT")
        self.save(self.ann, "PLANT", f"// Ann, without a host\n{text}")
        self.host.start()
        until(lambda: self.team() == {**before, "PLANT": f"// Ann, without a host\n{text}"}, PATIENCE)
        self.await_agreement(self.ann, self.ben)
        while not any(STARTED_AGAIN in it for it in self.cid.editor.messages):
            self.cid.editor.read()
        self.cid.editor.await_codes(LIFTER=[])
        until(lambda: all("the host was started again" in it.said() for it in (self.ann, self.ben)), PATIENCE)
        self.assertEqual([*self.ann.conflicts(), *self.ben.conflicts()], [])
        self.viewer.until(lambda it: it.state("PLANT") == "fine")

    def come_back(self) -> None:
        """Ben works at home: without a sync. Ann has changed the same unit meanwhile, and removed one that nobody uses."""
        time.sleep(1)  # His `sync` has found that all is the same.
        self.assertEqual(self.ben.end(signal.SIGINT), 130)
        text = self.text(self.ann, "STATION")
        self.save(self.ben, "STATION", f"{text}// Ben, at home\n")
        self.save(self.ann, "STATION", f"// Ann, at work\n{text}")
        (self.ann.folder / "GAUGE.fb").unlink()
        self.await_agreement(self.ann)
        ran = self.check(self.ben.folder)
        self.assertEqual(ran.returncode, 2)
        self.assertIn("STATION", ran.stderr)
        self.start(self.ben)
        until(lambda: self.team()["STATION"] == f"// Ann, at work\n{text}// Ben, at home\n", PATIENCE)
        self.await_agreement(self.ann, self.ben)
        self.assertFalse((self.ben.folder / "GAUGE.fb").exists())

    def leave(self) -> None:
        """All texts that anybody has saved are somewhere, but for those that the same person put another text over."""
        team = self.team()
        self.cid.editor.close()
        for it in (self.ann, self.ben):
            self.assertEqual(it.end(signal.SIGINT), 130)
            self.assertEqual(it.units(), team)
        until(lambda: {it.stem: it.read_text() for it in self.history.glob("*.fb")} == team, PATIENCE)
        told = self.log_said.read_text()
        self.assertEqual([told.count(words) for words in ("trying again", "the host answers again", "the host was started again")], [2, 2, 1])
        there = self.ann.everything() | self.ben.everything() | self.replaced
        self.assertEqual([it.decode() for it in self.saved if it not in there], [])
        with self.host.session() as session:
            until(lambda: not session.status().pending, PATIENCE)


if __name__ == "__main__":
    unittest.main()
