"""An editor and a `sync` in one folder, beside a colleague: what is not saved is left to the editor, and what is saved undoes nothing that others have done."""
from __future__ import annotations

import fcntl
import os
import signal
import sqlite3
import threading
import time
import unittest
from contextlib import closing
from pathlib import Path
from subprocess import CompletedProcess

from editing import Editor
from support import InFolder, run, until
from syncing import TEXT, Host, Syncing, team_texts

from bench61499 import Commit, Put, Remove, Session
from bench61499.lsp.choices import PUT
from bench61499.sync.editors import Opened, Reporter, opened_in
from bench61499.sync.recorder import Noted, Recorder
from bench61499.sync.store import FileRevision, Store, record

PATIENCE = 60.0
CAN = {"workspace": {"applyEdit": True, "workspaceEdit": {"documentChanges": True}}}
A = TEXT.format(name="A")
HOT, HOTTER = A.replace(":= 0", ":= 1"), A.replace(":= 0", ":= 2")
CHANGED = r"A was changed by session \d+ \(commit \d+\) \d+ s ago; you are session \d+"


class OneFolderTest(InFolder):
    def setUp(self) -> None:
        super().setUp()
        self.host = Host("--open")
        self.addCleanup(self.host.end)
        self.colleague: Session = self.enterContext(self.host.session())
        self.colleague.commit([Put("A", 0, A)])
        self.kept = Syncing(self.folder / "one", self.host.port)
        self.kept.start()
        self.addCleanup(lambda: self.kept.is_running() and self.kept.end())
        until(lambda: "from now on" in self.kept.said(), PATIENCE)
        self.file = self.kept.folder / "A.fb"
        self.editor = Editor("--connect", f":{self.host.port}")
        self.addCleanup(self.editor.process.kill)
        self.editor.start(self.kept.folder, CAN)
        self.editor.open(self.file)
        self.editor.await_codes(A=[])
        self.version = 1

    def type(self, text: str, file: Path | None = None) -> None:
        self.version += 1
        self.editor.change(file or self.file, text, self.version)

    def save(self, text: str, file: Path | None = None) -> None:
        """As an editor that writes over its file."""
        (file or self.file).write_text(text)
        self.editor.save(file or self.file)

    def team(self) -> dict[str, str]:
        return team_texts(self.colleague)

    def await_team(self, **texts: str) -> None:
        until(lambda: self.team() == texts, PATIENCE)

    def puts(self, unit: str, text: str) -> None:
        self.colleague.commit([Put(unit, self.colleague.text(unit).revision, text)])

    def await_folder(self, **texts: str) -> None:
        """Until the workbench and the folder have these texts, by the units that their files are named after."""
        self.await_team(**texts)
        until(lambda: self.kept.files() == {f"{unit}.fb": text for unit, text in texts.items()}, PATIENCE)

    def test_a_colleague_changes_what_is_being_edited(self) -> None:
        """The file stays as it is until it is saved, also where its editor has it otherwise; then it has the changes of both."""
        self.type(f"// one\n{A}")
        self.await_team(A=f"// one\n{A}")
        until(lambda: "A.fb: is being edited, and left to its editor until it is saved" in self.kept.said(), PATIENCE)
        self.puts("A", f"// one\n{A}// colleague\n")
        self.editor.await_told("A.fb", (3, CHANGED))
        self.type(f"// one and more\n{A}")
        self.editor.await_told("A.fb", (3, CHANGED))
        self.assertEqual(self.file.read_text(), A)
        self.save(f"// one and more\n{A}")
        self.await_folder(A=f"// one and more\n{A}// colleague\n")
        self.assertEqual(self.kept.conflicts(), [])

    def test_an_old_text_that_is_saved_undoes_nothing(self) -> None:
        """The editor does not read files again: what it saves comes from the text that it has."""
        self.puts("A", f"{A}// colleague\n")
        until(lambda: self.file.read_text() == f"{A}// colleague\n", PATIENCE)
        self.editor.await_told("A.fb", (3, CHANGED))
        self.save(A)
        until(lambda: self.kept.said().count("A.fb: written") == 3, PATIENCE)
        self.await_folder(A=f"{A}// colleague\n")

    def test_both_change_the_same_line(self) -> None:
        """That is a conflict, and it is over when its user says so."""
        self.puts("A", f"// colleague\n{A}")
        self.editor.await_told("A.fb", (3, CHANGED))
        self.type(f"// one\n{A}")
        self.save(f"// one\n{A}")
        until(self.kept.conflicts, PATIENCE)
        self.assertEqual(self.team(), {"A": f"// colleague\n{A}"})
        (beside,) = self.kept.conflicts()
        self.save(f"// both\n{A}")
        beside.unlink()
        self.await_folder(A=f"// both\n{A}")
        self.assertEqual(self.kept.conflicts(), [])

    def test_mine_is_put_by_the_editor(self) -> None:
        self.puts("A", f"// colleague\n{A}")
        self.editor.await_told("A.fb", (3, CHANGED))
        self.type(f"// one\n{A}")
        self.editor.request("workspace/executeCommand", command=PUT, arguments=[self.file.as_uri()])
        self.await_team(A=f"// one\n{A}")
        self.save(f"// one\n{A}")
        self.await_folder(A=f"// one\n{A}")

    def test_a_new_unit_and_another_name(self) -> None:
        """Each has one file, the one that its user saves."""
        self.type(A.replace(" A\n", " B\n"))
        until(lambda: "B" in self.team(), PATIENCE)
        self.save(A.replace(" A\n", " B\n"))
        self.await_team(B=TEXT.format(name="B"))
        new = self.kept.folder / "new.fb"
        self.editor.open(new, TEXT.format(name="C"))
        until(lambda: "C" in self.team(), PATIENCE)
        self.save(TEXT.format(name="C"), new)
        self.colleague.commit([Put("D", 0, TEXT.format(name="D"))])
        until((self.kept.folder / "D.fb").exists, PATIENCE)
        self.assertEqual({file: text.split()[1] for file, text in self.kept.files().items()}, {"A.fb": "B", "new.fb": "C", "D.fb": "D"})

    def test_a_unit_that_a_colleague_removes(self) -> None:
        self.type(f"// one\n{A}")
        self.await_team(A=f"// one\n{A}")
        self.colleague.commit([Remove("A", self.colleague.text("A").revision)])
        self.editor.await_told("A.fb", (3, CHANGED.replace("changed", "removed")))
        self.save(f"// one\n{A}")
        self.await_folder(A=f"// one\n{A}")

    def test_an_editor_that_ends_without_saving(self) -> None:
        self.type(f"// one\n{A}")
        self.await_team(A=f"// one\n{A}")
        until(lambda: "is being edited" in self.kept.said(), PATIENCE)
        with self.host.session() as session:
            its = next(it for it in session.watch(0).events if isinstance(it, Commit) and it.number == 2)
        time.sleep(1)  # The `sync` has heard of the commit.
        self.editor.process.kill()
        self.await_folder(A=f"// one\n{A}")
        until(lambda: f"A.fb: written: revision 2 by your editor (session {its.caller})\n" in self.kept.said(), PATIENCE)

    def test_a_host_that_is_started_again_with_a_former_text(self) -> None:
        """What the editor and the former workbench had in common says nothing of it: the user is asked whether somebody has gone back to it."""
        self.type(f"// one\n{A}")
        self.save(f"// one\n{A}")
        self.await_folder(A=f"// one\n{A}")
        until(lambda: any(it.common == f"// one\n{A}" for it in opened_in(self.kept.folder / ".bench61499").values()), PATIENCE)
        time.sleep(1)  # The `sync` has found that all is the same.
        self.start_again()
        until(self.kept.conflicts, PATIENCE)
        self.assertEqual((self.team(), self.file.read_text()), ({"A": A}, f"// one\n{A}"))
        self.kept.conflicts()[0].unlink()
        self.await_folder(A=f"// one\n{A}")
        self.assertEqual(self.kept.said().count("A.fb: written"), 1)

    def start_again(self) -> None:
        """Another workbench, where a colleague is the first to put a text."""
        for it in self.kept.process, self.editor.process:
            it.send_signal(signal.SIGSTOP)
        self.host.end()
        self.host.start()
        self.colleague = self.enterContext(self.host.session())
        self.colleague.commit([Put("A", 0, A)])
        for it in self.editor.process, self.kept.process:
            it.send_signal(signal.SIGCONT)

    def test_once_and_again(self) -> None:
        """Who only pulls gets all, and a `sync` that begins later knows what is open."""
        self.assertEqual(self.kept.end(signal.SIGINT), 130)
        self.type(f"// one\n{A}")
        self.await_team(A=f"// one\n{A}")
        self.kept.start()
        until(lambda: "is being edited" in self.kept.said(), PATIENCE)
        self.assertEqual(self.file.read_text(), A)
        self.assertEqual(self.kept.end(signal.SIGINT), 130)
        self.assertEqual(run("sync", self.kept.folder, "--connect", f":{self.host.port}", "--pull").returncode, 0)
        self.assertEqual(self.file.read_text(), f"// one\n{A}")


class AloneTest(InFolder):
    """An editor in a folder that a `sync` has kept, and keeps again later: what the editor has put or taken meanwhile is known then."""

    def setUp(self) -> None:
        super().setUp()
        self.host = Host("--open")
        self.addCleanup(self.host.end)
        self.file = self.write("one/A.fb", A)
        self.sync("--push")
        self.colleague: Session = self.enterContext(self.host.session())

    def sync(self, *words: str) -> CompletedProcess[str]:
        return run("sync", self.file.parent, "--connect", f":{self.host.port}", *words)

    def save(self, text: str) -> Editor:
        """Has an editor save a text, which is the workbench's then."""
        editor = self.started()
        editor.await_codes(A=[])
        editor.change(self.file, text)
        self.file.write_text(text)
        editor.save(self.file)
        self.await_text(text)
        return editor

    def await_text(self, text: str) -> None:
        until(lambda: team_texts(self.colleague) == {"A": text}, PATIENCE)

    def go_back(self) -> None:
        self.colleague.commit([Put("A", self.colleague.revision("A"), A)])

    def start_again(self) -> None:
        self.host.end()
        self.host.start()
        self.colleague = self.enterContext(self.host.session())

    def texts(self) -> tuple[str, str]:
        """The text of the file, and that of the workbench."""
        return self.file.read_text(), self.colleague.text("A").text

    def test_a_colleague_goes_back_to_the_text_before(self) -> None:
        self.save(HOT).close()
        self.go_back()
        ran = self.sync("--pull", "--push")
        self.assertEqual((ran.returncode, ran.stderr, self.texts()), (0, "", (A, A)))

    def test_a_colleague_goes_back_to_it_before_it_is_saved(self) -> None:
        editor = self.save(HOT)
        editor.change(self.file, HOTTER, 3)
        self.await_text(HOTTER)
        self.colleague.commit([Put("A", self.colleague.revision("A"), HOT)])
        editor.await_told("A.fb", (3, CHANGED))
        self.file.write_text(HOTTER)
        editor.save(self.file)
        editor.close()
        ran = self.sync("--pull", "--push")
        self.assertEqual((ran.returncode, ran.stderr, self.texts()), (0, "", (HOT, HOT)))

    def test_a_host_that_is_started_again(self) -> None:
        """Nobody knows whether a colleague went back to the text before."""
        self.save(HOT).close()
        self.start_again()
        self.colleague.commit([Put("A", 0, A)])
        ran = self.sync("--pull", "--push")
        self.assertEqual((ran.returncode, ran.stderr, self.texts()), (1, "", (HOT, A)))
        self.assertEqual(self.file.with_name("A.fb.theirs").read_text(), A)

    def test_an_editor_that_is_alone_with_a_host_that_was_started_again(self) -> None:
        """What it had in common with the new workbench is known, so that it is no question who has changed what."""
        self.start_again()
        self.save(HOT).close()
        self.go_back()
        ran = self.sync("--pull", "--push")
        self.assertEqual((ran.returncode, ran.stderr, self.texts()), (0, "", (A, A)))

    def started(self) -> Editor:
        editor = Editor("--connect", f":{self.host.port}")
        self.addCleanup(editor.process.kill)
        editor.start(self.file.parent, CAN)
        editor.open(self.file)
        return editor

    def test_an_editor_that_starts_later_knows_what_a_colleague_has_changed(self) -> None:
        self.colleague.commit([Put("A", 1, HOT)])
        self.started().await_told("A.fb", (3, r"A was changed by others \(commit 2\)"))

    def test_an_editor_that_starts_later_knows_what_its_user_has_changed(self) -> None:
        self.file.write_text(HOT)
        editor = self.started()
        editor.await_told("A.fb", (3, r"A differs from the team's text \(commit 1\), and it is not known which is newer"))
        editor.change(self.file, HOTTER)
        self.await_text(HOTTER)

    def test_what_a_sync_has_recorded_later_stays(self) -> None:
        """Also if the editor comes after it with what it knew before."""
        workbench = self.colleague.status().workbench
        self.assertTrue(record(self.state, workbench, {"A": FileRevision("A.fb", 5, HOT)}, lambda _: True))
        self.assertTrue(record(self.state, workbench, {"A": FileRevision("A.fb", 4, A), "B": FileRevision("B.fb", 4, A)}, lambda unit: unit != "B"))
        store = Store(self.file.parent)
        self.addCleanup(store.close)
        self.assertEqual((store.common, store.was_former("A", A)), ({"A": FileRevision("A.fb", 5, HOT)}, True))
        self.assertFalse(record(self.state, workbench, {"A": FileRevision("A.fb", 6, A)}, lambda _: True))

    @property
    def state(self) -> Path:
        return self.file.parent / ".bench61499"

    def test_a_sync_that_begins_meanwhile_waits(self) -> None:
        """An editor records within moments."""
        lock = os.open(self.state / "lock", os.O_RDWR)
        fcntl.flock(lock, fcntl.LOCK_SH)
        threading.Timer(0.5, os.close, [lock]).start()
        self.assertEqual(self.sync("--push").returncode, 0)

    def test_a_state_from_elsewhere_is_left_alone(self) -> None:
        """An editor continues, and writes nothing there."""
        state = self.state / "state.sqlite"
        with closing(sqlite3.connect(state)) as tables:
            tables.executescript("DROP TABLE common; CREATE VIEW common AS SELECT 1")
        content = state.read_bytes()
        self.save(HOT).close()
        self.assertEqual(state.read_bytes(), content)


class ReporterTest(InFolder):
    def setUp(self) -> None:
        super().setUp()
        self.state = self.folder / ".bench61499"
        self.state.mkdir()
        (self.state / "state.sqlite").touch()

    def test_what_is_reported(self) -> None:
        reporter, it = Reporter(), Opened("A", True, "text", 7)
        reporter.report({self.folder / "inner" / "A.fb": it, Path("/elsewhere/B.fb"): it})
        self.assertEqual(opened_in(self.state), {"inner/A.fb": it})
        reporter.report({self.folder / "A.fb": Opened("A", False, None)})
        self.assertEqual(opened_in(self.state), {"A.fb": Opened("A", False, None)})
        reporter.close()
        self.assertEqual((opened_in(self.state), list((self.state / "editors").iterdir())), ({}, []))

    def test_what_others_have_left_there(self) -> None:
        """Only what a running server reports counts, and no link is followed."""
        (self.state / "editors").mkdir()
        left = self.state / "editors" / "left"
        left.write_text('{"A.fb": ["A", true, null]}\n')
        (self.state / "editors" / "link").symlink_to(self.write("B.fb", "text"))
        self.assertEqual((opened_in(self.state), left.exists()), ({}, False))

    def test_files_that_a_link_leads_to_are_no_reports(self) -> None:
        other = self.write("away/letter.txt", b"1")
        (self.state / "editors").symlink_to(other.parent)
        self.assertEqual((opened_in(self.state), other.exists()), ({}, True))

    def test_a_recorder_that_is_closed_twice(self) -> None:
        """As a server is that is shut down, and whose editor ends then."""
        recorder = Recorder()
        recorder.note(self.folder / "A.fb", Noted("A", "text", "text", 1, "x"))
        for _ in range(2):
            recorder.close()

    def test_a_link_leads_nowhere(self) -> None:
        (self.folder / "other").mkdir()
        (self.state / "editors").symlink_to(self.folder / "other")
        Reporter().report({self.folder / "A.fb": Opened("A", True, None)})
        self.assertEqual(list((self.folder / "other").iterdir()), [])


if __name__ == "__main__":
    unittest.main()
