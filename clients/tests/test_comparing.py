"""A team on a host: an editor compares its texts with those of the workbench, and its user chooses."""
from __future__ import annotations

import os
import re
import signal
import threading
import time
import unittest
from collections.abc import Callable, Iterable
from dataclasses import replace
from pathlib import Path
from unittest.mock import patch
from urllib.parse import urlsplit

from editing import Editor
from hall import hall, write_hall
from support import InFolder, hosting, serving
from syncing import Host
from test_team import TeamTest

from bench61499 import Change, ConnectionEnded, Put, Remove, Session, Status
from bench61499.language.positions import edited
from bench61499.lsp.asking import Asking
from bench61499.lsp.checking import Checking
from bench61499.lsp.choices import COMPARE, MERGE, PUT, TAKE
from bench61499.lsp.commits import Author, Unit
from bench61499.lsp.offers import CALM, KEEP, REMOVE, Offers
from bench61499.lsp.talk import NO_TEXTS
from bench61499.lsp.teamtalk import STARTED_AGAIN

GOOD = "FUNCTION_BLOCK A\nEND_FUNCTION_BLOCK\n"
BAD = "FUNCTION_BLOCK A\n  EVENT_INPUT E WITH X; END_EVENT\nEND_FUNCTION_BLOCK\n"
FAULT = "no data input X to go with this event"
LONG = "FUNCTION_BLOCK A\n  EVENT_INPUT E; END_EVENT\n  VAR_INPUT X : INT; END_VAR\n  VAR_OUTPUT Y : INT; END_VAR\nEND_FUNCTION_BLOCK\n"
MINE, THEIRS = LONG.replace("E;", "E; F;"), LONG.replace("Y :", "Y, Z :")
BOTH = LONG.replace("E;", "E; F;").replace("Y :", "Y, Z :")
OTHER = LONG.replace("E;", "E; G;")
MARKED = LONG.replace("  EVENT_INPUT E; END_EVENT\n", """\
<<<<<<< mine
  EVENT_INPUT E; F; END_EVENT
=======
  EVENT_INPUT E; G; END_EVENT
>>>>>>> session {} (commit 2)
""")
MARKED_LINES = 2, "both you and others have changed these lines: the text is not put while it has marked ones"
CAN = {
    "workspace": {"applyEdit": True, "workspaceEdit": {"documentChanges": True}, "didChangeWatchedFiles": {"dynamicRegistration": True}},
    "window": {"showDocument": {"support": True}},
}


def changed(unit: str, commit: int, session: int | str = r"\d+") -> tuple[int, str]:
    return 3, rf"{unit} was changed by session {session} \(commit {commit}\) \d+ s ago; you are session \d+"


class ComparingTest(TeamTest):
    def setUp(self) -> None:
        super().setUp()
        serve = hosting()
        self.port = serve.__enter__()
        self.addCleanup(serve.__exit__, None, None, None)
        self.other = self.session(self.port)
        self.file = self.folder / "A.fb"

    def started(self, capabilities: dict | None = None) -> Editor:
        editor = self.editor("--connect", f":{self.port}")
        editor.start(self.folder, CAN if capabilities is None else capabilities)
        while "workspace" in (capabilities or CAN) and not editor.asked:
            editor.read()
        editor.asked.clear()  # It watches files.
        return editor

    def opened(self, text: str, capabilities: dict | None = None) -> Editor:
        """An editor with an open unit that it has put."""
        self.file.write_text(text)
        editor = self.started(capabilities)
        editor.open(self.file)
        editor.await_codes(A=[])
        return editor

    def titles(self, editor: Editor) -> list[str]:
        at = {"line": 0, "character": 0}
        return [it["title"] for it in editor.ask("codeAction", self.file, range={"start": at, "end": at}, context={"diagnostics": []})]

    def do(self, editor: Editor, command: str) -> dict:
        return editor.request("workspace/executeCommand", command=command, arguments=[self.file.as_uri()])

    def let_edit(self, editor: Editor, text: str, version: int) -> str:
        """Has the editor make the edit that it is asked for in the open unit; gives the text then."""
        asked = editor.await_asked("workspace/applyEdit")
        (change,) = asked["params"]["edit"]["documentChanges"]
        self.assertEqual(change["textDocument"]["uri"], self.file.as_uri())
        after = edited(text, change["edits"])
        editor.answer(asked, {"applied": True})
        editor.change(self.file, after, version)
        return after

    def text(self) -> str:
        return self.other.text("A").text

    def await_text(self, text: str) -> None:
        """Waits for the commit that gives the workbench this text."""
        at = self.other.status().calls
        while self.text() != text:
            at = self.other.watch(at, 10).at


class KnowingTest(ComparingTest):
    """What an editor knows without a question of its user."""

    def test_the_same_text_from_somebody_else(self) -> None:
        self.file.write_text(BAD)
        self.other.commit([Put("A", 0, BAD)])
        editor = self.started()
        editor.open(self.file)
        editor.await_told("A.fb", (1, FAULT))
        self.assertEqual((self.titles(editor), editor.messages, self.other.revision("A")), ([], [], 1))

    def test_another_text_at_the_start_is_not_replaced_by_typing(self) -> None:
        self.file.write_text(GOOD)
        self.other.commit([Put("A", 0, BAD)])
        editor = self.started()
        editor.open(self.file)
        differs = 3, r"A differs from the team's text \(commit 1\), and it is not known which is newer"
        editor.await_told("A.fb", differs)
        self.assertEqual(self.titles(editor), ["Take the team's text", "Compare", "Put mine"])
        editor.change(self.file, f"{GOOD} ")
        editor.await_told("A.fb", differs)
        editor.save(self.file)
        self.assertEqual(self.do(editor, PUT)["result"], None)
        editor.await_told("A.fb")
        self.assertEqual((self.text(), self.titles(editor)), (f"{GOOD} ", []))

    def test_who_types_at_once_changes_the_text_that_was_opened(self) -> None:
        self.file.write_text(GOOD)
        self.other.commit([Put("A", 0, GOOD)])
        editor = self.started()
        editor.open(self.file)
        editor.change(self.file, BAD)
        editor.await_told("A.fb", (1, FAULT))
        self.assertEqual(self.text(), BAD)

    def test_a_text_is_changed_by_somebody_else(self) -> None:
        editor = self.opened(GOOD)
        editor.change(self.file, BAD)
        editor.await_codes(A=["WITH_UNKNOWN"])
        number = self.other.commit([Put("A", 2, GOOD)])
        editor.await_told("A.fb", changed("A", number, self.other.status().session), (2, f"{FAULT} \\(as last known\\)"))
        editor.change(self.file, f"{BAD} ", 3)
        editor.await_told("A.fb", changed("A", number), (2, f"{FAULT} \\(as last known\\)"))
        self.assertEqual((self.text(), self.titles(editor)), (GOOD, ["Take the team's text", "Compare", "Merge", "Put mine"]))
        editor.change(self.file, GOOD, 4)
        editor.await_told("A.fb")
        self.assertEqual((self.other.revision("A"), editor.messages), (number, []))

    def test_the_age_of_a_change_is_told_anew(self) -> None:
        editor = self.opened(GOOD)
        self.other.commit([Put("A", 1, BAD)])
        while not any(re.search(r" ([5-9]|\d\d+) s ago; you are session \d+$", it["message"]) for it in editor.shown["A.fb"]):
            editor.read()

    def test_a_unit_is_removed_by_somebody_else(self) -> None:
        editor = self.opened(GOOD)
        self.other.commit([Remove("A", 1)])
        removed = 3, r"A was removed by session \d+ \(commit 2\) \d+ s ago; you are session \d+"
        editor.await_told("A.fb", removed)
        editor.change(self.file, f"{GOOD} ")
        editor.await_told("A.fb", removed)
        self.assertEqual((self.other.revision("A"), self.titles(editor)), (0, ["Put mine"]))
        self.do(editor, PUT)
        editor.await_told("A.fb")
        self.assertEqual(self.text(), f"{GOOD} ")

    def test_who_puts_a_unit_again_is_named(self) -> None:
        """Also to the one who does it."""
        editor = self.opened(GOOD)
        session = self.other.status().session
        self.other.commit([Remove("A", 1)])
        editor.await_told("A.fb", (3, r"A was removed by session \d+ \(commit 2\) \d+ s ago; you are session \d+"))
        self.do(editor, PUT)
        again = f"bench61499: A is in the workbench again: {{}} has put it (commit {{}}), after session {session} had removed it (commit {{}})."
        self.assertEqual(editor.await_message(), again.format("this editor", 3, 2))
        self.other.commit([Remove("A", 3)])
        with Session.connect("127.0.0.1", self.port) as third:
            third.commit([Put("A", 0, GOOD)])
            self.assertEqual(editor.await_message(), again.format(f"session {third.status().session}", 5, 4))

    def test_a_name_that_comes_and_goes_as_it_is_typed_is_no_news(self) -> None:
        editor = self.opened(GOOD)
        for version, name in enumerate(("AB", "A"), 2):
            editor.change(self.file, GOOD.replace("A", name, 1), version)
            while {it.unit for it in self.other.units().units} != {name}:
                self.other.watch(self.other.status().calls, 10)
        editor.change(self.file, BAD, 4)
        editor.await_told("A.fb", (1, FAULT))
        self.assertEqual(editor.messages, [])

    def test_a_unit_that_was_removed_before_the_editor_started_is_not_put_again(self) -> None:
        self.other.commit([Put("A", 0, GOOD), Put("C", 0, GOOD.replace("A", "C", 1))])
        self.other.commit([Remove("A", 1)])
        self.file.write_text(GOOD)
        editor = self.started()
        editor.open(self.file)
        editor.await_told("A.fb", (3, rf"A was removed by session {self.other.status().session} \(commit 2\); you are session \d+"))
        self.assertEqual(self.titles(editor), ["Put mine"])
        self.write("B.fb", GOOD.replace("A", "B", 1))
        editor.save(self.file)
        while self.other.status().commits < 3:
            self.other.watch(self.other.status().calls, 10)
        self.assertEqual([it.unit for it in self.other.units().units], ["B", "C"])
        self.do(editor, PUT)
        editor.await_told("A.fb")
        self.assertIn("A is in the workbench again: this editor has put it (commit 4)", editor.await_message())

    def test_a_type_that_somebody_else_has_removed_is_not_there(self) -> None:
        """Its file is, and has no fault."""
        self.write("B.fb", "FUNCTION_BLOCK B\n  FBS X : A; END_FBS\nEND_FUNCTION_BLOCK\n")
        editor = self.opened(GOOD)
        self.other.commit([Remove("A", self.other.text("A").revision)])
        editor.await_told("B.fb", (1, "there is no type A"))

    def test_nobody_types(self) -> None:
        """Nothing is recorded, and nobody else's commit has anything recorded but the work that it makes."""
        write_hall(self.folder)
        editors = [self.started() for _ in range(2)]
        for editor in editors:
            for unit in list(hall())[:18]:
                editor.open(self.folder / f"{unit}.fb")
            while len(editor.shown) < 18:
                editor.read()
        self.other.settle()
        calls = self.other.status().calls
        self.assertEqual(self.other.watch(calls, 3).events, ())
        self.assertEqual(self.other.status().calls, calls)

    def test_a_fault_that_somebody_else_has_made_in_another_unit(self) -> None:
        write_hall(self.folder)
        editor = self.started()
        editor.open(self.folder / "CELL_A.fb")
        editor.await_codes(CELL_A=[])
        self.other.commit([Put("STEP_01", self.other.text("STEP_01").revision, hall()["STEP_01"].replace("DONE", "READY"))])
        editor.await_codes(CELL_A=["PORT_UNKNOWN"])


class ChoosingTest(ComparingTest):
    """What a user does with a text that somebody else has changed."""

    def test_the_text_of_the_team_is_taken(self) -> None:
        editor = self.opened(GOOD)
        self.other.commit([Put("A", 1, BAD)])
        editor.await_told("A.fb", changed("A", 2))
        self.do(editor, TAKE)
        self.assertEqual(self.let_edit(editor, GOOD, 2), BAD)
        editor.await_told("A.fb", (1, FAULT))
        self.assertEqual((self.other.revision("A"), self.file.read_text()), (2, GOOD))

    def test_an_editor_that_ends_the_last_line_by_itself(self) -> None:
        editor = self.opened(GOOD)
        self.other.commit([Put("A", 1, BAD.rstrip())])
        editor.await_told("A.fb", changed("A", 2))
        self.do(editor, TAKE)
        editor.answer(editor.await_asked("workspace/applyEdit"), {"applied": True})
        editor.change(self.file, BAD, 2)
        editor.await_told("A.fb", (1, FAULT))
        self.assertEqual(self.text(), BAD)

    def test_an_edit_that_the_editor_refuses(self) -> None:
        editor = self.opened(GOOD)
        self.other.commit([Put("A", 1, BAD)])
        editor.await_told("A.fb", changed("A", 2))
        self.do(editor, TAKE)
        editor.answer(editor.await_asked("workspace/applyEdit"), {"applied": False, "failureReason": "it is newer"})
        self.assertEqual(editor.await_message(), "bench61499: The editor has not changed A: it is newer.")
        editor.change(self.file, f"{GOOD} ")
        editor.await_told("A.fb", changed("A", 2))
        self.assertEqual(self.text(), BAD)

    def conflict(self, mine: str, theirs: str, capabilities: dict | None = None) -> Editor:
        """Both have changed a text; the editor has not put its own."""
        editor = self.opened(LONG, capabilities)
        self.other.commit([Put("A", 1, theirs)])
        editor.await_told("A.fb", changed("A", 2))
        editor.change(self.file, mine)
        editor.await_told("A.fb", changed("A", 2))
        return editor

    def test_both_changes_are_merged(self) -> None:
        editor = self.conflict(MINE, THEIRS)
        self.assertEqual(self.titles(editor), ["Take the team's text", "Compare", "Merge", "Put mine"])
        self.do(editor, MERGE)
        self.assertEqual(self.let_edit(editor, MINE, 3), BOTH)
        editor.await_told("A.fb")
        self.assertEqual((self.text(), self.other.revision("A")), (BOTH, 3))

    def test_an_answer_without_the_text_is_no_merge(self) -> None:
        """An editor may answer before it sends what it has changed: the text before is not put then."""
        editor = self.conflict(MINE, THEIRS)
        self.do(editor, MERGE)
        editor.answer(editor.await_asked("workspace/applyEdit"), {"applied": True})
        editor.save(self.file)
        self.assertEqual(self.titles(editor)[2:3], ["Merge"])
        self.assertEqual(self.text(), THEIRS)
        editor.change(self.file, BOTH, 3)
        editor.await_told("A.fb")
        self.assertEqual(self.text(), BOTH)

    def test_who_undoes_an_edit_puts_nothing_over_the_text_of_the_team(self) -> None:
        editor = self.opened(GOOD)
        self.other.commit([Put("A", 1, BAD)])
        editor.await_told("A.fb", changed("A", 2))
        self.do(editor, TAKE)
        self.let_edit(editor, GOOD, 2)
        editor.await_told("A.fb", (1, FAULT))
        for version, text in enumerate((f"{BAD} ", BAD, GOOD), 3):
            editor.change(self.file, text, version)
        editor.await_told("A.fb", changed("A", 2), (2, f"{FAULT} \\(as last known\\)"))
        self.assertEqual((self.text(), self.other.revision("A")), (BAD, 2))
        editor.change(self.file, BAD, 6)
        editor.await_told("A.fb", (1, FAULT))
        self.assertEqual(self.other.revision("A"), 2)

    def test_who_undoes_a_merge_puts_nothing_over_it(self) -> None:
        editor = self.conflict(MINE, THEIRS)
        self.do(editor, MERGE)
        self.let_edit(editor, MINE, 3)
        editor.await_told("A.fb")
        editor.change(self.file, MINE, 4)
        editor.await_told("A.fb", (3, r"A differs from the team's text \(commit 3\), and it is not known which is newer"))
        self.assertEqual((self.text(), self.titles(editor)), (BOTH, ["Take the team's text", "Compare", "Merge", "Put mine"]))

    def test_marked_lines_are_not_put(self) -> None:
        editor = self.conflict(MINE, OTHER)
        self.do(editor, MERGE)
        marked = self.let_edit(editor, MINE, 3)
        self.assertEqual(marked, MARKED.format(self.other.status().session))
        self.assertEqual(editor.await_message(), "bench61499: 1 conflict in A: it is not put while it has marked lines.")
        editor.await_told("A.fb", MARKED_LINES)
        self.assertEqual(editor.shown["A.fb"][0]["range"]["start"]["line"], 1)
        editor.save(self.file)
        editor.change(self.file, f"{marked} ", 4)
        editor.await_told("A.fb", MARKED_LINES)
        self.assertEqual(self.text(), OTHER)
        solved = LONG.replace("E;", "E; F; G;")
        editor.change(self.file, solved, 5)
        editor.await_told("A.fb")
        self.assertEqual(self.text(), solved)

    def test_another_name_in_a_text_with_marked_lines_removes_no_unit(self) -> None:
        editor = self.opened(GOOD)
        named = GOOD.replace(" A", " B", 1)
        editor.change(self.file, f"{named}<<<<<<< mine\n=======\n// 2\n>>>>>>> theirs\n")
        editor.await_told("A.fb", MARKED_LINES)
        editor.save(self.file)
        self.write("C.fb", GOOD.replace(" A", " C", 1))
        editor.notify("workspace/didChangeWatchedFiles", changes=[])
        while "C" not in self.names():
            time.sleep(0.01)
        self.assertEqual((self.names(), self.text()), ({"A", "C"}, GOOD))
        editor.change(self.file, named, 3)
        while self.names() != {"B", "C"}:
            time.sleep(0.01)

    def names(self) -> set[str]:
        return {it.unit for it in self.other.units().units}

    def test_mine_is_not_offered_with_marked_lines(self) -> None:
        editor = self.conflict(MINE, OTHER)
        self.do(editor, MERGE)
        self.let_edit(editor, MINE, 3)
        self.other.commit([Put("A", self.other.text("A").revision, f"{OTHER} ")])
        while not (titles := self.titles(editor)):
            editor.read()
        self.assertEqual(titles, ["Take the team's text", "Compare", "Merge"])

    def test_texts_are_compared_in_a_file_that_can_only_be_read(self) -> None:
        editor = self.conflict(MINE, THEIRS)
        self.do(editor, COMPARE)
        asked = editor.await_asked("window/showDocument")
        file = Path(urlsplit(asked["params"]["uri"]).path)
        editor.answer(asked, {"success": True})
        session = self.other.status().session
        expected = f"""\
--- A of session {session} (commit 2)
+++ A in A.fb
@@ -1,5 +1,5 @@
 FUNCTION_BLOCK A
-  EVENT_INPUT E; END_EVENT
+  EVENT_INPUT E; F; END_EVENT
   VAR_INPUT X : INT; END_VAR
-  VAR_OUTPUT Y, Z : INT; END_VAR
+  VAR_OUTPUT Y : INT; END_VAR
 END_FUNCTION_BLOCK
"""
        self.assertEqual((file.read_text("utf-8"), file.stat().st_mode & 0o777, file.parent.stat().st_mode & 0o777), (expected, 0o400, 0o700))
        editor.close()
        self.assertFalse(file.exists())

    def test_an_editor_that_shows_no_documents_and_makes_no_edits(self) -> None:
        editor = self.conflict(MINE, THEIRS, {"textDocument": {}})
        self.assertEqual(self.titles(editor), ["Compare", "Put mine"])
        self.do(editor, COMPARE)
        self.assertRegex(editor.await_message(), r"^bench61499: The differences of A are in /\S+/A-1\.diff$")

    def test_mine_is_put_only_over_the_text_that_was_seen(self) -> None:
        editor = self.conflict(MINE, THEIRS)
        self.do(editor, PUT)
        editor.await_told("A.fb")
        self.assertEqual((self.text(), self.do(editor, PUT)["error"]["message"]), (MINE, "the workbench has this text, or none that differs is known"))


class ClosedTest(ComparingTest):
    """Files that are not open."""

    def closed(self) -> Editor:
        """An editor with another unit open, and the text of A in a file, which it has put."""
        self.file.write_text(GOOD)
        return self.beside()

    def beside(self) -> Editor:
        open_one = self.write("B.fb", GOOD.replace("A", "B", 1))
        editor = self.started()
        editor.open(open_one)
        editor.await_codes(B=[])
        return editor

    def test_the_team_s_text_is_offered_at_once(self) -> None:
        editor = self.closed()
        self.await_text(GOOD)
        self.other.commit([Put("A", self.other.revision("A"), BAD)])
        asked = editor.await_asked("workspace/applyEdit")
        (change,) = asked["params"]["edit"]["documentChanges"]
        self.assertEqual(change["textDocument"], {"uri": self.file.as_uri(), "version": None})
        self.assertEqual((edited(GOOD, change["edits"]), asked["params"]["label"]), (BAD, "The team's text of A"))
        editor.open(self.file, GOOD)
        editor.change(self.file, BAD)
        editor.answer(asked, {"applied": True})
        editor.await_told("A.fb", (1, FAULT))
        self.assertEqual(editor.await_message(), "bench61499: Others have changed A: its editor has the team's text now, which is not saved.")
        self.assertEqual(self.file.read_text(), GOOD)

    def test_a_text_that_was_taken_and_discarded_is_not_put_back(self) -> None:
        editor = self.closed()
        self.await_text(GOOD)
        number = self.other.commit([Put("A", self.other.revision("A"), BAD)])
        editor.answer(editor.await_asked("workspace/applyEdit"), {"applied": True})
        editor.open(self.file, GOOD)
        editor.change(self.file, BAD)
        editor.await_told("A.fb", (1, FAULT))
        editor.shut(self.file)
        editor.await_told("A.fb", changed("A", number))
        self.assertEqual((self.text(), editor.asked), (BAD, []))

    def test_an_own_text_that_was_discarded_is_put_back(self) -> None:
        editor = self.opened(GOOD)
        editor.change(self.file, BAD)
        editor.await_codes(A=["WITH_UNKNOWN"])
        editor.shut(self.file)
        editor.await_codes(A=[])
        self.assertEqual(self.text(), GOOD)

    def test_a_file_with_changes_that_are_not_committed_is_left(self) -> None:
        """It differs from the start, or was changed on the disk after a colleague's commit."""
        self.other.commit([Put("A", 0, BAD)])
        self.file.write_text(GOOD)
        editor = self.beside()
        number = self.other.commit([Put("A", 1, f"{BAD} ")])
        editor.await_told("A.fb", changed("A", number))
        editor.open(self.file)
        self.assertEqual(self.titles(editor), ["Take the team's text", "Compare", "Put mine"])
        self.assertEqual(editor.asked, [])

    def test_a_file_that_changes_on_disk_is_put_only_if_its_text_came_from_here(self) -> None:
        self.other.commit([Put("A", 0, GOOD)])
        editor = self.closed()
        mine = self.write("C.fb", GOOD.replace("A", "C", 1))
        self.file.write_text(BAD)
        editor.notify("workspace/didChangeWatchedFiles", changes=[])
        editor.await_told("A.fb", (3, r"A differs from the team's text \(commit 1\), and it is not known which is newer"))
        mine.write_text(mine.read_text() + " ")
        editor.notify("workspace/didChangeWatchedFiles", changes=[])
        while self.other.text("C").text != mine.read_text():
            self.other.watch(self.other.status().calls, 10)
        self.assertEqual(self.text(), GOOD)

    def vanish(self, count: int) -> Editor:
        """An editor whose files vanish, but for the open one."""
        files = [self.write(f"U{at}.fb", f"FUNCTION_BLOCK U{at} END_FUNCTION_BLOCK") for at in range(count)]
        editor = self.beside()
        for file in files:
            os.unlink(file)
        editor.notify("workspace/didChangeWatchedFiles", changes=[])
        return editor

    def await_units(self, *units: str) -> None:
        while [it.unit for it in self.other.units().units] != list(units):
            self.other.watch(self.other.status().calls, 10)

    def test_a_unit_of_others_is_renamed(self) -> None:
        """By one commit: the old name goes, though it came from elsewhere, unless somebody changes that unit meanwhile."""
        self.other.commit([Put("A", 0, GOOD), Put("B", 0, GOOD.replace("A", "B", 1))])
        self.file.write_text(GOOD)
        editor = self.beside()
        for new, left, is_changed in (("NEW", ["B", "NEW"], False), ("LAST", ["B", "LAST", "NEW"], True)):
            editor.open(self.file)
            editor.request("textDocument/rename", textDocument={"uri": self.file.as_uri()}, position={"line": 0, "character": 15}, newName=new)
            if is_changed:
                number = self.other.commit([Put("NEW", self.other.text("NEW").revision, f"{self.file.read_text()} ")])
                editor.await_told("A.fb", changed("NEW", number))
            editor.change(self.file, GOOD.replace("A", new, 1))
            self.file.write_text(GOOD.replace("A", new, 1))
            editor.save(self.file)
            editor.shut(self.file)
            self.await_units(*left)
        self.assertEqual(self.other.status().commits, 4)

    def test_a_few_units_that_vanish_are_removed(self) -> None:
        self.vanish(3)
        self.await_units("B")

    def test_more_of_them_are_removed_if_the_user_says_so(self) -> None:
        editor = self.vanish(4)
        asked = editor.await_asked("window/showMessageRequest")
        self.assertEqual(asked["params"]["message"], "bench61499: 4 units of the team's workbench have no file here any more: U0, U1, U2 and 1 more. Remove them there too?")
        self.assertEqual([it["title"] for it in asked["params"]["actions"]], [REMOVE, KEEP])
        editor.change(self.folder / "B.fb", BAD.replace("A", "B", 1))
        editor.await_codes(B=["WITH_UNKNOWN"])
        self.await_units("B", "U0", "U1", "U2", "U3")
        editor.answer(asked, {"title": REMOVE})
        self.await_units("B")

    def test_more_of_them_stay_without_an_answer(self) -> None:
        editor = self.vanish(4)
        editor.answer(editor.await_asked("window/showMessageRequest"), None)
        editor.change(self.folder / "B.fb", BAD.replace("A", "B", 1))
        editor.await_codes(B=["WITH_UNKNOWN"])
        self.await_units("B", "U0", "U1", "U2", "U3")


class OffersTest(InFolder):
    """What is offered of files that are not open, without a workbench."""

    def setUp(self) -> None:
        super().setUp()
        self.sent: list[dict] = []
        self.asking = Asking(self.sent.append)
        self.asking.capabilities = {"workspace": {"applyEdit": True}}
        self.open: set[Path] = set()
        self.clock = 0.0
        self.offers = Offers(self.asking, lambda path: path in self.open, lambda *_: None)

    def note(self, unit: str, text: str = GOOD, common: str = GOOD) -> Path:
        file = self.write(f"{unit}.fb", text)
        self.offers.note(file, unit, Unit(2, BAD, True, False, Author(3, 2, 0.0), common), text)
        return file

    def step(self) -> list[dict]:
        """What is asked once nothing has happened for a while."""
        self.clock += CALM
        self.sent.clear()
        with patch("bench61499.lsp.offers.time.monotonic", lambda: self.clock):
            self.offers.step()
        return self.sent

    def noted(self, *units: str) -> None:
        with patch("bench61499.lsp.offers.time.monotonic", lambda: self.clock):
            for unit in units:
                self.note(unit)

    def answer(self, result: object) -> None:
        self.asking.answered({"id": self.sent[0]["id"], "result": result})

    def test_a_few_are_given_at_once(self) -> None:
        self.noted("A", "B")
        (asked,) = self.step()
        self.assertEqual((asked["method"], asked["params"]["label"]), ("workspace/applyEdit", "The team's text of A and B"))
        self.assertEqual(set(asked["params"]["edit"]["changes"]), {(self.folder / name).as_uri() for name in ("A.fb", "B.fb")})
        self.assertEqual(self.step(), [])

    def test_what_was_written_or_opened_meanwhile_is_left(self) -> None:
        self.noted("A", "B", "C", "D")
        self.write("A.fb", BAD)
        (self.folder / "B.fb").unlink()
        self.open.add(self.folder / "C.fb")
        (asked,) = self.step()
        self.assertEqual(asked["params"]["label"], "The team's text of D")

    def test_a_file_with_changes_that_are_not_committed_is_left(self) -> None:
        self.note("A", text=f"{GOOD} ")
        self.assertEqual((self.offers.patience(), self.step()), (None, []))

    def test_what_was_refused_is_not_offered_again_before_it_is_opened(self) -> None:
        self.noted("A")
        self.step()
        self.answer({"applied": False})
        self.noted("A")
        self.assertEqual(self.step(), [])
        self.offers.opened(self.folder / "A.fb")
        self.noted("A")
        self.assertEqual(len(self.step()), 1)

    def test_many_are_asked_for(self) -> None:
        self.noted(*(f"U{at:02}" for at in range(17)))
        (asked,) = self.step()
        self.assertEqual(asked["method"], "window/showMessageRequest")
        self.assertEqual(
            asked["params"]["message"],
            "bench61499: 17 units that are not open here were changed by others: U00, U01, U02 and 14 more. Take the team's texts?",
        )
        self.answer({"title": "Take them"})
        self.assertEqual(len(self.sent[-1]["params"]["edit"]["changes"]), 17)


class Named(Session):
    """A session that gives the port of a host for the identity of its workbench. It may lose the replies to commits, some times."""

    port = 0
    losses = 0

    def status(self) -> Status:
        return replace(super().status(), workbench=str(self.port))

    def commit(self, changes: Iterable[Change]) -> int:
        number = super().commit(changes)
        if Named.losses:
            Named.losses -= 1
            raise ConnectionEnded("it ended")
        return number


class StartedAgainTest(TeamTest):
    """A host is killed and started again, and a colleague is the first who puts a unit there, of which the editor has a file that is not open."""

    def setUp(self) -> None:
        super().setUp()
        self.host = Host()
        self.addCleanup(self.host.end)
        self.file, open_one = self.write("A.fb", GOOD), self.write("B.fb", GOOD.replace("A", "B", 1))
        self.running = self.editor("--connect", f":{self.host.port}")
        self.running.start(self.folder, CAN)
        self.running.await_asked("client/registerCapability")
        self.running.open(open_one)
        self.await_text(GOOD)

    def await_text(self, text: str) -> None:
        with self.host.session() as session:
            while not any(it.text == text for it in session.texts(["A"]).values()):
                session.watch(session.status().calls, 0.1)

    def start_again(self, change: Change) -> None:
        self.running.process.send_signal(signal.SIGSTOP)
        self.host.end()
        self.host.start()
        with self.host.session() as session:
            session.commit([change])
        self.running.process.send_signal(signal.SIGCONT)

    def test_a_file_that_nobody_has_touched_gets_the_later_text(self) -> None:
        self.start_again(Put("A", 0, BAD))
        asked = self.running.await_asked("workspace/applyEdit")
        (change,) = asked["params"]["edit"]["documentChanges"]
        self.assertEqual((edited(GOOD, change["edits"]), asked["params"]["label"]), (BAD, "The team's text of A"))

    def test_a_text_that_a_colleague_went_back_to_before(self) -> None:
        """The editor was there, so it is no question which text is the later one."""
        self.running.open(self.file)
        self.running.await_codes(A=[])
        self.running.change(self.file, BAD)
        self.running.await_codes(A=["WITH_UNKNOWN"])
        with self.host.session() as session:
            number = session.commit([Put("A", session.revision("A"), GOOD)])
        self.running.await_told("A.fb", changed("A", number), (2, f"{FAULT} \\(as last known\\)"))
        self.start_again(Put("A", 0, GOOD))
        self.running.await_told("A.fb", (3, r"A was changed by others \(commit 1\)"), (2, f"{FAULT} \\(as last known\\)"))

    def test_a_text_that_a_colleague_had_overtaken_is_not_put(self) -> None:
        """The colleague has the later text, and comes again."""
        self.running.open(self.file)
        self.running.await_codes(A=[])
        with self.host.session() as session:
            session.commit([Put("A", session.revision("A"), BAD)])
        self.running.await_told("A.fb", changed("A", 2))
        self.running.change(self.file, f"{GOOD} ")
        self.running.await_told("A.fb", changed("A", 2))
        self.start_again(Put("C", 0, ""))
        self.running.await_told("A.fb", (3, "A was changed by others before the host was started again, and is not there yet: they have the later text"))
        with self.host.session() as session:
            while (units := {it.unit for it in session.units().units}) != {"B", "C"}:
                self.assertLessEqual(units, {"B", "C"})
                session.watch(session.status().calls, 0.1)
            session.commit([Put("A", 0, BAD)])
        self.running.await_told("A.fb", changed("A", 3))

    def test_a_former_text_is_named_and_not_taken(self) -> None:
        """Its author may have gone back to it, or have been away."""
        self.file.write_text(BAD)
        self.running.notify("workspace/didChangeWatchedFiles", changes=[])
        self.await_text(BAD)
        self.start_again(Put("A", 0, GOOD))
        self.running.await_told("A.fb", (3, r"A differs from the team's text \(commit 1\), which this editor had before: somebody may have gone back to it"))
        time.sleep(CALM + 0.5)
        self.running.ask("documentSymbol", self.folder / "B.fb")
        self.assertEqual((self.running.asked, self.file.read_text()), ([], BAD))


class LostTest(InFolder):
    """Connections that end, and a host that ends with another workbench in its place."""

    def setUp(self) -> None:
        super().setUp()
        self.sent: list[dict] = []
        self.woken = threading.Event()

    def connect(self) -> Session:
        session = Named.connect("127.0.0.1", self.port)
        session.port = self.port
        return session

    def shown(self, name: str) -> list[str]:
        """What is shown of a file."""
        uri = (self.folder / name).as_uri()
        return next(([it["message"] for it in its["params"]["diagnostics"]] for its in reversed(self.sent) if its["params"].get("uri") == uri), ["nothing"])

    def step_until(self, condition: Callable[[], object]) -> None:
        end = time.monotonic() + 60
        while not condition() and time.monotonic() < end:
            self.woken.wait(self.checking.patience() or 0.05)
            self.woken.clear()
            self.checking.step()
        self.assertTrue(condition(), self.sent)

    def test_a_commit_that_was_made_though_no_reply_came(self) -> None:
        file = self.write("A.fb", GOOD)
        with hosting() as self.port, self.connect() as other:
            self.checking = Checking(self.connect, True, self.sent.append, self.woken.set)
            self.addCleanup(self.checking.close)
            self.checking.open(file.as_uri(), 1, GOOD)
            self.step_until(lambda: self.shown("A.fb") == [])
            Named.losses = 1
            self.checking.change(file.as_uri(), 2, [{"text": BAD}])
            self.step_until(lambda: self.shown("A.fb") == [FAULT])
            self.assertEqual((other.text("A").revision, Named.losses), (2, 0))
            self.checking.change(file.as_uri(), 3, [{"text": GOOD}])
            self.step_until(lambda: self.shown("A.fb") == [])
            self.assertEqual((other.text("A").text, other.text("A").revision), (GOOD, 3))

    def test_an_older_server_in_the_place_of_a_host(self) -> None:
        file = self.write("A.fb", BAD)
        with hosting() as self.port:
            self.checking = Checking(self.connect, True, self.sent.append, self.woken.set)
            self.addCleanup(self.checking.close)
            self.checking.open(file.as_uri(), 1, BAD)
            self.step_until(lambda: self.shown("A.fb") == [FAULT])
        with serving(3) as self.port:
            self.step_until(lambda: f"bench61499: {NO_TEXTS}" in [it["params"].get("message") for it in self.sent])
            self.checking.change(file.as_uri(), 2, [{"text": GOOD}])
            self.step_until(lambda: self.shown("A.fb") == [])

    def test_texts_of_another_life_are_not_taken_for_those_of_this_one(self) -> None:
        files = [self.write(f"{unit}.fb", BAD.replace("A", unit, 1)) for unit in "AB"]
        with hosting() as self.port:
            self.checking = Checking(self.connect, True, self.sent.append, self.woken.set)
            self.addCleanup(self.checking.close)
            for file in files:
                self.checking.open(file.as_uri(), 1, file.read_text())
            self.step_until(lambda: self.shown("A.fb") == self.shown("B.fb") == [FAULT])
        with hosting() as self.port, self.connect() as other:
            other.commit([Put("A", 0, GOOD)])
            self.step_until(lambda: self.shown("A.fb")[0] == "A differs from the team's text (commit 1), and it is not known which is newer")
            self.checking.change(files[0].as_uri(), 2, [{"text": f"{BAD} "}])
            self.step_until(lambda: self.shown("B.fb") == [FAULT])
            self.checking.change(files[1].as_uri(), 2, [{"text": GOOD.replace("A", "B", 1)}])
            self.step_until(lambda: self.shown("B.fb") == [])
            self.assertEqual((other.text("A").text, other.text("B").text), (GOOD, GOOD.replace("A", "B", 1)))
        self.assertIn(f"bench61499: {STARTED_AGAIN}", [it["params"].get("message") for it in self.sent])


if __name__ == "__main__":
    unittest.main()
