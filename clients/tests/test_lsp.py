"""lsp: its messages, by pipe, as an editor sends and reads them."""
from __future__ import annotations

import math
import os
import threading
import unittest
from pathlib import Path

from editing import LspTest
from support import InFolder, free_port, serving, workbench

from bench61499 import Session
from bench61499.language.positions import edited
from bench61499.lsp.checking import Checking
from bench61499.lsp.server import Server

GOOD = "FUNCTION_BLOCK A END_FUNCTION_BLOCK"
REASONS = [
    ("BELT is declared here", ("STATION.fb", 7)), ("FEEDER is declared here", ("FEEDER.fb", 1)), ("the first BELT is declared here", ("STATION.fb", 7)),
]
BAD = "FUNCTION_BLOCK A EVENT_INPUT E WITH X; END_EVENT END_FUNCTION_BLOCK"


class LifeTest(LspTest):
    def test_initialize_and_exit(self):
        editor = self.editor()
        self.assertEqual(editor.request("shutdown")["error"]["code"], -32002)
        capabilities = editor.start()["result"]["capabilities"]
        self.assertEqual(capabilities["textDocumentSync"]["change"], 2)
        self.assertEqual(editor.request("textDocument/willSaveWaitUntil")["error"]["code"], -32601)
        editor.notify("$/setTrace", value="off")
        self.assertEqual(editor.request("initialize")["error"]["code"], -32600)
        self.assertEqual(editor.request("shutdown")["result"], None)
        self.assertEqual(editor.request("shutdown")["error"]["code"], -32600)
        editor.open(self.folder / "a.fb", BAD)
        self.assertEqual(editor.request("shutdown")["error"]["code"], -32600)
        self.assertEqual(editor.shown, {})
        editor.notify("exit")
        self.assertEqual(editor.process.wait(10), 0)

    def test_exit_without_shutdown(self):
        editor = self.started()
        editor.notify("exit")
        self.assertEqual(editor.process.wait(10), 1)

    def test_the_editor_dies(self):
        editor = self.started()
        editor.process.stdin.close()
        self.assertEqual(editor.process.wait(10), 1)

    def test_paths_that_make_no_sense(self):
        (self.folder / "round.fb").symlink_to(self.folder / "round.fb")
        editor = self.editor()
        editor.start(self.folder / ("x" * 300))
        editor.open(self.folder / "round.fb", BAD)
        editor.await_codes(round=["WITH_UNKNOWN"])

    def test_messages_that_make_no_sense(self):
        editor = self.started()
        editor.send({"method": ["exit"]})
        editor.process.stdin.write(b"Content-Length: 3\r\n\r\n{]}")
        editor.process.stdin.flush()
        self.assertEqual(editor.read()["error"]["code"], -32700)
        editor.notify("textDocument/didOpen")
        self.assertIn("textDocument/didOpen makes no sense", editor.await_message())
        self.assertEqual(editor.request("shutdown")["result"], None)


    def test_a_request_that_is_cancelled(self):
        """It counts before the messages that came before it, as far as these were not handled yet."""
        sent: list[dict] = []
        server = Server(lambda: Session.script(workbench()), False, sent.append, lambda: None)
        server.handle({"id": 1, "method": "initialize", "params": {}})
        request = {"id": 2, "method": "textDocument/hover", "params": {}}
        self.assertTrue(server.receive(request))
        for params in ({"id": 2}, {"id": 7}, {"id": [2]}, [], None):
            self.assertFalse(server.receive({"method": "$/cancelRequest", "params": params}))
        server.handle(request)
        self.assertEqual(sent[-1]["error"]["code"], -32800)
        self.assertTrue(server.receive(request))
        server.handle(request)
        self.assertEqual((sent[-1]["id"], sent[-1]["error"]["code"]), (2, -32602))
        editor = self.started()
        editor.notify("$/cancelRequest", id=1)
        self.assertEqual(editor.request("shutdown")["result"], None)


class FolderTest(LspTest):
    """Units that are not open."""

    def test_their_faults_are_shown(self):
        self.copy_conveyor()
        lifter = self.folder / "LIFTER.fb"
        editor = self.started()
        editor.open(lifter)
        editor.await_codes(LIFTER=[])
        editor.change(lifter, lifter.read_text().replace("EVENT_INPUT STOP", "EVENT_INPUT HALT").replace(":= STOP", ":= HALT"))
        editor.await_codes(STATION=["PORT_UNKNOWN"], LIFTER=[])
        editor.shut(lifter)
        editor.await_codes(STATION=[])

    def test_files_that_the_editor_watches(self):
        self.copy_conveyor()
        lifter, plant = self.folder / "LIFTER.fb", self.folder / "PLANT.fb"
        editor = self.editor()
        editor.start(self.folder, {"workspace": {"didChangeWatchedFiles": {"dynamicRegistration": True}}})
        while (message := editor.read()).get("method") != "client/registerCapability":
            pass
        (registration,) = message["params"]["registrations"]
        self.assertEqual((registration["method"], registration["registerOptions"]), ("workspace/didChangeWatchedFiles", {"watchers": [{"globPattern": "**/*.{fb,FB}"}]}))
        editor.send({"id": message["id"], "result": None})
        editor.open(plant)
        editor.await_codes(PLANT=[])
        lifter.write_text("FUNCTION_BLOCK")
        editor.notify("workspace/didChangeWatchedFiles", changes=[{"uri": lifter.as_uri(), "type": 2}])
        editor.await_codes(LIFTER=["SYNTAX"], STATION=["UNKNOWN_TYPE"])
        lifter.unlink()
        editor.notify("workspace/didChangeWatchedFiles", changes=[{"uri": lifter.as_uri(), "type": 3}])
        editor.await_codes(LIFTER=[])

    def test_where_the_reason_is(self):
        self.copy_conveyor()
        station = self.folder / "STATION.fb"
        text = station.read_text().replace("TO BELT.START", "TO BELT.STRAT").replace("LIFT : LIFTER;", "LIFT : LIFTER; BELT : LAMP;")
        cases: list[tuple[bool, list]] = [(True, REASONS), (False, [])]
        for capability, expected in cases:
            editor = self.editor()
            editor.start(self.folder, {"textDocument": {"publishDiagnostics": {"relatedInformation": capability}}})
            editor.open(station, text)
            editor.await_codes(STATION=["DUPLICATE", "PORT_UNKNOWN"])
            its = [more for it in editor.shown["STATION.fb"] for more in it.get("relatedInformation", [])]
            self.assertEqual(sorted(it["message"] for it in its), [words for words, _ in expected])
            places = [(Path(it["location"]["uri"]).name, it["location"]["range"]["start"]["line"]) for it in sorted(its, key=lambda it: it["message"])]
            self.assertEqual(places, [place for _, place in expected])


class DocumentsTest(LspTest):
    def test_a_mistake_is_made_and_mended(self):
        self.copy_conveyor()
        feeder = self.folder / "FEEDER.fb"
        editor = self.started()
        editor.open(feeder)
        editor.await_codes(FEEDER=[])
        text = feeder.read_text()
        editor.change(feeder, text.replace("IDLE TO MOVING", "IDLE TO MOVE"), 7)
        editor.await_codes(FEEDER=["STATE_UNKNOWN"])
        expected = {
            "range": {"start": {"line": 15, "character": 12}, "end": {"line": 15, "character": 16}},
            "severity": 1,
            "code": "STATE_UNKNOWN",
            "source": "bench61499",
            "message": "no state MOVE in this chart; did you mean MOVING?",
        }
        self.assertEqual(editor.shown["FEEDER.fb"], [expected])
        self.assertEqual(editor.versions["FEEDER.fb"], 7)
        editor.change(feeder, text, 8)
        editor.await_codes(FEEDER=[])

    def test_columns_of_utf_16(self):
        file = self.write("a.fb", "")
        editor = self.started()
        editor.open(file, "(*\r\n ä𝄞漢 *) SYSTEM A äh")
        editor.await_codes(a=["SYNTAX"])
        place = {"start": {"line": 1, "character": 18}, "end": {"line": 1, "character": 19}}
        self.assertEqual(editor.shown["a.fb"][0]["range"], place)

    def test_other_open_units_change_too(self):
        self.copy_conveyor()
        station, lifter = self.folder / "STATION.fb", self.folder / "LIFTER.fb"
        editor = self.started()
        editor.open(station)
        editor.open(lifter)
        editor.await_codes(STATION=[], LIFTER=[])
        text = lifter.read_text()
        editor.change(lifter, text.replace("EVENT_INPUT STOP", "EVENT_INPUT HALT").replace(":= STOP", ":= HALT"))
        editor.await_codes(STATION=["PORT_UNKNOWN"], LIFTER=[])
        editor.change(lifter, text.replace("FUNCTION_BLOCK LIFTER", "FUNCTION_BLOCK HOIST"))
        editor.await_codes(STATION=["UNKNOWN_TYPE"], LIFTER=[])
        editor.change(lifter, text)
        editor.await_codes(STATION=[], LIFTER=[])

    def test_closing_goes_back_to_the_file(self):
        self.copy_conveyor()
        station, lifter = self.folder / "STATION.fb", self.folder / "LIFTER.fb"
        editor = self.started()
        editor.open(station)
        editor.open(lifter, "FUNCTION_BLOCK LIFTER (* not saved")
        editor.await_codes(STATION=["UNKNOWN_TYPE"], LIFTER=["SYNTAX"])
        editor.shut(lifter)
        editor.await_codes(STATION=[], LIFTER=[])

    def test_files_that_change_on_disk(self):
        user = self.write("user.fb", "FUNCTION_BLOCK USER FBS X : A; END_FBS END_FUNCTION_BLOCK")
        editor = self.started()
        editor.open(user)
        editor.await_codes(user=["UNKNOWN_TYPE"])
        other = self.write("inner/a.fb", GOOD)
        editor.save(user)
        editor.await_codes(user=[])
        other.unlink()
        editor.save(user)
        editor.await_codes(user=["UNKNOWN_TYPE"])

    def test_no_folder(self):
        """The files beside an open one are there too."""
        self.copy_conveyor()
        editor = self.editor()
        editor.start()
        editor.open(self.folder / "PLANT.fb")
        editor.await_codes(PLANT=[])

    def test_two_files_with_one_unit(self):
        one, other = self.write("one.fb", GOOD), self.write("other.fb", GOOD.replace("A", "B", 1))
        editor = self.started()
        editor.open(one, GOOD)
        editor.open(other, f"(* A *) {GOOD}")
        editor.await_codes(one=[], other=["one.fb declares the unit A too; a unit has one text"])
        self.assertEqual(editor.shown["other.fb"][0]["range"]["start"], {"line": 0, "character": 23})
        editor.change(one, GOOD.replace(" A ", " C "))
        editor.await_codes(one=[], other=[])

    def test_a_text_that_is_too_long(self):
        file = self.write("a.fb", "")
        editor = self.started()
        editor.open(file, " " * 65_537)
        editor.await_codes(a=["the text has 65,537 bytes, and that of a unit has at most 65,536"])
        editor.change(file, GOOD)
        editor.await_codes(a=[])

    def test_texts_without_a_declaration(self):
        file = self.write("a.fb", "")
        editor = self.started()
        editor.open(file, "")
        editor.await_codes(a=["SYNTAX"])
        editor.change(file, "FUNCTION_BLOCK \ud800")
        editor.await_codes(a=["SYNTAX"])
        editor.change(file, GOOD)
        editor.await_codes(a=[])

    def test_a_burst_of_changes(self):
        file = self.write("a.fb", "")
        editor = self.started()
        editor.open(file, BAD)
        for version in range(2, 200):
            editor.change(file, BAD + " " * version, version)
        while editor.versions.get("a.fb") != 199 or not editor.shown["a.fb"]:
            editor.read()
        self.assertEqual(editor.codes("a.fb"), ["WITH_UNKNOWN"])


class CheckingTest(InFolder):
    """What is between the editor and the workbench, without messages: all changes are there before a step is made."""

    def setUp(self) -> None:
        super().setUp()
        self.woken = threading.Event()
        self.shown: dict[str, list[str]] = {}
        self.checking = Checking(lambda: Session.script(workbench()), False, self.keep, self.woken.set)
        self.addCleanup(self.checking.close)

    def keep(self, message: dict) -> None:
        if message["method"] == "textDocument/publishDiagnostics":
            its = message["params"]["diagnostics"]
            self.shown[message["params"]["uri"]] = [it.get("code", it["message"]) for it in its]

    def step_until(self, expected: dict[str, list[str]]) -> None:
        for _ in range(50):
            if self.shown == expected:
                return
            self.woken.wait(self.checking.patience() or 0.1)
            self.woken.clear()
            self.checking.step()
        self.assertEqual(self.shown, expected)

    def test_files_are_read_behind_the_open_text(self):
        """The text that is open is there at once, and the others when somebody asks about all, or some with each step."""
        self.write("one.fb", GOOD)
        others = [self.write(f"other_{number}.fb", GOOD.replace(" A ", f" B{number} ")) for number in range(100)]
        self.checking.open((self.folder / "one.fb").as_uri(), 1, GOOD)
        plant = self.checking.plant
        self.assertEqual([it.unit.name for it in plant.texts()], ["A"])
        self.assertEqual(self.checking.patience(), 0)
        self.assertTrue(self.checking.catch_up(math.inf))
        self.assertTrue(all(plant.text(file) for file in others))
        others[0].unlink()
        self.checking.refresh_files()
        while self.checking.patience() == 0:
            self.checking.step()
        self.assertEqual(len(list(plant.texts())), 100)

    def test_what_is_no_file_is_not_read(self):
        os.mkfifo(self.folder / "pipe.fb")
        (self.folder / "folder.fb").mkdir()
        (self.folder / "nowhere.fb").symlink_to(self.folder / "not_there.fb")
        (self.folder / "round.fb").symlink_to(self.folder / "round.fb")
        (self.folder / "link.fb").symlink_to(self.write("folder.fb/one.fb", GOOD))
        self.checking.watch([self.folder])
        self.checking.catch_up(math.inf)
        self.assertEqual([it.file.name for it in self.checking.plant.texts()], ["one.fb"])

    def test_a_double_that_changes_with_the_other(self):
        one, other = (self.write(f"{name}.fb", GOOD).as_uri() for name in ("one", "other"))
        for uri in (one, other):
            self.checking.open(uri, 1, GOOD)
        self.step_until({one: [], other: ["one.fb declares the unit A too; a unit has one text"]})
        self.checking.change(one, 2, [{"text": GOOD.replace(" A ", " C ")}])
        self.checking.change(other, 2, [{"text": BAD}])
        self.step_until({one: [], other: ["WITH_UNKNOWN"]})


class TroubleTest(LspTest):
    def test_no_workbench(self):
        editor = self.editor("--connect", f"127.0.0.1:{free_port()}")
        editor.start(self.folder)
        file = self.write("a.fb", GOOD)
        editor.open(file)
        self.assertEqual(editor.ask("documentSymbol", file)[0]["name"], "A")
        self.assertRegex(editor.await_message(), "^bench61499: no workbench at .*: connection refused, .*; trying again$")
        while "a.fb" not in editor.shown:
            editor.read()
        self.assertRegex(editor.shown["a.fb"][0]["message"], "^not checked: no workbench at .*; trying again$")
        self.assertEqual(editor.shown["a.fb"][0]["severity"], 3)
        self.assertEqual(editor.request("shutdown")["result"], None)

    def test_a_workbench_that_dies_and_comes_again(self):
        dying = f"""
import os
if os.path.exists(r'{self.folder}/again'): os.execv(r'{workbench()}', sys.argv)
open(r'{self.folder}/again', 'w').close()
sys.stdin.readline()"""
        editor = self.editor("--program", self.program(dying))
        editor.start(self.folder)
        file = self.write("a.fb", BAD)
        editor.open(file)
        self.assertRegex(editor.await_message(), r"the workbench ended before it answered \(status 0\). save to try again")
        editor.save(file)
        editor.await_codes(a=["WITH_UNKNOWN"])


class SharedTest(LspTest):
    def test_a_rename_is_one_commit(self):
        """Though the editor sends the change of one unit some time before that of the other."""
        self.copy_conveyor()
        texts = {self.folder / "FEEDER.fb": ("WITH LIMIT", "WITH LIMITS"), self.folder / "STATION.fb": ("LIFT.STOP", "LIFT.HALT")}
        with serving(sessions=2) as port, Session.connect("127.0.0.1", port) as other:
            editor = self.editor("--connect", f":{port}")
            editor.start(self.folder)
            for file, mistake in texts.items():
                file.write_text(file.read_text().replace(*mistake))
                editor.open(file)
            editor.await_codes(FEEDER=["WITH_UNKNOWN"], STATION=["PORT_UNKNOWN"])
            edit = editor.ask("rename", self.folder / "FEEDER.fb", position={"line": 2, "character": 15}, newName="BEGIN")
            for file in texts:
                editor.change(file, edited(file.read_text(), edit["changes"][file.as_uri()]))
                for _ in range(5):
                    editor.ask("foldingRange", file)
            editor.await_codes(FEEDER=["WITH_UNKNOWN"], STATION=["PORT_UNKNOWN"])
            self.assertEqual(other.revision("FEEDER"), other.revision("STATION"))
            self.assertGreater(other.revision("FEEDER"), other.revision("LIFTER"))
            editor.close()


if __name__ == "__main__":
    unittest.main()
