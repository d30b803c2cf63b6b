"""board: what it answers to browsers, and what it refuses."""
from __future__ import annotations

import os
import resource
import signal
import socket
import subprocess
import time
import unittest
from collections.abc import Callable
from contextlib import ExitStack
from http.client import HTTPConnection
from pathlib import Path
from unittest import mock

from boards import PATIENCE, Address, Viewer, board
from support import CONVEYOR, GREETING, InFolder, answering, free_port, hosting, run, serving, until, workbench

from bench61499 import Put, Remove, Session, batches
from bench61499.board.server import CONNECTIONS, NO_NAME, NO_TOKEN
from bench61499.board.state import WISHES_KEPT, Board, Key, NoEntry
from bench61499.board.views import net_view
from bench61499.board.watch import HEARTBEAT, Asking, SharedWatch
from bench61499.cli.board import NO_READS, NOT_NEEDED

STATES = {"FEEDER", "HANDOVER", "ITEM", "LAMP", "LIFTER", "PLANT", "STATION"}
WRONG = "FUNCTION_BLOCK A EVENT_INPUT E WITH X; END_EVENT END_FUNCTION_BLOCK"
MARKUP = """FUNCTION_BLOCK A (* <script>alert(1)</script> *)
  VAR TEXT : STRING := '<img src=x onerror=alert(2)>'; END_VAR
  EVENT_INPUT E WITH X; END_EVENT
END_FUNCTION_BLOCK
"""
ANOTHER = "The workbench has another text than this file: its faults do not fit here, and are told by their bytes."
UNSURE = "This is the text of the file. The workbench gives no texts back, so whether it has this one is not known."


class BoardTest(InFolder):
    """A test with a board of its own."""

    def start(self, *words: object, program: Path | None = None) -> Address:
        running = board(*words, folder=self.folder, program=program)
        self.addCleanup(running.__exit__, None, None, None)
        return running.__enter__()

    def conveyor(self) -> Address:
        self.copy_conveyor()
        return self.start(".")

    def pieces(self, unit: dict) -> str:
        """The text that the pieces of a unit spell."""
        return "\n".join("".join(it if isinstance(it, str) else it["words"] for it in line) for line in unit["lines"])

    def known(self, at: Address, viewer: Viewer, path: str, unit: str) -> dict:
        """The answer, once it is known."""
        kind = {"/net": "net", "/plan": "deploy"}[path]
        query = {"name": unit, "aspect": "1.5"} if kind == "net" else {"name": unit}
        at.json(path, **query)
        viewer.until(lambda it: it.answers.get((kind, unit), (0, False))[1])
        return at.json(path, **query)


class FolderTest(BoardTest):
    def test_all_units(self) -> None:
        at = self.conveyor()
        self.assertRegex(at.line, rf"^the board of \. is at http://127\.0\.0\.1:{at.port}/\?token=[0-9a-f]{{32}}\n$")
        with at.viewer() as viewer:
            viewer.settled(len(STATES))
        self.assertEqual(viewer.units.keys(), STATES)
        self.assertEqual(viewer.units["FEEDER"], {"name": "FEEDER", "kind": "FUNCTION_BLOCK", "revision": 1, "state": "fine", "faults": 0, "file": "FEEDER.fb"})
        self.assertEqual((viewer.about["title"], viewer.about["shared"], viewer.changes, viewer.ended), (".", False, [], ""))

    def test_names_are_as_declared(self) -> None:
        self.write("pump.fb", "FUNCTION_BLOCK Pump END_FUNCTION_BLOCK")
        with self.start(".").viewer() as viewer:
            viewer.settled(1)
            self.assertEqual(viewer.units["PUMP"]["name"], "Pump")
            self.edit("pump.fb", "FUNCTION_BLOCK Pump", "FUNCTION_BLOCK pump")
            viewer.until(lambda it: it.units["PUMP"]["name"] == "pump")

    def test_a_file_that_is_changed(self) -> None:
        at = self.conveyor()
        with at.viewer() as viewer:
            viewer.settled(len(STATES))
            self.edit("FEEDER.fb", "DONE TO IDLE", "DONE TO IDEL")
            viewer.until(lambda it: it.state("FEEDER") == "faulty")
            viewer.until(lambda it: it.changes[0]["came_count"] == 2)
            (change,) = viewer.changes
            self.assertEqual({**change, "time": 0, "number": 0}, {
                "serial": 1, "number": 0, "time": 0, "author": "FEEDER.fb", "commit": 2, "count": 1, "steps": [["FEEDER", 1, 2]],
                "came": [["FEEDER", "STATE_UNKNOWN", "IDEL"], ["PLANT", "NO_PLAN", ""]], "came_count": 2, "went": [], "went_count": 0})
            unit = at.json("/unit", name="feeder")
        self.assertEqual(
            unit["faults"],
            [{"code": "STATE_UNKNOWN", "line": 19, "column": 13, "explanation": "no state IDEL in this chart; did you mean IDLE?"}],
        )
        self.assertEqual([it for it in unit["lines"][18] if it != " " and not isinstance(it, str) and it["faults"]], [{"words": "IDEL", "kind": "", "faults": [0]}])
        self.assertEqual(self.pieces(unit) + "\n", (self.folder / "FEEDER.fb").read_text())

    def test_files_that_come_and_go(self) -> None:
        at = self.conveyor()
        with at.viewer() as viewer:
            viewer.settled(len(STATES))
            (self.folder / "LAMP.fb").unlink()
            viewer.until(lambda it: it.state("LAMP") == "absent" and it.state("PLANT") == "faulty")
            self.write("inner/A.fb", WRONG)
            viewer.until(lambda it: it.state("A") == "faulty")
            self.write("LAMP.fb", (CONVEYOR / "LAMP.fb").read_bytes())
            viewer.until(lambda it: it.state("LAMP") == it.state("PLANT") == "fine")
        self.assertEqual(viewer.steps(), [("LAMP", 1, 0, "LAMP.fb"), ("A", 0, 3, "inner/A.fb"), ("LAMP", 0, 4, "LAMP.fb")])

    def test_files_that_are_no_units(self) -> None:
        self.copy_conveyor()
        self.write("SECOND.fb", (CONVEYOR / "LAMP.fb").read_bytes())
        self.write("BYTES.fb", b"FUNCTION_BLOCK \xff")
        at = self.start(".")
        with at.viewer() as viewer:
            viewer.settled(len(STATES))
            self.assertEqual(viewer.problems, ["BYTES.fb:1: is not UTF-8: byte 15 is 0xff", "LAMP.fb and SECOND.fb both declare the unit LAMP; the first one counts"])
            (self.folder / "BYTES.fb").unlink()
            self.write("SECOND.fb", "1 2")
            viewer.until(lambda it: it.state("SECOND") == "faulty" and not it.problems)
            self.write("SECOND.fb", "3 4")
            viewer.until(lambda it: it.units["SECOND"]["revision"] == 3)

    def test_names_that_are_not_utf_8(self) -> None:
        folder = os.path.join(os.fsencode(self.folder), b"plant \xff")
        os.mkdir(folder)
        with open(os.path.join(folder, b"\xfe.fb"), "w", encoding="utf-8") as file:
            file.write(WRONG)
        at = self.start(os.fsdecode(b"plant \xff"))
        self.assertEqual(at.line, f"the board of plant ? is at {at.url}\n")
        with at.viewer() as viewer:
            viewer.settled(1)
        self.assertEqual(viewer.units["A"]["file"], "plant ?/?.fb")
        self.assertEqual(at.json("/unit", name="A")["faults"][0]["code"], "WITH_UNKNOWN")

    def test_words_that_make_no_sense(self) -> None:
        self.copy_conveyor()
        cases: list[tuple[list[str], str]] = [
            (["nowhere"], "nowhere: there is no such file or folder"),
            ([], "name what to show: a folder, or --connect for a server"),
            ([".", "--connect", ":1"], "give either a folder or --connect; with --connect, --files names the folder"),
            ([".", "--files", "."], "--files, --unit and --calls go with --connect"),
            ([".", "--calls", "3"], "--files, --unit and --calls go with --connect"),
            ([""], "an empty word names no file or folder"),
            ([".", "--port", "65536"], "there is no port 65536"),
            (["--connect", f":{free_port()}"], "connection refused"),
            (["--connect", f":{free_port()}", "--unit", "A", "A B"], "'A B' is no name: a name is a letter or _, then"),
            ([".", "--program", "nowhere"], "can't start the workbench nowhere"),
        ]
        for words, told in cases:
            ran = run("board", *words, folder=self.folder)
            self.assertEqual((ran.returncode, ran.stdout), (2, ""), words)
            self.assertIn(told, ran.stderr)

    def test_a_port_that_is_taken(self) -> None:
        at = self.conveyor()
        ran = run("board", ".", "--port", at.port, "--program", workbench(), folder=self.folder)
        self.assertEqual((ran.returncode, ran.stderr), (2, f"board: the page can't be served at port {at.port}: Address already in use\n"))

    def test_the_end_of_the_workbench(self) -> None:
        self.copy_conveyor()
        program = self.program(f"""
import os, subprocess
words = [{workbench()!r}, *sys.argv[1:]]
child = subprocess.Popen(words)
open("child", "w").write(str(child.pid))
os._exit(child.wait() and 1)
""")
        at = self.start(".", program=program)
        with at.viewer() as viewer:
            viewer.settled(len(STATES))
            subprocess.run(["kill", "-KILL", (self.folder / "child").read_text()], check=True)
            viewer.until(lambda it: it.ended)
            why = viewer.ended
        self.assertEqual(why, "the workbench ended before it answered (status 1); perhaps it needs more memory than its limit of 2 GiB: --memory-limit raises it")
        self.assertIn(f"board: {why}; the page shows what was there before, until Ctrl-C", at.process.stderr.readline())
        with at.viewer() as late:
            late.until(lambda it: it.ended)
            self.assertEqual(late.units.keys(), STATES)
        self.assertEqual(at.json("/unit", name="LAMP")["state"], "fine")

    def test_ctrl_c(self) -> None:
        at = self.conveyor()
        with at.viewer() as viewer:
            viewer.settled(len(STATES))
        at.process.send_signal(signal.SIGINT)
        self.assertEqual((at.process.wait(30), at.process.stderr.read()), (130, ""))


class AnswersTest(BoardTest):
    """Networks, plans and declarations."""

    def test_a_network(self) -> None:
        at = self.conveyor()
        with at.viewer() as viewer:
            viewer.settled(len(STATES))
            net = self.known(at, viewer, "/net", "STATION")
        names = [box[0] for box in net["boxes"]]
        self.assertEqual(names, ["BELT", "LIFT", "READY", "SEEN", "START", "STOP", "LOAD", "TOTAL"])
        wires = {(names[it[1]], names[it[4]], it[0], it[7], it[8], it[9]) for it in net["wires"]}
        self.assertEqual(wires, {
            ("BELT", "LIFT", "event", "OFFER", False, "forth"), ("BELT", "LIFT", "event", "TAKEN", False, "back"),
            ("BELT", "LIFT", "data", "PIECE", False, "forth"), ("LOAD", "BELT", "data", "", False, "forth"),
            ("START", "BELT", "event", "", False, "forth"), ("SEEN", "BELT", "event", "", False, "forth"),
            ("STOP", "LIFT", "event", "", False, "forth"), ("LIFT", "READY", "event", "", False, "forth"),
            ("LIFT", "TOTAL", "data", "", False, "forth"),
        })

    def test_a_port_that_nothing_leads_to(self) -> None:
        at = self.conveyor()
        with at.viewer() as viewer:
            viewer.settled(len(STATES))
            before = self.known(at, viewer, "/net", "STATION")
            self.edit("LIFTER.fb", "EVENT_INPUT STOP;", "EVENT_INPUT STOP; PAUSE;")
            viewer.until(lambda it: it.answers["net", "STATION"][0] > before["serial"])
            after = at.json("/net", name="STATION", aspect="1.5")
        shape = after["boxes"][1][8]
        self.assertEqual(after["rows"][shape][:2], [["event", "STOP", "LIFTED"], ["event", "PAUSE", ""]])
        self.assertNotIn(["event", "PAUSE", ""], before["rows"][before["boxes"][1][8]])

    def test_a_system(self) -> None:
        at = self.conveyor()
        with at.viewer() as viewer:
            viewer.settled(len(STATES))
            self.known(at, viewer, "/plan", "PLANT")
            net, plan = self.known(at, viewer, "/net", "PLANT"), self.known(at, viewer, "/plan", "PLANT")
            homes = {box[0]: box[2] for box in net["boxes"]}
            self.assertEqual(homes["LINE.PANEL"], "SOUTH.SCREEN")
            self.assertEqual([it[0] for it in net["frames"]], ["NORTH.MOTION", "SOUTH.MOTION", "SOUTH.SCREEN"])
            self.assertEqual(sum(it[8] for it in net["wires"]), 4)
            self.assertEqual(plan["cuts"][0], "event LINE.FIRST.LIFT.LIFTED -> LINE.SECOND.BELT.START")
            self.assertEqual(plan["resources"][2], {"name": "SOUTH.SCREEN", "commands": [
                "CREATE FB LINE.PANEL LAMP", "WRITE LINE.PANEL.DELAY T#250ms", "WRITE LINE.PANEL.TEXT 'line 1'", "START SOUTH.SCREEN"]})
            self.edit("PLANT.fb", "LINE.PANEL ON", "LINE.LAMP ON")
            viewer.until(lambda it: it.answers["deploy", "PLANT"][0] > plan["serial"])
            self.assertEqual(at.json("/plan", name="PLANT")["misplaced"], [["UNMAPPED", "LINE.PANEL"], ["NO_SUCH_BLOCK", "LINE.LAMP"]])
            self.assertEqual(at.json("/net", name="PLANT", aspect="1")["state"], "flat")

    def test_why_there_is_none(self) -> None:
        self.copy_conveyor()
        self.edit("FEEDER.fb", "DONE TO IDLE", "DONE TO IDEL")
        (self.folder / "LAMP.fb").unlink()
        at = self.start(".")
        with at.viewer() as viewer:
            viewer.settled(len(STATES) - 1)
            for path in ("/net", "/plan"):
                answer = self.known(at, viewer, path, "PLANT")
                self.assertEqual((answer["state"], answer["missing"], answer["faulty"]), ("blocked", ["LAMP"], ["FEEDER", "PLANT"]))
                self.assertEqual(self.known(at, viewer, path, "FEEDER")["state"], "none")

    def test_a_way(self) -> None:
        at = self.conveyor()
        with at.viewer() as viewer:
            at.json("/net", name="PLANT", aspect="2")
            viewer.until(lambda it: all((kind, "PLANT") in it.answers for kind in ("net", "deploy")))
            found = at.json("/trace", name="plant", end="line.second.belt.load", way="back")
            self.assertEqual(found["blocks"], [[1, "LINE.FIRST.LIFT"], [2, "LINE.FIRST.BELT"]])
            self.assertEqual((found["end"], found["block"], found["resources"], found["cuts"]), ("LINE.SECOND.BELT.LOAD", "LINE.SECOND.BELT", 1, 1))
            self.assertIn(["data", "LINE.FIRST.LIFT.TOTAL", "LINE.SECOND.BELT.LOAD"], found["links"])
            self.assertEqual(at.json("/trace", name="PLANT", end="LINE.PANEL.VALUE", way="forth")["links"], [])
            self.assertEqual(at.json("/trace", name="PLANT", end="LINE.PANEL.VALU", way="back"), {"why": "LAMP has no port VALU; did you mean LINE.PANEL.VALUE?"})
            self.assertEqual(at.json("/trace", name="LAMP", end="VALUE", way="back"), {"why": "there is no network of LAMP now"})
            self.assertEqual(at.request("/trace?name=PLANT&end=A.B&way=up")[0], 400)

    def test_the_units_of_each_system(self) -> None:
        self.copy_conveyor()
        self.write("SPARE.fb", "FUNCTION_BLOCK SPARE END_FUNCTION_BLOCK")
        self.write("OTHER.fb", "SYSTEM OTHER APPLICATION A FBS L : LAMP; END_FBS END_APPLICATION END_SYSTEM")
        at = self.start(".")
        with at.viewer() as viewer:
            viewer.settled(len(STATES) + 2)
            self.assertEqual(at.json("/systems"), {"OTHER": ["LAMP", "OTHER"], "PLANT": sorted(STATES)})
            self.edit("OTHER.fb", "L : LAMP", "L : SPARE")
            viewer.until(lambda it: it.units["OTHER"]["revision"] > 1 and it.state("OTHER") != "pending")
            self.assertEqual(at.json("/systems")["OTHER"], ["OTHER", "SPARE"])

    def test_where_an_instance_is_declared(self) -> None:
        at = self.conveyor()
        with at.viewer() as viewer:
            viewer.settled(len(STATES))
        for unit, path, place in [
            ("PLANT", "LINE.SECOND.LIFT", {"unit": "STATION", "line": 9}), ("PLANT", "LINE.PANEL", {"unit": "PLANT", "line": 5}),
            ("STATION", "BELT", {"unit": "STATION", "line": 8}), ("PLANT", "LINE.NOBODY", None), ("NOTHING", "A", None),
        ]:
            self.assertEqual(at.json("/instance", name=unit, path=path), place)


class SharedTest(BoardTest):
    """A workbench that others use too."""

    def setUp(self) -> None:
        super().setUp()
        serve = serving(sessions=8)
        self.port = serve.__enter__()
        self.addCleanup(serve.__exit__, None, None, None)
        self.engineer = Session.connect("127.0.0.1", self.port)
        self.addCleanup(self.engineer.close)
        self.copy_conveyor()

    def shared(self, *words: object) -> Address:
        return self.start("--connect", f":{self.port}", *words)

    def check(self) -> None:
        self.assertEqual(run("check", ".", "--connect", f":{self.port}", "--replace", folder=self.folder).returncode, 0)

    def test_a_commit_of_another_session(self) -> None:
        self.check()
        at = self.shared("--files", ".")
        with at.viewer() as viewer:
            viewer.settled(len(STATES))
            base = self.engineer.revision("FEEDER")
            text = (CONVEYOR / "FEEDER.fb").read_text().replace("DONE TO IDLE", "DONE TO IDEL")
            number = self.engineer.commit([Put("FEEDER", base, text)])
            viewer.until(lambda it: it.state("FEEDER") == "faulty" and it.changes)
            self.assertEqual(viewer.steps(), [("FEEDER", base, number, "")])
            self.engineer.commit([Remove("FEEDER", number)])
            viewer.until(lambda it: it.state("FEEDER") == "absent" and it.state("STATION") == "faulty")
            unit = at.json("/unit", name="FEEDER")
        self.assertEqual((unit["state"], viewer.units["FEEDER"]["file"]), ("absent", "FEEDER.fb"))

    def test_the_board_changes_nothing(self) -> None:
        self.check()
        before = {unit: self.engineer.revision(unit) for unit in STATES}
        at = self.shared("--files", ".")
        with at.viewer() as viewer:
            viewer.settled(len(STATES))
            self.edit("LAMP.fb", "SHOW", "SHINE")
            viewer.until(lambda it: "SHINE" in self.pieces(at.json("/unit", name="LAMP")))
        self.assertEqual({unit: self.engineer.revision(unit) for unit in STATES}, before)
        self.assertEqual(self.engineer.commit([Put("NEW", 0, WRONG)]), max(before.values()) + 1)

    def test_texts_that_are_not_here(self) -> None:
        self.check()
        at = self.shared("--unit", "plant")
        with at.viewer() as viewer:
            viewer.settled(1)
            unit = at.json("/unit", name="PLANT")
            self.assertEqual((unit["lines"], unit["faults"]), (None, []))
            self.assertIn("The workbench gives no texts back", unit["note"])
            at.json("/net", name="PLANT", aspect="1")
            viewer.settled(4)  # The types of its blocks are looked at too.
            self.assertEqual(viewer.units.keys(), {"PLANT", "FEEDER", "LAMP", "LIFTER"})
            number = self.engineer.commit([Put("LAMP", self.engineer.revision("LAMP"), WRONG.replace("BLOCK A", "BLOCK LAMP"))])
            viewer.until(lambda it: it.faulty_at("LAMP", number) and it.state("PLANT") == "faulty")
            unit = at.json("/unit", name="LAMP")
        self.assertEqual((unit["lines"], unit["faults"]), (None, [{"code": "WITH_UNKNOWN", "start": 39, "end": 40}]))

    def test_a_change_of_a_unit_that_the_board_does_not_know(self) -> None:
        self.check()
        at = self.shared("--unit", "PLANT")
        with at.viewer() as viewer:
            viewer.settled(1)
            at.json("/net", name="PLANT", aspect="1")
            viewer.until(lambda it: it.answers.get(("net", "PLANT"), (0, False))[1])
            serial = viewer.answers["net", "PLANT"][0]
            text = (CONVEYOR / "STATION.fb").read_text()
            number = self.engineer.commit([Put("STATION", self.engineer.revision("STATION"), text.replace("LIFT : LIFTER;", "LIFT : LIFTER; SPARE : LIFTER;"))])
            viewer.until(lambda it: it.answers["net", "PLANT"][1] and it.answers["net", "PLANT"][0] > serial)
            self.engineer.commit([Remove("STATION", number)])
            viewer.until(lambda it: it.state("PLANT") == "faulty")
            self.assertNotIn("STATION", {it[0] for it in viewer.steps()})

    def test_a_text_that_is_another_one(self) -> None:
        self.write("A.fb", "FUNCTION_BLOCK A END_FUNCTION_BLOCK")
        at = self.shared("--files", "A.fb")
        with at.viewer() as viewer:
            viewer.until(lambda it: it.state("A") == "absent")
            self.engineer.commit([Put("A", 0, WRONG)])
            viewer.until(lambda it: it.state("A") == "faulty")
            unit = at.json("/unit", name="A")
            self.assertEqual((unit["note"], unit["faults"]), (ANOTHER, [{"code": "WITH_UNKNOWN", "start": 36, "end": 37}]))
            self.write("A.fb", WRONG)
            viewer.until(lambda it: at.json("/unit", name="A")["note"] != ANOTHER)
            unit = at.json("/unit", name="A")
            self.assertEqual((unit["note"], unit["faults"][0]["column"]), (UNSURE, 37))
            self.engineer.commit([Put("A", 1, WRONG)])
            viewer.until(lambda it: it.units["A"]["revision"] == 2)
        self.assertEqual(at.json("/unit", name="A")["note"], "This is the text of the file as it was read before revision 2 came, and may be another one.")

    def test_a_fault_that_can_not_be_one_of_the_file(self) -> None:
        at = self.shared("--files", ".")
        with at.viewer() as viewer:
            viewer.until(lambda it: it.states() == {"absent"})
            self.check()
            viewer.settled(len(STATES))
            base = self.engineer.revision("FEEDER")
            number = self.engineer.commit([Put("FEEDER", base, (CONVEYOR / "FEEDER.fb").read_text().replace("DONE TO IDLE", "DONE TO IDEL"))])
            viewer.until(lambda it: it.faulty_at("FEEDER", number))
            unit = at.json("/unit", name="FEEDER")
            self.assertEqual((unit["note"], [it["code"] for it in unit["faults"]], "line" in unit["faults"][0]), (ANOTHER, ["STATE_UNKNOWN"], False))
            self.edit("FEEDER.fb", "DONE TO IDLE", "DONE TO IDEL")
            viewer.until(lambda it: (unit := at.json("/unit", name="FEEDER"))["note"] != ANOTHER and unit["faults"])
        self.assertEqual(at.json("/unit", name="FEEDER")["faults"][0]["line"], 19)

    def test_units_that_are_asked_for(self) -> None:
        at = self.shared()
        with at.viewer() as viewer:
            self.assertEqual(at.request("/look", "POST", b'{"unit":"A"}'), (200, '{"unit":"A","new":true}'))
            viewer.until(lambda it: it.state("A") == "absent")
            self.engineer.commit([Put("A", 0, WRONG)])
            viewer.until(lambda it: it.state("A") == "faulty")
            self.assertEqual(at.request("/look", "POST", b'{"unit":"a"}'), (200, '{"unit":"A","new":false}'))
            for wrong in (b"", b"[]", b"{}", b'{"unit":1}', b'{"unit":""}', b'{"unit":"1A"}', b'{"unit":"A-B"}', b'{"unit":"%s"}' % (b"A" * 65), b"\xff"):
                self.assertEqual(at.request("/look", "POST", wrong)[0], 400, wrong)
            self.assertEqual(viewer.units.keys(), {"A"})

    def test_the_end_of_the_workbench(self) -> None:
        with serving(sessions=1) as port:
            at = self.start("--connect", f":{port}", "--unit", "A")
            with at.viewer() as viewer:
                viewer.until(lambda it: it.state("A") == "absent")
        with at.viewer() as viewer:
            viewer.until(lambda it: it.ended)
            self.assertIn(f"127.0.0.1:{port}", viewer.ended)
            self.assertEqual(viewer.state("A"), "absent")

    def test_a_full_history(self) -> None:
        with serving(1, "--history", "5") as port:
            at = self.start("--connect", f":{port}", "--unit", "A")
            with at.viewer() as viewer:
                viewer.until(lambda it: it.ended)
        self.assertRegex(viewer.ended, "^the history of the workbench is full: .*; it is asked again once a minute$")

    def test_calls_are_few(self) -> None:
        """At most two in a second on average, whatever others do, and one while nothing changes."""
        board, clock = Board("many", shared=True), [1000.0]
        with mock.patch("bench61499.board.watch.time.monotonic", lambda: clock[0]):
            watch = SharedWatch(board, self.engineer, None, [f"U{at}" for at in range(160)])
            watch.start()
            self.assertEqual((watch.step(), board.news(0, 0).calls), (HEARTBEAT, 0))

            def calls_in(seconds: float, edits: int) -> int:
                before, end = board.news(0, 0).calls, clock[0] + seconds
                next_edit = clock[0]
                while clock[0] < end:
                    clock[0] += max(watch.step(), 0.01)
                    if edits and clock[0] >= next_edit:
                        self.engineer.commit([Put("U7", self.engineer.revision("U7"), WRONG)])
                        self.engineer.wait("faults", "U7")  # The clock of the workers is another one.
                        next_edit += seconds / edits
                return board.news(0, 0).calls - before

            with board.viewer():
                self.assertLessEqual(calls_in(10, 0), 10 + 20)  # All ten batches are looked at once, at the start.
                self.assertLessEqual(calls_in(300, 100), 2 * 300 + 4)
                self.assertLessEqual(calls_in(60, 0), 2 * 60 + 4)
                self.assertLessEqual(calls_in(300, 0), 300 + 16)
                for at in range(200):
                    board.wish(("net", f"U{at}"))
                self.assertLessEqual(calls_in(100, 0), 2 * 100 + 30)
                self.assertEqual(board.open_wishes(), [])
                self.assertEqual(board.row("U7").revision, self.engineer.revision("U7"))
        self.assertEqual(watch.step(), HEARTBEAT)

    def test_a_server_that_ends_and_comes_again(self) -> None:
        port = free_port()
        words = [workbench(), "serve", "--sessions", "4", "--port", str(port)]

        def serve() -> subprocess.Popen[str]:
            running = subprocess.Popen(words, stdout=subprocess.PIPE, stderr=subprocess.DEVNULL, text=True)
            running.stdout.readline()
            self.addCleanup(running.__exit__, None, None, None)
            self.addCleanup(running.kill)
            return running

        first = serve()
        with Session.connect("127.0.0.1", port) as engineer:
            engineer.commit([Put("A", 0, WRONG)])
        at = self.start("--connect", f":{port}", "--unit", "A")
        with at.viewer() as viewer:
            viewer.until(lambda it: it.state("A") == "faulty")
            first.kill()
            viewer.until(lambda it: it.ended)
            self.assertRegex(viewer.ended, "; trying again$")
            self.assertEqual(viewer.state("A"), "faulty")
            serve()
            viewer.until(lambda it: not it.ended and it.state("A") == "absent")
        said = [at.process.stderr.readline() for _ in range(3)]
        self.assertEqual(said[0], f"board: {NO_READS}\n")
        self.assertRegex(said[1], "^board: the .*; trying again\n$")
        self.assertEqual(said[2], "board: the workbench answers again\n")


class ReadsTest(BoardTest):
    """A host that gives its units and texts, and reports what happens."""

    def setUp(self) -> None:
        super().setUp()
        self.texts = {file.stem: file.read_text() for file in CONVEYOR.glob("*.fb")}

    def host(self, *words: str) -> int:
        running = hosting(*words)
        port = running.__enter__()
        self.addCleanup(running.__exit__, None, None, None)
        return port

    def engineer(self, port: int) -> Session:
        session = Session.connect("127.0.0.1", port)
        self.addCleanup(session.close)
        return session

    def plant(self) -> tuple[int, Session]:
        """A host that has the conveyor, by one commit, and the engineer who made it."""
        port = self.host()
        engineer = self.engineer(port)
        engineer.commit([Put(unit, 0, text) for unit, text in self.texts.items()])
        until(lambda: not engineer.status().pending)
        return port, engineer

    def change(self, engineer: Session, unit: str, old: str, new: str) -> int:
        """Puts a unit with another text over the present one."""
        self.assertIn(old, self.texts[unit])
        self.texts[unit] = self.texts[unit].replace(old, new)
        return engineer.commit([Put(unit, engineer.text(unit).revision, self.texts[unit])])

    def test_all_units_with_their_texts(self) -> None:
        port, _ = self.plant()
        at = self.start("--connect", f":{port}")
        with at.viewer() as viewer:
            viewer.settled(len(STATES))
        self.assertEqual(viewer.units["PLANT"], {"name": "PLANT", "kind": "SYSTEM", "revision": 1, "state": "fine", "faults": 0, "file": ""})
        for name, text in self.texts.items():
            unit = at.json("/unit", name=name)
            self.assertEqual((self.pieces(unit) + "\n", unit["note"], unit["faults"]), (text, "", []))

    def test_who_brought_a_fault(self) -> None:
        port, engineer = self.plant()
        at = self.start("--connect", f":{port}")
        with at.viewer() as viewer:
            viewer.settled(len(STATES))
            self.change(engineer, "FEEDER", "DONE TO IDLE", "DONE TO IDEL")
            viewer.until(lambda it: it.state("FEEDER") == "faulty" and it.changes and it.changes[0]["came_count"] == 2)
            unit = at.json("/unit", name="FEEDER")
            self.assertEqual(unit["faults"], [{"code": "STATE_UNKNOWN", "line": 19, "column": 13, "explanation": "no state IDEL in this chart; did you mean IDLE?"}])
            self.assertEqual([it for it in unit["lines"][18] if not isinstance(it, str) and it["faults"]], [{"words": "IDEL", "kind": "", "faults": [0]}])
            (change,) = viewer.changes
            caller = f"session {engineer.status().session}"
            self.assertEqual((change["author"], change["commit"], change["steps"]), (caller, 2, [["FEEDER", 1, 2]]))
            self.assertEqual(sorted(change["came"]), [["FEEDER", "STATE_UNKNOWN", "IDEL"], ["PLANT", "NO_PLAN", ""]])
            other = self.engineer(port)
            self.change(other, "FEEDER", "DONE TO IDEL", "DONE TO IDLE")
            viewer.until(lambda it: it.state("FEEDER") == it.state("PLANT") == "fine" and it.changes[-1]["went_count"] == 2)
            self.assertEqual([it["author"] for it in viewer.changes], [caller, f"session {other.status().session}"])
            self.assertEqual(viewer.changes[-1]["went"], change["came"])

    def test_a_fault_in_the_unit_of_somebody_else(self) -> None:
        """It is reported with the commit that brought it, although another one has come since."""
        port, engineer = self.plant()
        other = self.engineer(port)
        at = self.start("--connect", f":{port}")
        with at.viewer() as viewer:
            viewer.settled(len(STATES))
            self.change(engineer, "LIFTER", "LIFTED", "RAISED")
            self.change(other, "LAMP", "FUNCTION_BLOCK LAMP", "(* a lamp *) FUNCTION_BLOCK LAMP")
            viewer.until(lambda it: it.state("STATION") == "faulty" and len(it.changes) == 2 and it.changes[0]["came_count"])
            came = {(it["author"], unit) for it in viewer.changes for unit, *_ in it["came"]}
        # (the plan of PLANT rests on both units, so either commit can have taken it away)
        self.assertEqual({author for author, unit in came if unit == "STATION"}, {f"session {engineer.status().session}"})

    def test_units_that_come_and_go(self) -> None:
        port, engineer = self.plant()
        at = self.start("--connect", f":{port}")
        with at.viewer() as viewer:
            viewer.settled(len(STATES))
            engineer.commit([Put("A", 0, WRONG), Remove("LAMP", 1)])
            viewer.until(lambda it: it.state("A") == it.state("PLANT") == "faulty" and it.state("LAMP") == "absent")
            self.assertEqual([it[:3] for it in viewer.steps()], [("A", 0, 2), ("LAMP", 1, 0)])
            engineer.commit([Put("LAMP", 0, self.texts["LAMP"])])
            viewer.until(lambda it: it.state("LAMP") == it.state("PLANT") == "fine")
            self.assertEqual(at.json("/unit", name="LAMP")["state"], "fine")

    def test_networks_and_plans_follow(self) -> None:
        port, engineer = self.plant()
        at = self.start("--connect", f":{port}")
        with at.viewer() as viewer:
            viewer.settled(len(STATES))
            net, plan = self.known(at, viewer, "/net", "PLANT"), self.known(at, viewer, "/plan", "PLANT")
            self.change(engineer, "STATION", "LIFT : LIFTER;", "LIFT : LIFTER; SPARE : LIFTER;")
            viewer.until(lambda it: it.answers["net", "PLANT"][0] > net["serial"] and it.answers["deploy", "PLANT"][0] > plan["serial"])
            self.assertIn("LINE.FIRST.SPARE", [box[0] for box in at.json("/net", name="PLANT", aspect="1")["boxes"]])
            # A port that nothing leads to is in no network, but in its picture.
            serial = at.json("/net", name="PLANT", aspect="1")["serial"]
            self.change(engineer, "LIFTER", "EVENT_INPUT STOP;", "EVENT_INPUT STOP; PAUSE;")
            viewer.until(lambda it: it.answers["net", "PLANT"][0] > serial)
            self.assertIn(["event", "PAUSE", ""], [row for rows in at.json("/net", name="PLANT", aspect="1")["rows"] for row in rows])
            self.change(engineer, "PLANT", "LINE.PANEL ON", "LINE.LAMP ON")
            viewer.until(lambda it: it.state("PLANT") == "noplan")
            self.assertEqual(self.known(at, viewer, "/plan", "PLANT")["misplaced"], [["UNMAPPED", "LINE.PANEL"], ["NO_SUCH_BLOCK", "LINE.LAMP"]])

    def test_no_recorded_calls(self) -> None:
        port, engineer = self.plant()
        before = engineer.status().calls
        at = self.start("--connect", f":{port}")
        with at.viewer() as viewer:
            viewer.settled(len(STATES))
            self.known(at, viewer, "/net", "PLANT")
            self.known(at, viewer, "/plan", "PLANT")
            for unit in STATES:
                at.json("/unit", name=unit)
                at.json("/net", name=unit, aspect="1")
            viewer.until(lambda it: it.answers.get(("net", "ITEM"), (0, False))[1])
        self.assertEqual(engineer.status().calls, before)

    def test_more_units_than_one_page_of_them_and_a_short_history(self) -> None:
        port = self.host("--units", "2000", "--history", "60")
        engineer = self.engineer(port)
        names = [f"U{at:04}" for at in range(1_100)]
        at = self.start("--connect", f":{port}")
        with at.viewer() as viewer:
            for batch in batches(Put(name, 0, f"FUNCTION_BLOCK {name} END_FUNCTION_BLOCK") for name in names):
                engineer.commit(batch)
            engineer.commit([Remove(names[7], engineer.revisions[names[7]]), Put(names[8], engineer.revisions[names[8]], WRONG.replace("BLOCK A", f"BLOCK {names[8]}"))])
            viewer.until(lambda it: len(it.units) == len(names) and it.states() == {"fine", "faulty", "absent"})
        revisions = dict(engineer.units().units)
        self.assertEqual({unit: it["revision"] for unit, it in viewer.units.items()}, {**revisions, names[7]: 0})
        self.assertEqual([unit for unit, it in viewer.units.items() if it["state"] == "faulty"], [names[8]])

    def test_a_host_that_is_started_again(self) -> None:
        port = free_port()
        with hosting("--port", str(port)):
            with Session.connect("127.0.0.1", port) as engineer:
                if engineer.status().workbench == "unknown":
                    self.skipTest("this host tells no identity")
                engineer.commit([Put("A", 0, WRONG), Put("B", 0, WRONG.replace("BLOCK A", "BLOCK B"))])
            at = self.start("--connect", f":{port}")
            with at.viewer() as viewer:
                viewer.until(lambda it: it.state("A") == it.state("B") == "faulty")
        with at.viewer() as viewer:
            viewer.until(lambda it: it.ended)
            self.assertRegex(viewer.ended, "; trying again$")
            self.assertEqual(viewer.state("A"), "faulty")
            with hosting("--port", str(port)), Session.connect("127.0.0.1", port) as engineer:
                engineer.commit([Put("B", 0, "FUNCTION_BLOCK B END_FUNCTION_BLOCK")])
                viewer.until(lambda it: not it.ended and it.state("A") == "absent" and it.state("B") == "fine")
                self.assertEqual(self.pieces(at.json("/unit", name="B")), "FUNCTION_BLOCK B END_FUNCTION_BLOCK")
        said = [at.process.stderr.readline() for _ in range(2)]
        self.assertRegex(said[0], "^board: .*; trying again\n$")

    def test_options_that_are_not_needed(self) -> None:
        port, _ = self.plant()
        at = self.start("--connect", f":{port}", "--files", CONVEYOR, "--unit", "A")
        with at.viewer() as viewer:
            viewer.settled(len(STATES))
        self.assertEqual(at.process.stderr.readline(), f"board: {NOT_NEEDED}\n")

    def test_an_older_server(self) -> None:
        with serving(1) as port:
            at = self.start("--connect", f":{port}", "--unit", "A")
            self.assertEqual(at.process.stderr.readline(), f"board: {NO_READS}\n")
            with at.viewer() as viewer:
                viewer.until(lambda it: it.state("A") == "absent")
            self.assertFalse(viewer.about["reads"])


class PlansTest(BoardTest):
    """Systems that can't be deployed are not fine."""

    def test_a_folder(self) -> None:
        self.copy_conveyor()
        self.edit("PLANT.fb", "LINE.PANEL ON", "LINE.LAMP ON")
        at = self.start(".")
        with at.viewer() as viewer:
            viewer.settled(len(STATES))
            self.assertEqual({unit for unit, it in viewer.units.items() if it["state"] != "fine"}, {"PLANT"})
            self.assertEqual(viewer.units["PLANT"]["state"], "noplan")
            self.edit("PLANT.fb", "LINE.LAMP ON", "LINE.PANEL ON")
            viewer.until(lambda it: it.state("PLANT") == "fine")
            # A unit two levels below: the system itself has no fault.
            self.edit("LAMP.fb", "VAR_INPUT VALUE", "VAR_INPUT VALU")
            viewer.until(lambda it: it.state("PLANT") == "faulty")
            self.edit("LAMP.fb", "VAR_INPUT VALU", "VAR_INPUT VALUE")
            viewer.until(lambda it: it.state("PLANT") == "fine")
            self.edit("STATION.fb", "LIFT : LIFTER;", "LIFT : LIFTER; SPARE : NOTHING;")
            viewer.until(lambda it: it.state("PLANT") == "noplan")

    def test_a_shared_workbench(self) -> None:
        self.copy_conveyor()
        with serving(3) as port:
            run("check", ".", "--connect", f":{port}", "--replace", folder=self.folder)
            at = self.start("--connect", f":{port}", "--files", ".")
            with at.viewer() as viewer, Session.connect("127.0.0.1", port) as engineer:
                viewer.settled(len(STATES))
                self.assertEqual(viewer.state("PLANT"), "fine")
                text = (CONVEYOR / "PLANT.fb").read_text().replace("LINE.PANEL ON", "LINE.LAMP ON")
                engineer.commit([Put("PLANT", engineer.revision("PLANT"), text)])
                viewer.until(lambda it: it.state("PLANT") == "noplan")


class ChangesTest(unittest.TestCase):
    def test_changes_of_one_unit_are_one(self) -> None:
        board = Board("some", shared=True)
        board.add(["A", "B"])
        for revisions in ({"A": 1, "B": 2}, {"A": 3}, {"B": 4}, {"A": 5}, {"A": 6}, {"A": 0}, {"A": 7}):
            board.seen(revisions)
        told = [(it.steps, it.count) for it in board.news(0, 0).changes]
        self.assertEqual(told, [((("B", 2, 4),), 1), ((("A", 1, 6),), 3), ((("A", 6, 0),), 1), ((("A", 0, 7),), 1)])


class RefusalsTest(BoardTest):
    """What a board does not answer."""

    PATHS = ("/", "/events", "/unit?name=LAMP", "/net?name=PLANT&aspect=1", "/plan?name=PLANT", "/instance?name=PLANT&path=LINE.PANEL")

    def test_other_hosts(self) -> None:
        at = self.conveyor()
        for host in ("evil.example", f"evil.example:{at.port}", "127.0.0.1", f"127.0.0.1:{at.port + 1}", f"127.0.0.1.evil.example:{at.port}", ""):
            for path in self.PATHS:
                self.assertEqual(at.request(path, Host=host)[0], 403, (host, path))
        self.assertEqual(at.request("/", Host=f"localhost:{at.port}")[0], 200)

    def test_no_host_and_two_hosts(self) -> None:
        at = self.conveyor()
        good = f"Host: 127.0.0.1:{at.port}\r\n".encode()
        for headers in (b"", good + b"Host: evil.example\r\n", good + good):
            self.assertIn(b" 403 ", at.raw(b"GET /unit?name=LAMP HTTP/1.1\r\n" + headers + b"Connection: close\r\n\r\n").splitlines()[0])

    def test_other_origins(self) -> None:
        at = self.conveyor()
        others = ("http://evil.example", "null", f"https://127.0.0.1:{at.port}", f"http://127.0.0.1:{at.port + 1}", "http://127.0.0.1", "")
        for origin in others:
            for path in self.PATHS:
                self.assertEqual(at.request(path, Origin=origin)[0], 403, (origin, path))
            self.assertEqual(at.request("/look", "POST", b"{}", Origin=origin)[0], 403)
        self.assertEqual(at.request("/", Origin=f"http://127.0.0.1:{at.port}")[0], 200)

    def test_requests_that_other_sites_make(self) -> None:
        at = self.conveyor()
        for site in ("cross-site", "same-site"):
            for path in self.PATHS:
                self.assertEqual(at.request(path, Sec_Fetch_Site=site, Sec_Fetch_Mode="no-cors")[0], 403, (site, path))
            self.assertEqual(at.request("/unit?name=LAMP", Sec_Fetch_Site=site, Sec_Fetch_Mode="navigate")[0], 403)
            self.assertEqual(at.request("/", Sec_Fetch_Site=site, Sec_Fetch_Mode="navigate")[0], 200)

    def test_other_paths(self) -> None:
        at = self.conveyor()
        for path in ("/nothing", "/page", "/unit/", "/../FEEDER.fb", "/FEEDER.fb", "/%2e%2e/etc/passwd", "/look"):
            self.assertEqual(at.request(path), (404, "there is no such page\n"), path)
        self.assertEqual(at.request("/unit", "POST", b"{}")[0], 404)
        self.assertEqual(at.request("/unit?name=NOTHING"), (404, "the board has no such unit\n"))

    def test_bad_queries(self) -> None:
        at = self.conveyor()
        for path in (
            "/unit", "/unit?", "/unit?name", "/unit?name=", "/unit?name=A&name=B", "/unit?name=A&more=B", "/unit?other=A", "/unit?name=%ff", "/net", "/net?name=PLANT",
            "/net?name=PLANT&aspect=x", "/net?name=PLANT&aspect=nan", "/net?name=PLANT&aspect=0", "/net?name=PLANT&aspect=-1",
            "/plan?", "/instance?name=A", "/events?change=x", "/events?change=-1", "/events?change=9007199254740992", "/events?change=", f"/events?change={'9' * 5000}", "/events?other=1", "/?a=b",
            "/unit?" + "&".join(f"a{at}=1" for at in range(9)),
        ):
            self.assertEqual(at.request(path)[0], 400, path)
        self.assertEqual(at.request("/unit?name=" + "A" * 40_000)[0], 414)

    def test_other_methods_and_bodies(self) -> None:
        at = self.conveyor()
        for method in ("PUT", "DELETE", "OPTIONS", "TRACE", "PATCH"):
            self.assertEqual(at.request("/", method)[0], 501, method)
        self.assertEqual(at.request("/look", "POST", b'{"unit":"A"}'), (400, "this board has the units of its folder, and no others\n"))
        host = f"Host: 127.0.0.1:{at.port}\r\nCookie: {at.cookie}\r\n".encode()
        for length in (b"", b"Content-Length: 1025\r\n", b"Content-Length: -1\r\n", b"Content-Length: x\r\n", b"Transfer-Encoding: chunked\r\n"):
            answer = at.raw(b"POST /look HTTP/1.1\r\n" + host + length + b"\r\n")
            self.assertIn(b" 400 ", answer.splitlines()[0], length)

    def test_bytes_that_are_no_request(self) -> None:
        at = self.conveyor()
        for content in (b"\x00\xff\r\n\r\n", b"GET\r\n\r\n", b"GET / HTTP/9.9\r\n\r\n", b"GET / HTTP/1.1\r\nno header\xff\r\n\r\n"):
            answer = at.raw(content)
            self.assertNotIn(b" 200 ", answer.splitlines()[0] if answer else b"")
            self.assertNotIn(b"<", answer)
        with at.viewer() as viewer:
            viewer.settled(len(STATES))

    def test_this_machine_alone(self) -> None:
        at = self.conveyor()
        sockets = [line.split() for table in ("tcp", "tcp6") for line in Path(f"/proc/net/{table}").read_text(encoding="ascii").splitlines()]
        listening = [it[1] for it in sockets if it[1].endswith(f":{at.port:04X}") and it[3] == "0A"]
        self.assertEqual(listening, [f"0100007F:{at.port:04X}"])


class StrangersTest(BoardTest):
    """Programs of other users of this machine, who reach the port and have not seen the board's address."""

    def test_nothing_without_the_token(self) -> None:
        at = self.conveyor()
        name, token = at.cookie.split("=")
        for cookie in ("", token, f"{name}={token[:-1]}", f"{name}={token}0", f"{name}=", f"other={token}", f"{name}=\xe9", f"x={name}={token}"):
            for path in RefusalsTest.PATHS:
                self.assertEqual(at.request(path, Cookie=cookie), (403, f"{NO_TOKEN}\n"), (cookie, path))
            self.assertEqual(at.request("/look", "POST", b'{"unit":"B"}', Cookie=cookie)[0], 403)
        for path in (f"/unit?name=LAMP&token={token}", f"/?token={token[:-1]}", "/?token=", f"/?token={token}&a=b", f"/?a=b&token={token}"):
            self.assertEqual(at.request(path, Cookie="")[0], 403, path)
        for cookie in (f"{name}={token}", f'a=b; {name}={token}; c="d', f"{name}=old; {name}={token}"):
            self.assertEqual(at.request("/unit?name=LAMP", Cookie=cookie)[0], 200, cookie)

    def test_the_token_gives_the_cookie(self) -> None:
        at = self.conveyor()
        connection = HTTPConnection("127.0.0.1", at.port, timeout=60)
        connection.request("GET", f"/?token={at.token}")
        answer = connection.getresponse()
        page = answer.read().decode()
        connection.close()
        self.assertEqual((answer.status, answer.headers["Set-Cookie"]), (200, f"{at.cookie}; HttpOnly; SameSite=Strict; Path=/"))
        self.assertNotIn(at.token, page)
        with at.viewer() as viewer:
            viewer.take()
        self.assertNotIn(at.token, str(viewer.about))

    def test_silent_connections_shut_nobody_out(self) -> None:
        at = self.conveyor()
        with at.viewer() as viewer, ExitStack() as stack:
            for _ in range(2 * CONNECTIONS):
                stack.enter_context(socket.create_connection(("127.0.0.1", at.port)))
            viewer.settled(len(STATES))
            self.assertEqual(at.request("/")[0], 200)
            self.assertLess(len(os.listdir(f"/proc/{at.process.pid}/fd")), CONNECTIONS + 32)
            self.edit("LAMP.fb", "VAR_INPUT VALUE", "VAR_INPUT VALU")
            viewer.until(lambda it: it.state("LAMP") == "faulty")

    def test_a_head_without_end_is_not_kept(self) -> None:
        at = self.conveyor()
        for lines, expected in (1, b" 403 "), (3, b" 431 "):
            head = b"GET / HTTP/1.1\r\n" + lines * (b"X: " + 65_000 * b"a" + b"\r\n")
            answer = at.raw(head + b"\r\n" * (lines == 1))
            self.assertIn(expected, answer.splitlines()[0], lines)

    def test_more_viewers_than_there_is_room_for(self) -> None:
        at = self.conveyor()
        with ExitStack() as stack:
            for _ in range(CONNECTIONS):
                stack.enter_context(at.viewer())
            self.assertEqual(at.request("/")[0], 503)
        self.until(lambda: at.request("/")[0] == 200)

    def test_no_descriptor_is_left(self) -> None:
        """The board pauses between tries to accept, and continues once there are descriptors again."""
        self.copy_conveyor()
        at = self.start(".")
        pid = at.process.pid
        self.until(lambda: (at.request("/unit?name=LAMP")[0] == 200))
        open_files = len(os.listdir(f"/proc/{pid}/fd"))
        soft, hard = resource.prlimit(pid, resource.RLIMIT_NOFILE)
        resource.prlimit(pid, resource.RLIMIT_NOFILE, (open_files, hard))
        with socket.create_connection(("127.0.0.1", at.port)):
            before, begun = self.processor(pid), time.monotonic()
            time.sleep(1)
            spent = (self.processor(pid) - before) / (time.monotonic() - begun)
        self.assertLess(spent, 0.5)
        resource.prlimit(pid, resource.RLIMIT_NOFILE, (soft, hard))
        self.until(lambda: at.request("/")[0] == 200)

    def test_names_that_no_unit_has(self) -> None:
        at = self.conveyor()
        with at.viewer() as viewer:
            viewer.settled(len(STATES))
            for name in ("1", "A-B", "%C3%A4", "A" * 65, "A.B", "%00"):
                for path in (f"/unit?name={name}", f"/net?name={name}&aspect=1", f"/plan?name={name}", f"/instance?name={name}&path=A"):
                    self.assertEqual(at.request(path), (400, f"{NO_NAME}\n"), path)
            self.edit("LAMP.fb", "VAR_INPUT VALUE", "VAR_INPUT VALU")
            viewer.until(lambda it: it.state("LAMP") == "faulty")
        self.assertEqual(viewer.ended, "")

    @staticmethod
    def processor(pid: int) -> float:
        """Seconds of processor time that a process has had."""
        fields = Path(f"/proc/{pid}/stat").read_text(encoding="ascii").rpartition(")")[2].split()
        return (int(fields[11]) + int(fields[12])) / os.sysconf("SC_CLK_TCK")

    def until(self, condition: Callable[[], object]) -> None:
        end = time.monotonic() + PATIENCE
        while not condition():
            self.assertLess(time.monotonic(), end)
            time.sleep(0.05)


class WishesTest(unittest.TestCase):
    """What is asked of a workbench for those that look on."""

    def test_the_last_ones_are_kept(self) -> None:
        board = Board("some", shared=True)
        wishes: list[Key] = [("net", f"U{at}") for at in range(100)]
        with board.viewer():
            for wish in wishes:
                board.wish(wish)
            board.wish(wishes[40])
            board.wish(wishes[0])
            self.assertEqual(board.open_wishes(), [*wishes[37:40], *wishes[41:], wishes[40], wishes[0]])
            board.answered(wishes[1], NoEntry())
            self.assertNotIn(wishes[1], board.wishes())
        self.assertEqual((WISHES_KEPT, board.wishes()), (64, []))

    def test_a_refusal_is_an_answer(self) -> None:
        board = Board("some", shared=False)
        with answering(GREETING, b'{"refused":"BadName"}\n', b'{"net":"too_large"}\n') as port, Session.connect("127.0.0.1", port) as session:
            asking = Asking(board, session)
            with board.viewer():
                board.wish(("net", "A"))
                board.wish(("net", "B"))
                self.assertTrue(asking.ask_wishes())
                views = [net_view(board, unit, board.wish(("net", unit)), board.wish(("deploy", unit)), 1.0) for unit in "AB"]
        self.assertEqual((views[0]["state"], views[0]["why"][:33]), ("refused", "a name is a letter or _, then let"))
        self.assertEqual(views[1]["state"], "too_large")


class ViewersTest(BoardTest):
    def test_two_viewers_at_once(self) -> None:
        at = self.conveyor()
        with at.viewer() as one, at.viewer() as other:
            for viewer in (one, other):
                viewer.settled(len(STATES))
            self.edit("LAMP.fb", "VAR_INPUT VALUE", "VAR_INPUT VALU")
            for viewer in (one, other):
                viewer.until(lambda it: it.state("LAMP") == "faulty")

    def test_a_viewer_that_goes_away(self) -> None:
        at = self.conveyor()
        with at.viewer() as gone:
            gone.settled(len(STATES))
        with at.viewer() as viewer:
            viewer.settled(len(STATES))
            self.edit("LAMP.fb", "VAR_INPUT VALUE", "VAR_INPUT VALU")
            viewer.until(lambda it: it.state("LAMP") == "faulty")
        at.process.send_signal(signal.SIGINT)
        at.process.wait(30)
        self.assertEqual(at.process.stderr.read(), "")

    def test_a_viewer_that_comes_back(self) -> None:
        at = self.conveyor()
        with at.viewer() as viewer:
            viewer.settled(len(STATES))
            self.edit("FEEDER.fb", "DONE TO IDLE", "DONE TO IDLE (* again *)")
            viewer.until(lambda it: it.changes)
            last = viewer.changes[0]["number"]
        self.edit("LAMP.fb", "VAR_INPUT VALUE", "VAR_INPUT VALU")
        with at.viewer() as other:
            other.until(lambda it: it.state("LAMP") == "faulty")
        with at.viewer(f"?change={last}") as back, at.viewer() as new:
            back.settled(len(STATES))
            new.settled(len(STATES))
        self.assertEqual([[it[0] for it in viewer.steps()] for viewer in (back, new)], [["LAMP"], ["FEEDER", "LAMP"]])

    def test_texts_are_no_markup(self) -> None:
        self.write("A.fb", MARKUP)
        self.write("<b>B.fb", "FUNCTION_BLOCK <script>")
        at = self.start(".")
        with at.viewer() as viewer:
            viewer.settled(2)
        page = at.request("/")[1]
        self.assertNotIn("alert(1)", page)
        self.assertEqual(self.pieces(at.json("/unit", name="A")) + "\n", MARKUP)
        for path in ("/unit?name=A", "/events"):
            self.assertIn(self.header(at, path, "Content-Type"), ("application/json", "text/event-stream"))
            self.assertEqual(self.header(at, path, "X-Content-Type-Options"), "nosniff")
        policy = self.header(at, "/", "Content-Security-Policy")
        self.assertRegex(policy, r"^default-src 'none'; script-src 'nonce-[0-9a-f]{32}'; style-src 'nonce-[0-9a-f]{32}'; connect-src 'self'; img-src data:; ")
        self.assertIn("require-trusted-types-for 'script'", policy)
        self.assertNotEqual(policy, self.header(at, "/", "Content-Security-Policy"))

    def header(self, at: Address, path: str, name: str) -> str:
        connection = HTTPConnection("127.0.0.1", at.port, timeout=60)
        connection.request("GET", path, headers={"Cookie": at.cookie})
        value = connection.getresponse().headers[name]
        connection.close()
        return value


if __name__ == "__main__":
    unittest.main()
