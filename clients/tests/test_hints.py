"""lsp: hints within a text, steps of selection, symbols of all names, mappings that are missing, and progress."""
from __future__ import annotations

import importlib
import sys
import unittest
from pathlib import Path
from unittest.mock import patch

from editing import LspTest
from support import CLIENTS, workbench
from test_features import ConveyorTest

from bench61499 import Places, Put, Session
from bench61499.language.positions import edited, place
from bench61499.lsp.answers import CAPABILITIES


class HintsTest(ConveyorTest):
    def setUp(self) -> None:
        super().setUp()
        self.server.await_codes(PLANT=[])

    def hints(self, name: str, first: int = 0, last: int = 10_000) -> list[str]:
        """The lines with hints, with these written into them between angle brackets."""
        text = self.file(name).read_text()
        span = {"start": {"line": first, "character": 0}, "end": {"line": last, "character": 0}}
        found = self.server.ask("inlayHint", self.file(name), range=span)
        shown = edited(text, [{"range": {"start": it["position"], "end": it["position"]}, "newText": f"<{it['label']}>"} for it in found])
        return [line.strip() for line in shown.splitlines() if "<" in line]

    def test_resources_and_types(self) -> None:
        self.assertTrue(self.capabilities["inlayHintProvider"])
        self.assertEqual(self.hints("PLANT"), [
            "SUBAPPS FIRST< on NORTH.MOTION> : STATION; SECOND< on SOUTH.MOTION> : STATION; END_SUBAPPS",
            "FBS PANEL< on SOUTH.SCREEN> : LAMP(TEXT := 'line 1', DELAY := T#250ms); END_FBS",
            "FIRST.TOTAL< : INT> TO SECOND.LOAD;",
            "SECOND.TOTAL< : INT> TO PANEL.VALUE;",
        ])
        self.assertEqual(self.hints("STATION"), [
            "BELT< on NORTH.MOTION and SOUTH.MOTION> : FEEDER(LIMIT := 80);",
            "LIFT< on NORTH.MOTION and SOUTH.MOTION> : LIFTER;",
            "LOAD< : INT> TO BELT.LOAD;",
            "LIFT.TOTAL< : INT> TO TOTAL;",
            "ADAPTER_CONNECTIONS BELT.NEXT< : HANDOVER> TO LIFT.BEFORE; END_CONNECTIONS",
        ])

    def test_of_a_range_and_of_a_block(self) -> None:
        self.assertEqual(self.hints("PLANT", 4, 6), ["FBS PANEL< on SOUTH.SCREEN> : LAMP(TEXT := 'line 1', DELAY := T#250ms); END_FBS"])
        self.assertEqual(self.hints("FEEDER"), [])

    def test_a_mapping_deeper_than_the_instance(self) -> None:
        text = self.file("PLANT").read_text().replace("LINE.FIRST ON NORTH.MOTION;", "LINE.FIRST.BELT ON NORTH.MOTION; LINE.FIRST.LIFT ON SOUTH.SCREEN;")
        self.file("PLANT").write_text(text)
        self.server.change(self.file("PLANT"), text)
        self.server.await_codes(PLANT=[])
        self.assertIn("FIRST< on NORTH.MOTION and SOUTH.SCREEN> : STATION", self.hints("PLANT")[0])
        self.assertEqual(self.hints("STATION")[:2], ["BELT< on NORTH.MOTION and SOUTH.MOTION> : FEEDER(LIMIT := 80);", "LIFT< on SOUTH.MOTION and SOUTH.SCREEN> : LIFTER;"])

    def test_steps_of_selection(self) -> None:
        def steps(name: str, words: str) -> list[str]:
            (it,) = self.server.ask("selectionRange", self.file(name), positions=[self.at(name, words)])
            places, found = Places(self.file(name).read_text()), []
            while it:
                found.append(places.words(place(places, it["range"]["start"]), place(places, it["range"]["end"])))
                it = it.get("parent")
            return found

        text = self.file("FEEDER").read_text()
        transitions = text[text.index("EC_TRANSITIONS") : text.index("END_TRANSITIONS") + len("END_TRANSITIONS")]
        unit = text[text.index("FUNCTION_BLOCK") : text.rindex("END_FUNCTION_BLOCK") + len("END_FUNCTION_BLOCK")]
        self.assertEqual(steps("FEEDER", "SEEN [LOAD"), ["SEEN", "MOVING TO OFFERING := SEEN [LOAD > 0 AND NOT IS_FULL];", transitions, unit, text])
        self.assertEqual(steps("FEEDER", "the two lanes")[0], "// the two lanes in turn")
        self.assertEqual(steps("PLANT", "SECOND : STATION")[:2], ["SECOND", "SECOND : STATION;"])
        answer = self.server.ask("selectionRange", self.file("PLANT"), positions=[{"line": 0, "character": 0}, {"line": 3, "character": 5}])
        self.assertEqual(len(answer), 2)

    def test_symbols_of_ports_and_instances(self) -> None:
        def named(query: str) -> list[tuple[str, str | None, str]]:
            found = self.server.request("workspace/symbol", query=query)["result"]
            return [(it["name"], it.get("containerName"), Path(it["location"]["uri"]).stem) for it in found]

        self.assertEqual(named("lift"), [("LIFTER", None, "LIFTER"), ("LIFT", "LIFTER", "LIFTER"), ("LIFT", "STATION", "STATION"),
                                         ("LIFTED", "LIFTER", "LIFTER"), ("LIFTING", "LIFTER", "LIFTER")])
        self.assertEqual(named("total"), [("TOTAL", "LIFTER", "LIFTER"), ("TOTAL", "STATION", "STATION")])
        self.assertEqual(named("screen"), [("SCREEN", "SOUTH", "PLANT")])
        self.assertEqual([it[1] for it in named("l")], [None] * len(named("l")))


class MappingTest(ConveyorTest):
    """An instance that no mapping gives a resource."""

    def setUp(self) -> None:
        super().setUp()
        self.server.await_codes(PLANT=[])

    def actions(self, name: str, words: str) -> dict[str, dict]:
        """The edits that are offered at words, by their titles."""
        at = self.at(name, words)
        found = self.server.ask("codeAction", self.file(name), range={"start": at, "end": at}, context={"diagnostics": []})
        return {it["title"]: it["edit"]["changes"] for it in found}

    def change(self, old: str, new: str) -> None:
        text = self.file("PLANT").read_text()
        self.assertIn(old, text)
        self.file("PLANT").write_text(text.replace(old, new))
        self.server.change(self.file("PLANT"), text.replace(old, new))
        self.server.await_codes(PLANT=[])

    def done(self, changes: dict) -> str:
        ((uri, edits),) = changes.items()
        return edited(Path(uri.removeprefix("file://")).read_text(encoding="utf-8"), edits)

    def plan(self, text: str) -> object:
        with Session.script(workbench()) as session:
            for file in self.folder.glob("*.fb"):
                session.commit([Put(file.stem, 0, text if file.stem == "PLANT" else file.read_text())])
            return session.wait("deploy", "PLANT")

    def test_of_a_system(self) -> None:
        self.assertEqual(self.actions("PLANT", "PANEL : LAMP"), {})
        self.change("    LINE.PANEL ON SOUTH.SCREEN;\n", "")
        found = self.actions("PLANT", "PANEL : LAMP")
        self.assertEqual(list(found), [f"Map LINE.PANEL on {it}" for it in ("NORTH.MOTION", "SOUTH.MOTION", "SOUTH.SCREEN")])
        text = self.done(found["Map LINE.PANEL on SOUTH.SCREEN"])
        self.assertIn("    LINE.SECOND ON SOUTH.MOTION;\n    LINE.PANEL ON SOUTH.SCREEN;\n  END_MAPPINGS", text)
        self.assertTrue(hasattr(self.plan(text), "resources"))

    def test_of_a_system_without_mappings(self) -> None:
        text = self.file("PLANT").read_text()
        self.change(text[text.index("  MAPPINGS") : text.index("END_SYSTEM")], "")
        found = self.actions("PLANT", "FIRST : STATION")
        self.assertIn("  END_DEVICE\n  MAPPINGS LINE.FIRST ON NORTH.MOTION; END_MAPPINGS\nEND_SYSTEM", self.done(found["Map LINE.FIRST on NORTH.MOTION"]))

    def test_of_an_instance_deep_in_a_system(self) -> None:
        self.assertEqual(self.actions("STATION", "BELT : FEEDER"), {})
        self.change("    LINE.FIRST ON NORTH.MOTION;\n", "    line.first.LIFT ON NORTH.MOTION;\n")
        found = self.actions("STATION", "BELT : FEEDER")
        self.assertEqual(list(found)[:2], ["Map LINE.FIRST.BELT on NORTH.MOTION in PLANT", "Map LINE.FIRST.BELT on SOUTH.MOTION in PLANT"])
        self.assertTrue(hasattr(self.plan(self.done(found["Map LINE.FIRST.BELT on NORTH.MOTION in PLANT"])), "resources"))
        self.assertEqual(self.actions("STATION", "LIFT : LIFTER"), {})


class FeaturesTest(unittest.TestCase):
    """The table of what editors get, made from the capabilities that the server has."""

    def test_nothing_that_it_names_is_lacking(self) -> None:
        tools = str(CLIENTS.parent / "tools")
        if not Path(tools, "editor_features.py").is_file():
            self.skipTest("the tools are not here")
        sys.path.insert(0, tools)
        self.addCleanup(sys.path.remove, tools)
        features = importlib.import_module("editor_features")
        self.assertNotIn("| lack |", features.table())
        with patch.dict(CAPABILITIES, {"inlayHintProvider": False}):
            self.assertIn("| inlay hints | have | lack |", features.table())


class ReadingTest(LspTest):
    """What an editor shows while a large folder is read."""

    def read(self, units: int, capabilities: dict, answer: dict) -> list[dict]:
        """What is reported of the reading of this number of units."""
        for number in range(units):
            self.write(f"U{number}.fb", f"FUNCTION_BLOCK U{number} EVENT_INPUT E; END_EVENT END_FUNCTION_BLOCK\n")
        editor = self.editor()
        editor.start(self.folder, capabilities)
        told: list[dict] = []
        is_over = False
        while not is_over:
            message = editor.read() if capabilities else {}
            if message.get("method") == "window/workDoneProgress/create":
                editor.send({"id": message["id"], **answer})
                is_over = "error" in answer
            if message.get("method") == "$/progress":
                told.append(message["params"]["value"])
            is_over = is_over or not capabilities or bool(told) and told[-1]["kind"] == "end"
        editor.open(self.folder / "U1.fb")
        editor.await_codes(U1=[])
        self.assertFalse([it for it in editor.asked if "Progress" in it["method"]][1:])
        return told

    def test_of_many_units(self) -> None:
        begin, *reports, end = self.read(1_500, {"window": {"workDoneProgress": True}}, {"result": None})
        self.assertEqual((begin["kind"], begin["title"], end), ("begin", "Reading units", {"kind": "end", "message": "1,500 units"}))
        percents = [it["percentage"] for it in reports]
        self.assertEqual(percents, sorted(set(percents)))

    def test_of_an_editor_that_shows_none(self) -> None:
        self.assertEqual(self.read(600, {"window": {"workDoneProgress": True}}, {"error": {"code": 1, "message": "no"}}), [])
        self.assertEqual(self.read(600, {}, {}), [])


if __name__ == "__main__":
    unittest.main()
