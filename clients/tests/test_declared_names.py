"""Names are shown as they are declared, though capitals make no difference in the language; what a user writes otherwise is spelled so again."""
from __future__ import annotations

import unittest
from pathlib import Path
from typing import Any

from editing import LspTest
from support import InFolder, run, workbench

from bench61499 import Put, Session
from bench61499.language.as_declared import AsDeclared
from bench61499.language.levels import NONE
from bench61499.language.picture import Picture
from bench61499.language.positions import edited
from bench61499.language.texts import Texts

PUMP = """\
FUNCTION_BLOCK Pump
  EVENT_INPUT Start WITH Level; END_EVENT
  EVENT_OUTPUT Done; END_EVENT
  VAR_INPUT Level : Sensor; Most : INT; END_VAR
  PLUGS Motor : Drive; END_PLUGS
  ALGORITHM Calc IN ST_FULL
    MOST := level.VALUE;
  END_ALGORITHM
END_FUNCTION_BLOCK
"""
TANK = """\
FUNCTION_BLOCK Tank
  EVENT_OUTPUT Go; END_EVENT
  SOCKETS Motor : Drive; END_SOCKETS
END_FUNCTION_BLOCK
"""
SENSOR = "TYPE Sensor : STRUCT\n  Value : INT;\nEND_STRUCT; END_TYPE\n"
DRIVE = "ADAPTER Drive\n  EVENT_INPUT Tripped; END_EVENT\n  VAR_INPUT TRIPPED : BOOL; END_VAR\nEND_ADAPTER\n"
PART = """\
SUBAPPLICATION Part
  EVENT_INPUT In; END_EVENT
  SOCKETS Motor : Drive; END_SOCKETS
  FBS One : Pump(Most := 7); Two : Tank; END_FBS
  EVENT_CONNECTIONS In TO One.Start; Two.Go TO One.Start; END_CONNECTIONS
  ADAPTER_CONNECTIONS One.Motor TO Two.Motor; END_CONNECTIONS
END_SUBAPPLICATION
"""
LINE = """\
SYSTEM Line
  APPLICATION Water
    SUBAPPS Left : Part; END_SUBAPPS
    FBS Source : Tank; END_FBS
    EVENT_CONNECTIONS Source.Go TO Left.In; END_CONNECTIONS
  END_APPLICATION
  DEVICE Plc : Forte
    RESOURCE Main : Emb END_RESOURCE
    RESOURCE Other : Emb END_RESOURCE
  END_DEVICE
  MAPPINGS
    Water.Left ON Plc.Main;
    Water.Source ON Plc.Other;
  END_MAPPINGS
END_SYSTEM
"""
UNITS = {"Pump": PUMP, "Tank": TANK, "Sensor": SENSOR, "Drive": DRIVE, "Part": PART, "Line": LINE}


class ProgramsTest(InFolder):
    def setUp(self) -> None:
        super().setUp()
        for name, text in UNITS.items():
            self.write(f"{name}.fb", text)

    def test_a_trace(self) -> None:
        ran = run("trace", "line", "water.left.one.start", "--files", ".", "--program", workbench(), folder=self.folder)
        self.assertEqual(ran.stdout.splitlines(), [
            "Water.Left.One.Start of Pump on Plc.Main is fed by",
            "  1 Water.Left.Two : Tank on Plc.Main", "      event Water.Left.Two.Go -> Water.Left.One.Start",
            "  1 Water.Source : Tank on Plc.Other", "      event Water.Source.Go -> Water.Left.One.Start, cut",
            "2 blocks on 2 resources, 1 cut link",
        ])

    def test_a_drawing(self) -> None:
        drawn = run("draw", "line", "--files", ".", "--program", workbench(), folder=self.folder).stdout
        for words in ("<B>Line</B>", "<B>Water.Left.One</B><BR/><I>Pump</I>", ">Start<", "&raquo; Motor", 'label="Plc.Main"'):
            self.assertIn(words, drawn)
        self.assertIn('label="In"', run("draw", "part", "--files", ".", "--program", workbench(), folder=self.folder).stdout)

    def test_why_there_is_no_plan(self) -> None:
        self.write("Tank.fb", TANK.replace("Drive;", "Driv;"))
        for name in ("plan", "draw"):
            ran = run(name, "line", "--files", ".", "--program", workbench(), folder=self.folder)
            self.assertRegex(ran.stderr, f"^{name}: Line has no (plan|network): .*Tank")
        ran = run("check", ".", "--plans", "--program", workbench(), folder=self.folder)
        self.assertIn("BLOCKED: Line has no plan: DRIV is absent, Part and Tank have faults\n", ran.stdout)
        self.write("Tank.fb", TANK)
        self.write("Line.fb", LINE.replace("    Water.Source ON Plc.Other;\n", ""))
        ran = run("plan", "line", "--files", ".", "--program", workbench(), folder=self.folder)
        self.assertEqual(ran.stderr, "plan: Line has no plan:\n  no mapping gives Water.Source a resource\n")

    def test_a_plan(self) -> None:
        ran = run("plan", "line", "--files", ".", "--program", workbench(), folder=self.folder)
        self.assertEqual((ran.stdout.splitlines(), ran.stderr), ([
            "between resources:",
            "  event Water.Source.Go -> Water.Left.One.Start",
            "Plc.Main:",
            "  CREATE FB Water.Left.One Pump",
            "  CREATE FB Water.Left.Two Tank",
            "  WRITE Water.Left.One.Most 7",
            "  CREATE CONNECTION Water.Left.Two.Go Water.Left.One.Start",
            "  CREATE CONNECTION Water.Left.Two.Motor.Tripped Water.Left.One.Motor.Tripped",
            "  CREATE CONNECTION Water.Left.Two.Motor.TRIPPED Water.Left.One.Motor.TRIPPED",
            "  START Plc.Main",
            "Plc.Other:",
            "  CREATE FB Water.Source Tank",
            "  START Plc.Other",
        ], ""))

    def test_format(self) -> None:
        expected = PUMP.replace("MOST := level.VALUE", "Most := Level.Value")
        ran = run("format", ".", folder=self.folder)
        self.assertEqual((ran.stdout, ran.stderr, ran.returncode), ("Pump.fb\n", "", 0))
        self.assertEqual((self.folder / "Pump.fb").read_text(), expected)
        self.assertEqual(run("format", "--check", ".", folder=self.folder).stdout, "")
        self.write("Part.fb", PART.replace("One.Start; Two", "ONE.start; two"))
        self.assertEqual(run("format", "--check", ".", folder=self.folder).returncode, 1)
        self.assertEqual(run("format", "Part.fb", folder=self.folder).stdout, "Part.fb\n")
        self.assertEqual((self.folder / "Part.fb").read_text(), PART.replace("One.Start; Two", "One.start; Two"), "The file of Pump was not named.")

    def test_check_says_what_was_meant_as_it_is_declared(self) -> None:
        self.write("Part.fb", PART.replace(": Tank", ": Tnk"))
        self.assertIn("there is no type Tnk; did you mean Tank?", run("check", ".", "--quiet", "--program", workbench(), folder=self.folder).stdout)


class BoardTest(unittest.TestCase):
    def test_networks_and_plans(self) -> None:
        texts = {name.upper(): text for name, text in UNITS.items()}
        with Session.script(workbench()) as session:
            session.commit([Put(name, 0, text) for name, text in texts.items()])
            net, deploy = session.wait("net", "LINE"), session.wait("deploy", "LINE")
            part = session.wait("net", "PART")
        view = Picture("LINE", texts, net, deploy, 1.0).view()
        self.assertEqual([it[:3] for it in view["boxes"]], [["Water.Left.One", "Pump", "Plc.Main"], ["Water.Left.Two", "Tank", "Plc.Main"], ["Water.Source", "Tank", "Plc.Other"]])
        self.assertEqual([it[0] for it in view["frames"]], ["Plc.Main", "Plc.Other"])
        self.assertIn([["event", "Start", "Done"], ["data", "Level", ""], ["data", "Most", ""], ["adapter", "", "Motor"]], view["rows"])
        self.assertEqual(sorted(it[7] for it in view["wires"]), ["", "", "TRIPPED", "Tripped"])
        self.assertEqual((view["opened"], [it[:2] for it in view["folds"]]), (["Water.Left"], [["Water.Left", "Water.Left"]]))
        closed = Picture("LINE", texts, net, deploy, 1.0, NONE).view()
        self.assertEqual([it[:3] for it in closed["boxes"]], [["Water.Left", "2 blocks", "Plc.Main"], ["Water.Source", "Tank", "Plc.Other"]])
        self.assertEqual(closed["hidden"], [["Water.Left.One", "Pump", "Plc.Main", 0], ["Water.Left.Two", "Tank", "Plc.Main", 0]])
        tags = [it for it in Picture("PART", texts, part, None, 1.0).view()["boxes"] if it[3] is not None]
        self.assertEqual([it[:2] for it in tags], [["In", "event"]])

    def test_what_is_traced(self) -> None:
        names = AsDeclared(Texts.of({name.upper(): text for name, text in UNITS.items()}), "LINE")
        for end in ("Water.Source", "Water.Source.Go", "Water.Left.One.Most", "Water.Left.One.Motor", "Water.Left.In", "Water.Left.One.Motor.Tripped"):
            self.assertEqual(names.end(end.upper()), end)

    def test_what_no_text_declares_stays(self) -> None:
        names = AsDeclared(Texts.of({"LINE": LINE}), "LINE")
        self.assertEqual(names.path("WATER.LEFT.ONE"), "Water.Left.ONE")
        self.assertEqual(names.type("PUMP"), "PUMP")
        self.assertEqual(list(names.commands(["START PLC.NONE", "CREATE FB NONE.X Y", "STOP A.B"])), ["START Plc.NONE", "CREATE FB NONE.X Y", "STOP A.B"])


class EditorTest(LspTest):
    def start(self, capabilities: dict | None = None) -> None:
        for name, text in UNITS.items():
            self.write(f"{name}.fb", text)
        self.server = self.editor()
        self.server.start(self.folder, capabilities)
        for name in UNITS:
            self.server.open(self.folder / f"{name}.fb")
        self.server.await_codes(Pump=["NOT_CHECKED"], Line=[])

    def ask(self, method: str, file: str, words: str, behind: int = 0, **more: object) -> Any:
        before = UNITS[file][: UNITS[file].index(words) + behind]
        place = {"line": before.count("\n"), "character": len(before) - before.rfind("\n") - 1}
        return self.server.ask(method, self.folder / f"{file}.fb", position=place, **more)

    def test_completion_hover_and_layout(self) -> None:
        self.start()
        labels = [it["label"] for it in self.ask("completion", "Part", "Pump(")]
        self.assertTrue({"Pump", "Tank"} <= set(labels) and not {"PUMP", "TANK", "Part", "PART"} & set(labels), labels)
        self.assertIn("Sensor", [it["label"] for it in self.ask("completion", "Pump", "Sensor;")])
        self.assertEqual(self.ask("hover", "Part", "In TO")["contents"]["value"], "event input of Part: In")
        self.assertEqual(self.ask("hover", "Line", "Source : Tank")["contents"]["value"].split("\n")[0], "block instance of Water: Source : Tank")
        edits = self.server.ask("formatting", self.folder / "Pump.fb", options={"tabSize": 8, "insertSpaces": False})
        self.assertEqual(edited(PUMP, edits), PUMP.replace("MOST := level.VALUE", "Most := Level.Value"))

    def test_fixes(self) -> None:
        self.start()
        self.server.change(self.folder / "Part.fb", PART.replace(": Tank", ": Tnk"))
        self.server.await_codes(Part=["UNKNOWN_TYPE"])
        shown = self.server.shown["Part.fb"]
        self.assertIn("did you mean Tank?", shown[0]["message"])
        fixes = self.server.ask("codeAction", self.folder / "Part.fb", range=shown[0]["range"], context={"diagnostics": shown})
        self.assertEqual([it["title"] for it in fixes], ["Change Tnk to Tank"])

    def test_a_file_that_is_named_after_its_unit_gets_the_new_name(self) -> None:
        self.start({"workspace": {"workspaceEdit": {"documentChanges": True, "resourceOperations": ["create", "rename", "delete"]}}})
        changes = self.ask("rename", "Part", "Pump(", newName="Motor")["documentChanges"]
        self.assertEqual(sorted(Path(it["textDocument"]["uri"]).name for it in changes[:-1]), ["Part.fb", "Pump.fb"])
        uris = [(self.folder / it).as_uri() for it in ("Pump.fb", "Motor.fb")]
        self.assertEqual({it: changes[-1][it] for it in ("kind", "oldUri", "newUri")}, {"kind": "rename", "oldUri": uris[0], "newUri": uris[1]})
        self.assertEqual(set(self.ask("rename", "Part", "Part", newName="Tank2")), {"documentChanges"})
        self.assertEqual(list(self.ask("rename", "Part", "In;", newName="Go")), ["changes"], "It is no unit.")
        self.write("Motor.fb", "")
        self.assertEqual(list(self.ask("rename", "Part", "Pump(", newName="Motor")), ["changes"], "The file is there already.")

    def test_a_rename_of_a_file_brings_the_workbench_up_to_date(self) -> None:
        self.start({"workspace": {"workspaceEdit": {"documentChanges": True, "resourceOperations": ["create", "rename", "delete"]}}})
        new = self.folder / "Motor.fb"
        for it in self.ask("rename", "Part", "Pump(", newName="Motor")["documentChanges"][:-1]:
            file = self.folder / Path(it["textDocument"]["uri"]).name
            self.server.change(file, edited(file.read_text(), it["edits"]))
        (self.folder / "Pump.fb").rename(new)
        self.server.shut(self.folder / "Pump.fb")
        self.server.open(new, PUMP.replace("Pump", "Motor"))
        self.server.await_codes(Motor=["NOT_CHECKED"], Part=[], Line=[])

    def test_without_it_the_edit_is_one_of_texts(self) -> None:
        self.start()
        self.assertEqual(list(self.ask("rename", "Part", "Pump(", newName="Motor")), ["changes"])


if __name__ == "__main__":
    unittest.main()
