"""A project as Eclipse 4diac has them goes through: import, check, plan, boot files, export, and import again."""
from __future__ import annotations

import re
import unittest
from collections import Counter
from pathlib import Path
from xml.etree import ElementTree

from exchanging import ExchangeTest, at, exported, imported, spelling, texts
from support import CLIENTS, run, workbench
from test_exchange_kept import facts

PROJECT = CLIENTS / "tests" / "pump_station"
ONLY_TOLD = (
    "attribute eclipse4diac::core::Revision = 7 of Application StationApp", "attribute Unfolded = true of SubApp Signals", "the group Pumps (the two of them); what it holds is kept",
    "attribute Color = 180,200,255 of FB Control", "attribute Profile = HOLOBLOC of Device PLC", "attribute Color = 255,190,111 of Device PLC", "the block Send of the resource PLC.Control",
    "the connection START.COLD -> Cycle.START of the resource PLC.Control; boot takes it as --cold StationApp.Cycle.START",
    "the connection START.WARM -> Cycle.START of the resource PLC.Control; boot takes it as --warm StationApp.Cycle.START",
    "the connection START.COLD -> Control.INIT of the resource PLC.Control; boot takes it as --cold StationApp.Control.INIT",
    "the connection START.COLD -> Send.INIT of the resource PLC.Control", "the connection Control.CNF -> Send.REQ of the resource PLC.Control",
    "the connection Control.Out -> Send.SD_1 of the resource PLC.Control", "the block Receive of the resource Panel.Screen",
    "the connection START.COLD -> Receive.INIT of the resource Panel.Screen", "the segment PlantNet", "the link PlantNet - PLC", "the link PlantNet - Panel",
    "the function Clamp: the workbench looks none up", "element FunctionBody of FunctionType", "the words FUNCTION Clamp : REAL END_FUNCTION in ST",
    "element InternalFBs of BasicFB: Timer", "the list of global constants Plant: the workbench looks none up", "element GlobalConstants of GlobalConstants: MOST",
    "attribute eclipse4diac::deployment::Category = drive of FBType PumpControl", "that these are constant: FULL",
)
"""What the language has no place for."""


class ProjectTest(ExchangeTest):
    def setUp(self) -> None:
        super().setUp()
        with at(PROJECT.parent):
            self.ran = imported([PROJECT.name], self.lib)

    def test_there_are_28_files_of_each_kind(self) -> None:
        files = [it for it in PROJECT.rglob("*.*") if it.is_file()]
        self.assertEqual(Counter(it.suffix for it in files), {".fbt": 21, ".dtp": 2, ".sys": 1, ".sub": 1, ".adp": 1, ".fct": 1, ".gcf": 1})
        roots = [ElementTree.parse(it).getroot() for it in files]
        self.assertGreater(sum(1 for root in roots for _ in root.iter()), 800)

    def test_what_import_tells(self) -> None:
        self.assertEqual(self.ran.errors, [])
        told = [it.split(": ", 2)[1:] for it in self.ran.lines[:-1]]
        self.assertEqual(sorted(words for kind, words in told if kind == "left out"), sorted(ONLY_TOLD))
        self.assertEqual(Counter(kind for kind, _ in told), {"left out": len(ONLY_TOLD), "unchecked": 6, "note": 10})
        self.assertEqual(self.ran.lines[-1], f"28 files, 32 units and 2 files without one in {self.lib}: 26 left out, 6 unchecked")

    def test_check_finds_nothing(self) -> None:
        ran = run("check", "lib", "--plans", "--program", workbench(), folder=self.folder)
        self.assertEqual(ran.returncode, 0, ran.stdout)
        self.assertIn("32 units, no faults; 5 algorithms are not checked\n", ran.stdout)
        self.assertIn("networks of subapplications: 5 of 5, plans of systems: 1 of 1", ran.stdout)

    def test_the_plan_has_the_parameters_of_subapplications(self) -> None:
        ran = run("plan", "PUMPSTATION", "--files", "lib", "--program", workbench(), folder=self.folder)
        self.assertEqual((ran.returncode, ran.stderr), (0, ""))
        for words in ("WRITE StationApp.Pump1.Output.PARAMS 'DO.0'", "WRITE StationApp.Pump2.Output.PARAMS 'DO.1'", "WRITE StationApp.Pump2.Control.Limit 4.5",
                      "WRITE StationApp.Pump1.Alarm.Tag 'pump 1'", "WRITE StationApp.Signals.Input.PARAMS 'IW.1'", "WRITE StationApp.Pump1.Starts.Most 6"):
            self.assertIn(f"  {words}\n", ran.stdout)

    def test_boot_files(self) -> None:
        starts = ("--cold", "StationApp.Cycle.START", "--cold", "StationApp.Control.INIT", "--warm", "StationApp.Cycle.START")
        ran = run("exchange", "boot", "PUMPSTATION", "--files", "lib", "--to", "boot", *starts, "--program", workbench(), folder=self.folder)
        self.assertEqual((ran.returncode, ran.stderr), (1, ""))  # Links between resources are left to be joined.
        plc = (self.folder / "boot" / "PumpStation_PLC.fboot").read_text()
        for words in ('<FB Name="Pump1.Control" Type="acme::plant::PumpControl" />', '<FB Name="Signals.Pack" Type="STRUCT_MUX_1Sensor" />',
                      '<Connection Source="&apos;DO.1&apos;" Destination="Pump2.Output.PARAMS" />', '<Connection Source="START.WARM" Destination="Cycle.START" />'):
            self.assertIn(words, plc)
        self.assertNotIn("PumpUnit", plc)

    def test_export_is_whole(self) -> None:
        with at(self.folder):
            ran = exported(["lib"], Path("xml"))
        self.assertEqual((ran.errors, ran.lines, ran.status), ([], ["27 units, 28 files in xml: all whole"], 0))
        before, after = (self.files(folder) for folder in (PROJECT, self.folder / "xml"))
        self.assertEqual(before.keys(), after.keys())
        for name in before:
            lost = facts(before[name]) - facts(after[name])
            self.assertEqual([it for it in lost if not self.is_number(it)], [], name)

    def is_number(self, it: tuple[str, ...]) -> bool:
        """Whether it is a number that has a point now, or the same numbers and guards with other blanks."""
        return it[-2:] == ("InitialValue", "1e0") or it[-2] == "Condition"

    def files(self, folder: Path) -> dict[str, ElementTree.Element]:
        return {it.relative_to(folder).as_posix(): ElementTree.parse(it).getroot() for it in folder.rglob("*.*") if it.is_file()}

    def test_conditions_and_algorithms_come_back(self) -> None:
        with at(self.folder):
            exported(["lib"], Path("xml"))
        for name, root in self.files(self.folder / "xml").items():
            if name in (before := self.files(PROJECT)):
                for tag, words in (("ECTransition", lambda it: it.get("Condition")), ("ST", lambda it: it.text)):
                    found, expected = ([re.sub(r"\s+", "", words(it)) for it in each.iter(tag)] for each in (root, before[name]))
                    self.assertEqual(found, [it.replace("1e1;", "1.0e1;") for it in expected], name)

    def test_imported_again_it_is_the_same(self) -> None:
        with at(self.folder):
            exported(["lib"], Path("xml"))
            again = imported(["xml"], Path("again"))
        self.assertEqual(again.errors, [])
        self.assertEqual({name: spelling(it) for name, it in texts(self.folder / "again").items()}, {name: spelling(it) for name, it in texts(self.lib).items()})

    def test_export_over_a_copy_of_the_project_makes_no_second_file_of_a_type(self) -> None:
        for name, root in self.files(PROJECT).items():
            file = self.folder / "project" / name
            file.parent.mkdir(parents=True, exist_ok=True)
            ElementTree.ElementTree(root).write(file)
        with at(self.folder):
            self.assertEqual(exported(["lib"], Path("project"), replace=True).errors, [])
        self.assertEqual(self.files(self.folder / "project").keys(), self.files(PROJECT).keys())


if __name__ == "__main__":
    unittest.main()
