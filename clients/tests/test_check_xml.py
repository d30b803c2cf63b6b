"""`check --xml`: a project of XML is checked in its place, with places in its files."""
from __future__ import annotations

import json
import shutil
import subprocess
import unittest
from xml.etree import ElementTree

from support import CLIENTS, InFolder, run, workbench

PROJECT = CLIENTS / "tests" / "pump_station"
PLANT = "Type Library/Plant"


class CheckXmlTest(InFolder):
    def setUp(self) -> None:
        super().setUp()
        shutil.copytree(PROJECT, self.folder, dirs_exist_ok=True)

    def check(self, *words: str) -> subprocess.CompletedProcess[str]:
        return run("check", "--xml", ".", *words, "--program", workbench(), folder=self.folder)

    def line(self, file: str, words: str) -> tuple[int, int]:
        """The only line of a file that has words, and the column at which they begin there."""
        (found,) = [(number, line.index(words) + 1) for number, line in enumerate((self.folder / file).read_text().split("\n"), 1) if words in line]
        return found

    def spoil(self) -> list[str]:
        """Puts a mistake into each of some files, and gives the lines that must be printed."""
        found = []
        for file, old, new, shown, told in (
            (f"{PLANT}/PumpUnit.sub", 'Destination="Control.START"', 'Destination="Control.STRAT"', "Control.STRAT", "PORT_UNKNOWN: PumpControl has no event STRAT; did you mean START? (Connection START -> Control.STRAT)"),
            (f"{PLANT}/MovingAverage.fbt", "Sum := 0.0;", "Summe := 0.0;", "Summe", "VARIABLE_UNKNOWN: no variable Summe in this block; did you mean Sum? (Algorithm REQ)"),
            (f"{PLANT}/LeadLag.fbt", "First := FALSE; Second", "Frist := FALSE; Second", "Frist", "VARIABLE_UNKNOWN: no variable Frist in this block; did you mean First? (Algorithm Select)"),
            (f"{PLANT}/PumpControl.fbt", 'Condition="STOP"', 'Condition="STOPP"', '"STOPP"', "EVENT_UNKNOWN: no event STOPP comes in here, so no transition can wait for it; did you mean STOP? (ECTransition RUNNING -> STOPPED)"),
            (f"{PLANT}/PumpUnit.sub", 'Type="io::QX"', 'Type="io::QY"', "QY", "UNKNOWN_TYPE: there is no type QY (FB Output)"),
        ):
            self.edit(file, old, new)
            number, column = self.line(file, shown)
            column += shown[0] == '"'
            found.append(f"{file}:{number}:{column}: {told}")
        return found

    def test_a_project_without_faults(self) -> None:
        ran = self.check("--plans")
        self.assertEqual((ran.stdout, ran.stderr, ran.returncode), ("32 units, no faults; 5 algorithms are not checked\nnetworks of subapplications: 5 of 5, plans of systems: 1 of 1\n", "", 0))
        self.assertEqual([it.name for it in self.folder.iterdir()], [it.name for it in PROJECT.iterdir()], "nothing is written")

    def test_places_in_the_files(self) -> None:
        expected = self.spoil()
        ran = self.check("--quiet")
        self.assertEqual((sorted(ran.stdout.splitlines()), ran.returncode), (sorted(expected), 1))

    def test_a_parameter_of_a_subapplication(self) -> None:
        self.edit("PumpStation.sys", '<Parameter Name="Tag" Value="\'pump 1\'"/>\n\t\t\t\t</SubApp>', '<Parameter Name="Tag" Value="TRUE"/>\n\t\t\t\t</SubApp>')
        ran = self.check("--quiet")
        number, column = self.line("PumpStation.sys", '<SubApp Name="Pump1" Type="acme::plant::PumpUnit" x="1600"')
        words = "LITERAL: Tag is STRING[20], and TRUE does not fit (in PumpUnit with OutAddress := 'DO.0', Limit := 4.5, Tag := TRUE) (SubApp Pump1)"
        self.assertEqual(ran.stdout, f"PumpStation.sys:{number}:{column}: {words}\n")

    def test_forms_for_programs(self) -> None:
        expected = sorted(it.split(": ", 1)[0] for it in self.spoil())
        faults = json.loads(self.check("--json").stdout)["faults"]
        self.assertEqual(sorted(f"{it['file']}:{it['line']}:{it['column']}" for it in faults), expected)
        results = [it for it in json.loads(self.check("--format", "sarif").stdout)["runs"][0]["results"] if it["level"] == "error"]
        places = [it["locations"][0]["physicalLocation"] for it in results]
        found = [f"{it['artifactLocation']['uri']}:{it['region']['startLine']}:{it['region']['startColumn']}".replace("%20", " ") for it in places]
        self.assertEqual(sorted(found), expected)
        suite = ElementTree.fromstring(self.check("--format", "junit").stdout)
        self.assertEqual((suite.get("tests"), suite.get("failures")), ("32", "4"))
        commands = self.check("--format", "github").stdout.splitlines()
        self.assertEqual([sum(it.startswith(f"::{level} ") for it in commands) for level in ("error", "notice")], [len(expected), 5])

    def test_files_of_older_tools(self) -> None:
        """An algorithm in an attribute, in another encoding, and a name that is no name here."""
        ending = '</InterfaceList><BasicFB>\n<Algorithm Name="A">\n<ST Text="X := 1;&#10;Größe := Y;"/></Algorithm></BasicFB></FBType>'
        text = '<?xml version="1.0" encoding="ISO-8859-1"?>\n<FBType Name="F"><InterfaceList><InputVars><VarDeclaration Name="Größe" Type="INT"/></InputVars>\n' + ending
        self.write("older/F.fbt", text.encode("iso-8859-1"))
        ran = run("check", "--xml", "older/F.fbt", "--quiet", "--program", workbench(), folder=self.folder)
        self.assertEqual([it.split(": ", 1) for it in ran.stdout.splitlines()], [
            ["older/F.fbt:5:11", "VARIABLE_UNKNOWN: no variable X in this block (Algorithm A)"],
            ["older/F.fbt:5:32", "VARIABLE_UNKNOWN: no variable Y in this block (Algorithm A)"],
        ])

    def test_what_can_not_be_read(self) -> None:
        self.write("broken.fbt", "<FBType")
        ran = self.check("--quiet")
        self.assertEqual((ran.stdout, ran.returncode), ("", 2))
        self.assertRegex(ran.stderr, r"\Acheck: broken.fbt:1: is no XML: .*\n\Z")
        ran = run("check", "--xml", "nowhere", "--program", workbench(), folder=self.folder)
        self.assertEqual((ran.returncode, ran.stderr), (2, "check: nowhere: there is no such file or folder\ncheck: no unit in nowhere\n"))
        self.assertEqual(run("check", "--xml", ".", "--connect", ":1", folder=self.folder).returncode, 2)


if __name__ == "__main__":
    unittest.main()
