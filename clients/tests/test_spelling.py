"""Uses in other capitals than their declarations: check notes them, and export spells them as declared, as 4diac distinguishes capitals."""
from __future__ import annotations

import json
import re
import unittest
from pathlib import Path

from exchanging import ExchangeTest, at, exported
from support import run, workbench

PUMP = """\
FUNCTION_BLOCK Pump
  EVENT_INPUT Start WITH LEVEL; END_EVENT
  EVENT_OUTPUT Done; END_EVENT
  VAR_INPUT Level : Sensor; END_VAR
  VAR Sum : REAL; END_VAR
  EC_STATES Idle; Run : CALC -> done; END_STATES
  EC_TRANSITIONS idle TO Run := START; Run TO Idle := 1; END_TRANSITIONS
  ALGORITHM Calc IN ST:
    sum := Level.VALUE;
  END_ALGORITHM
END_FUNCTION_BLOCK
"""
SENSOR = "TYPE Sensor : STRUCT\n  Value : REAL;\nEND_STRUCT; END_TYPE\n"
PLANT = """\
SUBAPPLICATION Plant
  FBS
    First : PUMP;
    Second : Pump(level := LOW);
  END_FBS
  EVENT_CONNECTIONS
    FIRST.Done TO Second.START;
  END_CONNECTIONS
END_SUBAPPLICATION
"""


class SpellingTest(ExchangeTest):
    def setUp(self) -> None:
        super().setUp()
        for name, text in (("Pump", PUMP), ("Sensor", SENSOR), ("Plant", PLANT)):
            self.write(f"lib/{name}.fb", text)

    def test_check_notes_them(self) -> None:
        ran = run("check", "lib", "--quiet", "--program", workbench(), folder=self.folder)
        told = "tools such as 4diac tell capitals apart"
        self.assertEqual((ran.stderr, ran.returncode), ("", 0))
        self.assertEqual(ran.stdout.splitlines(), [
            f"lib/Plant.fb:3:13: SPELLING: PUMP is declared as Pump; {told}",
            f"lib/Plant.fb:4:19: SPELLING: level is declared as Level; {told}",
            f"lib/Plant.fb:7:5: SPELLING: FIRST is declared as First; {told}",
            f"lib/Plant.fb:7:26: SPELLING: START is declared as Start; {told}",
            f"lib/Pump.fb:2:26: SPELLING: LEVEL is declared as Level; {told}",
            f"lib/Pump.fb:6:25: SPELLING: CALC is declared as Calc; {told}",
            f"lib/Pump.fb:6:33: SPELLING: done is declared as Done; {told}",
            f"lib/Pump.fb:7:18: SPELLING: idle is declared as Idle; {told}",
            f"lib/Pump.fb:7:33: SPELLING: START is declared as Start; {told}",
            f"lib/Pump.fb:9:5: SPELLING: sum is declared as Sum; {told}",
            f"lib/Pump.fb:9:18: SPELLING: VALUE is declared as Value; {told}",
        ])
        summary = run("check", "lib", "--program", workbench(), folder=self.folder).stdout.splitlines()[-2:]
        self.assertEqual(summary, ["3 units, no faults", "11 names spelled in other capitals than declared"])
        notes = json.loads(run("check", "lib", "--json", "--program", workbench(), folder=self.folder).stdout)["notes"]
        self.assertEqual({(it["code"], it["level"]) for it in notes}, {("SPELLING", "note")})

    def test_export_spells_them_as_declared(self) -> None:
        with at(self.folder):
            ran = exported(["lib"], Path("out"))
        self.assertEqual((ran.errors, ran.status), ([], 0))
        self.assertIn("lib/Plant.fb:1: renamed: PUMP to Pump, as it is declared", ran.lines)
        self.assertEqual(ran.lines[-1], "3 units, 3 files in out: 11 renamed")
        plant, pump = ((self.folder / "out" / name).read_text() for name in ("Plant.sub", "Pump.fbt"))
        self.assertEqual(re.findall(r'Type="(Pump|PUMP)"', plant), ["Pump", "Pump"])
        self.assertIn('<Connection Source="First.Done" Destination="Second.Start"/>', plant)
        self.assertIn('<Parameter Name="Level" Value="LOW"/>', plant)
        for words in ('<With Var="Level"/>', '<ECAction Algorithm="Calc" Output="Done"/>', 'Source="Idle" Destination="Run" Condition="Start"', "Sum := Level.Value;"):
            self.assertIn(words, pump)

    def test_names_that_differ_in_capitals_alone_stay(self) -> None:
        """They are two in the file of a tool."""
        self.write("lib/Two.fb", "FUNCTION_BLOCK Two\n  EVENT_INPUT start; Start; END_EVENT\n  EC_STATES A; END_STATES\n  EC_TRANSITIONS A TO A := start; A TO A := Start; END_TRANSITIONS\nEND_FUNCTION_BLOCK\n")
        with at(self.folder):
            exported(["lib/Two.fb"], Path("out"))
        self.assertEqual(re.findall(r'Condition="(\w+)"', (self.folder / "out" / "Two.fbt").read_text()), ["start", "Start"])


if __name__ == "__main__":
    unittest.main()
