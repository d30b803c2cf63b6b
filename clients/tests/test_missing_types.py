"""Types of values that are nowhere: the workbench has no fault for them, and clients warn."""
from __future__ import annotations

import json
import unittest
from pathlib import Path

from exchanging import ExchangeTest, at, exported, imported
from support import InFolder, run, workbench

BLOCK = """\
FUNCTION_BLOCK A
  VAR_INPUT
    X, Y : REEL;
    T : LTIME;
    L : ARRAY [0..1] OF Sensr;
    G : ANY_NUM;
    S : STRING[8];
    W : Sensor; (* Z : NOWHERE; *)
  END_VAR
  VAR
    N : TYPE_POINTER_TO_INT := ['POINTER TO INT'];
    P : FROM_LIB;
    O : ODDITY;
  END_VAR
  EC_STATES
    S : REQ;
  END_STATES
END_FUNCTION_BLOCK
(* Package: type="FROM_LIB" package="a::b" *)
"""
SENSOR = "TYPE Sensor : STRUCT\n  V : REAL;\n  W : REEAL;\nEND_STRUCT; END_TYPE\n"
OF_CLIENT = "(a warning of this client: the workbench looks up no types of values)"


class CheckTest(InFolder):
    def check(self, *words: str) -> str:
        self.write("A.fb", BLOCK.replace(" := ['POINTER TO INT']", "").replace("TYPE_POINTER_TO_INT", "INT").replace("    S : REQ;\n", "    S;\n"))
        self.write("Sensor.fb", SENSOR)
        ran = run("check", ".", *words, "--program", workbench(), folder=self.folder)
        self.assertEqual((ran.returncode, ran.stderr), (0, ""))
        return ran.stdout

    def test_each_is_a_warning(self) -> None:
        self.assertEqual(self.check("--quiet").splitlines(), [
            f"A.fb:3:12: NO_SUCH_TYPE: no type REEL here; did you mean REAL? {OF_CLIENT}",
            f"A.fb:5:25: NO_SUCH_TYPE: no type Sensr here; did you mean Sensor? {OF_CLIENT}",
            f"A.fb:13:9: NO_SUCH_TYPE: no type ODDITY here {OF_CLIENT}",
            f"Sensor.fb:3:7: NO_SUCH_TYPE: no type REEAL here; did you mean REAL? {OF_CLIENT}",
        ])
        self.assertEqual(self.check().splitlines()[-2:], ["2 units, no faults", "4 warnings of this client"])

    def test_forms_for_programs(self) -> None:
        self.assertEqual([(it["code"], it["level"], it["line"]) for it in json.loads(self.check("--json"))["warnings"]], [("NO_SUCH_TYPE", "warning", it) for it in (3, 5, 13, 3)])
        self.assertEqual({(it["ruleId"], it["level"]) for it in json.loads(self.check("--format", "sarif"))["runs"][0]["results"]}, {("NO_SUCH_TYPE", "warning")})
        self.assertIn('failures="0"', self.check("--format", "junit"))
        self.assertEqual({it.partition(" ")[0] for it in self.check("--format", "github").splitlines()}, {"::warning"})


class ImportTest(ExchangeTest):
    def test_a_data_type_of_the_project_that_has_no_unit_is_none(self) -> None:
        self.write("xml/Colour.dtp", '<DataType Name="Colour"><EnumeratedType/></DataType>')
        self.write("xml/F.fbt", '<FBType Name="F"><InterfaceList><InputVars><VarDeclaration Name="C" Type="Colour" ArraySize="2"/><VarDeclaration Name="D" Type="Color"/></InputVars></InterfaceList></FBType>')
        with at(self.folder):
            imported(["xml"], Path("lib"))
            self.assertEqual(exported(["lib"], Path("out")).errors, [])
        ran = run("check", "lib", "--quiet", "--program", workbench(), folder=self.folder)
        self.assertEqual((ran.stdout, ran.returncode), (f"lib/F.fb:4:9: NO_SUCH_TYPE: no type Color here {OF_CLIENT}\n", 0))


if __name__ == "__main__":
    unittest.main()
