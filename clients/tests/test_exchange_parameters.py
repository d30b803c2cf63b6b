"""Parameters of subapplications: each set of them becomes a type of its own, in which blocks have them, and export writes them again."""
from __future__ import annotations

import re
import unittest
from pathlib import Path

from exchanging import ExchangeTest, Ran, at, exported, faults, imported, spelling, texts
from support import run, workbench

from bench61499.exchange.imports import Project
from bench61499.exchange.lowering import made_from

WRITER = """<FBType Name="Writer"><InterfaceList><EventInputs><Event Name="REQ"><With Var="DEST"/></Event></EventInputs><InputVars>
<VarDeclaration Name="DEST" Type="STRING"/><VarDeclaration Name="LIMIT" Type="INT"/><VarDeclaration Name="LIST" Type="INT" ArraySize="2"/>
<VarDeclaration Name="AT" Type="Point"/></InputVars><OutputVars><VarDeclaration Name="Now" Type="INT"/></OutputVars></InterfaceList><BasicFB/></FBType>"""
POINT = '<DataType Name="Point"><StructuredType><VarDeclaration Name="X" Type="INT"/></StructuredType></DataType>'
INPUTS = {"Address": "STRING", "Limit": "INT", "List": "INT\" ArraySize=\"2", "At": "Point", "Unused": "INT"}


def subapplication(name: str, network: str, outputs: str = "") -> str:
    inputs = "".join(f'<VarDeclaration Name="{it}" Type="{type_}"/>' for it, type_ in INPUTS.items())
    return (f'<SubAppType Name="{name}" Comment="A pump"><SubAppInterfaceList><InputVars>{inputs}</InputVars><OutputVars>{outputs}</OutputVars></SubAppInterfaceList>'
            f'<SubAppNetwork>{network}</SubAppNetwork></SubAppType>')


def wires(*ends: tuple[str, str]) -> str:
    return "<DataConnections>" + "".join(f'<Connection Source="{one}" Destination="{other}"/>' for one, other in ends) + "</DataConnections>"


def instance(name: str, type_: str, **parameters: str) -> str:
    return f'<SubApp Name="{name}" Type="{type_}">' + "".join(f'<Parameter Name="{it}" Value="{value}"/>' for it, value in parameters.items()) + "</SubApp>"


def system(network: str, *mapped: str) -> str:
    mappings = "".join(f'<Mapping From="App.{it}" To="D.R.{it}"/>' for it in mapped)
    return (f'<System Name="Plant"><Application Name="App"><SubAppNetwork>\n{network}</SubAppNetwork></Application><Device Name="D" Type="FORTE_PC">'
            f'<Resource Name="R" Type="EMB_RES"/></Device>{mappings}</System>')


PUMP = subapplication("PumpUnit", '<FB Name="W" Type="Writer"/><FB Name="V" Type="Writer"/>' + wires(("Address", "W.DEST"), ("Address", "V.DEST"), ("Limit", "W.LIMIT")))


class ParametersTest(ExchangeTest):
    def setUp(self) -> None:
        super().setUp()
        self.write("xml/Writer.fbt", WRITER)
        self.write("xml/Point.dtp", POINT)
        self.write("xml/PumpUnit.sub", PUMP)

    def imported(self, network: str, *mapped: str) -> Ran:
        self.write("xml/Plant.sys", system(network, *mapped))
        with at(self.folder):
            ran = imported(["xml"], Path("lib"), replace=True)
        self.assertEqual(ran.errors, [])
        return ran

    def blocks(self, unit: str) -> list[str]:
        """The blocks of a unit with what they are given."""
        return re.findall(r"(\w+ : Writer\b.*);", texts(self.lib)[f"{unit}.fb"])

    def comes_back(self) -> dict[str, str]:
        """The files of the export, once it is found that their import gives the same texts."""
        with at(self.folder):
            ran = exported(["lib"], Path("back"), replace=True)
            self.assertEqual((ran.errors, [it for it in ran.lines[:-1]]), ([], []))
            self.assertEqual(imported(["back"], Path("again"), replace=True).errors, [])
        again = texts(self.folder / "again")
        self.assertEqual({name: spelling(it) for name, it in again.items()}, {name: spelling(it) for name, it in texts(self.lib).items()})
        return {it.name: it.read_text() for it in (self.folder / "back").iterdir()}

    def written(self) -> list[str]:
        """The commands of the plan that write constants."""
        ran = run("plan", "PLANT", "--files", "lib", "--program", workbench(), folder=self.folder)
        self.assertEqual(ran.stderr, "")
        return [line.strip() for line in ran.stdout.splitlines() if line.strip().startswith("WRITE ")]

    def test_equal_sets_share_a_type(self) -> None:
        given = [instance(name, "PumpUnit", Address=value, Limit="5") for name, value in (("P1", "'DO.0'"), ("P2", "'DO.1'"), ("P3", "'DO.0'"))]
        ran = self.imported("\n".join([*given, instance("P4", "PumpUnit")]), "P1", "P2", "P3", "P4")
        self.assertEqual(ran.lines, [
            "xml/Plant.sys:2: note: P1 has the type PumpUnit__1, which is PumpUnit with Address := 'DO.0', Limit := 5",
            "xml/Plant.sys:3: note: P2 has the type PumpUnit__2, which is PumpUnit with Address := 'DO.1', Limit := 5",
            "xml/Plant.sys:4: note: P3 has the type PumpUnit__1, which is PumpUnit with Address := 'DO.0', Limit := 5",
            "4 files, 6 units in lib: all whole",
        ])
        self.assertEqual(ran.status, 0)
        self.assertEqual(sorted(texts(self.lib)), ["Plant.fb", "Point.fb", "PumpUnit.fb", "PumpUnit__1.fb", "PumpUnit__2.fb", "Writer.fb"])
        self.assertEqual(re.findall(r"P\d : \w+", texts(self.lib)["Plant.fb"]), ["P1 : PumpUnit__1", "P2 : PumpUnit__2", "P3 : PumpUnit__1", "P4 : PumpUnit"])
        self.assertEqual(self.blocks("PumpUnit"), ["W : Writer", "V : Writer"])
        self.assertEqual(self.blocks("PumpUnit__2"), ["W : Writer(DEST := 'DO.1', LIMIT := 5)", "V : Writer(DEST := 'DO.1')"])
        self.assertIn("Address TO W.DEST;", texts(self.lib)["PumpUnit__1.fb"])
        self.assertIn('(* MadeFrom: type="PumpUnit" *)\n(* Given: name="Address" value="\'DO.0\'" *)\n', texts(self.lib)["PumpUnit__1.fb"])
        self.assertEqual(faults(self.lib), [])
        self.assertEqual(self.written(), [
            f"WRITE App.{it}" for it in ("P1.V.DEST 'DO.0'", "P1.W.DEST 'DO.0'", "P1.W.LIMIT 5", "P2.V.DEST 'DO.1'", "P2.W.DEST 'DO.1'", "P2.W.LIMIT 5",
                                        "P3.V.DEST 'DO.0'", "P3.W.DEST 'DO.0'", "P3.W.LIMIT 5")
        ])
        back = self.comes_back()
        self.assertEqual(sorted(back), ["Plant.sys", "Point.dtp", "PumpUnit.sub", "Writer.fbt"])
        self.assertNotIn("Parameter", back["PumpUnit.sub"])
        application, resource = back["Plant.sys"].split("</Application>")
        for part in application, resource:  # A mapped subapplication has them in its resource too.
            self.assertEqual(re.findall(r'<Parameter Name="(\w+)" Value="([^"]*)"', part), [
                (name, value) for address in ("'DO.0'", "'DO.1'", "'DO.0'") for name, value in (("Address", address), ("Limit", "5"))
            ])

    def test_three_deep(self) -> None:
        self.write("xml/Inner.sub", subapplication("Inner", instance("P", "PumpUnit", Limit="7") + wires(("Address", "P.Address"))))
        self.write("xml/Outer.sub", subapplication("Outer", instance("I", "Inner") + instance("J", "Inner") + wires(("Address", "I.Address"), ("Address", "J.Address"))))
        ran = self.imported(instance("O", "Outer", Address="'DO.9'"), "O")
        self.assertEqual(ran.status, 0, ran.lines)
        self.assertEqual(faults(self.lib), [])
        self.assertEqual(self.written(), [
            "WRITE App.O.I.P.V.DEST 'DO.9'", "WRITE App.O.I.P.W.DEST 'DO.9'", "WRITE App.O.I.P.W.LIMIT 7",
            "WRITE App.O.J.P.V.DEST 'DO.9'", "WRITE App.O.J.P.W.DEST 'DO.9'", "WRITE App.O.J.P.W.LIMIT 7",
        ])
        back = self.comes_back()
        self.assertEqual(sorted(back), ["Inner.sub", "Outer.sub", "Plant.sys", "Point.dtp", "PumpUnit.sub", "Writer.fbt"])
        self.assertEqual(re.findall(r'<Parameter Name="(\w+)" Value="([^"]*)"', back["Inner.sub"]), [("Limit", "7")])
        self.assertNotIn("Parameter", back["Outer.sub"])

    def test_what_has_a_parameter_or_another_source_or_leads_out(self) -> None:
        blocks = '<FB Name="W" Type="Writer"><Parameter Name="LIMIT" Value="1"/></FB><FB Name="V" Type="Writer"/>'
        ends = wires(("Limit", "W.LIMIT"), ("Limit", "V.LIMIT"), ("W.Now", "V.LIMIT"), ("Limit", "Out"), ("Address", "V.DEST"))
        self.write("xml/PumpUnit.sub", subapplication("PumpUnit", blocks + ends, '<VarDeclaration Name="Out" Type="INT"/>'))
        ran = self.imported(instance("P", "PumpUnit", Limit="5", Unused="6", Address="'DO.0'"))
        self.assertEqual([it.partition(": ")[2] for it in ran.lines[:-1]], [
            "left out: P.Limit := 5 at W.LIMIT of PumpUnit, which has a parameter",
            "left out: P.Limit := 5 at V.LIMIT of PumpUnit, which has another source",
            "left out: P.Limit := 5 at OUT of PumpUnit, which leads out of it",
            "note: P.Unused := 6 leads to no block in PumpUnit",
            "note: P has the type PumpUnit__1, which is PumpUnit with Limit := 5, Unused := 6, Address := 'DO.0'",
        ])
        self.assertEqual(self.blocks("PumpUnit__1"), ["W : Writer(LIMIT := 1)", "V : Writer(DEST := 'DO.0')"])
        self.assertEqual(re.findall(r'<Parameter Name="(\w+)" Value="([^"]*)"', self.comes_back()["Plant.sys"]), [("Limit", "5"), ("Unused", "6"), ("Address", "'DO.0'")])

    def test_lists_structures_and_names(self) -> None:
        self.write("xml/PumpUnit.sub", subapplication("PumpUnit", '<FB Name="W" Type="Writer"/>' + wires(("List", "W.LIST"), ("At", "W.AT"), ("Limit", "W.LIMIT"))))
        ran = self.imported(instance("P", "PumpUnit", List="[1, 2]", At="(X := 1)", Limit="Größe"))
        told = "unchecked: the value (X := 1) of At is kept as the name _X____1__0D555D09, which is not checked"
        self.assertEqual([it.partition(": ")[2] for it in ran.lines if "unchecked:" in it], [told])
        self.assertEqual(self.blocks("PumpUnit__1"), ["W : Writer(LIST := [1, 2], AT := _X____1__0D555D09, LIMIT := Gr__e_A8ACB5EB)"])
        self.assertEqual(faults(self.lib), [])
        self.assertIn('(* Name: text="Gr__e_A8ACB5EB" file="Größe" *)', texts(self.lib)["PumpUnit__1.fb"])
        self.assertEqual(re.findall(r' Value="([^"]*)"', self.comes_back()["Plant.sys"]), ["[1, 2]", "(X := 1)", "Größe"])

    def test_data_of_an_adapter(self) -> None:
        """It is outside of the subapplication, as its own outputs are."""
        network = '<FB Name="W" Type="Writer"/>' + wires(("Limit", "Hand.Force"), ("Limit", "W.LIMIT"))
        self.write("xml/PumpUnit.sub", subapplication("PumpUnit", network).replace("</SubAppInterfaceList>", '<Plugs><AdapterDeclaration Name="Hand" Type="Grip"/></Plugs></SubAppInterfaceList>'))
        ran = self.imported(instance("P", "PumpUnit", Limit="5"))
        self.assertIn("xml/Plant.sys:2: left out: P.Limit := 5 at HAND.FORCE of PumpUnit, which leads out of it", ran.lines)
        self.assertEqual(self.blocks("PumpUnit__1"), ["W : Writer(LIMIT := 5)"])

    def test_a_subapplication_without_a_type(self) -> None:
        inner = subapplication("X", '<FB Name="W" Type="Writer"/>' + wires(("Limit", "W.LIMIT"))).partition(">")[2].removesuffix("</SubAppType>")
        ran = self.imported(f'<SubApp Name="Signals"><Parameter Name="Limit" Value="5"/>{inner}</SubApp>', "Signals")
        self.assertEqual(ran.status, 0, ran.lines)
        self.assertEqual(faults(self.lib), [])
        self.assertEqual(self.written(), ["WRITE App.Signals.W.LIMIT 5"])

    def test_a_name_that_is_taken(self) -> None:
        self.write("xml/PumpUnit__1.fbt", '<FBType Name="PumpUnit__1"><InterfaceList/></FBType>')
        self.imported(instance("P", "PumpUnit", Limit="5"))
        self.assertIn("P : PumpUnit__2;", texts(self.lib)["Plant.fb"])

    def test_a_type_that_is_not_there_and_an_input_that_it_has_not(self) -> None:
        ran = self.imported(f'{instance("P", "Nowhere", Limit="5")}{instance("Q", "PumpUnit", Nothing="1")}')
        self.assertEqual([it.partition(": ")[2] for it in ran.lines[:-1]], [
            "replaced: P.Limit := 5 by a connection from NO_SOURCE: instances of subapplications have no parameters",
            "replaced: Q.Nothing := 1 by a connection from NO_SOURCE: instances of subapplications have no parameters",
        ])
        self.assertEqual(re.findall(r' Value="([^"]*)"', self.comes_back()["Plant.sys"]), ["5", "1"])

    def test_types_that_contain_themselves(self) -> None:
        self.write("xml/PumpUnit.sub", subapplication("PumpUnit", instance("P", "PumpUnit", Address="'in'") + wires(("Limit", "P.Limit"))))
        ran = self.imported(instance("P", "PumpUnit", Limit="5"))
        self.assertEqual(ran.errors, [])
        self.assertEqual(sorted(it for it in texts(self.lib) if "__" in it), ["PumpUnit__1.fb", "PumpUnit__2.fb", "PumpUnit__3.fb"])

    def test_copies_that_are_too_large_together(self) -> None:
        """The number of copies alone does not bound what small files need: here are 420 copies, with 400,000 blocks."""
        blocks = "".join(f'<FB Name="W{it}" Type="Writer"/>' for it in range(1_000))
        self.write("xml/PumpUnit.sub", subapplication("PumpUnit", blocks + wires(("Address", "W0.DEST"), ("Limit", "W1.LIMIT"))))
        pumps = "".join(instance(f"P{it}", "PumpUnit", Limit=f"{it}") for it in range(20))
        self.write("xml/Line.sub", subapplication("Line", pumps + wires(*(("Address", f"P{it}.Address") for it in range(20)))))
        self.write("xml/Plant.sys", system("".join(instance(f"L{it}", "Line", Address=f"'{it}'") for it in range(20))))
        errors: list[str] = []
        project = Project([self.folder / "xml"], errors.append)
        networks = [it.unit.network for it in project.made if made_from(it.unit) and it.unit.network]
        self.assertEqual(errors, [])
        self.assertIn(sum(len(it.instances) == 1_000 for it in networks), range(180, 200))
        told = [line.partition(": ")[2] for it in project.reports for line in it.lines(True)]
        self.assertIn("replaced: the parameters of P19 by connections from NO_SOURCE: the copies of types have more than 200,000 lines", told)
        ends = {it.destination for each in networks for it in each.connections["DATA_CONNECTIONS"] if it.source == "NO_SOURCE"}
        self.assertTrue({"P19.Limit", "P19.Address"} <= ends)

    def test_copies_through_many_types(self) -> None:
        for it in range(300):
            self.write(f"xml/S{it}.sub", subapplication(f"S{it}", instance("I", f"S{it + 1}" if it < 299 else "PumpUnit") + wires(("Limit", "I.Limit"))))
        self.write("xml/Plant.sys", system(instance("S", "S0", Limit="5")))
        made = {it.unit.name for it in Project([self.folder / "xml"], self.fail).made}
        self.assertTrue({"S0__1", "S299__1", "PumpUnit__1"} <= made)

    def test_a_copy_that_was_changed(self) -> None:
        self.imported(instance("P", "PumpUnit", Limit="5"), "P")
        self.edit("lib/PumpUnit__1.fb", "LIMIT := 5", "LIMIT := 6")
        with at(self.folder):
            ran = exported(["lib"], Path("back"))
        self.assertEqual(ran.lines[0].partition(": ")[2], "left out: that PumpUnit__1 was PumpUnit with parameters: it is no longer, and is a type of its own")
        self.assertEqual(ran.status, 1)
        self.assertIn('<Parameter Name="LIMIT" Value="6"/>', (self.folder / "back" / "PumpUnit__1.sub").read_text())
        self.assertIn('<SubApp Name="P" Type="PumpUnit__1"', (self.folder / "back" / "Plant.sys").read_text())

    def test_check_tells_faults_of_a_type_once(self) -> None:
        self.write("xml/PumpUnit.sub", PUMP.replace("W.LIMIT", "W.NONE").replace("V.DEST", "V.LIMIT"))
        self.imported(instance("P", "PumpUnit", Limit="5", Address="'DO.0'"), "P")
        ran = run("check", "lib", "--quiet", "--program", workbench(), folder=self.folder)
        self.assertEqual([it.split(": ", 1)[1] for it in ran.stdout.splitlines()], [
            "DATA_TYPE: Address is STRING, V.LIMIT is INT",
            "PORT_UNKNOWN: Writer has no data port NONE",
            "LITERAL: LIMIT is INT, and 'DO.0' is no whole number (in PumpUnit with Limit := 5, Address := 'DO.0')",
        ])

    def test_boot_files(self) -> None:
        self.imported(instance("P", "PumpUnit", Limit="5", Address="'DO.0'"), "P")
        ran = run("exchange", "boot", "PLANT", "--files", "lib", "--to", "boot", "--program", workbench(), folder=self.folder)
        self.assertEqual((ran.stderr, ran.returncode), ("", 0))
        found = re.findall(r'Source="([^"]*)" Destination="([^"]*)"', (self.folder / "boot" / "Plant_D.fboot").read_text())
        self.assertEqual(found, [("&apos;DO.0&apos;", "P.V.DEST"), ("&apos;DO.0&apos;", "P.W.DEST"), ("5", "P.W.LIMIT")])


if __name__ == "__main__":
    unittest.main()
