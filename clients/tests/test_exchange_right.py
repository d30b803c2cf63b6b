"""Right projects of 4diac have no faults: structures of generic blocks, in-out variables, numbers, and what tools convert."""
from __future__ import annotations

import re
import unittest
from pathlib import Path

from exchanging import ExchangeTest, Ran, at, exported, faults, imported, spelling, texts
from support import run, workbench

from bench61499.exchange.names import with_points
from bench61499.language.widening import is_converted

POINT = '<DataType Name="Point"><StructuredType><VarDeclaration Name="X" Type="INT"/><VarDeclaration Name="Größe" Type="REAL"/></StructuredType></DataType>'


def block(name: str, inputs: str = "", outputs: str = "", more: str = "") -> str:
    ports = (''.join(f'<VarDeclaration Name="{it}" Type="{type_}"/>' for it, type_ in (each.split(":") for each in its.split())) for its in (inputs, outputs))
    groups = "".join(f"<{group}>{its}</{group}>" for group, its in zip(("InputVars", "OutputVars"), ports))
    return f'<FBType Name="{name}"><InterfaceList>{groups}{more}</InterfaceList></FBType>'


class RightTest(ExchangeTest):
    def imported(self, **files: str) -> Ran:
        for name, words in files.items():
            root = words[1 : words.index(" ")]
            self.write(f"xml/{name}.{ {'FBType': 'fbt', 'DataType': 'dtp', 'System': 'sys', 'SubAppType': 'sub'}[root] }", words)
        with at(self.folder):
            ran = imported(["xml"], Path("lib"), replace=True)
        self.assertEqual(ran.errors, [])
        return ran

    def exported(self) -> dict[str, str]:
        """The files of the export, whose import gives the same texts."""
        with at(self.folder):
            self.assertEqual(exported(["lib"], Path("back"), replace=True).errors, [])
            self.assertEqual(imported(["back"], Path("again"), replace=True).errors, [])
        self.assertEqual(*({name: spelling(it) for name, it in texts(self.folder / folder).items()} for folder in ("again", "lib")))
        return {it.name: it.read_text() for it in (self.folder / "back").iterdir()}

    GENERIC = '<FB Name="{}" Type="{}"><Attribute Name="StructuredType" Type="STRING" Value="Point"/><Attribute Name="Other" Value="1"/></FB>'

    def test_generic_blocks_of_structures(self) -> None:
        network = self.GENERIC.format("M", "STRUCT_MUX") + self.GENERIC.format("D", "iec61499::convert::STRUCT_DEMUX") + (
            '<FB Name="S" Type="Sink"/><EventConnections><Connection Source="M.CNF" Destination="D.REQ"/></EventConnections><DataConnections>'
            '<Connection Source="M.OUT" Destination="D.IN"/><Connection Source="D.X" Destination="S.A"/><Connection Source="D.Größe" Destination="S.B"/></DataConnections>')
        ran = self.imported(Point=POINT, Sink=block("Sink", "A:INT B:REAL"), Plant=(
            f'<System Name="Plant"><Application Name="A"><SubAppNetwork>{network}</SubAppNetwork></Application><Device Name="D" Type="PC"><Resource Name="R" Type="EMB_RES"/></Device>'
            + "".join(f'<Mapping From="A.{it}" To="D.R.{it}"/>' for it in "MDS") + "</System>"))
        self.assertIn("xml/Plant.sys:1: note: M has the type STRUCT_MUX__Point, a STRUCT_MUX for its structure", ran.lines)
        self.assertEqual(faults(self.lib), [])
        self.assertEqual(sorted(texts(self.lib)), ["Plant.fb", "Point.fb", "STRUCT_DEMUX__Point.fb", "STRUCT_MUX__Point.fb", "Sink.fb"])
        back = self.exported()
        self.assertEqual(sorted(back), ["Plant.sys", "Point.dtp", "Sink.fbt"])
        self.assertEqual(back["Plant.sys"].count('<Attribute Name="StructuredType" Type="STRING" Value="Point"/>'), 4)  # In the application and in the resource.
        self.assertIn('Type="iec61499::convert::STRUCT_DEMUX"', back["Plant.sys"])
        boot = run("exchange", "boot", "PLANT", "--files", "lib", "--to", "boot", "--program", workbench(), folder=self.folder)
        self.assertEqual((boot.stderr, boot.returncode), ("", 0))
        self.assertIn('<FB Name="M" Type="STRUCT_MUX_1Point" />', (self.folder / "boot/Plant_D.fboot").read_text())

    def test_a_structure_that_is_not_there(self) -> None:
        ran = self.imported(F=f'<FBType Name="F"><FBNetwork>{self.GENERIC.format("M", "STRUCT_MUX")}</FBNetwork></FBType>')
        self.assertIn("xml/F.fbt:1: note: the ports of M are not known, as the structure Point is not among the files", ran.lines)

    def test_in_out_variables(self) -> None:
        inouts = '<InOutVars><VarDeclaration Name="IO" Type="INT" InitialValue="3"/></InOutVars>'
        events = '<EventInputs><Event Name="REQ"><With Var="IO"/></Event></EventInputs><EventOutputs><Event Name="CNF"><With Var="IO"/></Event></EventOutputs>'
        body = '<BasicFB><Algorithm Name="A"><ST>IO := IO + 1;</ST></Algorithm></BasicFB>'
        basic = block("Count", "", "", inouts).replace("<InterfaceList>", f"<InterfaceList>{events}").replace("</FBType>", f"{body}</FBType>")
        ends = (("IO", "A.IO"), ("A.IO", "B.IO"), ("B.IO", "IO"))
        wires = "".join(f'<Connection Source="{source}" Destination="{destination}"/>' for source, destination in ends)
        network = f'<FBNetwork><FB Name="A" Type="Count"/><FB Name="B" Type="Count"/><DataConnections>{wires}</DataConnections></FBNetwork>'
        ran = self.imported(Count=basic, Twice=block("Twice", "", "", inouts).replace("</FBType>", f"{network}</FBType>"))
        told = "note: the in-out variable IO is the input IO and the output IO__OUT here"
        self.assertEqual(ran.lines[:-1], [f"xml/Count.fbt:1: {told}", f"xml/Twice.fbt:1: {told}"])
        self.assertEqual(faults(self.lib), [])
        for words in ("A.IO__OUT TO B.IO;", "B.IO__OUT TO IO__OUT;", "IO TO A.IO;"):
            self.assertIn(words, texts(self.lib)["Twice.fb"])
        back = self.exported()
        for words in ('<InOutVars>\n\t\t\t<VarDeclaration Name="IO" Type="INT" InitialValue="3"/>\n\t\t</InOutVars>', '<With Var="IO"/>'):
            self.assertIn(words, back["Count.fbt"])
        self.assertEqual(re.findall(r'Source="([^"]*)" Destination="([^"]*)"', back["Twice.fbt"]), list(ends))
        self.assertNotIn("__OUT", "".join(back.values()))

    def test_numbers_with_an_exponent_and_no_point(self) -> None:
        ran = self.imported(F=block("F", "X:REAL").replace('Type="REAL"', 'Type="REAL" InitialValue="-1e5"').replace(
            "</FBType>", '<BasicFB><Algorithm Name="A"><ST>X := 2E-3 + x1e5; (* 1e5 *)</ST></Algorithm></BasicFB></FBType>'))
        self.assertEqual([it.split(": ", 1)[1] for it in ran.lines[:-1]], [
            "note: the value -1e5 of X is written -1.0E5",
            "note: numbers of the algorithm A with an exponent and no point get one: 1.0e5 for 1e5",
        ])
        self.assertIn("X : REAL := -1.0E5;", texts(self.lib)["F.fb"])
        self.assertIn("X := 2.0E-3 + x1e5; (* 1e5 *)", texts(self.lib)["F.fb"])
        self.assertEqual([it[1:] for it in faults(self.lib)], [["VARIABLE_UNKNOWN", "x1e5"]])
        for same in ("16#1e5", "1.5e5", "1.5e-5", "REAL#1e5", "'1e5'", "X1e5", "1e", "1e5x"):
            self.assertEqual(with_points(same), same)

    def test_internal_blocks(self) -> None:
        """Guards and statements name them, and nothing of them is checked."""
        events = '<EventInputs><Event Name="REQ" Type="Event"/></EventInputs>'
        body = ('<BasicFB><InternalVars><VarDeclaration Name="B" Type="BOOL"/></InternalVars><InternalFBs><FB Name="Timer" Type="FB_TON"/></InternalFBs><ECC><ECState Name="S"/>'
                '<ECTransition Source="S" Destination="S" Condition="REQ[Timer.Q]"/></ECC><Algorithm Name="A"><ST>B := Timer.Q AND B;</ST></Algorithm></BasicFB>')
        ran = self.imported(F=f'<FBType Name="F"><InterfaceList>{events}</InterfaceList>{body}</FBType>', FB_TON=block("FB_TON", "IN:BOOL", "Q:BOOL"))
        self.assertIn("xml/F.fbt:1: note: the internal block Timer is a variable of type ANY here", ran.lines)
        self.assertEqual(faults(self.lib), [])
        back = self.exported()
        self.assertIn('<InternalFBs>\n\t\t\t<FB Name="Timer" Type="FB_TON"/>\n\t\t</InternalFBs>', back["F.fbt"])
        self.assertEqual(re.findall(r'VarDeclaration Name="(\w+)"', back["F.fbt"]), ["B"])

    def test_values_of_structures(self) -> None:
        ran = self.imported(Point=POINT, F=block("F", "P:Point").replace('Type="Point"', 'Type="Point" InitialValue="(X := 1, Größe := 1.5)"'),
                            G='<FBType Name="G"><FBNetwork><FB Name="A" Type="F"><Parameter Name="P" Value="(X := 2)"/></FB></FBNetwork></FBType>')
        self.assertEqual([it.split(":")[2] for it in ran.lines[:-1] if "(" in it], [" unchecked", " unchecked"])
        self.assertEqual(faults(self.lib), [])
        back = self.exported()
        self.assertIn('InitialValue="(X := 1, Größe := 1.5)"', back["F.fbt"])
        self.assertIn('<Parameter Name="P" Value="(X := 2)"/>', back["G.fbt"])

    def test_what_is_converted(self) -> None:
        network = ('<FBNetwork><FB Name="A" Type="Out"/><FB Name="B" Type="In"/><DataConnections>\n<Connection Source="A.I" Destination="B.D"/>\n<Connection Source="A.S" Destination="B.T"/>'
                   '\n<Connection Source="A.D" Destination="B.I"/></DataConnections></FBNetwork>')
        ran = self.imported(Out=block("Out", "", "I:INT D:DINT S:STRING[20]"), In=block("In", "D:DINT I:INT T:STRING"), F=f'<FBType Name="F"><InterfaceList/>{network}</FBType>')
        why = "4diac converts this, and check reports DATA_TYPE, as the workbench compares the names of types"
        self.assertEqual(ran.lines[:-1], [f"xml/F.fbt:2: note: A.I (INT) to B.D (DINT): {why}", f"xml/F.fbt:3: note: A.S (STRING[20]) to B.T (STRING): {why}"])
        self.assertEqual([it[1] for it in faults(self.lib)], ["DATA_TYPE"] * 3)

    def test_conversions(self) -> None:
        """The table of IEC 61131-3."""
        for source, destinations in (
            ("SINT", "INT DINT LINT REAL LREAL"), ("USINT", "UINT UDINT ULINT INT DINT LINT REAL LREAL"), ("UINT", "UDINT ULINT DINT LINT REAL LREAL"),
            ("DINT", "LINT LREAL"), ("UDINT", "ULINT LINT LREAL"), ("LINT", ""), ("REAL", "LREAL"), ("BOOL", "BYTE WORD DWORD LWORD"), ("TIME", "LTIME"), ("STRING", ""),
        ):
            all_types = "BOOL BYTE WORD DWORD LWORD SINT INT DINT LINT USINT UINT UDINT ULINT REAL LREAL TIME LTIME STRING".split()
            self.assertEqual({it for it in all_types if is_converted(source, it)}, set(destinations.split()), source)


if __name__ == "__main__":
    unittest.main()
