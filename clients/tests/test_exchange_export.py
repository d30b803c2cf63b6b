"""Rules of the export: forms for each tool, names put back, what is printed, and what is not written."""
from __future__ import annotations

import re
import unittest
from pathlib import Path

from exchanging import ExchangeTest, Ran, at, exported, imported, spelling, texts

from bench61499.exchange.xmlfile import read_xml

BLOCK = "FUNCTION_BLOCK F\n{}\nEND_FUNCTION_BLOCK\n"


class ExportTest(ExchangeTest):
    def export(self, text: str, tool: str = "4diac") -> tuple[Ran, str]:
        """What is printed of a text, and the one file for it."""
        for it in (self.folder / "xml").glob("*"):
            it.unlink()
        self.write("F.fb", text)
        with at(self.folder):
            ran = exported(["F.fb"], Path("xml"), tool)
        self.assertEqual(ran.errors, [])
        file, = (self.folder / "xml").iterdir()
        read_xml(file)
        return ran, file.read_bytes().decode()

    def comes_back(self, text: str, tool: str = "4diac") -> str:
        """The file for a text that comes back unchanged, of which nothing is printed."""
        ran, xml = self.export(text, tool)
        self.assertEqual((ran.lines, ran.status), (["1 unit, 1 file in xml: all whole"], 0))
        self.assertEqual(imported([self.folder / "xml"], self.lib, replace=True).errors, [])
        self.assertEqual(spelling(texts(self.lib)["F.fb"]), spelling(text))
        return xml

    def test_an_end_of_cdata_in_a_body(self) -> None:
        xml = self.comes_back(BLOCK.format("ALGORITHM A IN ST: IF A[B[1]]>2 THEN A[0] := '<&]]>'; END_IF; END_ALGORITHM"))
        self.assertIn("A[B[1]]]]><![CDATA[>2", xml)

    def test_bodies_for_each_tool(self) -> None:
        text = BLOCK.format("  ALGORITHM A IN ST:\n    X := 1; // a\n    Y := 2;\n  END_ALGORITHM\n  ALGORITHM J IN Java\n    x = \"<\";\n  END_ALGORITHM")
        modern = self.comes_back(text)
        self.assertIn("<ST><![CDATA[ALGORITHM A\nX := 1; // a\nY := 2;\nEND_ALGORITHM]]></ST>", modern)
        self.assertIn('<Other Language="Java"><![CDATA[x = "<";]]></Other>', modern)
        for tool in ("4diac1", "fbdk"):
            older = self.comes_back(text, tool)
            self.assertIn('<ST Text="X := 1; // a&#10;Y := 2;"/>', older)
            self.assertIn('<Other Language="Java" Text="x = &quot;&lt;&quot;;"/>', older)
            self.assertEqual('<!DOCTYPE FBType SYSTEM "../LibraryElement.dtd" >' in older, tool == "fbdk")

    def test_a_body_in_which_a_comment_of_c_is_not_closed(self) -> None:
        xml = self.comes_back(BLOCK.format("  ALGORITHM A IN ST_FULL\n    X := F(1); /* not\n  END_ALGORITHM"))
        self.assertIn('<ST Text="X := F(1); /* not"/>', xml)

    def test_rungs(self) -> None:
        xml = self.comes_back(BLOCK.format("  ALGORITHM A IN LD\n    Y := X & NOT Z; (* why *)\n    Z := Y;\n  END_ALGORITHM"))
        self.assertIn('<Rung Output="Y" Expression="X &amp; NOT Z" Comment="why"/>', xml)
        xml = self.comes_back(BLOCK.format("  ALGORITHM A IN LD\n    no rung\n  END_ALGORITHM"))
        self.assertIn('<Other Language="LD"><![CDATA[no rung]]></Other>', xml)

    def test_a_cr_in_a_comment(self) -> None:
        ran, xml = self.export(BLOCK.format("ALGORITHM A IN ST: // a\rX := 1;\nY := 2;\rZ := 3; END_ALGORITHM"))
        self.assertEqual(ran.status, 0)
        self.assertIn("// a X := 1;\nY := 2;\nZ := 3;", xml)

    def test_guards(self) -> None:
        text = BLOCK.format("EVENT_INPUT E; END_EVENT VAR_INPUT B, C : BOOL; END_VAR EC_STATES S; END_STATES EC_TRANSITIONS\nS TO S := {};\nEND_TRANSITIONS")
        for words, expected in (
            ("E & B OR C", "E[B OR C]"), ("E AND (B OR C)", "E AND (B OR C)"), ("E & B", "E &amp; B"), ("E [B]", "E[B]"), ("[B]", "[B]"), ("1", "1"), ("E", "E"),
            ("Type_ & B", "Type[B]"),
        ):
            self.assertIn(f'Condition="{expected}"', self.export(text.format(words))[1])
        ran, xml = self.export(text.format("E [True_]"))
        self.assertIn('Condition="E[True]"', xml)
        self.assertEqual(ran.lines[0], "F.fb:3: replaced: a name in the condition E[True_], by a word of conditions in E[True]")

    def test_names_are_put_back(self) -> None:
        names = '(* Name: text="Gr__e_A8ACB5EB" file="Größe" *)\n(* Name: text="wrong" file="Other" *)\n'
        text = BLOCK.format("VAR_INPUT Type_, Gr__e_A8ACB5EB, wrong : INT; END_VAR ALGORITHM A IN ST: Type_ := Gr__e_A8ACB5EB + wrong; END_ALGORITHM") + names
        _, xml = self.export(text)
        self.assertIn("\nType := Größe + wrong;\n", xml)
        self.assertEqual(re.findall(r'VarDeclaration Name="(\w+)"', xml), ["Type", "Größe", "wrong"])
        ran, xml = self.export(BLOCK.format("VAR Exit_ : BOOL; END_VAR\nALGORITHM A IN ST: Exit_ := 1; END_ALGORITHM"))
        self.assertEqual(ran.lines[0], "F.fb:3: replaced: the name Exit_ in the algorithm A by Exit, a word of ST")

    def test_names_of_files(self) -> None:
        for name, file in (("F", "F.fbt"), ("Type_", "Type.fbt"), ("Gr__e_A8ACB5EB", "Größe.fbt"), ("___x_24D68D50", "___x_24D68D50.fbt")):
            hostile = '(* Name: text="Gr__e_A8ACB5EB" file="Größe" *) (* Name: text="___x_24D68D50" file="../x" *)'
            self.export(f"FUNCTION_BLOCK {name} END_FUNCTION_BLOCK {hostile}")
            self.assertEqual([it.name for it in (self.folder / "xml").iterdir()], [file])

    def test_records_and_comments(self) -> None:
        records = '(* Import: declaration="a::b" *)\n(* Identification: Standard="&lt;&amp;&quot;*&#41;&#10;" *)\n(* Compiler: Language="ST" *)\n'
        ran, xml = self.export("(* one -- two- *)\n// three\n" + BLOCK.format("") + records + "(* a remark *)\n")
        self.assertEqual(ran.lines[0], "F.fb:9: left out: the comment a remark")
        self.assertIn('?>\n<!-- one - - two -->\n<FBType Name="F" Comment="three">\n\t<Identification Standard="&lt;&amp;&quot;*)&#10;"/>\n', xml)
        self.assertIn('<VersionInfo Version="0.0" Date="1970-01-01"/>', xml)
        self.assertIn('<CompilerInfo>\n\t\t<Import declaration="a::b"/>\n\t\t<Compiler Language="ST"/>\n\t</CompilerInfo>', xml)
        self.assertEqual(self.export(BLOCK.format(""))[1], self.export(BLOCK.format(""))[1])

    def test_types_and_sizes(self) -> None:
        text = BLOCK.format("VAR_INPUT\nX : {};\nEND_VAR")
        for words, expected in (
            ("ARRAY [0..4] OF INT", 'Type="INT" ArraySize="5"'), ("ARRAY [0..04] OF INT", 'ArraySize="0..04"'), ("ARRAY [-1..+1, 0..2] OF T", 'ArraySize="-1..+1,0..2"'),
            ("ARRAY [0..16#F] OF INT", 'Type="ARRAY [0..16#F] OF INT"'), ("INT[5]", 'Type="INT[5]"'), ("INT := ['2 * * 3']", 'InitialValue="2 * * 3"'),
            ("INT := ['5']", "InitialValue=\"['5']\""), ("INT := ['']", "InitialValue=\"['']\""), ("ARRAY [0..1] OF INT := '2*3'", 'InitialValue="2*3"'),
            ("TYPE_POINTER_TO_X := ['POINTER TO X']", 'Type="POINTER TO X"'), ("ARRAY_2_OF_INT := ['ARRAY [2 +] OF INT := [1]']", 'ArraySize="2 +" InitialValue="[1]"'),
            ("TYPE_POINTER_TO_X := ['POINTER TO Y']", 'Type="TYPE_POINTER_TO_X" InitialValue="POINTER TO Y"'),
            ("NO_TYPE := ['no type']", 'Type=""'), ("INT := 'a$Lb'", "InitialValue=\"'a$Lb'\""),
        ):
            self.assertIn(expected, self.comes_back(text.format(words)))
        ran, xml = self.export(text.format("ARRAY [1..5] OF INT"), "fbdk")
        self.assertEqual(ran.lines[0], "F.fb:3: left out: for fbdk the ranges 1..5 of X, which are written: it reads a number alone")
        self.assertIn('ArraySize="1..5"', xml)

    def test_packages(self) -> None:
        self.write("lib2/T.fb", "TYPE T : STRUCT END_STRUCT END_TYPE\n(* CompilerInfo: packageName=\"a::b\" *)\n")
        self.write("lib2/F.fb", BLOCK.format("VAR_INPUT X : T; Y : U; Z : ARRAY [0..1] OF T; END_VAR"))
        for tool, expected in (("4diac", ["a::b::T", "U", "a::b::T"]), ("4diac1", ["T", "U", "T"])):
            exported([self.folder / "lib2"], self.folder / tool, tool)
            self.assertEqual(re.findall(r'VarDeclaration Name="\w" Type="([^"]*)"', (self.folder / tool / "F.fbt").read_text()), expected)

    def test_what_a_block_can_not_have(self) -> None:
        ran, _ = self.export(BLOCK.format("VAR X : INT; END_VAR\nFBS END_FBS\nALGORITHM A IN ST END_ALGORITHM\nSERVICE odd END_SERVICE (* \x01 *)"))
        self.assertEqual(ran.lines[:-1], [
            "F.fb:2: left out: the internal variable X of a composite block",
            "F.fb:4: left out: the algorithm A of a composite block",
            "F.fb:5: left out: a service that is spelled in another form",
            "F.fb:5: left out: the comment \ufffd",
        ])
        self.assertEqual(ran.status, 1)
        ran, xml = self.export(BLOCK.format("VAR_INPUT X : INT; (* \x01 *) END_VAR"))
        self.assertEqual(ran.lines[0], "F.fb:1: left out: characters that XML can't have; U+FFFD is in their place")
        self.assertIn('Comment="\ufffd"', xml)

    def test_services(self) -> None:
        sequence = "SEQUENCE S\nL.INIT+(QI, ')') -> R.a.b();\n-> L.CNF-();\n;\nEND_SEQUENCE"
        xml = self.comes_back(BLOCK.format(f"SERVICE L/RESOURCE\n{sequence}\nEND_SERVICE"))
        self.assertIn('<InputPrimitive Interface="L" Event="INIT+" Parameters="QI, \')\'"/>', xml)
        self.assertIn('<OutputPrimitive Interface="R" Event="a.b"/>', xml)
        self.assertIn("<ServiceTransaction/>", xml)
        self.comes_back(BLOCK.format("SERVICE\nEND_SERVICE"))

    def test_parameters_of_subapplications(self) -> None:
        network = "SUBAPPS A : T; B : T; END_SUBAPPS DATA_CONNECTIONS\nNO_SOURCE TO A.X; (* why\nX := 5 *)\n{}\nP TO B.X;\nEND_CONNECTIONS"
        _, xml = self.export(f"SUBAPPLICATION F {network.format('NO_SOURCE TO B.Y; (* Y := [1, 2] *)')} END_SUBAPPLICATION")
        self.assertIn('<Parameter Name="X" Value="5" Comment="why"/>', xml)
        self.assertIn('<Parameter Name="Y" Value="[1, 2]"/>', xml)
        self.assertEqual(xml.count("<Connection "), 1)
        _, xml = self.export(f"SUBAPPLICATION F {network.format('NO_SOURCE TO B.Y; (* Z := 1 *)')} END_SUBAPPLICATION")
        self.assertIn('<Connection Source="NO_SOURCE" Destination="B.Y" Comment="Z := 1"/>', xml)

    def test_two_mapped_blocks_of_one_name(self) -> None:
        two = "APPLICATION A FBS X : T; END_FBS END_APPLICATION APPLICATION B FBS X : T; END_FBS END_APPLICATION"
        ran, xml = self.export(f"SYSTEM F {two} DEVICE D : E RESOURCE R : Q END_RESOURCE END_DEVICE MAPPINGS A.X ON D.R;\nB.X ON D.R;\nA ON D.R; END_MAPPINGS END_SYSTEM")
        self.assertEqual(ran.lines[:-1], [
            "F.fb:2: clash: the blocks A.X and B.X have one name in the resource D.R",
            "F.fb:3: left out: for 4diac the mapping of A, which is written: it maps no whole application",
        ])
        self.assertEqual(xml.count('<FB Name="X"'), 3)

    def test_texts_that_are_not_written(self) -> None:
        self.write("A.fb", BLOCK.format("\nEVENT_INPUT E END_EVENT"))
        self.write("B.fb", "FUNCTION_BLOCK B EC_STATES END_STATES\nFBS END_FBS END_FUNCTION_BLOCK")
        self.write("C.fb", "FUNCTION_BLOCK C")
        self.write("D.fb", b"FUNCTION_BLOCK \xff")
        self.write("G.fb", "FUNCTION_BLOCK G END_FUNCTION_BLOCK")
        self.write("H.fb", "FUNCTION_BLOCK g END_FUNCTION_BLOCK")
        with at(self.folder):
            ran = exported(["."], Path("xml"))
        self.assertEqual(ran.errors, [
            "A.fb:3: is no unit: END_EVENT is not expected here",
            "C.fb:1: is no unit: the text ends too early",
            "D.fb:1: is not UTF-8: byte 15 is 0xff",
            "G.fb and H.fb both declare the unit G; the first one is written",
            "B.fb:1: B has states and a network, and XML has one of the two; it is not written",
        ])
        self.assertEqual(ran.status, 2)
        self.assertEqual([it.name for it in (self.folder / "xml").iterdir()], ["G.fbt"])

    def test_what_is_there_already(self) -> None:
        self.export(BLOCK.format(""))
        with at(self.folder):
            self.assertEqual(exported(["F.fb"], Path("xml")).errors, [])
            told = exported(["F.fb"], Path("xml"), "fbdk").errors
            self.assertEqual(told, ["xml/F.fbt: is there already, with another text; give --replace to write over it"])
            self.assertEqual(exported(["F.fb"], Path("xml"), "fbdk", replace=True).errors, [])
            self.assertEqual(exported(["nope.fb"], Path("xml")).errors, ["nope.fb: there is no such file or folder"])


if __name__ == "__main__":
    unittest.main()
