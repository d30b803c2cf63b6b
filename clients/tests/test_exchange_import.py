"""Rules of the import that the samples do not show, and files that are there already."""
from __future__ import annotations

import os
import unittest
from pathlib import Path

from exchanging import ExchangeTest, at, faults, imported, texts
from support import run

BLOCK = '<FBType Name="{}"{}><InterfaceList/></FBType>'


class ImportTest(ExchangeTest):
    def block(self, inner: str, interface: str = "") -> tuple[list[str], str]:
        return self.unit(f'<FBType Name="F"><InterfaceList>{interface}</InterfaceList>\n{inner}</FBType>')

    def algorithm(self, body: str) -> tuple[list[str], str]:
        return self.block(f'<BasicFB><Algorithm Name="A">{body}</Algorithm></BasicFB>')

    def test_two_files_of_one_unit(self) -> None:
        for name, words in (("A", ""), ("B", ' Comment="another"'), ("C", "")):
            self.write(f"{name}.fbt", BLOCK.format("motor" if name == "B" else "Motor", words))
        with at(self.folder):
            ran = imported(["A.fbt", "C.fbt"], self.lib)
            self.assertEqual((ran.errors, ran.status), ([], 0))
            ran = imported(["A.fbt", "B.fbt"], self.lib)
        self.assertEqual(ran.errors, ["A.fbt and B.fbt both declare the unit MOTOR; the first one is written"])
        self.assertEqual((ran.status, list(texts(self.lib))), (2, ["Motor.fb"]))

    def test_types_of_two_packages(self) -> None:
        for package in ("a", "b"):
            self.write(f"{package}.fbt", f'<FBType Name="T"><CompilerInfo packageName="{package}"/><InterfaceList><InputVars>'
                       f'<VarDeclaration Name="{package}" Type="INT"/></InputVars></InterfaceList></FBType>')
        self.write("c.fbt", '<FBType Name="C"><FBNetwork>\n<FB Name="X" Type="a::T"/>\n<FB Name="Y" Type="b::T"/></FBNetwork></FBType>')
        with at(self.folder):
            ran = imported(["a.fbt", "b.fbt", "c.fbt"], self.lib)
        self.assertEqual(ran.errors, ["a.fbt and b.fbt both declare the unit T; the first one is written"])
        self.assertEqual(ran.lines[:-1], ["c.fbt:3: left out: the package b of T"])

    def test_a_file_that_is_there(self) -> None:
        outside = self.write("outside/mine.fb", "mine")
        self.lib.mkdir()
        (self.lib / "F.fb").symlink_to(outside)
        self.write("F.fbt", BLOCK.format("F", ""))
        with at(self.folder):
            ran = imported(["F.fbt"], Path("lib"))
            self.assertEqual(ran.errors, ["lib/F.fb: is there already, with another text; give --replace to write over it"])
            self.assertEqual((ran.status, outside.read_text(), (self.lib / "F.fb").is_symlink()), (2, "mine", True))
            self.assertEqual(imported(["F.fbt"], Path("lib"), replace=True).errors, [])
        self.assertEqual((outside.read_text(), (self.lib / "F.fb").is_symlink()), ("mine", False))
        self.assertEqual(os.listdir(self.lib), ["F.fb"])

    def test_a_text_with_the_same_tokens_is_left_as_it_is(self) -> None:
        self.write("F.fbt", BLOCK.format("F", ""))
        mine = "function_block F\n\n  (* mine *)\nEND_FUNCTION_BLOCK"
        self.write("lib/F.fb", mine.replace("function_block", "FUNCTION_BLOCK"))
        self.assertEqual(imported([self.folder / "F.fbt"], self.lib).errors, [])
        self.assertIn("mine", (self.lib / "F.fb").read_text())
        self.assertEqual(imported([self.folder / "F.fbt"], self.lib, replace=True).errors, [])
        self.assertNotIn("mine", (self.lib / "F.fb").read_text())

    def test_a_folder_that_can_not_be_written_to(self) -> None:
        self.write("F.fbt", BLOCK.format("F", ""))
        self.write("lib", "a file")
        ran = run("exchange", "import", "F.fbt", "--to", "lib", folder=self.folder)
        self.assertEqual((ran.returncode, ran.stderr), (2, "exchange: lib/F.fb: can't be written: File exists\n"))
        self.assertEqual(ran.stdout, "1 file, 0 units in lib: not complete\n")

    def test_words(self) -> None:
        self.write("F.fbt", BLOCK.format("F", ' Comment="a *) b" GUID="1"'))
        ran = run("exchange", "import", "F.fbt", "--to", "lib", "--quiet", folder=self.folder)
        self.assertEqual((ran.returncode, ran.stdout, ran.stderr), (1, "F.fbt:1: left out: attribute GUID of FBType\n", ""))
        wrong: list[list[str]] = [[], ["import"], ["import", "F.fbt"], ["import", "--to", "lib"], ["import", "", "--to", "lib"], ["nope"]]
        for words in wrong:
            self.assertEqual(run("exchange", *words, folder=self.folder).returncode, 2, words)

    def test_files_without_a_unit(self) -> None:
        for root, words in (
            ("DeviceType", "the device type X: the workbench looks none up"),
            ("ResourceType", "the resource type X: the workbench looks none up"),
            ("GlobalConstants", "the list of global constants X: the workbench looks none up"),
        ):
            self.write("X.dev", f'<{root} Name="X"/>')
            with at(self.folder):
                ran = imported(["X.dev"], self.lib)
            self.assertEqual((ran.lines[0], ran.status, self.lib.exists()), (f"X.dev:1: left out: {words}", 1, False))
        for kind in ("EnumeratedType", "SubrangeType", "ArrayType", "DirectlyDerivedType"):
            self.write("X.dtp", f'<DataType Name="COLOR"><VersionInfo Version="1.0"/><{kind}/></DataType>')
            told = imported([self.folder / "X.dtp"], self.lib).lines[0]
            self.assertIn(f"left out: the data type COLOR: it is no structure, and no other has a unit ({kind})", told)

    def test_same_words_are_told_once_for_a_file(self) -> None:
        lines, _ = self.block("", "\n".join(f'<Plugs ID="{number}"/>' for number in range(3)))
        self.assertEqual(lines[:-1], ["X.fbt:2: left out: attribute ID of Plugs, 3 times"])
        self.assertEqual(lines[-1][-12:], ": 3 left out")

    def test_long_words_are_cut_and_in_one_line(self) -> None:
        lines, _ = self.unit(f'<FBType Name="F"><Odd>a&#10;\tb {"c" * 80}</Odd></FBType>')
        self.assertEqual(lines[0], f"X.fbt:2: left out: element Odd of FBType: a b {'c' * 53}...")

    def test_bodies_in_structured_text(self) -> None:
        for body, expected in (
            ("A := 1;", "IN ST:\n    A := 1;\n"),
            ("(* 1 *) algorithm (* 2 *) a\nX := 1; end_algorithm /* 3 */; // 4", "IN ST:\n    (* 1 *)  (* 2 *)\n    X := 1;  (* 3 *) // 4\n"),
            ("/* a *) b */ X := 1; /**/", "IN ST:\n    (* a * ) b *) X := 1; (**)\n"),
            ("X := 1; // a\r\nY := '/* $' */'; // b", "IN ST:\n    X := 1; // a\n    Y := '/* $' */'; // b\n"),
            ("", "IN ST:\n"),
            ("X := Größe + Type#5;", "IN ST:\n    X := Gr__e_A8ACB5EB + Type#5;\n"),
            ("X := Größe(1) + Type;", "IN ST_FULL\n    X := Größe(1) + Type;\n"),
        ):
            lines, text = self.algorithm(f"<ST><![CDATA[{body}]]></ST>")
            self.assertIn(f"ALGORITHM A {expected}  END_ALGORITHM", text, lines)
            self.assertEqual(faults_of_syntax(self.lib), [])

    def test_bodies_that_can_not_stand(self) -> None:
        for body in ("(*", "X := F(1); END_ALGORITHM ;", "c = (*p).x;", "END_ALGORITHM"):
            lines, text = self.algorithm(f"<Other Language='C'><![CDATA[{body}]]></Other>")
            self.assertIn("left out: the algorithm A: its body can't stand in a text. ALGORITHM_UNKNOWN will be reported where it is used", lines[0])
            self.assertNotIn("ALGORITHM A", text)

    def test_variables_of_an_algorithm(self) -> None:
        variable = '<VarDeclaration Name="i" Type="INT" ArraySize="3" InitialValue="[1, 2]" Comment="own"/>'
        lines, text = self.algorithm(f'<ST Text="X := i;"/>{variable}')
        expected = "ALGORITHM A IN ST_FULL\n    VAR_TEMP\n      i : ARRAY [3] OF INT := [1, 2]; (* own *)\n    END_VAR\n    X := i;\n"
        self.assertIn(expected, text)
        self.assertIn("unchecked: the algorithm A is kept IN ST_FULL, which is not checked: VAR_TEMP is none of this language", lines[0])

    def test_a_name_in_a_wrapper_of_a_body(self) -> None:
        lines, text = self.algorithm("<ST><![CDATA[ALGORITHM B X := 1; END_ALGORITHM]]></ST>")
        self.assertIn("left out: that the algorithm A is called B in its body", lines[0])
        self.assertIn("ALGORITHM A IN ST:\n    X := 1;", text)

    def test_conditions_with_comments(self) -> None:
        chart = '<BasicFB><ECC><ECState Name="S"/><ECTransition Source="S" Destination="S" Condition="E (* why *)[X] // so" Comment="own"/></ECC></BasicFB>'
        lines, text = self.block(chart, '<EventInputs><Event Name="E"/></EventInputs>')
        self.assertIn("S TO S := E [X]; (* own\nwhy\nso *)", text)
        self.assertEqual(lines, [f"1 file, 1 unit in {self.lib}: all whole"])

    def test_ends_without_a_name(self) -> None:
        ends = "".join(f'<Connection Source="{source}" Destination="{destination}"/>\n' for source, destination in (("A.", "A.I"), (".O", "A.I"), ("A.O", "B.")))
        lines, text = self.block(f'<FBNetwork><FB Name="A" Type="T"/><EventConnections>\n{ends}</EventConnections></FBNetwork>')
        self.assertEqual(lines[:-1], [
            "X.fbt:4: replaced: a name that is not there, by A.NO_NAME",
            "X.fbt:5: replaced: a name that is not there, by NO_NAME.O",
            "X.fbt:6: replaced: a name that is not there, by B.NO_NAME",
        ])
        for end in ("A.NO_NAME TO A.I;", "NO_NAME.O TO A.I;", "A.O TO B.NO_NAME;"):
            self.assertIn(end, text)

    def test_a_guard_behind_an_event_of_an_adapter(self) -> None:
        """Whether it is `P.RQ [B OR S.V]` or `[(P.RQ & B) OR S.V]` is as open as after an own event, be the adapter's type known or not."""
        given = '<InputVars><VarDeclaration Name="B" Type="BOOL"/></InputVars><Plugs><AdapterDeclaration Name="P" Type="{0}"/><AdapterDeclaration Name="S" Type="{0}"/></Plugs>'
        self.write("Known.adp", '<AdapterType Name="Known"><InterfaceList><EventInputs><Event Name="RQ"/></EventInputs>'
                   '<InputVars><VarDeclaration Name="V" Type="BOOL"/></InputVars></InterfaceList></AdapterType>')
        for words, expected in (
            ("P.RQ &amp; B OR S.V", "NO_CONDITION"), ("P.RQ AND B XOR S.V", "NO_CONDITION"), ("P.RQ &amp; (B OR S.V)", "P.RQ & (B OR S.V)"), ("P.RQ &amp; B", "P.RQ & B"),
        ):
            for type_ in ("Known", "Nowhere"):
                chart = f'<BasicFB><ECC><ECState Name="A"/><ECTransition Source="A" Destination="A" Condition="{words}"/></ECC></BasicFB>'
                self.write("F.fbt", f'<FBType Name="F"><InterfaceList>{given.format(type_)}</InterfaceList>{chart}</FBType>')
                with at(self.folder):
                    ran = imported(["F.fbt", "Known.adp"], self.lib, replace=True)
                self.assertIn(f"A TO A := {expected};", texts(self.lib)["F.fb"])
                told = f"the condition {words.replace('&amp;', '&')} by NO_CONDITION: it is none of this language"
                self.assertEqual(ran.lines[:-1], [f"F.fbt:1: replaced: {told}"] if expected == "NO_CONDITION" else [])

    def test_events_of_adapters_whose_type_is_known(self) -> None:
        self.write("P.adp", '<AdapterType Name="P"><InterfaceList><EventOutputs><Event Name="Q"/></EventOutputs>'
                   '<OutputVars><VarDeclaration Name="V" Type="BOOL"/></OutputVars></InterfaceList></AdapterType>')
        words = ("S.V &amp; B", "B &amp; S.Q", "S.Q &amp; B")
        ways = "".join(f'<ECTransition Source="A" Destination="A" Condition="{it}"/>' for it in words)
        self.write("F.fbt", '<FBType Name="F"><InterfaceList><InputVars><VarDeclaration Name="B" Type="BOOL"/></InputVars><Sockets>'
                   f'<AdapterDeclaration Name="S" Type="P"/></Sockets></InterfaceList><BasicFB><ECC><ECState Name="A"/>{ways}</ECC></BasicFB></FBType>')
        self.assertEqual(imported([self.folder], self.lib).status, 0)
        found = [it.strip() for it in texts(self.lib)["F.fb"].splitlines() if " TO " in it]
        self.assertEqual(found, ["A TO A := [S.V & B];", "A TO A := S.Q & B;", "A TO A := S.Q & B;"])
        self.assertEqual(faults(self.lib), [])

    def test_a_name_for_a_guard_that_is_not_read(self) -> None:
        chart = '<BasicFB><ECC><ECState Name="S"/><ECTransition Source="S" Destination="S" Condition="E[F(1) F(2)]"/></ECC></BasicFB>'
        given = '<InputVars><VarDeclaration Name="Not_Read" Type="BOOL"/></InputVars><Plugs><AdapterDeclaration Name="NOT_READ_1" Type="P"/></Plugs>'
        _, text = self.block(chart, given)
        self.assertIn("S TO S := E [NOT_READ_2]; (* E[F(1) F(2)] *)", text)

    def test_names_of_instances_that_are_no_words(self) -> None:
        network = '<FBNetwork><FB Name="my block" Type="T"/><EventConnections><Connection Source="my block.my out" Destination="go in"/></EventConnections></FBNetwork>'
        lines, text = self.block(network, '<EventOutputs><Event Name="go in"/></EventOutputs>')
        name = "my_block_"
        self.assertRegex(text, rf"{name}\w{{8}}\.my_out_\w{{8}} TO go_in_\w{{8}};")
        self.assertFalse([it for it in lines if "an end has" in it])

    def test_mappings(self) -> None:
        inner = '<FB Name="A" Type="T"/><FB Name="B" Type="T"/>'
        wired = '<EventConnections><Connection Source="A.O" Destination="B.I"/></EventConnections>'
        resource = (
            '<FB Name="A" Type="Other"><Parameter Name="P" Value="1"/></FB>\n<FB Name="B" Type="T"/>\n<FB Name="Pub" Type="PUBLISH_1"/>\n<EventConnections>'
            '<Connection Source="A.O" Destination="B.I"/>\n<Connection Source="B.O" Destination="A.I"/>\n<Connection Source="start.warm" Destination="B.I"/>'
            '\n<Connection Source="START.COLD" Destination="Pub.INIT"/></EventConnections>'
        )
        _, *lines = self.unit(
            f'<System Name="S"><Application Name="L"><SubAppNetwork>{inner}{wired}</SubAppNetwork></Application><Device Name="D" Type="X">'
            f'<Resource Name="R" Type="Y"><FBNetwork>\n{resource}</FBNetwork></Resource></Device><Mapping From="L.A" To="D.R.A"/>'
            '<Mapping From="L.B" To="D.R.B"/><Mapping From="" To="D"/></System>', "sys",
        )
        text = lines[0]
        self.assertIn("L.A ON D.R;\n    L.B ON D.R;\n    NO_NAME ON D.NO_NAME;\n", text)
        told = [
            "3: left out: that A has the type Other in the resource D.R",
            "3: left out: that A.P is 1 in the resource D.R",
            "5: left out: the block Pub of the resource D.R",
            "7: left out: the connection B.O -> A.I of the resource D.R",
            "8: left out: the connection start.warm -> B.I of the resource D.R; boot takes it as --warm L.B.I",
            "9: left out: the connection START.COLD -> Pub.INIT of the resource D.R",
            "9: replaced: a name that is not there, by NO_NAME",
            "9: replaced: a name that is not there, by D.NO_NAME",
        ]
        self.assertEqual(_[:-1], [f"X.sys:{it}" for it in told])

    def test_types_and_sizes(self) -> None:
        ranges = '<Subrange LowerLimit="1" UpperLimit="N"/>'
        rows = (
            ('VarDeclaration Name="X" Type="INT" ArraySize="99999999999999999999"', "", "ARRAY_99999999999999999999_OF_INT"),
            ('VarDeclaration Name="X" Type="POINTER TO INT" InitialValue="0"', "", "TYPE_POINTER_TO_INT := ['POINTER TO INT := 0']"),
            ('VarDeclaration Name="X" Type="" ArraySize="2"', "", "NO_TYPE := ['ARRAY [2] OF no type']"),
            ('VarDeclaration Name="X" Type="a::Type"', "", "Type_"),
            ('ArrayVarDeclaration Name="X" Type="INT"', ranges, "ARRAY_1_N_OF_INT"),
            ('VarDeclaration Name="X" Type="INT" ArraySize="2 +" InitialValue="[1]"', "", "ARRAY_2_OF_INT := ['ARRAY [2 +] OF INT := [1]']"),
            ('SubrangeVarDeclaration Name="X" Type="INT" InitialValue="3"', ranges.replace("N", "5"), "INT := 3"),
        )
        for attributes, inner, expected in rows:
            word = attributes.split()[0]
            lines, text = self.block("", f"<InputVars><{attributes}>{inner}</{word}></InputVars>")
            self.assertIn(f"    X : {expected};\n", text)
            self.assertEqual(len(lines), 3 if "Type_" in expected else 2, lines)


def faults_of_syntax(lib: Path) -> list[list[str]]:
    return [it for it in faults(lib) if it[1] == "SYNTAX"]


if __name__ == "__main__":
    unittest.main()
