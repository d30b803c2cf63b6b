"""What 4diac projects have beside what the language has comes back from export: guards and values of full Structured Text, sizes with names, subapplications without a
type, packages of types without a unit, and files without one."""
from __future__ import annotations

import unittest
from pathlib import Path

from exchanging import ExchangeTest, Ran, at, exported, faults, imported, spelling, texts
from support import run, workbench

SENSOR = '<DataType Name="Sensor"><CompilerInfo packageName="p::t"/><StructuredType><VarDeclaration Name="Raw" Type="INT"/></StructuredType></DataType>'
MODE = '<DataType Name="Mode"><CompilerInfo packageName="p::t"/><EnumeratedType><EnumeratedValue Name="Auto"/></EnumeratedType></DataType>'
BLOCK = """<FBType Name="Block"><CompilerInfo packageName="p"/><InterfaceList><EventInputs><Event Name="REQ" Type="Event"/></EventInputs><EventOutputs><Event Name="CNF" Type="Event"/></EventOutputs>
<InputVars><VarDeclaration Name="Level" Type="REAL"/><VarDeclaration Name="Count" Type="INT"/>{}</InputVars></InterfaceList><BasicFB><InternalVars><VarDeclaration Name="Near" Type="REAL"/></InternalVars>
<ECC><ECState Name="Idle"/><ECState Name="Busy"/>{}</ECC></BasicFB></FBType>"""
WAY = '<ECTransition Source="Idle" Destination="Busy" Condition="{}" Comment="why"/>'
SYSTEM = """<System Name="Plant"><Application Name="App"><SubAppNetwork><SubApp Name="Part" Comment="no type"><Attribute Name="Unfolded" Value="true"/><SubAppInterfaceList><SubAppEventInputs>
<SubAppEvent Name="GO" Type="Event"/></SubAppEventInputs><InputVars><VarDeclaration Name="Start" Type="INT" InitialValue="12" Comment="its value"/><VarDeclaration Name="Given" Type="REAL" InitialValue="1.0"/>
</InputVars></SubAppInterfaceList><SubAppNetwork><SubApp Name="Inner"><SubAppInterfaceList><SubAppEventInputs><SubAppEvent Name="GO" Type="Event"/></SubAppEventInputs><InputVars>
<VarDeclaration Name="Level" Type="REAL" InitialValue="5.0"/></InputVars></SubAppInterfaceList><SubAppNetwork><FB Name="Deep" Type="p::Block"/><EventConnections><Connection Source="GO" Destination="Deep.REQ"/>
</EventConnections><DataConnections><Connection Source="Level" Destination="Deep.Level"/></DataConnections></SubAppNetwork></SubApp><FB Name="B" Type="p::Block"><Attribute Name="Hidden" Value="yes"/></FB>
<EventConnections><Connection Source="GO" Destination="B.REQ"/><Connection Source="GO" Destination="Inner.GO"/></EventConnections><DataConnections><Connection Source="Start" Destination="B.Count"/>
<Connection Source="Given" Destination="B.Level"/></DataConnections></SubAppNetwork><Parameter Name="Given" Value="2.5"/></SubApp></SubAppNetwork></Application>
<Device Name="D" Type="sys::FORTE_PC"><Resource Name="R" Type="sys::EMB_RES"/></Device><Mapping From="App.Part" To="D.R.Part"/></System>"""
MANIFEST = '<?xml version="1.0"?>\n<Manifest xmlns="https://www.eclipse.org/4diac/LibraryManifest" scope="Project"><Product name="P"/></Manifest>\n'


class WholeTest(ExchangeTest):
    def imported(self, **files: str) -> Ran:
        """Imports files by their names, with `_` for the point."""
        for name, words in files.items():
            self.write(f"in/{'.'.join(name.rsplit('_', 1))}", words)
        with at(self.folder):
            ran = imported(["in"], Path("lib"), replace=True)
        self.assertEqual(ran.errors, [])
        return ran

    def back(self) -> dict[str, str]:
        """The files that export makes, by their places; imported again they have the same tokens."""
        with at(self.folder):
            ran = exported(["lib"], Path("out"), replace=True)
            again = imported(["out"], Path("again"), replace=True)
        self.assertEqual((ran.errors, ran.status, ran.lines[-1].partition(": ")[2], again.errors), ([], 0, "all whole", []))
        self.assertEqual(*({name: spelling(it) for name, it in texts(self.folder / folder).items()} for folder in ("lib", "again")))
        return {it.relative_to(self.folder / "out").as_posix(): it.read_text() for it in (self.folder / "out").rglob("*.*")}

    def test_guards_of_full_structured_text(self) -> None:
        guards = ("REQ[ABS(Near) &gt; 0.5]", "[LIMIT(MN := 0.0, IN := Level, MX := 1.0) = Near]", "REQ[a::Tolerance(Near)]")
        ran = self.imported(Block_fbt=BLOCK.format("", "".join(map(WAY.format, guards))))
        self.assertIn("in/Block.fbt:3: unchecked: the guard ABS(Near) > 0.5 is kept as the algorithm GUARD__1 IN ST_FULL, which is not checked", ran.lines)
        text = texts(self.lib)["Block.fb"]
        self.assertIn("    Idle TO Busy := REQ [GUARD__1]; (* why *)\n    Idle TO Busy := [GUARD__2]; (* why *)\n", text)
        self.assertIn("  ALGORITHM GUARD__2 IN ST_FULL\n    GUARD__2 := LIMIT(MN := 0.0, IN := Level, MX := 1.0) = Near;\n  END_ALGORITHM\n", text)
        xml = self.back()["Block.fbt"]
        for it in guards:
            self.assertIn(f'Condition="{it}" Comment="why"', xml)
        self.assertNotIn("GUARD", xml)
        self.assertEqual(faults(self.lib), [])

    def test_a_guard_that_was_changed_in_the_text(self) -> None:
        self.imported(Block_fbt=BLOCK.format("", WAY.format("REQ[ABS(Near) &gt; 0.5]")))
        self.edit("lib/Block.fb", "ABS(Near) > 0.5", "ABS(Near) > 0.25")
        self.edit("lib/Block.fb", "REQ [GUARD__1]", "REQ [Count > 3 AND GUARD__1]")
        with at(self.folder):
            self.assertEqual(exported(["lib"], Path("out")).status, 0)
        self.assertIn('Condition="REQ[Count &gt; 3 AND (ABS(Near) &gt; 0.25)]"', (self.folder / "out/Block.fbt").read_text())

    def test_check_counts_guards_and_shows_their_transitions(self) -> None:
        self.imported(Block_fbt=BLOCK.format("", WAY.format("REQ[ABS(Nea) &gt; 0.5]")))
        ran = run("check", "--xml", "in", "--program", workbench(), folder=self.folder)
        self.assertIn("1 unit, no faults; 1 guard is not checked\n", ran.stdout)
        self.assertIn("NO_SUCH_VARIABLE: ", ran.stdout)
        self.assertIn("(ECTransition Idle -> Busy)", ran.stdout)

    def test_values_and_sizes_of_full_structured_text(self) -> None:
        rows = (
            ('Type="REAL" ArraySize="8"', "[8(0.0)]"), ('Type="p::t::Sensor" ArraySize="2"', "[(Raw := 1), (Raw := 2)]"), ('Type="INT" ArraySize="2,2"', "[[1, 2], [3, 4]]"), ('Type="STRING"', "STRING#'a'"),
            ('Type="INT"', "MOST * 2 + 1"), ('Type="INT" ArraySize="0..MOST"', "[3(1)]"), ('Type="BYTE" ArraySize="*"', ""), ('Type="STRING[8]" ArraySize="3"', "['a', 'b', 'c']"), ('Type="p::t::Mode"', "p::t::Mode#Auto"),
        )
        declared = "".join(f'<VarDeclaration Name="V{number}" {type_} InitialValue="{value}"/>' for number, (type_, value) in enumerate(rows))
        ran = self.imported(Block_fbt=BLOCK.format(declared, ""), Sensor_dtp=SENSOR, Mode_dtp=MODE)
        self.assertIn("in/Block.fbt:2: unchecked: the value [8(0.0)] of V0 is kept as the name _8_0_0___89266B2E, which is not checked", ran.lines)
        self.assertIn("in/Block.fbt:2: unchecked: the type ARRAY [0..MOST] OF INT of V5 is kept as the name ARRAY_0_MOST_OF_INT, which is not checked", ran.lines)
        self.assertEqual(faults(self.lib), [])
        xml = self.back()["Block.fbt"]
        for type_, value in rows:
            self.assertIn(type_.replace('"2,2"', '"0..1,0..1"') + (f' InitialValue="{value}"' if value else ""), xml)

    def test_values_that_no_type_has_are_faults_still(self) -> None:
        rows = (("INT", "two words"), ("INT", "[3(0)]"), ("INT", "(Raw := 1)"), ("REAL", "1."))
        declared = "".join(f'<VarDeclaration Name="V{number}" Type="{type_}" InitialValue="{value}"/>' for number, (type_, value) in enumerate(rows))
        ran = self.imported(Block_fbt=BLOCK.format(declared, ""))
        self.assertEqual(sum(": replaced: the value " in it for it in ran.lines), len(rows))
        self.assertEqual([code for _, code, _ in faults(self.lib)], ["LITERAL"] * len(rows))

    def test_a_subapplication_without_a_type(self) -> None:
        ran = self.imported(Plant_sys=SYSTEM, Block_fbt=BLOCK.format("", ""))
        self.assertIn("in/Plant.sys:1: note: Part has the type Plant__App__Part__1, which is Plant__App__Part with Given := 2.5, Start := 12", ran.lines)
        ran_plan = run("plan", "PLANT", "--files", "lib", "--program", workbench(), folder=self.folder)
        for words in ("App.Part.B.Count 12", "App.Part.B.Level 2.5", "App.Part.Inner.Deep.Level 5.0"):
            self.assertIn(f"  WRITE {words}\n", ran_plan.stdout)
        files = self.back()
        self.assertEqual(files.keys(), {"Plant.sys", "Block.fbt"})
        xml = files["Plant.sys"]
        self.assertNotIn("Plant__App", xml)
        self.assertEqual((xml.count("<Parameter"), xml.count('<FB Name="Deep" Type="p::Block"'), xml.count('<Attribute Name="Hidden" Value="yes"/>')), (2, 1, 1))  # One is of the copy in the resource.
        self.assertIn('<VarDeclaration Name="Start" Type="INT" InitialValue="12" Comment="its value"/>', xml)
        self.assertIn('<Device Name="D" Type="sys::FORTE_PC"', xml)
        self.assertIn('<Resource Name="R" Type="sys::EMB_RES"', xml)

    def test_one_that_is_used_twice_has_a_file(self) -> None:
        self.imported(Plant_sys=SYSTEM, Block_fbt=BLOCK.format("", ""))
        self.edit("lib/Plant.fb", "Part : Plant__App__Part__1;", "Part : Plant__App__Part__1; More : Plant__App__Part__1;")
        with at(self.folder):
            self.assertEqual(exported(["lib"], Path("out")).errors, [])
        self.assertEqual({it.name for it in (self.folder / "out").iterdir()}, {"Plant.sys", "Block.fbt", "Plant__App__Part.sub"})

    def test_files_without_a_unit(self) -> None:
        for name, words in (("MANIFEST.MF", MANIFEST), ("deep/Clamp.fct", '<FunctionFBType Name="Clamp"/>'), ("Own.fct", '<FBType Name="Own"><FunctionBody/></FBType>'), ("Mode.dtp", MODE), ("X.dev", "<Odd/>")):
            (self.folder / "in" / name).parent.mkdir(parents=True, exist_ok=True)
            self.write(f"in/{name}", words)
        ran = self.imported(Block_fbt=BLOCK.format('<VarDeclaration Name="M" Type="p::t::Mode"/>', ""))
        self.assertEqual(ran.lines[-1], "5 files, 1 unit and 5 files without one in lib: 5 left out")
        files = self.back()
        self.assertEqual(files.keys(), {"Block.fbt", "MANIFEST.MF", "deep/Clamp.fct", "Own.fct", "Mode.dtp", "X.dev"})
        self.assertEqual((files["MANIFEST.MF"], files["Mode.dtp"]), (MANIFEST, MODE))
        self.assertIn('Name="M" Type="p::t::Mode"', files["Block.fbt"])

    def test_files_without_a_unit_that_the_project_has_stay(self) -> None:
        self.imported(Block_fbt=BLOCK.format("", ""), Mode_dtp=MODE)
        self.write("in/Mode.dtp", MODE.replace("Auto", "Hand"))
        (self.folder / "in/Mode.dtp").rename(self.folder / "in/Moved.dtp")
        with at(self.folder):
            ran = exported(["lib"], Path("in"), replace=True)
        self.assertEqual((ran.lines[0], ran.errors), ("lib/Mode.dtp:1: note: Moved.dtp has another content, and stays as it is", []))
        self.assertEqual({it.name for it in (self.folder / "in").iterdir()}, {"Block.fbt", "Moved.dtp"})

    def test_a_connection_that_is_converted_says_so(self) -> None:
        pair = '<FBType Name="F"><FBNetwork><FB Name="A" Type="S"/><FB Name="B" Type="T"/><DataConnections><Connection Source="A.O" Destination="B.I"/></DataConnections></FBNetwork></FBType>'
        ends = '<FBType Name="{}"><InterfaceList><{}><VarDeclaration Name="{}" Type="{}"/></{}></InterfaceList></FBType>'
        self.imported(F_fbt=pair, S_fbt=ends.format("S", "OutputVars", "O", "INT", "OutputVars"), T_fbt=ends.format("T", "InputVars", "I", "REAL", "InputVars"))
        ran = run("check", "--xml", "in", "--program", workbench(), folder=self.folder)
        self.assertIn("DATA_TYPE: A.O is INT, B.I is REAL; 4diac converts this, the workbench compares the names of types (Connection A.O -> B.I)", ran.stdout)


if __name__ == "__main__":
    unittest.main()
