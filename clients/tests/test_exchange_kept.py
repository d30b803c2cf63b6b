"""What the language has no place for is kept in comments: XML to text to XML gives the same elements, and what is missing is counted."""
from __future__ import annotations

import unittest
from collections import Counter
from pathlib import Path
from xml.etree import ElementTree

from exchanging import ExchangeTest, Ran, at, exported, imported, samples, texts

SAME = {"SubAppInterfaceList": "InterfaceList", "SubAppEventInputs": "EventInputs", "SubAppEventOutputs": "EventOutputs", "SubAppEvent": "Event", "SubAppNetwork": "FBNetwork"}
Fact = tuple[str, ...]
OTHERWISE = ("Condition", "ArraySize", "InitialValue", "Text", "Comment", "Type")
"""Attributes that are spelled in another way, which the tests of the export show."""
BROKEN = ("S.Belt.Start", "M.EI2", "S.Load")
"""Ends of connections of a sample that lead nowhere."""


def facts(root: ElementTree.Element) -> Counter[Fact]:
    """Each attribute of each element, with the names of those around it. Groups differ by what they hold."""
    found: Counter[Fact] = Counter()

    def walk(it: ElementTree.Element, around: tuple[str, ...]) -> None:
        tag = SAME.get(it.tag, it.tag)
        own = (*around, f"{tag} {it.get('Name') or it.get('From') or it.get('Var') or ''}".strip())
        found.update((*own, name, value.strip()) for name, value in it.attrib.items() if value.strip() and not name.startswith(("xmlns", "{")))
        for child in it:
            walk(child, own)

    walk(root, ())
    return found


class KeptTest(ExchangeTest):
    def back(self, *, words: str = "", ending: str = "fbt") -> tuple[ElementTree.Element, ElementTree.Element, Ran]:
        """A file, the one that export makes of its import, and what that prints."""
        self.write(f"in/F.{ending}", words)
        with at(self.folder):
            self.assertEqual(imported(["in"], Path("lib"), replace=True).errors, [])
            ran = exported(["lib"], Path("out"), replace=True)
        self.assertEqual(ran.errors, [])
        return ElementTree.fromstring(words), ElementTree.parse(self.folder / f"out/F.{ending}").getroot(), ran

    def comes_back(self, words: str, ending: str = "fbt") -> None:
        """Nothing of a file is lost, and nothing is printed of it."""
        before, after, ran = self.back(words=words, ending=ending)
        self.assertEqual(list(facts(before) - facts(after)), [])
        self.assertEqual((ran.lines, ran.status), (["1 unit, 1 file in out: all whole"], 0))

    def test_the_samples(self) -> None:
        tried = 0
        for sample in samples():
            xml, lib = self.folder / f"xml-{sample.folder.name}", self.folder / f"lib-{sample.folder.name}"
            imported([sample.folder], lib)
            self.assertEqual(exported([lib], xml).errors, [])
            made = {(it.tag, it.get("Name")): it for it in (ElementTree.parse(file).getroot() for file in xml.iterdir())}
            for file in (sample.folder / it for it in sample.files):
                root = ElementTree.parse(file).getroot()
                lost = facts(root) - facts(made[root.tag, root.get("Name")])
                lost = Counter({it: number for it, number in lost.items() if it[-2] not in OTHERWISE and not self.is_known(it)})
                self.assertEqual(lost, Counter(), file)
                tried += 1
        self.assertGreater(tried, 20)

    def is_known(self, it: Fact) -> bool:
        is_array = "ArrayVarDeclaration Grid" in it
        return is_array or it[-1] in (*BROKEN, "D2.R1.Merge3", "5", "GO") or it[-3] == "Parameter Load"

    def test_a_block(self) -> None:
        self.comes_back("""<FBType Name="F" Comment="a" GUID="1"><Attribute Name="A" Value="(* 1 *)"/><InterfaceList Zoom="2"><EventInputs><Event Name="E" Type="Event"/></EventInputs>
            <InOutVars><VarDeclaration Name="IO" Type="INT"/></InOutVars></InterfaceList><BasicFB><InternalVars><VarDeclaration Name="V" Type="INT"/></InternalVars>
            <InternalConstVars><VarDeclaration Name="C" Type="INT" InitialValue="5"/></InternalConstVars><InternalFBs><FB Name="Timer" Type="FB_TON"><Parameter Name="PT" Value="T#1s"/></FB></InternalFBs>
            <ECC><ECState Name="S" x="1.5" y="2"/><ECTransition Source="S" Destination="S" Condition="E" x="1" y="2"/><ECTransition Source="S" Destination="S" Condition="1" x="3" y="4"/></ECC>
            <Algorithm Name="D"><FBD><Odd Name="1"/></FBD></Algorithm><Algorithm Name="J"><Other Language="Java" Prototype="void j()">x</Other></Algorithm>
            <Method Name="M"><InputVars><VarDeclaration Name="X" Type="INT"/></InputVars><ST Text="M := X &lt; 1;"/></Method></BasicFB></FBType>""")
        text = texts(self.lib)["F.fb"]
        self.assertIn('(* Constant: name="C" *)', text)
        self.assertIn('BasicFB/ECC/ECTransition[S -> S] x="1" y="2"\nBasicFB/ECC/ECTransition[S -> S]#2 x="3" y="4"', text)

    def test_a_simple_block(self) -> None:
        self.comes_back("""<FBType Name="F"><InterfaceList><EventInputs><Event Name="REQ" Type="Event"/></EventInputs><EventOutputs><Event Name="CNF" Type="Event"/></EventOutputs></InterfaceList>
            <SimpleFB><ECState Name="REQ"><ECAction Algorithm="REQ" Output="CNF"/></ECState><Algorithm Name="REQ"><Other Language="C">x</Other></Algorithm></SimpleFB></FBType>""")

    def test_a_network(self) -> None:
        self.comes_back("""<SubAppType Name="F"><SubAppInterfaceList/><SubAppNetwork><Group Name="G" Comment="both" x="1" y="2" width="3" height="4" Colour="red"><FB Name="A" Type="T" x="5" y="6">
            <Attribute Name="Hidden" Value="true"/></FB><Group Name="H" x="9" y="8"><FB Name="B" Type="T" x="1" y="1"/></Group></Group><FB Name="C" Type="T" x="0" y="0"/>
            <EventConnections><Connection Source="A.O" Destination="B.I" dx1="7.25" Comment="c"><Attribute Name="Visible" Value="no"/></Connection></EventConnections></SubAppNetwork></SubAppType>""", "sub")

    def test_a_system(self) -> None:
        self.comes_back("""<System Name="F"><Application Name="A"><Attribute Name="X" Value="1"/><SubAppNetwork><FB Name="M" Type="T" x="1" y="2"/></SubAppNetwork></Application>
            <Device Name="D" Type="PC" x="3" y="4"><Parameter Name="MGR_ID" Value="'a'"/><Attribute Name="Profile" Value="HOLOBLOC"/><Resource Name="R" Type="EMB_RES" x="5" y="6"><FBNetwork>
            <FB Name="M" Type="T" x="7" y="8"/><FB Name="Pub" Type="PUBLISH_1" x="9" y="10"><Parameter Name="ID" Value="'x'"/></FB><EventConnections><Connection Source="START.COLD" Destination="M.INIT" dx1="3"/>
            <Connection Source="M.O" Destination="Pub.REQ"/></EventConnections><DataConnections><Connection Source="M.V" Destination="Pub.SD_1"/></DataConnections></FBNetwork></Resource></Device>
            <Mapping From="A.M" To="D.R.M"/><Segment Name="Net" Type="Ethernet" x="1" y="1" dx1="2000"/><Link SegmentName="Net" CommResource="D"/></System>""", "sys")

    def test_packages_of_types_that_no_file_has(self) -> None:
        words = """<FBType Name="F"><InterfaceList><InputVars><VarDeclaration Name="C" Type="a::b::Colour" InitialValue="a::b::RED"/></InputVars></InterfaceList>
            <FBNetwork><FB Name="X" Type="iec61499::events::E_SR" x="1" y="1"/></FBNetwork></FBType>"""
        self.comes_back(words)

    def test_conditions_that_are_replaced(self) -> None:
        ways = ("E &amp; B OR C", "E[ABS(X) &gt; 1]", "", "NOT E")
        chart = "".join(f'<ECTransition Source="S" Destination="S" Condition="{it}" Comment="why" x="1" y="1"/>' for it in ways)
        self.comes_back(f"""<FBType Name="F"><InterfaceList><EventInputs><Event Name="E" Type="Event"/></EventInputs><InputVars><VarDeclaration Name="B" Type="BOOL"/></InputVars></InterfaceList>
            <BasicFB><ECC><ECState Name="S" x="1" y="1"/>{chart}</ECC></BasicFB></FBType>""".replace('Condition="" Comment="why"', 'Condition="" Comment=""'))

    def test_comments_and_words(self) -> None:
        _, _, ran = self.back(words='<FBType Name="F"><!-- so - *) --><InterfaceList/><BasicFB><?do it?>fine &lt; *)</BasicFB></FBType>')
        written = (self.folder / "out/F.fbt").read_text()
        for words in ("<!-- so - * ) -->", "<?do it?>", "fine &lt; *)"):
            self.assertIn(words, written)
        self.assertEqual(ran.status, 0)

    def test_what_is_missing_is_counted(self) -> None:
        self.write("in/Colour.dtp", '<DataType Name="Colour"><EnumeratedType/></DataType>')
        self.write("in/Scale.fct", '<FunctionType Name="Scale"/>')
        _, _, ran = self.back(words='<System Name="F"><Application Name="A"><SubAppNetwork><FB Name="M" Type="T"/></SubAppNetwork></Application><Mapping From="A.M" To="D.R.Other"/></System>', ending="sys")
        self.assertEqual((ran.lines, ran.status), (["1 unit, 3 files in out; 1 thing of the imported project is not in them"], 1))
        self.assertEqual({it.name for it in (self.folder / "out").iterdir()}, {"F.sys", "Colour.dtp", "Scale.fct"})

    def test_what_is_no_longer_there(self) -> None:
        self.back(words='<SubAppType Name="F"><SubAppNetwork><FB Name="A" Type="T"><Attribute Name="Hidden" Value="true"/></FB></SubAppNetwork></SubAppType>', ending="sub")
        self.edit("lib/F.fb", "A : T;", "B : T;")
        with at(self.folder):
            ran = exported(["lib"], Path("out"), replace=True)
        self.assertEqual((ran.lines[0], ran.status), ("lib/F.fb:1: left out: what is kept of FBNetwork/FB[A]: that is no longer there", 1))

    def test_a_text_with_the_same_tokens_that_keeps_something_else(self) -> None:
        words = '<SubAppType Name="F"><SubAppNetwork><FB Name="A" Type="T" x="{}" y="2"/></SubAppNetwork></SubAppType>'
        self.back(words=words.format(1), ending="sub")
        self.write("in/F.sub", words.format(3))
        with at(self.folder):
            self.assertEqual(imported(["in"], Path("lib")).errors, ["lib/F.fb: is there already, with another text; give --replace to write over it"])
            imported(["in"], Path("lib"), replace=True)
            self.assertEqual(imported(["in"], Path("lib")).errors, [])
        self.assertIn('FBNetwork/FB[A] x="3" y="2"', texts(self.lib)["F.fb"])

    def test_a_text_without_room(self) -> None:
        blocks = "".join(f'<FB Name="B{number}" Type="T" x="{number}" y="1"/>' for number in range(2000))
        self.write("in/F.sub", f'<SubAppType Name="F" GUID="1"><SubAppNetwork>{blocks}</SubAppNetwork></SubAppType>')
        with at(self.folder):
            ran = imported(["in"], Path("lib"))
            told = exported(["lib"], Path("out"))
        self.assertEqual((ran.errors, ran.lines[-2]), ([], "in/F.sub:1: left out: its positions: the text of F has no room for more"))
        self.assertIn('(* Kept:\n<SubAppType GUID="1"/> *)', texts(self.lib)["F.fb"])
        self.assertEqual(told.lines, ["1 unit, 1 file in out; 1 thing of the imported project is not in them"])

    def test_files_are_written_where_they_were(self) -> None:
        block = '<FBType Name="{}"><InterfaceList/></FBType>'
        for name, place in (("Motor", "Type Library/Plant"), ("Valve", ".")):
            (self.folder / "project" / place).mkdir(parents=True, exist_ok=True)
            self.write(f"project/{place}/{name}.fbt", block.format(name))
        with at(self.folder):
            imported(["project"], Path("lib"))
            exported(["lib"], Path("new"))
            self.assertEqual({it.relative_to("new").as_posix() for it in Path("new").rglob("*.fbt")}, {"Type Library/Plant/Motor.fbt", "Valve.fbt"})
            Path("project/Valve.fbt").rename("project/Type Library/Other name.fbt")
            ran = exported(["lib"], Path("project"))
            self.assertEqual([it.partition(": ")[0] for it in ran.errors], ["project/Type Library/Plant/Motor.fbt", "project/Type Library/Other name.fbt"])
            self.assertEqual(exported(["lib"], Path("project"), replace=True).errors, [])
            self.assertEqual({it.name for it in Path("project").rglob("*.fbt")}, {"Motor.fbt", "Other name.fbt"})
            self.assertIn("VersionInfo", Path("project/Type Library/Other name.fbt").read_text("utf-8"))

    def test_places_that_lead_elsewhere(self) -> None:
        self.write("outside/F.fbt", "mine")
        (self.folder / "out").mkdir()
        (self.folder / "out" / "link").symlink_to(self.folder / "outside")
        for path, expected in (("../F.fbt", "out/F.fbt"), ("/tmp/F.fbt", "out/F.fbt"), ("a/../../F.fbt", "out/F.fbt"), ("F.sh", "out/F.fbt"), ("a/G.fbt", "out/a/G.fbt"), ("link/F.fbt", ""), ("link/b/F.fbt", "")):
            for it in self.folder.glob("out/**/*.fbt"):
                if "link" not in it.parts:
                    it.unlink()
            self.write("lib/F.fb", f'FUNCTION_BLOCK F END_FUNCTION_BLOCK (* File: path="{path}" *)')
            with at(self.folder):
                ran = exported(["lib"], Path("out"), replace=True)
            found = [it.relative_to(self.folder).as_posix() for it in self.folder.glob("out/**/*.fbt") if "link" not in it.parts]
            self.assertEqual(found, [expected] if expected else [])
            self.assertEqual(ran.errors, [] if expected else [f"out/{path}: would not be in out"])
        self.assertEqual({it.name: it.is_file() and it.read_text() for it in (self.folder / "outside").iterdir()}, {"F.fbt": "mine"})


if __name__ == "__main__":
    unittest.main()
