"""Files of XML that are hostile, broken, too large or in other encodings: each gets its line, and costs no other file anything."""
from __future__ import annotations

import codecs
import http.server
import os
import threading
import unittest

from exchanging import ExchangeTest, at, imported, texts

BLOCK = '<FBType Name="{}"><InterfaceList/></FBType>'


class ReadingTest(ExchangeTest):
    def told(self, content: str | bytes, name: str = "F.fbt") -> str:
        """The one error for a file; another file beside it is read all the same."""
        self.write(name, content)
        self.write("Good.fbt", BLOCK.format("Good"))
        with at(self.folder):
            ran = imported([name, "Good.fbt"], self.lib, replace=True)
        self.assertEqual((ran.status, list(texts(self.lib))), (2, ["Good.fb"]))
        self.assertEqual(len(ran.errors), 1, ran.errors)
        return ran.errors[0]

    def read(self, content: bytes) -> str:
        self.write("F.fbt", content)
        with at(self.folder):
            ran = imported(["F.fbt"], self.lib, replace=True)
        self.assertEqual(ran.errors, [])
        return texts(self.lib)["F.fb"]

    def test_a_bomb_of_entities(self) -> None:
        bomb = '<?xml version="1.0"?>\n\n<!DOCTYPE FBType [<!ENTITY a "aaaaaaaaaa"><!ENTITY b "&a;&a;&a;&a;">]>\n<FBType Name="&b;"/>'
        self.assertEqual(self.told(bomb), "F.fbt:3: its DOCTYPE declares things of its own (entities, say); such a file is not read")
        self.assertIn("declares things of its own", self.told('<!DOCTYPE FBType SYSTEM "x.dtd" []><FBType Name="F"/>'))
        self.assertIn("declares things of its own", self.told('<!DOCTYPE FBType [<!ATTLIST FBType Name CDATA "F">]><FBType/>'))

    def test_an_external_entity_is_not_opened(self) -> None:
        os.mkfifo(self.folder / "pipe")
        pipe = (self.folder / "pipe").as_uri()
        self.assertIn("declares things of its own", self.told(f'<!DOCTYPE FBType [<!ENTITY a SYSTEM "{pipe}">]><FBType Name="F" Comment="&a;"/>'))
        asked: list[str] = []

        class Asked(http.server.BaseHTTPRequestHandler):
            def do_GET(self) -> None:  # noqa: N802
                asked.append(self.path)

        with http.server.HTTPServer(("127.0.0.1", 0), Asked) as server:
            threading.Thread(target=server.serve_forever, daemon=True).start()
            for address in (f"http://127.0.0.1:{server.server_address[1]}/F.dtd", pipe):
                text = self.read(f'<!DOCTYPE FBType PUBLIC "x" "{address}">\n{BLOCK.format("F")}'.encode())
                self.assertIn("FUNCTION_BLOCK F", text)
            server.shutdown()
        self.assertEqual(asked, [])

    def test_an_entity_that_is_not_defined(self) -> None:
        for doctype in ("", '<!DOCTYPE FBType SYSTEM "<!DOCTYPE > .dtd" >'):
            told = self.told(f'{doctype}\n<FBType Name="F"\n Comment="20 &deg;C"/>')
            self.assertRegex(told, r"^F\.fbt:[23]: is no XML: undefined entity$")
        self.assertEqual(self.told('<FBType Name="F">\n&deg;</FBType>'), "F.fbt:2: is no XML: undefined entity")

    def test_encodings(self) -> None:
        words = '<FBType Name="F" Comment="Größe"/>'
        for encoding in ("UTF-8", "ISO-8859-1", "iso-8859-15", "windows-1252"):
            self.assertIn("(* Größe *)", self.read(f'<?xml version="1.0" encoding="{encoding}"?>{words}'.encode(encoding)), encoding)
        self.assertIn("(* Größe *)", self.read(words.encode()))
        self.assertIn("(* Größe *)", self.read(codecs.BOM_UTF8 + words.encode()))
        for mark, encoding in ((codecs.BOM_UTF16_LE, "utf-16-le"), (codecs.BOM_UTF16_BE, "utf-16-be")):
            self.assertIn("(* Größe *)", self.read(mark + f'<?xml version="1.0" encoding="UTF-16"?>{words}'.encode(encoding)), encoding)
        self.assertIn("(* a *)", self.read(b'<?xml version="1.0" encoding="US-ASCII"?><FBType Name="F" Comment="a"/>'))

    def test_encodings_that_do_not_fit(self) -> None:
        head = b'<?xml version="1.0" encoding="utf-8"?>\n\n<FBType Name="F'
        self.assertEqual(self.told(head + b'\xf6"/>'), f"F.fbt:3: is not in utf-8, as it says: byte {len(head)} is 0xf6")
        self.assertEqual(self.told(b'<FBType Name="\xf6"/>'), "F.fbt:1: is not in utf-8: byte 14 is 0xf6")
        self.assertEqual(self.told(b'<?xml version="1.0" encoding="ascii"?><FBType Name="\xf6"/>'), "F.fbt:1: is not in ascii, as it says: byte 52 is 0xf6")
        self.assertEqual(self.told('<?xml version="1.0" encoding="Shift_JIS"?><FBType/>'), "F.fbt:1: says that it is in Shift_JIS, which is not read here")
        self.assertIn("is not in utf-16-le, as it says: byte 2 is 0x00", self.told(codecs.BOM_UTF16_LE + b"\x00\xd8"))

    def test_what_is_no_xml(self) -> None:
        self.assertEqual(self.told(""), "F.fbt:1: is no XML: no element found")
        self.assertEqual(self.told("\n\n<FBType>\n</FBTyp>"), "F.fbt:4: is no XML: mismatched tag")
        self.assertEqual(self.told("\n<html><body/></html>"), "F.fbt:2: is no type or system of IEC 61499: its root is html")
        self.assertIn("F.fbt:1: is no XML: ", self.told(b"PK\x03\x04"))

    def test_what_is_too_large(self) -> None:
        size = 17_000_100
        told = self.told(b'<FBType Name="F" Comment="' + b"x" * (size - 29) + b'"/>')
        self.assertEqual(told, "F.fbt: has 17,000,100 bytes, and at most 16,777,216 are read")
        self.assertEqual(self.told("\n" + "<a>" * 400), "F.fbt:2: elements stand more than 200 deep")
        self.assertEqual(self.told(f"<FBType>{'<a/>' * 500_000}</FBType>"), "F.fbt: has more than 500,000 elements")
        long = "".join(f'<VarDeclaration Name="X{number}" Type="INT"/>' for number in range(4_000))
        told = self.told(f'<FBType Name="F"><InterfaceList><InputVars>{long}</InputVars></InterfaceList></FBType>')
        self.assertRegex(told, r"^F\.fbt: F would have [\d,]+ bytes, and the text of a unit has at most 65,536$")

    def test_what_nothing_closes_is_looked_at_once(self) -> None:
        """Each of these would take hours if every sign were the begin of a search to the end."""
        for row in ("(*" * 500_000, "/*" * 500_000, "'" + "$'" * 500_000, "((" * 500_000):
            body = f'<Algorithm Name="A"><ST Text="{row}"/></Algorithm><ECC><ECTransition Source="A" Destination="B" Condition="{row}"/></ECC>'
            told = self.told(f'<FBType Name="F"><BasicFB>{body}<InternalVars><VarDeclaration Name="X" Type="{row}" InitialValue="{row}"/></InternalVars></BasicFB></FBType>')
            self.assertRegex(told, r"^F\.fbt: F would have [\d,]+ bytes, and the text of a unit has at most 65,536$")

    def test_many_blocks_that_are_mapped(self) -> None:
        names = [f"B{number}" for number in range(20_000)]
        blocks = "".join(f'<FB Name="{it}" Type="T"/>' for it in names)
        links = "".join(["<EventConnections>", *(f'<Connection Source="{it}.O" Destination="{it}.I"/>' for it in names), "</EventConnections>"])
        mappings = "".join(f'<Mapping From="A.{it}" To="D.R.{it}"/>' for it in names) + f'<Mapping From="{"A." * 30_000}B" To="D.R.B"/>'
        resource = f'<Device Name="D" Type="P"><Resource Name="R" Type="E"><FBNetwork>{blocks}<FB Name="B"/>{links}</FBNetwork></Resource></Device>'
        told = self.told(f'<System Name="F"><Application Name="A"><SubAppNetwork>{blocks}{links}</SubAppNetwork></Application>{resource}{mappings}</System>')
        self.assertRegex(told, r"^F\.fbt: F would have [\d,]+ bytes")

    def test_subapplications_as_deep_as_can_be(self) -> None:
        inner = '<SubApp Name="S"><SubAppNetwork>' * 95 + "</SubAppNetwork></SubApp>" * 95
        ran = self.write("F.sub", f'<SubAppType Name="F"><SubAppNetwork>{inner}</SubAppNetwork></SubAppType>')
        self.assertEqual(imported([ran], self.lib).errors, [])
        self.assertEqual(len(texts(self.lib)), 96)

    def test_paths_that_are_nothing(self) -> None:
        self.write("Good.fbt", BLOCK.format("Good"))
        (self.folder / "empty").mkdir()
        with at(self.folder):
            self.assertEqual(imported(["nope.fbt", "Good.fbt"], self.lib).errors, ["nope.fbt: there is no such file or folder"])
            self.assertEqual(imported(["/dev/null"], self.lib).errors, ["/dev/null: can't be read: it is no file, but a pipe or a device"])
            self.assertEqual(imported(["empty"], self.lib).errors, ["empty: has no file of IEC 61499-2"])

    def test_folders(self) -> None:
        outer = self.write("outer/Out.fbt", BLOCK.format("Out")).parent
        for name in ("A.FBT", "deep/B.Sys", "deep/C.txt", "D.adp"):
            (self.folder / "in" / name).parent.mkdir(parents=True, exist_ok=True)
            self.write(f"in/{name}", BLOCK.format(name[-5]))
        (self.folder / "in" / "link").symlink_to(outer)
        (self.folder / "in" / "loop").symlink_to(self.folder / "in" / "loop")
        ran = imported([self.folder / "in", self.folder / "in" / "A.FBT"], self.lib)
        self.assertEqual((ran.errors, list(texts(self.lib))), ([], ["A.fb", "B.fb", "D.fb"]))


if __name__ == "__main__":
    unittest.main()
