"""lsp: what feeds an end and what it feeds, as the hierarchy of calls."""
from __future__ import annotations

import unittest
from pathlib import Path

from editing import Editor, LspTest
from support import hosting, until, workbench
from test_features import ConveyorTest

from bench61499 import Places
from bench61499.language.positions import position

NORTH, SOUTH = "NORTH.MOTION", "SOUTH.MOTION"


class CallsTest(ConveyorTest):
    def setUp(self) -> None:
        super().setUp()
        self.server.await_codes(FEEDER=[], STATION=[], PLANT=[])

    def prepared(self, name: str, words: str, behind: int = 0) -> list[dict]:
        return self.ask("prepareCallHierarchy", name, words, behind)

    def calls(self, way: str, item: dict) -> list[dict]:
        """The items one link away."""
        answer = self.server.request(f"callHierarchy/{way}Calls", item=item)
        self.assertIn("result", answer, answer)
        return [it["from" if way == "incoming" else "to"] for it in answer["result"]]

    def told(self, items: list[dict]) -> list[tuple[str, str]]:
        return [(it["name"], it["detail"]) for it in items]

    def test_an_end_in_a_system_back_to_its_sources(self) -> None:
        self.assertTrue(self.capabilities["callHierarchyProvider"])
        (item,) = self.prepared("PLANT", "PANEL.VALUE")
        self.assertEqual(self.told([item]), [("LINE.PANEL.VALUE", "LAMP on SOUTH.SCREEN in PLANT")])
        self.assertEqual(self.show("LAMP.fb", item["selectionRange"]), "LAMP.fb:4: VAR_INPUT |VALUE| : INT; TEXT : STRING[20] := 'ready'; DELAY : TIME := T#0s; END_VAR")
        (source,) = self.calls("incoming", item)
        self.assertEqual(self.told([source]), [("LINE.SECOND.LIFT.TOTAL", f"LIFTER on {SOUTH} in PLANT; to LINE.PANEL.VALUE, cut")])
        self.assertEqual(Path(source["uri"]).name, "LIFTER.fb")
        further = self.calls("incoming", source)
        self.assertEqual([it[0] for it in self.told(further)], ["LINE.SECOND.BELT.NEXT.OFFER", "LINE.SECOND.BELT.NEXT.PIECE"])
        self.assertEqual([self.show("FEEDER.fb", it["selectionRange"])[:28] for it in further], ["FEEDER.fb:8: PLUGS |NEXT| : "] * 2)
        names = [it["name"] for it in self.calls("incoming", further[0])]
        self.assertEqual(names, ["LINE.FIRST.LIFT.LIFTED", "LINE.FIRST.LIFT.TOTAL", "LINE.SECOND.LIFT.BEFORE.TAKEN"])

    def test_where_an_output_leads(self) -> None:
        (item,) = self.prepared("PLANT", "FIRST.TOTAL", 6)
        self.assertEqual(self.told([item]), [("LINE.FIRST.TOTAL", "port of STATION in PLANT")])
        (to,) = self.calls("outgoing", item)
        self.assertEqual(self.told([to]), [("LINE.SECOND.BELT.LOAD", f"FEEDER on {SOUTH} in PLANT; from LINE.FIRST.LIFT.TOTAL, cut")])
        self.assertEqual({it["name"] for it in self.calls("outgoing", to)}, {"LINE.SECOND.LIFT.BEFORE.OFFER", "LINE.SECOND.LIFT.BEFORE.PIECE"})

    def test_an_end_in_a_subapplication_is_one_of_each_instance(self) -> None:
        both = [("LINE.FIRST.BELT.LOAD", f"FEEDER on {NORTH} in PLANT"), ("LINE.SECOND.BELT.LOAD", f"FEEDER on {SOUTH} in PLANT")]
        self.assertEqual(self.told(self.prepared("STATION", "BELT.LOAD", 6)), both)
        self.assertEqual(self.told(self.prepared("FEEDER", "LOAD : INT")), both)
        self.assertEqual([it["name"] for it in self.prepared("STATION", "LOAD TO BELT")], ["LINE.FIRST.LOAD", "LINE.SECOND.LOAD"])
        self.assertEqual([it["name"] for it in self.prepared("FEEDER", "NEXT : HANDOVER")], ["LINE.FIRST.BELT.NEXT", "LINE.SECOND.BELT.NEXT"])
        self.assertEqual([it["name"] for it in self.prepared("STATION", "BELT : FEEDER")], ["LINE.FIRST.BELT", "LINE.SECOND.BELT"])
        (first, _) = self.prepared("FEEDER", "SEEN WITH LOAD")
        self.assertEqual(self.calls("incoming", first), [])

    def test_a_subapplication_that_no_system_has(self) -> None:
        (self.folder / "PLANT.fb").write_text("SYSTEM PLANT END_SYSTEM")
        self.server.change(self.file("PLANT"), "SYSTEM PLANT END_SYSTEM")
        self.server.await_codes(PLANT=[])
        (item,) = self.prepared("STATION", "BELT.START")
        self.assertEqual(self.told([item]), [("BELT.START", "FEEDER in STATION")])
        (own,) = self.calls("incoming", item)
        self.assertEqual(self.told([own]), [("START", "port of STATION; to BELT.START")])
        self.assertEqual((Path(own["uri"]).name, self.calls("incoming", own)), ("STATION.fb", []))
        self.assertEqual([it["name"] for it in self.calls("outgoing", own)], ["BELT.START"])

    def test_what_is_no_end(self) -> None:
        for name, words in (("PLANT", "MAPPINGS"), ("FEEDER", "IDLE;"), ("STATION", "SUBAPPLICATION"), ("FEEDER", "IS_FULL")):
            self.assertIsNone(self.prepared(name, words), words)
        document = {"uri": self.file("PLANT").as_uri()}
        self.assertEqual(self.server.request("textDocument/prepareCallHierarchy", textDocument=document)["error"]["code"], -32602)
        self.assertEqual(self.server.request("callHierarchy/incomingCalls", item={})["error"]["code"], -32602)

    def test_it_waits_for_what_was_typed(self) -> None:
        """The answer is that of the new text, although it was asked for at once; without a network it says so."""
        text = self.file("PLANT").read_text().replace("SECOND.TOTAL TO PANEL.VALUE", "FIRST.TOTAL TO PANEL.VALUE")
        self.server.change(self.file("PLANT"), text)
        (item,) = self.server.ask("prepareCallHierarchy", self.file("PLANT"), position=self.place_in(text, "PANEL.VALUE"))
        self.assertEqual([it["name"] for it in self.calls("incoming", item)], ["LINE.FIRST.LIFT.TOTAL"])
        broken = text.replace("PANEL.VALUE", "PANEL.VALU")
        self.server.change(self.file("PLANT"), broken, 3)
        document = {"uri": self.file("PLANT").as_uri()}
        answer = self.server.request("textDocument/prepareCallHierarchy", textDocument=document, position=self.place_in(broken, "PANEL.SHOW"))
        self.assertEqual(answer["error"]["message"], "there is no network of PLANT now, so it is not known what is joined there: check --plans shows why")

    @staticmethod
    def place_in(text: str, words: str) -> dict:
        return position(Places(text), len(text[: text.index(words)].encode()))


class HostTest(LspTest):
    """With a host that a team shares: the network is that of the host's texts."""

    def test_of_a_host(self) -> None:
        self.copy_conveyor()
        with hosting() as port:
            editor = Editor("--connect", f":{port}")
            self.addCleanup(editor.close)
            editor.start(self.folder)
            file = self.folder / "PLANT.fb"
            editor.open(file)
            editor.await_codes(PLANT=[])
            at = position(Places(file.read_text()), file.read_text().index("PANEL.VALUE"))
            answers: list[dict] = []

            def is_there() -> bool:
                answers.append(editor.request("textDocument/prepareCallHierarchy", textDocument={"uri": file.as_uri()}, position=at))
                return "result" in answers[-1]

            until(is_there)
            (item,) = answers[-1]["result"]
            found = editor.request("callHierarchy/incomingCalls", item=item)["result"]
            self.assertEqual([it["from"]["name"] for it in found], ["LINE.SECOND.LIFT.TOTAL"])

    def test_without_a_workbench(self) -> None:
        self.copy_conveyor()
        editor = Editor("--program", "/no/such/program")
        self.addCleanup(editor.close)
        editor.start(self.folder)
        file = self.folder / "PLANT.fb"
        editor.open(file)
        at = position(Places(file.read_text()), file.read_text().index("PANEL.VALUE"))
        answer = editor.request("textDocument/prepareCallHierarchy", textDocument={"uri": file.as_uri()}, position=at)
        self.assertIn("no workbench answers", answer["error"]["message"])
        self.assertTrue(workbench())


if __name__ == "__main__":
    unittest.main()
