"""lsp: what it answers about the conveyor, as an editor asks and reads it."""
from __future__ import annotations

import random
import time
import unittest
from collections import Counter
from pathlib import Path

from editing import Editor, LspTest
from generated import so_many, sound_libraries
from hall import hall
from support import TestCase, until, workbench

from bench61499 import Places, Put, Session, batches
from bench61499.language.declarations import PARTS
from bench61499.language.grammar import first_stop
from bench61499.language.plant import Plant
from bench61499.language.positions import edited, place, position
from bench61499.language.tokens import Token, tokens
from bench61499.lsp.fixes import fixes
from bench61499.lsp.lenses import homes_of


GAUGES = """\
SUBAPPLICATION GAUGES
  VAR_INPUT WIDE : DINT; ROW : ARRAY[0..1]OF INT; FREE : ANY; END_VAR
  VAR_OUTPUT WIDTH : UINT; END_VAR
  PLUGS OUT : HANDOVER; END_PLUGS
  DATA_CONNECTIONS
    WIDE TO G.;
    ROW TO G.;
    FREE TO G.;
    G. TO WIDTH;
  END_CONNECTIONS
  ADAPTER_CONNECTIONS
    G.P TO ;
    G.P2 TO ;
  END_CONNECTIONS
  FBS G : GAUGE; END_FBS
END_SUBAPPLICATION
"""


class ConveyorTest(LspTest):
    def setUp(self) -> None:
        super().setUp()
        self.copy_conveyor()
        self.server = self.started()

    def started(self) -> Editor:
        editor = super().started()
        for name in ("FEEDER", "STATION", "PLANT"):
            editor.open(self.file(name))
        return editor

    def file(self, name: str) -> Path:
        return self.folder / f"{name}.fb"

    def at(self, name: str, words: str, behind: int = 0) -> dict:
        """The position of words in a unit, or some characters after their begin."""
        text = self.file(name).read_text()
        return position(Places(text), len(text[: text.index(words) + behind].encode()))

    def ask(self, method: str, name: str, words: str, behind: int = 0, **params: object):
        """The answer to a request about the place of words."""
        return self.server.ask(method, self.file(name), position=self.at(name, words, behind), **params)

    def shown(self, answer: list[dict]) -> list[str]:
        """Locations as `FILE:line: the line, with the words at the place between bars`."""
        return [self.show(Path(it["uri"]).name, it["range"]) for it in answer]

    def show(self, file: str, range_: dict) -> str:
        text = (self.folder / file).read_text()
        places = Places(text)
        start, end = place(places, range_["start"]), place(places, range_["end"])
        line = range_["start"]["line"] + 1
        begin = places.place(line, 1)
        shown = f"{places.words(begin, start)}|{places.words(start, end)}|{places.line(line)[end - begin :]}"
        return f"{file}:{line}: {shown.strip()}"

    def refused(self, method: str, name: str, words: str, **params: object) -> str:
        document = {"uri": self.file(name).as_uri()}
        answer = self.server.request(f"textDocument/{method}", textDocument=document, position=self.at(name, words), **params)
        self.assertEqual(answer["error"]["code"], -32803)
        return answer["error"]["message"]


class SignatureTest(ConveyorTest):
    """The parameters of an instance while they are written."""

    def signature(self, written: str) -> tuple[str, str] | None:
        """The signature after these words, in place of the parameters of BELT, and the parameter that comes now."""
        file = self.file("STATION")
        text = file.read_text()
        front = text[: text.index("(LIMIT := 80)")] + written
        self.server.change(file, front + text[text.index("(LIMIT := 80)") + len("(LIMIT := 80)") :])
        found = self.server.ask("signatureHelp", file, position=position(Places(front), len(front.encode())))
        if found is None:
            return None
        (whole,) = found["signatures"]
        return whole["label"], whole["parameters"][found["activeParameter"]]["label"]

    def test_the_parameter_that_is_named_or_the_next_one(self) -> None:
        whole = "FEEDER(LIMIT : INT := 50, LOAD : INT)"
        limit, load = "LIMIT : INT := 50", "LOAD : INT"
        cases = {"(": limit, "(LIMIT": limit, "(load := ": load, "(LIMIT := 8": limit, "(LIMIT := 80, ": load, "(LOAD := 1, ": limit, "(LOAD := 1, LIMIT := (* , *)": limit}
        self.assertEqual({it: self.signature(it) for it in cases}, {it: (whole, parameter) for it, parameter in cases.items()})

    def test_none_outside_of_parameters(self) -> None:
        for written in ("", "(LIMIT := 80)", "; X : NOWHERE(", "; X : LAMP; (", "(LIMIT := 80); (* FEEDER("):
            self.assertIsNone(self.signature(written), written)


class LensTest(ConveyorTest):
    """What is above a unit, once the folder is read."""

    def setUp(self) -> None:
        super().setUp()
        self.server.await_codes(PLANT=[])
        until(lambda: self.lenses("STATION"))

    def lenses(self, name: str) -> list[str]:
        return [it["command"]["title"] for it in self.server.ask("codeLens", self.file(name))]

    def test_uses_and_resources(self) -> None:
        self.assertEqual(self.lenses("STATION"), ["used 2 times", "runs on NORTH.MOTION and SOUTH.MOTION"])
        self.assertEqual((self.lenses("FEEDER")[1:], self.lenses("PLANT")), (["runs on NORTH.MOTION and SOUTH.MOTION"], []))
        (used, runs) = self.server.ask("codeLens", self.file("FEEDER"))
        self.assertEqual([self.show("FEEDER.fb", it["range"]) for it in (used, runs)], ["FEEDER.fb:2: FUNCTION_BLOCK |FEEDER|"] * 2)

    def test_the_resources_are_those_of_the_plan(self) -> None:
        """Of all blocks of two plants, with subapplications in each other."""
        conveyor = {it.stem: it.read_text() for it in self.folder.glob("*.fb")}
        for texts, system in (conveyor, "PLANT"), (hall(), "HALL"):
            plant = Plant()
            for name, text in texts.items():
                plant.put(Path(f"/plant/{name}.fb"), text)
            found = {name: set(homes_of(plant, name)) for name, text in texts.items() if text.lstrip().startswith("FUNCTION_BLOCK") or "\nFUNCTION_BLOCK" in text}
            with Session.script(workbench()) as session:
                for batch in batches(Put(name, 0, text) for name, text in texts.items()):
                    session.commit(batch)
                plan = session.wait("deploy", system)
            expected: dict[str, set[str]] = {name: set() for name in found}
            for resource in plan.resources:
                for command in resource.commands:
                    if command.startswith("CREATE FB "):
                        expected[command.split()[3]].add(resource.name)
            self.assertEqual(found, expected)
            self.assertTrue(any(expected.values()))


class NavigationTest(ConveyorTest):
    def definition(self, *place) -> list[str]:
        return self.shown(self.ask("definition", *place))

    def test_definitions_of_types(self):
        """Of instances, plugs, and variables and fields of a structure or an array of it; others have none."""
        cases = [
            ("STATION", "BELT.SEEN", 0, ["FEEDER.fb:2: FUNCTION_BLOCK |FEEDER|"]),
            ("STATION", "LIFT : LIFTER", 0, ["LIFTER.fb:2: FUNCTION_BLOCK |LIFTER|"]),
            ("FEEDER", "NEXT.TAKEN", 0, ["HANDOVER.fb:2: ADAPTER |HANDOVER|"]),
            ("FEEDER", "LAST[COUNT", 0, ["ITEM.fb:2: TYPE |ITEM| : STRUCT"]),
            ("PLANT", "FIRST.READY", 0, ["STATION.fb:2: SUBAPPLICATION |STATION|"]),
            ("FEEDER", "LAST[COUNT", 5, []),
            ("FEEDER", "MOVING TO", 0, []),
            ("FEEDER", "50", 0, []),
        ]
        for unit, words, behind, expected in cases:
            self.assertEqual(self.shown(self.ask("typeDefinition", unit, words, behind)), expected, words)

    def test_definitions(self):
        self.assertEqual(self.definition("STATION", "FEEDER("), ["FEEDER.fb:2: FUNCTION_BLOCK |FEEDER|"])
        self.assertEqual(self.definition("STATION", "LIMIT :="), ["FEEDER.fb:5: VAR_INPUT |LIMIT| : INT := 50; LOAD : INT; END_VAR"])
        self.assertEqual(self.definition("STATION", "LIFT.TOTAL", 5), ["LIFTER.fb:6: VAR_OUTPUT |TOTAL| : INT; END_VAR"])
        self.assertEqual(self.definition("STATION", "LIFT.TOTAL"), ["STATION.fb:9: |LIFT| : LIFTER;"])
        self.assertEqual(self.definition("FEEDER", "MOVING TO"), ["FEEDER.fb:11: |MOVING| : WEIGH;"])
        self.assertEqual(self.definition("FEEDER", "TALLY ->"), ["FEEDER.fb:32: ALGORITHM |TALLY| IN ST: COUNT := COUNT + 1; END_ALGORITHM"])
        self.assertEqual(self.definition("FEEDER", "NEXT.TAKEN", 5), ["HANDOVER.fb:4: EVENT_INPUT |TAKEN|; END_EVENT"])
        self.assertEqual(self.definition("FEEDER", "LAST[COUNT", 5), ["FEEDER.fb:6: VAR_OUTPUT |COUNT| : UINT := 0; END_VAR"])
        self.assertEqual(self.definition("PLANT", "SOUTH.SCREEN", 6), ["PLANT.fb:18: RESOURCE |SCREEN| : EMBEDDED END_RESOURCE"])
        self.assertEqual(self.definition("PLANT", "LINE.PANEL"), ["PLANT.fb:3: APPLICATION |LINE|"])
        self.assertEqual(self.definition("FEEDER", "50"), [])

    def test_a_path_deep_in_a_mapping(self):
        text = self.file("PLANT").read_text().replace("LINE.FIRST ON", "LINE.SECOND.LIFT ON SOUTH.SCREEN; LINE.FIRST ON")
        self.write("PLANT.fb", text)
        self.server.change(self.file("PLANT"), text)
        self.assertEqual(self.definition("PLANT", "SECOND.LIFT", 7), ["STATION.fb:9: |LIFT| : LIFTER;"])
        found = self.shown(self.ask("references", "STATION", "LIFT : LIFTER", context={"includeDeclaration": False}))
        self.assertEqual(found[0], "PLANT.fb:21: LINE.SECOND.|LIFT| ON SOUTH.SCREEN; LINE.FIRST ON NORTH.MOTION;")

    def test_references(self):
        found = self.ask("references", "FEEDER", "START WITH", context={"includeDeclaration": True})
        expected = [
            "FEEDER.fb:3: EVENT_INPUT |START| WITH LIMIT; SEEN WITH LOAD; END_EVENT",
            "FEEDER.fb:16: IDLE TO MOVING := |START|;",
            "STATION.fb:12: START TO BELT.|START|;",
        ]
        self.assertEqual(self.shown(found), expected)
        found = self.ask("references", "STATION", "BELT.NEXT", 5, context={"includeDeclaration": False})
        expected = [
            "FEEDER.fb:12: OFFERING : OFFER -> |NEXT|.OFFER;",
            "FEEDER.fb:18: OFFERING TO DONE := |NEXT|.TAKEN;",
            "FEEDER.fb:30: |NEXT|.PIECE := PIECE;",
            "STATION.fb:21: ADAPTER_CONNECTIONS BELT.|NEXT| TO LIFT.BEFORE; END_CONNECTIONS",
        ]
        self.assertEqual(self.shown(found), expected)

    def test_uses_in_units_that_are_not_open(self):
        found = self.ask("references", "STATION", "FEEDER(", context={"includeDeclaration": False})
        self.assertEqual(self.shown(found), ["STATION.fb:8: BELT : |FEEDER|(LIMIT := 80);"])
        found = self.ask("references", "FEEDER", "NEXT.PIECE", 5, context={"includeDeclaration": True})
        expected = [
            "HANDOVER.fb:5: VAR_OUTPUT |PIECE| : ITEM; END_VAR",
            "FEEDER.fb:30: NEXT.|PIECE| := PIECE;",
            "HANDOVER.fb:3: EVENT_OUTPUT OFFER WITH |PIECE|; END_EVENT",
            "LIFTER.fb:19: HELD := BEFORE.|PIECE|;",
        ]
        self.assertEqual(self.shown(found), expected)
        found = self.ask("references", "FEEDER", "PIECE.WEIGHT", 6, context={"includeDeclaration": True})
        expected = [
            "ITEM.fb:4: |WEIGHT| : INT;",
            "FEEDER.fb:27: PIECE.|WEIGHT| := LOAD;",
            "LIFTER.fb:20: IF HELD.LANE = 1 THEN TOTAL := TOTAL + HELD.|WEIGHT| * FACTOR; END_IF;",
        ]
        self.assertEqual(self.shown(found), expected)

    def test_highlights(self):
        found = self.ask("documentHighlight", "STATION", "BELT.START")
        expected = [
            "STATION.fb:8: |BELT| : FEEDER(LIMIT := 80);",
            "STATION.fb:12: START TO |BELT|.START;",
            "STATION.fb:13: SEEN TO |BELT|.SEEN;",
            "STATION.fb:18: LOAD TO |BELT|.LOAD;",
            "STATION.fb:21: ADAPTER_CONNECTIONS |BELT|.NEXT TO LIFT.BEFORE; END_CONNECTIONS",
        ]
        self.assertEqual([self.show("STATION.fb", it["range"]) for it in found], expected)

    def test_what_is_not_saved_counts(self):
        text = self.file("FEEDER").read_text()
        changed = text.replace("EVENT_INPUT START", "(* new *)\n  EVENT_INPUT START")
        self.server.change(self.file("FEEDER"), changed)
        found = self.ask("definition", "STATION", "BELT.START", 5)
        self.assertEqual(found[0]["range"]["start"], {"line": 3, "character": 14})
        self.server.change(self.file("FEEDER"), text.replace("START", "BEGIN"))
        self.assertEqual(self.ask("definition", "STATION", "BELT.START", 5), [])


class OutlineTest(ConveyorTest):
    def lines(self, symbols, depth=0):
        for it in symbols:
            start, end = it["range"]["start"]["line"] + 1, it["range"]["end"]["line"] + 1
            yield f"{'  ' * depth}{it['name']} ({it['detail']}) {it['kind']} {start}-{end}"
            yield from self.lines(it["children"], depth + 1)

    def test_a_system(self):
        expected = """\
PLANT (SYSTEM) 3 2-25
  LINE (APPLICATION) 3 3-14
    FIRST (SUBAPPS : STATION) 19 4-4
    SECOND (SUBAPPS : STATION) 19 4-4
    PANEL (FBS : LAMP) 19 5-5
  NORTH (DEVICE : CONTROLLER) 23 15-15
    MOTION (RESOURCE : EMBEDDED) 19 15-15
  SOUTH (DEVICE : CONTROLLER) 23 16-19
    MOTION (RESOURCE : EMBEDDED) 19 17-17
    SCREEN (RESOURCE : EMBEDDED) 19 18-18"""
        self.assertEqual("\n".join(self.lines(self.server.ask("documentSymbol", self.file("PLANT")))), expected)

    def test_a_block(self):
        found = list(self.lines(self.server.ask("documentSymbol", self.file("FEEDER"))))
        self.assertEqual(found[:3], ["FEEDER (FUNCTION_BLOCK) 5 2-33", "  START (EVENT_INPUT) 24 3-3", "  SEEN (EVENT_INPUT) 24 3-3"])
        algorithms = ["  WEIGH (ALGORITHM : ST) 6 21-24", "  OFFER (ALGORITHM : ST) 6 25-31", "  TALLY (ALGORITHM : ST) 6 32-32"]
        self.assertEqual(found[-4:], ["  DONE (EC_STATES) 22 13-13", *algorithms])

    def test_units(self):
        """After them other names that have all of the query."""
        self.assertEqual(self.units("fe")[:2], ["FEEDER", "LIFTER"])
        self.assertEqual(self.units("lt"), ["LIFTER", "PLANT", "BELT"])
        self.assertEqual(self.units(""), ["FEEDER", "HANDOVER", "ITEM", "LAMP", "LIFTER", "PLANT", "STATION"])
        self.assertEqual(self.units("nothing"), [])

    def units(self, query):
        return [it["name"] for it in self.server.request("workspace/symbol", query=query)["result"]]

    def test_folding(self):
        found = self.server.ask("foldingRange", self.file("STATION"))
        self.assertEqual([(it["startLine"], it["endLine"]) for it in found], [(1, 20), (6, 8), (10, 14), (16, 18)])


ITEM = """

TYPE ITEM
What is known of a piece: its number, its weight, and the lane that it goes to.
  STRUCT
    NUMBER : UINT
    WEIGHT : INT
    LANE : USINT := 1"""


class HoverTest(ConveyorTest):
    def hover(self, *place):
        answer = self.ask("hover", *place)
        self.assertEqual(answer["contents"]["kind"], "plaintext")
        return answer["contents"]["value"]

    def test_a_type(self):
        expected = """\
ADAPTER HANDOVER
How one machine hands a piece to the next. Inputs and outputs are those of the machine with the plug, which hands it over.
  EVENT_INPUT
    TAKEN
  EVENT_OUTPUT
    OFFER WITH PIECE
  VAR_OUTPUT
    PIECE : ITEM"""
        self.assertEqual(self.hover("FEEDER", "HANDOVER"), expected)

    def test_names(self):
        self.assertEqual(self.hover("STATION", "BELT.SEEN", 5), "event input of FEEDER: SEEN WITH LOAD")
        self.assertEqual(self.hover("STATION", "LIMIT"), "data input of FEEDER: LIMIT : INT := 50")
        self.assertEqual(self.hover("FEEDER", "DONE :="), "state of FEEDER: DONE : TALLY -> MOVED")
        self.assertEqual(self.hover("FEEDER", "TALLY"), "algorithm of FEEDER: TALLY IN ST")
        self.assertEqual(self.hover("FEEDER", "LAST["), "internal variable of FEEDER: LAST : ARRAY [0..2] OF ITEM" + ITEM)
        self.assertEqual(self.hover("PLANT", "SOUTH.SCREEN", 7), "resource of SOUTH: SCREEN : EMBEDDED")
        self.assertEqual(self.hover("PLANT", "ON NORTH", 3), "device of PLANT: NORTH : CONTROLLER")
        self.assertEqual(self.hover("STATION", "LIFT.STOP").split("\n")[:2], ["block instance of STATION: LIFT : LIFTER", ""])
        self.assertIsNone(self.ask("hover", "FEEDER", "50"))

    def test_comments(self):
        text = """(* A <b>gate</b>. *)
FUNCTION_BLOCK GATE // of the yard
  EVENT_INPUT
    (* before
     * it opens *)
    OPEN; (* opens *) SHUT; // shuts
    // later
    LOCK; END_EVENT
END_FUNCTION_BLOCK
"""
        self.server.open(self.write("GATE.fb", text))
        expected = """\
FUNCTION_BLOCK GATE
A <b>gate</b>.
of the yard
  EVENT_INPUT
    OPEN  (* before it opens opens *)
    SHUT  (* shuts *)
    LOCK  (* later *)"""
        self.assertEqual(self.hover("GATE", "GATE"), expected)

    def test_a_fault(self):
        text = self.file("FEEDER").read_text().replace("IDLE TO MOVING", "IDLE TO MOVE")
        self.write("FEEDER.fb", text)
        self.server.change(self.file("FEEDER"), text)
        self.server.await_codes(FEEDER=["STATE_UNKNOWN"])
        self.assertEqual(self.hover("FEEDER", "MOVE :="), "STATE_UNKNOWN: no state MOVE in this chart; did you mean MOVING?")

    def test_a_line_with_thousands_of_warnings(self):
        """For each of them the line was read from its start to its end."""
        names = " ".join(f"F{number} : T{number};" for number in range(4_000))
        self.write("ITEM.fb", f"TYPE ITEM : STRUCT {names} END_STRUCT END_TYPE")
        self.server.change(self.file("ITEM"), self.file("ITEM").read_text())
        while len(self.server.shown.get("ITEM.fb", ())) < 4_000:
            self.server.read()
        begin = time.monotonic()
        self.assertIn("NO_SUCH_TYPE: no type T3999 here", self.hover("ITEM", "T3999"))
        self.assertLess(time.monotonic() - begin, 4)


class CompletionTest(ConveyorTest):
    def check(self, name, before, *expected, with_words=False):
        """What may follow these words, which are the only ones of the unit from where they begin."""
        text = self.file(name).read_text()
        front = text[: text.index(before) + len(before)]
        self.server.change(self.file(name), front)
        places = Places(front)
        found = self.server.ask("completion", self.file(name), position=position(places, len(places.encoded)))
        names = [it["label"] for it in found if with_words or it["kind"] != 14]
        self.assertEqual(names, list(expected))
        self.server.change(self.file(name), text)

    def test_ports(self):
        self.check("STATION", "START TO BELT.", "START", "SEEN")
        self.check("STATION", "LIFT.LIFTED TO ", "READY", "BELT", "LIFT")
        self.check("STATION", "STOP TO LIFT.STOP;\n    LIFT.", "LIFTED")
        self.check("STATION", "LIFT.TOTAL TO TO", "TOTAL", "BELT", "LIFT")
        self.check("STATION", "LOAD TO BELT.LO", "LIMIT", "LOAD")
        self.check("STATION", "ADAPTER_CONNECTIONS BELT.", "NEXT")
        self.check("STATION", "ADAPTER_CONNECTIONS BELT.NEXT TO LIFT.", "BEFORE")
        self.check("STATION", "FEEDER(", "LIMIT", "LOAD")
        self.check("PLANT", "FIRST.READY TO SECOND.", "START", "SEEN", "STOP")

    def test_ports_of_the_type_of_the_other_end(self):
        """Data of another type are not offered, and neither are plugs and sockets; an instance is, as its ports may be."""
        gauge = "FUNCTION_BLOCK GAUGE VAR_INPUT N : INT; W : dint; R : ARRAY [0..1] OF INT; A : ANY_NUM; END_VAR VAR_OUTPUT O : UINT; P : INT; END_VAR"
        self.write("GAUGE.fb", f"{gauge} PLUGS P : HANDOVER; P2 : OTHER; END_PLUGS END_FUNCTION_BLOCK")
        file = self.write("GAUGES.fb", GAUGES)
        self.server.open(file)
        for before, *expected in (
            ("WIDE TO G.", "W", "A"),
            ("ROW TO G.", "R", "A"),
            ("FREE TO G.", "N", "W", "R", "A"),
            ("G.", "O"),
            ("G.P TO ", "OUT", "G"),
            ("G.P2 TO ", "G"),
        ):
            place = GAUGES.index(f"{before};" if before != "G." else "G. TO WIDTH") + len(before)
            found = self.server.ask("completion", file, position=position(Places(GAUGES), place))
            self.assertEqual([it["label"] for it in found if it["kind"] != 14], expected, before)

    def test_types(self):
        self.check("STATION", "BELT : ", "FEEDER", "LAMP", "LIFTER")
        self.check("FEEDER", "NEXT : HAND", "HANDOVER")
        self.check("PLANT", "FIRST : ", "STATION")

    def test_charts(self):
        self.check("FEEDER", "OFFER -> ", "MOVED", "NEXT")
        self.check("FEEDER", "OFFER -> NEXT.", "OFFER")
        self.check("FEEDER", "IDLE TO ", "IDLE", "MOVING", "OFFERING", "DONE")
        self.check("FEEDER", "IDLE TO MOVING := ", "START", "SEEN", "NEXT")
        self.check("FEEDER", "DONE := NEXT.", "TAKEN")
        self.check("FEEDER", "SEEN [", "LIMIT", "LOAD", "COUNT", "IS_FULL", "PIECE", "LAST", "NEXT")
        self.check("LIFTER", "IF HELD.", "NUMBER", "WEIGHT", "LANE")
        self.check("FEEDER", "START WITH ", with_words=True)

    def test_words(self):
        self.check("FEEDER", "END_TRANSITIONS\n  ", *PARTS["FUNCTION_BLOCK"], "END_FUNCTION_BLOCK", with_words=True)
        self.check("LAMP", "FUNCTION_", "FUNCTION_BLOCK", "ADAPTER", "SUBAPPLICATION", "SYSTEM", "TYPE", with_words=True)
        self.check("PLANT", "LINE.FIRST ", "ON", with_words=True)
        self.check("FEEDER", "IF LOAD > LIMIT ", "AND", "OR", "XOR", "MOD", "THEN", "DO", "OF", "TO", "BY", with_words=True)

    def test_systems(self):
        self.check("PLANT", "MAPPINGS\n    ", "LINE")
        self.check("PLANT", "MAPPINGS\n    LINE.", "FIRST", "SECOND", "PANEL")
        self.check("PLANT", "LINE.FIRST ON ", "NORTH", "SOUTH")
        self.check("PLANT", "LINE.SECOND ON SOUTH.", "MOTION", "SCREEN")

    def test_nothing(self):
        self.check("FEEDER", "(* Moves", with_words=True)
        self.check("FEEDER", "VAR_INPUT LIMIT : INT := 5", with_words=True)
        self.check("PLANT", "TEXT := 'line", with_words=True)


class RenameTest(ConveyorTest):
    def renamed(self, name, words, new, behind=0):
        """The lines of all units that a rename changes, as they are then."""
        edit = self.ask("rename", name, words, behind, newName=new)
        found = []
        for uri, changes in sorted(edit["changes"].items()):
            file = self.folder / Path(uri).name
            before, after = file.read_text(), edited(file.read_text(), changes)
            found += [f"{file.name}: {new.strip()}" for old, new in zip(before.split("\n"), after.split("\n")) if old != new]
        return found

    def test_a_port(self):
        expected = [
            "FEEDER.fb: EVENT_INPUT Begin WITH LIMIT; SEEN WITH LOAD; END_EVENT",
            "FEEDER.fb: IDLE TO MOVING := Begin;",
            "STATION.fb: START TO BELT.Begin;",
        ]
        self.assertEqual(self.renamed("STATION", "BELT.START", "Begin", 6), expected)

    def test_a_type(self):
        self.assertEqual(self.renamed("STATION", "FEEDER(", "BELT"), ["FEEDER.fb: FUNCTION_BLOCK BELT", "STATION.fb: BELT : BELT(LIMIT := 80);"])

    def test_an_instance(self):
        expected = [
            "PLANT.fb: SUBAPPS FIRST : STATION; LAST : STATION; END_SUBAPPS",
            "PLANT.fb: FIRST.READY TO LAST.START;",
            "PLANT.fb: LAST.READY TO PANEL.SHOW;",
            "PLANT.fb: FIRST.TOTAL TO LAST.LOAD;",
            "PLANT.fb: LAST.TOTAL TO PANEL.VALUE;",
            "PLANT.fb: LINE.LAST ON SOUTH.MOTION;",
        ]
        self.assertEqual(self.renamed("PLANT", "SECOND :", "LAST"), expected)

    def test_the_case_alone(self):
        self.assertEqual(self.renamed("PLANT", "NORTH", "north")[-1], "PLANT.fb: LINE.FIRST ON north.MOTION;")

    def test_prepare(self):
        found = self.ask("prepareRename", "STATION", "BELT.START", 6)
        self.assertEqual(found["placeholder"], "START")
        self.assertEqual(self.show("STATION.fb", found["range"]), "STATION.fb:12: START TO BELT.|START|;")
        self.assertEqual(self.refused("prepareRename", "FEEDER", "50"), "there is no name here")
        self.assertEqual(self.refused("prepareRename", "FEEDER", "INT :="), "nothing declares INT here")

    def test_names_that_are_none(self):
        refused = lambda new: self.refused("rename", "FEEDER", "MOVING", newName=new)  # noqa: E731
        self.assertEqual(refused("WITH"), "WITH is a reserved word")
        self.assertEqual(refused("2ND"), "'2ND' is no name: a name is a letter or _, then letters, digits and _")
        self.assertEqual(refused("A B"), "'A B' is no name: a name is a letter or _, then letters, digits and _")
        self.assertEqual(refused(""), "'' is no name: a name is a letter or _, then letters, digits and _")
        self.assertEqual(refused("A" * 65), "a name has at most 64 characters")

    def test_names_that_are_taken(self):
        self.assertEqual(self.refused("rename", "FEEDER", "MOVING", newName="idle"), "FEEDER has the state IDLE already")
        self.assertEqual(self.refused("rename", "FEEDER", "FEEDER", newName="lamp"), "there is a unit LAMP already")
        self.assertEqual(self.refused("rename", "PLANT", "SECOND :", newName="PANEL"), "LINE has the instance PANEL already")
        text = self.file("STATION").read_text().replace("BELT.SEEN", "BELT.HALT")
        self.server.change(self.file("STATION"), text)
        waiting = "STATION uses the event HALT already, though nothing declares it"
        self.assertEqual(self.refused("rename", "FEEDER", "SEEN WITH", newName="HALT"), waiting)

    def test_doubles(self):
        text = self.file("FEEDER").read_text().replace("    IDLE;", "    IDLE; IDLE;")
        self.server.change(self.file("FEEDER"), text)
        self.write("FEEDER.fb", text)
        self.assertEqual(self.refused("rename", "FEEDER", "IDLE;", newName="REST"), "IDLE is declared more than once in FEEDER; correct this first")
        self.write("again.fb", "ADAPTER HANDOVER END_ADAPTER")
        self.server.save(self.file("FEEDER"))
        both = "HANDOVER is declared by HANDOVER.fb and again.fb; a unit has one text"
        self.assertEqual(self.refused("rename", "FEEDER", "HANDOVER", newName="LINK"), both)

    def test_more_units_than_a_commit_takes(self):
        """With the unit itself and the plant 16 units are changed, and then 17. A type is removed and put, which is one change more."""
        use = "FBS X : LAMP; END_FBS EVENT_CONNECTIONS X.SHOW TO X.SHOW; END_CONNECTIONS"
        for number in range(14):
            self.write(f"U{number}.fb", f"FUNCTION_BLOCK U{number} {use} END_FUNCTION_BLOCK")
        self.server.open(self.file("LAMP"))
        self.assertEqual(len(self.ask("rename", "LAMP", "SHOW", newName="LIGHT")["changes"]), 16)
        many = "LAMP stands in 16 units. This takes 17 changes, and a commit has at most 16"
        self.assertEqual(self.refused("rename", "LAMP", "LAMP\n", newName="LIGHT"), many)
        self.write("ONE_MORE.fb", f"FUNCTION_BLOCK ONE_MORE {use} END_FUNCTION_BLOCK")
        self.server.save(self.file("LAMP"))
        many = "SHOW stands in 17 units. This takes 17 changes, and a commit has at most 16"
        self.assertEqual(self.refused("rename", "LAMP", "SHOW", newName="LIGHT"), many)

    def test_a_text_that_would_be_too_long(self):
        text = f"FUNCTION_BLOCK LONG VAR {' ' * 65_480} END_VAR END_FUNCTION_BLOCK"
        self.server.open(self.write("LONG.fb", text))
        long = "LONG would have 65,573 bytes, and the text of a unit has at most 65,536"
        self.assertEqual(self.refused("rename", "LONG", "LONG", newName="L" * 46), long)


class SymbolFixTest(TestCase):
    """A `:=` or a `;` of a unit without faults is lost: what is offered at the place of the fault brings back the same tokens."""

    def test_at_random_places(self) -> None:
        chance, count = random.Random(2), Counter[str]()
        for texts in so_many(sound_libraries(3), 150):
            for text in texts.values():
                for words in (":=", ";"):
                    at = chance.choice([it for it in tokens(text) if it.words == words] or [None])
                    count[words] += at is not None and self.mended(text, at)
        self.assertGreater(min(count[":="], count[";"]), 40)

    def mended(self, text: str, at: Token) -> bool:
        """Whether the fault is at the place; then a fix has to be offered."""
        encoded, new = text.encode(), "=" if at.words == ":=" else " "
        broken = (encoded[: at.start] + new.encode() + encoded[at.end :]).decode()
        stop = first_stop(list(tokens(broken)))
        if not stop or stop.at != [it.start for it in tokens(text)].index(at.start):
            return False
        plant = Plant()
        read = plant.put(Path("/plant/A.fb"), broken)
        assert read
        fix = fixes(plant, read, "SYNTAX", 0, 0)[0]
        mended = read.places.encoded[: fix.start] + fix.new.encode() + read.places.encoded[fix.end :]
        self.assertEqual([it.words for it in tokens(mended.decode())], [it.words for it in tokens(text)], broken)
        return True

    def test_none_where_it_would_not_help(self) -> None:
        for text in ("FUNCTION_BLOCK A EVENT_INPUT B = 1; END_EVENT END_FUNCTION_BLOCK", "FUNCTION_BLOCK", "", "(* not closed"):
            plant = Plant()
            read = plant.put(Path("/plant/A.fb"), text)
            assert read
            self.assertEqual(fixes(plant, read, "SYNTAX", 0, 0), [], text)


class FixTest(ConveyorTest):
    def fixes(self, name, old, new, *more, code):
        """Breaks a unit, and gives the titles of what is offered, each with the lines that it changes."""
        text = self.file(name).read_text().replace(old, new)
        self.write(f"{name}.fb", text)
        self.server.change(self.file(name), text)
        self.server.await_codes(**{name: [code]})
        shown = self.server.shown[f"{name}.fb"]
        found = self.server.ask("codeAction", self.file(name), range=shown[0]["range"], context={"diagnostics": shown})
        return {it["title"]: self.lines(it["edit"]["changes"]) for it in found}

    def lines(self, changes):
        found = []
        for uri, edits in changes.items():
            before = (self.folder / Path(uri).name).read_text()
            there = before.split("\n")
            found += [line.strip() for line in edited(before, edits).split("\n") if line not in there]
        return found

    def test_did_you_mean(self):
        found = self.fixes("FEEDER", "IDLE TO MOVING", "IDLE TO MOVE", code="STATE_UNKNOWN")
        self.assertEqual(found, {"Change MOVE to MOVING": ["IDLE TO MOVING := START;"]})

    def test_a_symbol(self):
        found = self.fixes("FEEDER", "COUNT := COUNT + 1", "COUNT = COUNT + 1", code="SYNTAX")
        self.assertEqual(found, {"Change = to :=": ["ALGORITHM TALLY IN ST: COUNT := COUNT + 1; END_ALGORITHM"]})
        found = self.fixes("STATION", "LIFT : LIFTER;", "LIFT : LIFTER", code="SYNTAX")
        self.assertEqual(found, {"Put ; behind LIFTER": ["LIFT : LIFTER;"]})

    def test_a_type(self):
        found = self.fixes("STATION", "LIFT : LIFTER", "LIFT : LIFTR", code="UNKNOWN_TYPE")
        self.assertEqual(found, {"Change LIFTR to LIFTER": ["LIFT : LIFTER;"]})

    def test_a_resource(self):
        found = self.fixes("PLANT", "ON SOUTH.SCREEN", "ON SOUTH.SCREN", code="NO_SUCH_RESOURCE")
        self.assertEqual(found, {"Change SCREN to SCREEN": ["LINE.PANEL ON SOUTH.SCREEN;"]})

    def test_an_event(self):
        found = self.fixes("FEEDER", ":= START", ":= STRAT", code="EVENT_UNKNOWN")
        declared = "EVENT_INPUT START WITH LIMIT; SEEN WITH LOAD; STRAT; END_EVENT"
        self.assertEqual(found, {"Change STRAT to START": ["IDLE TO MOVING := START;"], "Declare the event input STRAT in FEEDER": [declared]})

    def test_an_instance(self):
        found = self.fixes("STATION", "START TO BELT.START", "START TO FEED.START", code="PORT_UNKNOWN")
        self.assertEqual(found, {"Declare FEED : FEEDER in FBS": ["FEED : FEEDER;"]})

    def test_an_instance_in_an_application(self):
        found = self.fixes("PLANT", "PANEL.SHOW", "SIGN.SHOW", code="PORT_UNKNOWN")
        declared = "FBS PANEL : LAMP(TEXT := 'line 1', DELAY := T#250ms); SIGN : LAMP; END_FBS"
        self.assertEqual(found, {"Declare SIGN : LAMP in FBS": [declared]})

    def test_an_own_port(self):
        found = self.fixes("STATION", "LOAD TO BELT.LOAD", "WIDTH TO BELT.LOAD", code="PORT_UNKNOWN")
        self.assertEqual(found, {"Declare the data input WIDTH in STATION": ["VAR_INPUT LOAD : INT; WIDTH : INT; END_VAR"]})

    def test_a_port_of_another_unit(self):
        found = self.fixes("STATION", "LOAD TO BELT.LOAD", "LOAD TO LIFT.WIDTH", code="PORT_UNKNOWN")
        self.assertEqual(found, {"Declare the data input WIDTH in LIFTER": ["VAR_INPUT FACTOR : INT := 1; WIDTH : INT; END_VAR"]})

    def test_a_data_output(self):
        found = self.fixes("PLANT", "FIRST.TOTAL TO", "FIRST.WIDTH TO", code="PORT_UNKNOWN")
        self.assertEqual(found, {"Declare the data output WIDTH in STATION": ["VAR_OUTPUT TOTAL : INT; WIDTH : INT; END_VAR"]})
        found = self.fixes("PLANT", "FIRST.WIDTH TO SECOND.LOAD", "SECOND.TOTAL TO PANEL.WIDTH", code="PORT_UNKNOWN")
        declared = "VAR_INPUT VALUE : INT; TEXT : STRING[20] := 'ready'; DELAY : TIME := T#0s; WIDTH : INT; END_VAR"
        self.assertEqual(found["Declare the data input WIDTH in LAMP"], [declared])

    def test_a_section_that_is_not_there_yet(self):
        more = "TO PANEL.SHOW; PANEL.SHOWN TO FIRST.STOP"
        found = self.fixes("PLANT", "TO PANEL.SHOW", more, code="PORT_UNKNOWN")
        self.assertEqual(found, {"Declare the event output SHOWN in LAMP": ["EVENT_OUTPUT SHOWN; END_EVENT"]})


class TextsTest(ConveyorTest):
    def test_changes_of_ranges(self):
        file = self.write("a.fb", "")
        self.server.open(file, "(* 𝄞 *) FUNCTION_BLOCK A END_FUNCTION_BLOCK")
        behind = {"line": 0, "character": 25}
        self.server.make_changes(
            file,
            {"range": {"start": behind, "end": behind}, "text": " EVENT_INPUT\r\nE WITH 𝄞;"},
            {"range": {"start": {"line": 1, "character": 7}, "end": {"line": 1, "character": 9}}, "text": "X"},
            {"range": {"start": {"line": 1, "character": 9}, "end": {"line": 1, "character": 9}}, "text": " END_EVENT"},
        )
        self.server.await_codes(a=["WITH_UNKNOWN"])
        self.assertEqual(self.server.shown["a.fb"][0]["range"], {"start": {"line": 1, "character": 7}, "end": {"line": 1, "character": 8}})

    def test_a_change_that_makes_no_sense(self):
        file = self.file("FEEDER")
        nowhere = {"line": -1, "character": 0}
        self.server.make_changes(file, {"text": "SYSTEM"}, {"range": {"start": nowhere, "end": nowhere}, "text": ""})
        self.assertIn("textDocument/didChange makes no sense", self.server.await_message())
        self.assertEqual(self.server.ask("documentSymbol", file)[0]["name"], "FEEDER")

    def test_layout(self):
        text = "FUNCTION_BLOCK  A\nEVENT_INPUT E WITH X ;END_EVENT\n\n\n\nVAR_INPUT X:INT:=- 5; // as it is   \nEND_VAR\nEND_FUNCTION_BLOCK"
        laid_out = "FUNCTION_BLOCK A\n  EVENT_INPUT E WITH X; END_EVENT\n\n  VAR_INPUT X : INT := -5; // as it is\n  END_VAR\nEND_FUNCTION_BLOCK\n"
        file = self.write("a.fb", text)
        self.server.open(file)
        options = {"tabSize": 8, "insertSpaces": False}
        self.assertEqual(edited(text, self.server.ask("formatting", file, options=options)), laid_out)
        line = {"start": {"line": 1, "character": 0}, "end": {"line": 2, "character": 0}}
        self.assertEqual(edited(text, self.server.ask("rangeFormatting", file, options=options, range=line)), text.replace("X ;END", "X; END"))
        self.assertEqual(self.server.ask("formatting", self.file("STATION"), options=options), [])

    def test_colours(self):
        text = "(* ä\n𝄞 *) FUNCTION_BLOCK A VAR X : INT := 16#F; END_VAR END_FUNCTION_BLOCK"
        file = self.write("a.fb", text)
        self.server.open(file)
        found = self.colours(text, self.server.ask("semanticTokens/full", file)["data"])
        expected = [
            ("(* ä", "comment"), ("𝄞 *)", "comment"), ("FUNCTION_BLOCK", "keyword"), ("A", "class declaration"), ("VAR", "keyword"),
            ("X", "variable declaration"), ("INT", "type"), (":=", "operator"), ("16#F", "number"), ("END_VAR", "keyword"),
            ("END_FUNCTION_BLOCK", "keyword"),
        ]
        self.assertEqual(found, expected)
        line = {"start": {"line": 1, "character": 25}, "end": {"line": 1, "character": 37}}
        data = self.server.ask("semanticTokens/range", file, range=line)["data"]
        self.assertEqual(self.colours(text, data), expected[4:8])

    def colours(self, text, data):
        """The words and the colours of tokens."""
        provider = self.capabilities["semanticTokensProvider"]["legend"]
        lines, line, column, found = text.split("\n"), 0, 0, []
        for ahead, columns, length, kind, modifiers in zip(*[iter(data)] * 5):
            line, column = line + ahead, columns + (0 if ahead else column)
            units = lines[line].encode("utf-16-le")[2 * column : 2 * (column + length)]
            words = [provider["tokenTypes"][kind], *(["declaration"] if modifiers else [])]
            found.append((units.decode("utf-16-le"), " ".join(words)))
        return found

    def test_what_is_no_unit(self):
        """A file that is not there, and a text that is too long: no answer, and no trouble."""
        nowhere = self.folder / "nowhere.fb"
        self.assertIsNone(self.server.ask("documentSymbol", nowhere))
        long = self.write("long.fb", "")
        self.server.open(long, " " * 65_537)
        self.assertIsNone(self.server.ask("hover", long, position={"line": 0, "character": 0}))

    def test_questions_that_make_no_sense(self):
        answer = self.server.request("textDocument/hover", textDocument={"uri": self.file("FEEDER").as_uri()})
        self.assertEqual(answer["error"], {"code": -32602, "message": "textDocument/hover makes no sense: KeyError('position')"})


if __name__ == "__main__":
    unittest.main()
