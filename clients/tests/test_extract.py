"""lsp: instances of a network become a subapplication of their own, and the flat network stays what it was."""
from __future__ import annotations

import random
import unittest
from pathlib import Path

from editing import Editor, LspTest
from generated import faults_of, so_many, sound_libraries
from hall import hall
from plants import plant_of
from support import CONVEYOR, run, until, workbench

from bench61499 import Flat, Places, Plan, Session
from bench61499.language.declarations import Declaration
from bench61499.language.plant import Text
from bench61499.language.positions import edited, range_of
from bench61499.lsp.extract import CantExtract, Extraction, chosen, extracted

CAN_CREATE = {"workspace": {"workspaceEdit": {"documentChanges": True, "resourceOperations": ["create"]}}}
BLOCK = """\
FUNCTION_BLOCK {name}
  EVENT_INPUT REQ WITH IN; OFF; END_EVENT
  EVENT_OUTPUT CNF WITH OUT; END_EVENT
  VAR_INPUT IN : {data}; END_VAR
  VAR_OUTPUT OUT : {data}; END_VAR
  PLUGS NEXT : HANDOVER; END_PLUGS
  SOCKETS BEFORE : HANDOVER; END_SOCKETS
END_FUNCTION_BLOCK
"""
CELL = """\
SUBAPPLICATION Cell
  EVENT_INPUT Run; END_EVENT
  EVENT_OUTPUT Done; END_EVENT
  VAR_INPUT Amount : ARRAY[0..3] OF INT; END_VAR
  SOCKETS From : HANDOVER; END_SOCKETS
  FBS
    A : STEP(IN := [1, 2, 3, 4]); // the first one
    (* in the middle *)

    // The second one
    // and the third one
    B : STEP; C : STEP;
    D : STEP;
  END_FBS
  EVENT_CONNECTIONS
    Run TO A.REQ; Run TO B.REQ;
    A.CNF TO B.REQ; // on to B
    A.CNF TO C.REQ;
    A.CNF TO D.REQ;
    D.CNF TO B.OFF;
    C.CNF TO B.OFF;
    B.CNF TO Done;
  END_CONNECTIONS
  DATA_CONNECTIONS
    (* All get the same. *)
    A.OUT TO B.IN; A.OUT TO C.IN; A.OUT TO D.IN;
  END_CONNECTIONS
  ADAPTER_CONNECTIONS From TO B.BEFORE; B.NEXT TO C.BEFORE; C.NEXT TO D.BEFORE; END_CONNECTIONS
END_SUBAPPLICATION
"""
PART = """\
SUBAPPLICATION Cell_PART
  EVENT_INPUT
    Run;
    CNF;
    OFF;
  END_EVENT
  EVENT_OUTPUT
    B_CNF;
  END_EVENT
  VAR_INPUT
    OUT : ARRAY [0..3] OF INT;
  END_VAR
  SOCKETS
    From : HANDOVER;
  END_SOCKETS
  PLUGS
    NEXT : HANDOVER;
  END_PLUGS
  FBS
    // The second one
    // and the third one
    B : STEP;
    C : STEP;
  END_FBS
  EVENT_CONNECTIONS
    Run TO B.REQ;
    CNF TO B.REQ;
    CNF TO C.REQ;
    OFF TO B.OFF;
    C.CNF TO B.OFF;
    B.CNF TO B_CNF;
  END_CONNECTIONS
  DATA_CONNECTIONS
    OUT TO B.IN;
    OUT TO C.IN;
  END_CONNECTIONS
  ADAPTER_CONNECTIONS
    From TO B.BEFORE;
    B.NEXT TO C.BEFORE;
    C.NEXT TO NEXT;
  END_CONNECTIONS
END_SUBAPPLICATION
"""
REST = """\
  FBS
    A : STEP(IN := [1, 2, 3, 4]); // the first one
    (* in the middle *)

    D : STEP;
  END_FBS
  SUBAPPS PART : Cell_PART; END_SUBAPPS
  EVENT_CONNECTIONS
    Run TO A.REQ; Run TO PART.Run;
    A.CNF TO PART.CNF; // on to B
    A.CNF TO D.REQ;
    D.CNF TO PART.OFF;
    PART.B_CNF TO Done;
  END_CONNECTIONS
  DATA_CONNECTIONS
    (* All get the same. *)
    A.OUT TO PART.OUT; A.OUT TO D.IN;
  END_CONNECTIONS
  ADAPTER_CONNECTIONS From TO PART.From; PART.NEXT TO D.BEFORE; END_CONNECTIONS
END_SUBAPPLICATION
"""
LINE = """\
SYSTEM Line
  APPLICATION App SUBAPPS One : Cell; Other : Cell; END_SUBAPPS END_APPLICATION
  DEVICE D : PLC RESOURCE R : EMBEDDED END_RESOURCE RESOURCE S : EMBEDDED END_RESOURCE END_DEVICE
  MAPPINGS App ON D.R; App.One.B ON D.S; App.other.c ON D.S; App.Other.D ON D.S; END_MAPPINGS
END_SYSTEM
"""
TEXTS = {
    "STEP": BLOCK.format(name="STEP", data="ARRAY[0..3] OF INT"),
    "HANDOVER": (CONVEYOR / "HANDOVER.fb").read_text(),
    "ITEM": (CONVEYOR / "ITEM.fb").read_text(),
    "Cell": CELL,
    "Line": LINE,
}


def instances(text: Text) -> list[Declaration]:
    return [it for it in text.unit.declared if it.section in ("FBS", "SUBAPPS")]


def extract(texts: dict[str, str], unit: str, *names: str) -> Extraction:
    plant = plant_of(texts)
    text = plant.declaring(unit.upper())[0]
    return extracted(plant, text, [it for it in instances(text) if it.words in names], {})


def after(texts: dict[str, str], it: Extraction) -> dict[str, str]:
    return {**texts, **{text.words: new for text, new in it.changed}, it.name: it.text}


class Networks:
    """Faults, networks and plans of texts, in which the new instances have no names of their own."""

    def __init__(self, session: Session, texts: dict[str, str], new: str):
        its = {name.upper(): text for name, text in texts.items()}
        self.faults = {name: faults for name, faults in faults_of(session, its).items() if faults}
        self.nets = {name: self.net(session, name, new) for name in its if its[name].lstrip().startswith(("SUBAPPLICATION", "SYSTEM"))}
        self.plans = {name: self.plan(session, name, new) for name in its if its[name].lstrip().startswith("SYSTEM")}

    def net(self, session: Session, name: str, new: str) -> object:
        it = session.net(name)
        assert isinstance(it, Flat), (name, it)
        return [sorted(str(one).replace(new, "") for one in those) for those in (it.blocks, it.links, it.borders)]

    def plan(self, session: Session, name: str, new: str) -> object:
        it = session.deploy(name)
        assert isinstance(it, Plan), (name, it)
        cuts, resources = sorted(str(one).replace(new, "") for one in it.cuts), it.resources
        return cuts, [(one.name, sorted(command.replace(new, "") for command in one.commands)) for one in resources]


class ExtractTest(unittest.TestCase):
    """The texts that come of it."""

    def setUp(self) -> None:
        self.session = self.enterContext(Session.script(workbench()))

    def check(self, texts: dict[str, str], it: Extraction) -> None:
        """No fault is new, and networks and plans are the same but for the paths."""
        before, now = Networks(self.session, texts, "PART."), Networks(self.session, after(texts, it), "PART.")
        self.assertEqual((now.faults, before.faults), ({}, {}))
        del now.nets[it.name.upper()]
        self.assertEqual((now.nets, now.plans), (before.nets, before.plans), it)

    def test_ports_and_connections_on_both_sides(self) -> None:
        """Events, data and adapters, own ports, several destinations and several sources across the border, comments, several items in a line."""
        found = extract(TEXTS, "Cell", "B", "C")
        self.assertEqual((found.title, found.text), ("Extract B and C into a subapplication Cell_PART", PART))
        self.check(TEXTS, found)

    def test_what_stays(self) -> None:
        found = after(TEXTS, extract(TEXTS, "Cell", "B", "C"))
        self.assertEqual(found["Cell"], CELL[: CELL.index("  FBS")] + REST)

    def test_mappings_lead_through_the_new_one(self) -> None:
        found = after(TEXTS, extract(TEXTS, "Cell", "B", "C"))
        self.assertEqual(found["Line"], LINE.replace("One.B", "One.PART.B").replace("other.c", "other.PART.c"))

    def test_any_part_of_plants(self) -> None:
        conveyor = {it.stem: it.read_text() for it in CONVEYOR.glob("*.fb")}
        for texts, unit in (conveyor, "PLANT"), (conveyor, "STATION"), (hall(), "HALL"), (hall(), "CELL_B"), (TEXTS, "Cell"):
            names = [it.words for it in instances(plant_of(texts).declaring(unit.upper())[0])]
            for number in range(1, 2 ** len(names)):
                with self.subTest(unit=unit, number=number):
                    self.check(texts, extract(texts, unit, *(name for at, name in enumerate(names) if number >> at & 1)))

    def test_random_parts_of_random_plants(self) -> None:
        chance = random.Random(8)
        for texts in so_many(sound_libraries(8), 300):
            plant = plant_of(texts)
            text = chance.choice([it for it in plant.texts() if it.kind in ("SUBAPPLICATION", "SYSTEM")])
            scope = chance.choice(sorted({it.key.scope for it in instances(text)}))
            of = [it for it in instances(text) if it.key.scope == scope]
            self.check(texts, extracted(plant, text, chance.sample(of, chance.randint(1, len(of))), {}))

    def test_line_ends_stay(self) -> None:
        texts = {name: text.replace("\n", "\r\n") for name, text in TEXTS.items()}
        found = extract(texts, "Cell", "B", "C")
        self.assertEqual((found.text, after(texts, found)["Cell"]), (PART.replace("\n", "\r\n"), (CELL[: CELL.index("  FBS")] + REST).replace("\n", "\r\n")))


class NamesTest(unittest.TestCase):
    def test_names_that_are_taken(self) -> None:
        """By an instance, by an unknown name, by a unit, by a use of one, by a file, by a unit of the team."""
        taken = CELL.replace("D : STEP;", "Part : STEP; D : Cell_Part2;").replace("B.CNF TO Done;", "B.CNF TO Part2.REQ;")
        plant = plant_of({**TEXTS, "Cell": taken, "Cell_Part": PART})
        text = plant.declaring("CELL")[0]
        found = extracted(plant, text, instances(text)[:1], {"CELL_PART3": ""})
        self.assertIn("  SUBAPPS PART3 : Cell_PART4; END_SUBAPPS\n", dict((it.words, new) for it, new in found.changed)["Cell"])

    def test_names_of_ports_are_no_reserved_words(self) -> None:
        block = "FUNCTION_BLOCK Two EVENT_OUTPUT Input; END_EVENT EVENT_INPUT Go; END_EVENT END_FUNCTION_BLOCK"
        cell = "SUBAPPLICATION Cell FBS A : Two; Event : Two; C : Two; END_FBS EVENT_CONNECTIONS A.Input TO C.Go; Event.Input TO C.Go; END_CONNECTIONS END_SUBAPPLICATION"
        found = extract({"Two": block, "Cell": cell}, "Cell", "A", "Event")
        self.assertIn("EVENT_OUTPUT\n    Input;\n    Input2;\n", found.text)

    def test_why_it_is_not_done(self) -> None:
        twice = LINE.replace("APPLICATION App", "APPLICATION App FBS One : STEP; END_FBS END_APPLICATION APPLICATION App")
        two = LINE.replace("END_APPLICATION", "END_APPLICATION APPLICATION B FBS One : STEP; END_FBS END_APPLICATION")
        systems = {f"Line{at}": LINE.replace("Line", f"Line{at}") for at in range(15)}
        for changed, unit, words in (
            ({"Cell": CELL.replace("A : STEP", "A : SETP")}, "Cell", "the port A.CNF, which a connection across the border begins with, is not known"),
            ({"Cell": CELL.replace("D : STEP", "B : STEP")}, "Cell", "B is declared more than once"),
            ({"Line": two}, "Line", "the instances are of more than one application"),
            ({"Line": twice.replace("SUBAPPS One : Cell; Other : Cell; END_SUBAPPS", "FBS B : STEP; END_FBS").replace("FBS One", "FBS X")}, "Line", "the application APP is declared more than once"),
            ({"Other": CELL}, "Cell", "more than one file declares CELL"),
            (systems, "Cell", "this takes 18 changes, and a commit has at most 16"),
            ({"Cell": CELL + f"(* {' ' * 65_000} *)"}, "Cell", r"Cell would have 65,\d+ bytes, and the text of a unit has at most 65,536"),
        ):
            with self.subTest(words=words), self.assertRaisesRegex(CantExtract, words):
                extract({**TEXTS, **changed}, unit, "B", "C", "One")

    def test_a_system_of_the_team_that_has_no_file_here(self) -> None:
        """It could not be changed: its mappings must not name what moves."""
        plant = plant_of({name: text for name, text in TEXTS.items() if name != "Line"})
        text = plant.declaring("CELL")[0]
        a, b, _, d = instances(text)
        self.assertEqual(extracted(plant, text, [a], {"LINE": LINE}).name, "Cell_PART")
        for it in b, d:
            with self.assertRaisesRegex(CantExtract, f"^LINE, which has no file here, may map {it.words}$"):
                extracted(plant, text, [a, it], {"LINE": LINE})

    def test_only_in_networks_that_may_have_subapplications(self) -> None:
        composite = CELL.replace("SUBAPPLICATION", "FUNCTION_BLOCK")
        for text in (composite, TEXTS["STEP"], CELL.replace("B.CNF TO Done;", "B.CNF Done;")):
            self.assertEqual(chosen(plant_of({"Cell": text}).declaring(text.split()[1].upper())[0], 0, len(text)), [])


class ActionTest(LspTest):
    """What an editor is offered."""

    def started(self, can: dict | None = None, **changed: str) -> Editor:
        for name, text in {**TEXTS, **changed}.items():
            self.write(f"{name}.fb", text)
        server = self.editor()
        server.start(self.folder, CAN_CREATE if can is None else can)
        server.open(self.folder / "Cell.fb")
        server.await_codes(Cell=[])
        until(lambda: server.ask("codeLens", self.folder / "Cell.fb"))  # All texts are read then.
        return server

    def offered(self, server: Editor, first: str, last: str, only: list[str] | None = None) -> list[dict]:
        """The actions for a selection between words."""
        text = (self.folder / "Cell.fb").read_text()
        span = range_of(Places(text), text.index(first), text.index(last) + len(last))
        context: dict[str, list[str]] = {"diagnostics": [], **({"only": only} if only else {})}
        its = server.ask("codeAction", self.folder / "Cell.fb", range=span, context=context)
        return [it for it in its if it["kind"] == "refactor.extract"]

    def test_one_edit_with_a_new_file(self) -> None:
        server = self.started()
        (action,) = self.offered(server, "B : STEP", "C : STEP")
        self.assertEqual(action["title"], "Extract B and C into a subapplication Cell_PART")
        created, *changes = action["edit"]["documentChanges"]
        self.assertEqual((created["kind"], Path(created["uri"]).name), ("create", "Cell_PART.fb"))
        for it in changes:
            file = self.folder / Path(it["textDocument"]["uri"]).name
            file.write_text(edited(file.read_text() if file.exists() else "", it["edits"]))
        self.assertEqual((self.folder / "Cell_PART.fb").read_text(), PART)
        told = run("check", ".", "--plans", "--program", workbench(), folder=self.folder).stdout
        self.assertIn("\n6 units, no faults\n", told)
        self.assertTrue(told.endswith("\nnetworks of subapplications: 2 of 2, plans of systems: 1 of 1\n"), told)

    def test_by_the_kind_that_is_asked_for(self) -> None:
        server = self.started()
        found = {kind: len(self.offered(server, "B : STEP", "C : STEP", [kind])) for kind in ("refactor", "refactor.extract", "refactor.extract.x", "quickfix", "ref")}
        self.assertEqual(found, {"refactor": 1, "refactor.extract": 1, "refactor.extract.x": 0, "quickfix": 0, "ref": 0})
        self.assertEqual(self.offered(server, "Run;", "Run;"), [])

    def test_not_where_the_editor_makes_no_files(self) -> None:
        self.assertEqual(self.offered(self.started({}), "B : STEP", "C : STEP"), [])

    def test_why_not_for_a_selection_alone(self) -> None:
        can: dict = {**CAN_CREATE, "textDocument": {"codeAction": {"disabledSupport": True}}}
        systems = {f"Line{at}": LINE.replace("Line", f"Line{at}") for at in range(15)}
        why = "this takes 18 changes, and a commit has at most 16"
        cases: list[tuple[dict, dict]] = [(CAN_CREATE, {}), (can, {"disabled": {"reason": why}})]
        for it, disabled in cases:
            server = self.started(it, **systems)
            expected = [{"title": f"Extract a subapplication: {why}", "kind": "refactor.extract", **disabled}]
            self.assertEqual(self.offered(server, "B : STEP", "C : STEP"), expected)
            self.assertEqual(self.offered(server, "B : STEP", ""), [])


if __name__ == "__main__":
    unittest.main()
