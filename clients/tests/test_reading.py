"""lsp: what it answers while a folder is read: at once, by what is read, and right as soon as it can."""
from __future__ import annotations

import json
import math
import time
import unittest
from collections.abc import Iterator
from itertools import islice
from pathlib import Path
from unittest.mock import patch

from generated import faulty_libraries, sound_libraries
from structures import structured_libraries
from support import InFolder

from bench61499 import NoWorkbench
from bench61499.language.declarations import TYPE, Key, Use
from bench61499.language.plant import Plant, Text
from bench61499.language.reader import read
from bench61499.lsp.server import Server

LIBRARIES = 6
PAST = -math.inf


def libraries() -> Iterator[dict[str, str]]:
    for make in (faulty_libraries, sound_libraries, structured_libraries):
        yield from islice(make(7), LIBRARIES)


def plant_of(texts: dict[str, str]) -> Plant:
    plant = Plant()
    for name, text in texts.items():
        plant.put(Path(f"/plant/{name}.fb"), text)
    return plant


def uses(plant: Plant, key: Key) -> list[tuple[Path, list[Use]]]:
    return [(text.file, found) for text, found in plant.uses(key)]


class PlantTest(unittest.TestCase):
    def test_heads(self):
        """The head of a text, which is read first, is that of its unit: of whole texts, and of fronts of them."""
        for texts in libraries():
            for name, whole in texts.items():
                for text in (whole, whole[: len(name) + 8], whole[:20], whole.replace(name, "(* \u00e4 *)\r\n", 1)):
                    head, unit = Text(Path(f"/plant/{name}.fb"), text), read(text)
                    self.assertEqual((head.kind, head.name), (unit.kind, unit.name), text)
                    place = next(head.written_locations(unit.declared[:1])) if unit.kind and unit.name != "-" else None
                    self.assertEqual(head.head, place)

    def test_uses_before_all_is_read(self):
        """What uses a name is read when somebody asks for it; the texts that can't use it are not."""
        spared = 0
        for texts in libraries():
            whole = plant_of(texts)
            whole.refresh()
            keys = {whole.key(use) for text in whole.texts() for use in text.unit.uses} | {it.key for text in whole.texts() for it in text.unit.declared}
            for key in sorted(keys):
                fresh = plant_of(texts)
                self.assertEqual(uses(fresh, key), uses(whole, key), key)
                self.assertFalse(fresh.missed)
                spared += len(texts) - fresh.counts()[0]
        self.assertGreater(spared, 500)

    def test_no_time(self):
        """Without time, what is read already is found, and it is reported that there is more."""
        block = "FUNCTION_BLOCK %s FBS X : A; END_FBS END_FUNCTION_BLOCK"
        plant = plant_of({name: block % name for name in ("B", "C", "D")})
        plant.until = PAST
        key = Key("A", TYPE, "", "A")
        with patch("bench61499.language.plant.LEAST_READ", -1):
            self.assertEqual((uses(plant, key), plant.missed), ([], True))
            plant.refresh(PAST)
            self.assertEqual(len(uses(plant, key)), 1)
        plant.missed = False
        self.assertEqual(len(uses(plant, key)), 3)
        plant.refresh()
        self.assertEqual(len(uses(plant, key)), 3)
        self.assertFalse(plant.missed)

    def test_tables_for_words_last_until_a_text_changes(self):
        plant = plant_of({"A": "FUNCTION_BLOCK A VAR LEVEL : INT; END_VAR END_FUNCTION_BLOCK"})
        known = plant.known
        self.assertEqual((known.names(plant.unit("A"), "VAR").near("LEVLE"), known.units("FUNCTION_BLOCK").near("B")), ("LEVEL", None))
        plant.put(Path("/plant/A.fb"), "FUNCTION_BLOCK A VAR LEVEL : INT; END_VAR END_FUNCTION_BLOCK")
        self.assertIs(plant.known, known)
        plant.put(Path("/plant/A.fb"), "FUNCTION_BLOCK A VAR LEAVE : INT; END_VAR END_FUNCTION_BLOCK")
        self.assertEqual(plant.known.names(plant.unit("A"), "VAR").near("LEVLE"), "LEAVE")

    def test_a_text_that_stays(self):
        """A text that is put again as it is isn't read again; one that goes is not found any more."""
        plant = plant_of({"A": "FUNCTION_BLOCK A END_FUNCTION_BLOCK"})
        plant.refresh()
        kept = plant.put(Path("/plant/A.fb"), "FUNCTION_BLOCK A END_FUNCTION_BLOCK")
        self.assertEqual((plant.is_read(), plant.declaring("A")), (True, [kept]))
        plant.put(Path("/plant/A.fb"), None)
        self.assertEqual((plant.declaring("A"), uses(plant, Key("A", TYPE, "", "A")), list(plant.texts())), ([], [], []))


class AnswersTest(InFolder):
    """A server whose answers have no time to wait for what is not read, and which has no workbench."""

    def setUp(self) -> None:
        super().setUp()
        for name in "ABCDEFGH":
            self.write(f"{name}.fb", f"FUNCTION_BLOCK {name} EVENT_INPUT GO; END_EVENT FBS X : A; END_FBS END_FUNCTION_BLOCK")
        self.sent: list[dict] = []
        self.server = Server(self.no_workbench, False, self.sent.append, lambda: None)
        self.addCleanup(self.server.close)
        for what, value in (("lsp.answers.PATIENCE", PAST), ("language.plant.LEAST_READ", -1), ("lsp.sources.LEAST_FILES", 1)):
            hurry = patch(f"bench61499.{what}", value)
            hurry.start()
            self.addCleanup(hurry.stop)
        self.ask("initialize", rootUri=self.folder.as_uri())

    def no_workbench(self):
        raise NoWorkbench("there is none")

    def ask(self, method: str, **params: object) -> dict:
        self.server.handle({"id": 1, "method": method, "params": params})
        return self.sent.pop()

    def at(self, character: int) -> dict:
        return {"textDocument": {"uri": (self.folder / "A.fb").as_uri()}, "position": {"line": 0, "character": character}}

    def units(self) -> list[str]:
        return [it["name"] for it in json.loads(self.ask("workspace/symbol", query="")["result"])]

    def uses(self) -> int:
        answer = self.ask("textDocument/references", context={"includeDeclaration": True}, **self.at(15))["result"]
        return len(json.loads(answer)) if answer else 0

    def read_all(self) -> None:
        end = time.monotonic() + 60
        while self.server.patience() == 0 and time.monotonic() < end:
            self.server.step()
        self.assertIsNone(self.server.patience())

    def told(self) -> list[str]:
        told, self.sent[:] = [it["params"]["message"] for it in self.sent], []
        return told

    def test_a_search_before_all_is_there(self):
        """It gives what is there. Once all is read the user learns that there may be more, once."""
        self.assertEqual(len(self.units()), 1)
        self.assertEqual(len(self.units()), 2)
        self.read_all()
        self.assertEqual(self.told(), ["bench61499: All 8 units are read now. A search of units was answered before that and may lack some: ask again."])
        self.assertEqual(self.units(), list("ABCDEFGH"))
        self.read_all()
        self.assertEqual(self.told(), [])

    def test_all_names_are_there_before_the_texts_are_read(self):
        with patch("bench61499.language.plant.Plant.refresh"):
            for _ in range(9):
                self.server.step()
        self.assertEqual(self.server._checking.plant.counts(), (0, 8))
        self.assertEqual(self.units(), list("ABCDEFGH"))
        self.assertEqual(self.ask("textDocument/hover", **self.at(15))["result"]["contents"]["value"][:16], "FUNCTION_BLOCK A")
        self.assertLess(self.uses(), 9)
        self.read_all()
        self.assertEqual(self.told(), ["bench61499: All 8 units are read now. A search of uses was answered before that and may lack some: ask again."])
        self.assertEqual(self.uses(), 9)

    def test_no_rename_before_all_is_read(self):
        """A rename is all or nothing, so it is refused if it could lack a use."""
        for method in ("prepareRename", "rename"):
            answer = self.ask(f"textDocument/{method}", newName="B2", **self.at(15))
            self.assertRegex(answer["error"]["message"], r"^the units of this folder are still being read, 0 of \d so far: try again in a moment$")
        self.read_all()
        self.assertEqual(self.told(), [])
        changes = self.ask("textDocument/rename", newName="A2", **self.at(15))["result"]["changes"]
        self.assertEqual((len(changes), sum(map(len, changes.values()))), (8, 9))


if __name__ == "__main__":
    unittest.main()
