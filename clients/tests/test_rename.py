"""Renames at random: all faults stay as they are."""
import random
import unittest
from collections import Counter

from generated import Library, at_tokens, checked, faults_of
from plants import file_of, plant_of
from support import workbench

from bench61499 import Session
from bench61499.language.declarations import NAMELESS, TYPE
from bench61499.language.plant import Plant
from bench61499.language.positions import edited
from bench61499.lsp.navigation import Found
from bench61499.lsp.rename import CantRename, renamed

NEW = "Renamed_1"
RENAMES = 1000


class FaultsTest(unittest.TestCase):
    def test_the_same_faults(self):
        """A name that is new everywhere: the same codes at the same tokens of all units, whatever faults they have."""
        chance, spaces = random.Random(1), Counter[str]()
        libraries = [it for it in checked() if not any("NAME_DIFFERS" in it.codes(name) for name in it.texts)]
        with Session.script(workbench()) as session:
            while spaces.total() < RENAMES:
                library = chance.choice(libraries)
                plant = plant_of(library.texts)
                found = some_name(chance, plant)
                try:
                    edit = renamed(plant, found, NEW) if found else None
                except CantRename as error:
                    self.assertIn("is declared more than once in", str(error))
                    continue
                if found and edit:
                    self.check(session, library, found, edit["changes"])
                    spaces[found.key.space] += 1
        self.assertGreaterEqual(min(spaces.values()), 3, spaces)
        self.assertEqual(len(spaces), 10, spaces)

    def check(self, session: Session, library: Library, found: Found, changes: dict) -> None:
        new = {name: edited(text, changes.get(file_of(name).as_uri(), [])) for name, text in library.texts.items()}
        names = {found.key.name: NEW.upper()} if found.key.space == TYPE else {}
        faults = faults_of(session, {names.get(name, name): text for name, text in new.items()})
        for name, text in library.texts.items():
            expected = at_tokens(text, library.faults[name])
            self.assertEqual(at_tokens(new[name], faults[names.get(name, name)]), expected, (found, text, new[name], library.texts))


def some_name(chance: random.Random, plant: Plant) -> Found | None:
    """A declared name, or a used one that something declares."""
    text = chance.choice(sorted(plant.texts(), key=lambda it: it.uri))
    declared = [Found(it.key, it.start, it.end) for it in text.unit.declared if it.key.unit != NAMELESS]
    used = [Found(plant.key(it), it.start, it.end) for it in text.unit.uses if plant.declaration(plant.key(it))]
    choice = declared if chance.random() < 0.5 else used
    return chance.choice(choice) if choice else None


if __name__ == "__main__":
    unittest.main()
