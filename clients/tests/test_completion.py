"""What is offered at each place, held to units without faults and to the workbench."""
import random
import unittest

from generated import faults_of, so_many, sound_libraries
from plants import plant_of
from support import workbench

from bench61499 import Session
from bench61499.language.declarations import CONNECTION_SECTIONS, DATA_TYPE, DESTINATION, TYPE, Use, Wanted
from bench61499.language.plant import Plant, Text
from bench61499.language.reader import read
from bench61499.lsp.completion import candidates, declared

OF_NAMES = {"UNKNOWN_TYPE", "WRONG_KIND", "WITH_UNKNOWN", "STATE_UNKNOWN", "EVENT_UNKNOWN", "ALGORITHM_UNKNOWN", "VARIABLE_UNKNOWN",
            "PORT_UNKNOWN", "PORT_SIDE", "PARAMETER_UNKNOWN", "NO_SUCH_RESOURCE"}
OF_DESTINATIONS = OF_NAMES | {"DATA_TYPE"}


class CompletionTest(unittest.TestCase):
    def test_each_name_is_offered(self):
        """In units without faults each used name is among those that are offered at its place."""
        count = 0
        for texts in so_many(sound_libraries(5), 150):
            plant = plant_of(texts)
            for text in plant.texts():
                for use in text.unit.uses:
                    offered = {it.words.upper() for it in candidates(plant, text, use.start)}
                    self.assertIn(use.key.name, offered, (text.text, use))
                    count += 1
        self.assertGreater(count, 3000)

    def test_what_is_offered_is_right(self):
        """Another declared name of the same sort that is offered has no fault of names either, and is of the type of the source it is joined to."""
        chance, count, joined = random.Random(1), 0, 0
        with Session.script(workbench()) as session:
            for texts in so_many(sound_libraries(6), 600):
                plant = plant_of(texts)
                for _ in range(3):
                    text = chance.choice(sorted(plant.texts(), key=lambda it: it.uri))
                    uses = [it for it in text.unit.uses if it.key.space != DATA_TYPE and not is_path(text, it)]
                    use = chance.choice(uses) if uses else None
                    wanted = read(text.places.words(0, use.start)).wanted[0] if use else None
                    others = other_names(plant, text, use, wanted) if use and wanted else []
                    if use and wanted and others:
                        new = replaced(text, use, chance.choice(others))
                        faults = faults_of(session, {**texts, text.unit.name: new})
                        is_destination = wanted.side == DESTINATION and wanted.section in CONNECTION_SECTIONS
                        wrong = OF_DESTINATIONS if is_destination else OF_NAMES
                        self.assertFalse(wrong & {it.code for it in faults[text.unit.name]}, (text.text, new))
                        count += 1
                        joined += is_destination
        self.assertGreater(count, 50)
        self.assertGreater(joined, 10)


def is_path(text: Text, use: Use) -> bool:
    """Whether a point follows: the name before it belongs to this one."""
    return text.text.encode()[use.end :].lstrip().startswith(b".")


def other_names(plant: Plant, text: Text, use: Use, wanted: Wanted) -> list[str]:
    """Names that are offered in the place of a used one, of the same section: instances too are offered where a port may be, as their ports may."""
    its = plant.declaration(plant.key(use))
    if wanted.space == TYPE or not its:
        return []
    offered = {it.words for it in candidates(plant, text, use.start)}
    others = (it for it in declared(plant, text.unit, wanted) if it.section == its.section and it.key.name != use.key.name)
    return [it.words for it in others if it.words in offered]


def replaced(text: Text, use: Use, name: str) -> str:
    encoded = text.places.encoded
    return (encoded[: use.start] + name.encode() + encoded[use.end :]).decode()


if __name__ == "__main__":
    unittest.main()
