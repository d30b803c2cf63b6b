"""Subapplications in the picture of a network: which are open, and what closed ones are drawn as."""
from __future__ import annotations

import unittest
from collections.abc import Mapping

from hall import hall
from support import TestCase, workbench

from bench61499 import Deploy, Flat, Plan, Put, Session, batches
from bench61499.language.levels import ALL, AUTO, MOST_SHOWN, NONE, Levels
from bench61499.language.picture import Picture

PATHS = ["L.A.X", "L.A.IN.X", "L.A.IN.Y", "L.B.X", "L.Z"]


class LevelsTest(TestCase):
    def shown(self, levels: Levels) -> list[str]:
        return list(dict.fromkeys(map(levels.box_of, PATHS)))

    def test_open_and_closed(self) -> None:
        cases = {NONE: ["L.A", "L.B", "L.Z"], ALL: PATHS, AUTO: PATHS, "l.a": ["L.A.X", "L.A.IN", "L.B", "L.Z"], "L.A.IN": ["L.A", "L.B", "L.Z"], "L.NO,L.A,L.A.IN": [*PATHS[:3], "L.B", "L.Z"]}
        for wanted, expected in cases.items():
            self.assertEqual(self.shown(Levels(PATHS, True, wanted)), expected, wanted)
        self.assertEqual(self.shown(Levels(PATHS, False, NONE)), ["L"])
        self.assertEqual(Levels(PATHS, True).frames_of("L.A.IN.X"), ["L.A", "L.A.IN"])

    def test_as_many_levels_as_can_be_read(self) -> None:
        deep = [f"L.A{at}.B{by}.C{it}" for at in range(4) for by in range(MOST_SHOWN // 4) for it in range(2)]
        self.assertEqual(Levels(deep, True).open, frozenset(f"L.A{at}" for at in range(4)))
        wide = [f"L.A{at}.B" for at in range(MOST_SHOWN + 1)]
        self.assertEqual(Levels(wide, True).open, frozenset())


class PictureTest(TestCase):
    def picture(self, unit: str, texts: Mapping[str, str], opened: str) -> dict:
        with Session.script(workbench()) as session:
            for batch in batches(Put(name, 0, text) for name, text in texts.items()):
                session.commit(batch)
            net = session.wait("net", unit)
            deploy: Deploy | None = session.wait("deploy", unit) if unit == "HALL" else None
        assert isinstance(net, Flat)
        self.net, self.deploy = net, deploy
        return Picture(unit, texts, net, deploy, 1.5, opened).view()

    def test_closed_subapplications_are_boxes_and_their_links_bundles(self) -> None:
        view = self.picture("HALL", hall(), NONE)
        self.assertEqual([(it[0], it[1], it[2], it[9]) for it in view["boxes"]],
                         [("FILLING.A", "8 blocks", "LEFT.ONE", 8), ("FILLING.C", "4 blocks", "RIGHT.ONE", 4), ("FILLING.LAST", "STEP_13", "RIGHT.TWO", 0)])
        names = [it[0] for it in view["boxes"]]
        self.assertEqual(sorted((it[0], names[it[1]], names[it[4]], it[8], it[10]) for it in view["wires"]), [
            ("data", "FILLING.A", "FILLING.C", True, 1), ("data", "FILLING.C", "FILLING.LAST", True, 1),
            ("event", "FILLING.A", "FILLING.C", True, 1), ("event", "FILLING.C", "FILLING.LAST", True, 1)])
        self.assertEqual((len(view["hidden"]), view["hidden"][0], view["levels"], view["folds"]), (12, ["FILLING.A.S0", "STEP_01", "LEFT.ONE", 0], 3, []))

    def test_frames_hold_what_is_in_them_and_nothing_overlaps(self) -> None:
        for opened, frames in ((ALL, ["FILLING.A", "FILLING.A.INNER", "FILLING.C"]), ("FILLING.A", ["FILLING.A"]), (NONE, [])):
            view = self.picture("HALL", hall(), opened)
            self.assertEqual(sorted(it[0] for it in view["folds"]), frames)
            boxes = {it[0]: it[4:8] for it in view["boxes"]}
            for path, _, *frame in view["folds"]:
                for name, box in boxes.items():
                    self.assertEqual(self.is_in(box, frame), name.startswith(f"{path}."), (path, name))
            for name, one in boxes.items():
                self.assertFalse([it for it, other in boxes.items() if it != name and self.overlap(one, other)], name)

    def is_in(self, box: list, frame: list) -> bool:
        (x, y, w, h), (left, top, width, height) = box, frame
        return left <= x and top <= y and x + w <= left + width + 1 and y + h <= top + height + 1

    def overlap(self, one: list, other: list) -> bool:
        return all(one[at] < other[at] + other[at + 2] and other[at] < one[at] + one[at + 2] for at in (0, 1))

    def test_all_links_are_drawn_once_however_it_is_opened(self) -> None:
        for unit in ("HALL", "CELL_A"):
            for opened in (ALL, NONE, "FILLING.A", "INNER"):
                view = self.picture(unit, hall(), opened)
                levels = Levels([it.path for it in self.net.blocks], unit == "HALL", opened)
                blocks = {it.path for it in self.net.blocks}
                inner = sum(self.shown(levels, it.source) == self.shown(levels, it.destination) not in blocks for it in self.net.links)
                self.assertEqual(sum(it[10] for it in view["wires"]), len(self.net.links) - inner + len(self.net.borders), (unit, opened))
                if isinstance(self.deploy, Plan):
                    self.assertEqual(sum(it[10] for it in view["wires"] if it[8]), len(self.deploy.cuts))

    def shown(self, levels: Levels, place: str) -> str:
        """What the block of a port is shown as."""
        return levels.box_of(next(path for cut in (1, 2) if (path := ".".join(place.split(".")[:-cut])) in {it.path for it in self.net.blocks}))


if __name__ == "__main__":
    unittest.main()
