"""check --plans: the networks of all subapplications and the plans of all systems, and the place of each reason why one is missing."""
from __future__ import annotations

import json
import unittest
from collections.abc import Callable
from unittest.mock import patch

from support import InFolder, run, serving, workbench

from bench61499 import Blocked, Net, Recursive
from bench61499.language import plans
from bench61499.language.plans import Reason, Reasons
from bench61499.language.texts import Texts

LOOP = "SUBAPPLICATION {} SUBAPPS {} : {}; END_SUBAPPS END_SUBAPPLICATION"


class PlansTest(InFolder):
    def setUp(self) -> None:
        super().setUp()
        self.copy_conveyor()

    def check(self, *words: str) -> list[str]:
        """The lines that are printed, and the counts."""
        ran = run("check", ".", *words, "--program", workbench(), folder=self.folder)
        self.assertEqual(ran.stderr, "")
        lines = [it for it in ran.stdout.splitlines() if not it.startswith(" ")]
        self.assertEqual(ran.returncode, int(any(": " in it and ".fb:" in it and " SPELLING: " not in it for it in lines)))
        return lines

    def test_all_are_there(self) -> None:
        self.assertEqual(self.check("--plans"), ["7 units, no faults", "networks of subapplications: 1 of 1, plans of systems: 1 of 1"])
        self.assertEqual(self.check(), ["7 units, no faults"])

    def test_blocks_without_a_resource_and_mappings_of_nothing(self) -> None:
        self.edit("PLANT.fb", "    LINE.PANEL ON SOUTH.SCREEN;", "    line . (* so *) lamp ON SOUTH.SCREEN;")
        self.edit("PLANT.fb", "LINE.SECOND ON", "LINE.SECOND.BELT ON")
        expected = [
            "PLANT.fb:23:5: SPELLING: line is declared as LINE; tools such as 4diac tell capitals apart",
            "PLANT.fb:4:30: UNMAPPED: no mapping gives LINE.SECOND.LIFT a resource",
            "PLANT.fb:5:9: UNMAPPED: no mapping gives LINE.PANEL a resource",
            "PLANT.fb:23:5: NO_SUCH_BLOCK: a mapping is of LINE.LAMP, which is not there",
            "7 units, no faults; 3 reasons why networks or plans are missing",
            "1 name spelled in other capitals than declared",
            "networks of subapplications: 1 of 1, plans of systems: 0 of 1",
        ]
        self.assertEqual(self.check("--plans"), expected)
        self.assertEqual(self.check(), [expected[0], "7 units, no faults", expected[5]])

    def test_types_that_contain_themselves(self) -> None:
        self.write("A.fb", LOOP.format("A", "INNER", "B"))
        self.write("B.fb", LOOP.format("B", "BACK", "A"))
        self.write("C.fb", LOOP.format("C", "TOP", "D"))
        self.write("D.fb", LOOP.format("D", "DEEP", "B"))
        self.edit("PLANT.fb", "SECOND : STATION;", "SECOND : STATION; LOOP : D;")
        expected = [
            "A.fb:1:26: RECURSIVE: A contains itself: A.INNER is B, B.BACK is A",
            "B.fb:1:26: RECURSIVE: B contains itself: B.BACK is A, A.INNER is B",
            "C.fb:1:26: RECURSIVE: C has no network: A and B contain themselves",
            "D.fb:1:26: RECURSIVE: D has no network: A and B contain themselves",
            "PLANT.fb:4:48: RECURSIVE: PLANT has no plan: A and B contain themselves",
            "11 units, no faults; 5 reasons why networks or plans are missing",
            "networks of subapplications: 1 of 5, plans of systems: 0 of 1",
        ]
        self.assertEqual(self.check("--plans"), expected)

    def test_the_shortest_way_back(self) -> None:
        self.write("A.fb", LOOP.format("A", "X", "B"))
        self.write("B.fb", "SUBAPPLICATION B SUBAPPS Y : C; Z : D; END_SUBAPPS END_SUBAPPLICATION")
        self.write("C.fb", LOOP.format("C", "W", "B"))
        self.write("D.fb", LOOP.format("D", "V", "A"))
        expected = [
            "A.fb:1:26: RECURSIVE: A contains itself: A.X is B, B.Z is D, D.V is A",
            "B.fb:1:26: RECURSIVE: B contains itself: B.Y is C, C.W is B",
            "C.fb:1:26: RECURSIVE: C contains itself: C.W is B, B.Y is C",
            "D.fb:1:26: RECURSIVE: D contains itself: D.V is A, A.X is B, B.Z is D",
        ]
        self.assertEqual(self.check("--plans")[:4], expected)

    def test_units_in_the_way(self) -> None:
        """A unit whose own faults are the only reason is reported by these."""
        self.edit("FEEDER.fb", "DONE TO IDLE", "DONE TO IDEL")
        self.edit("PLANT.fb", "END_FBS", "LAST : CRANE; END_FBS")
        self.write("ALONE.fb", "SUBAPPLICATION ALONE FBS X : CRANE; END_FBS END_SUBAPPLICATION")
        self.write("BROKEN.fb", "SUBAPPLICATION BROKEN")
        expected = [
            "ALONE.fb:1:30: UNKNOWN_TYPE: there is no type CRANE",
            "ALONE.fb:1:26: BLOCKED: ALONE has no network: CRANE is absent, ALONE has faults",
            "BROKEN.fb:1:16: SYNTAX: the text ends too early, behind BROKEN: END_SUBAPPLICATION is missing",
            "FEEDER.fb:19:13: STATE_UNKNOWN: no state IDEL in this chart; did you mean IDLE?",
            "PLANT.fb:5:66: UNKNOWN_TYPE: there is no type CRANE",
            "PLANT.fb:5:59: BLOCKED: PLANT has no plan: CRANE is absent, FEEDER and PLANT have faults",
            "STATION.fb:8:5: BLOCKED: STATION has no network: FEEDER has faults",
            "4 faults in 4 of 9 units; 3 reasons why networks or plans are missing",
            "networks of subapplications: 0 of 3, plans of systems: 0 of 1",
        ]
        self.assertEqual(self.check("--plans"), expected)
        self.write("ALONE.fb", "SUBAPPLICATION ALONE EVENT_INPUT E WITH X; END_EVENT END_SUBAPPLICATION")
        self.assertEqual([it for it in self.check("--plans") if "ALONE" in it], ["ALONE.fb:1:41: WITH_UNKNOWN: no data input X to go with this event"])

    def test_too_many_instances(self) -> None:
        self.write("L0.fb", "SUBAPPLICATION L0 FBS " + "".join(f"X{at} : LAMP; " for at in range(64)) + "END_FBS END_SUBAPPLICATION")
        self.write("L1.fb", "SUBAPPLICATION L1 SUBAPPS " + "".join(f"X{at} : L0; " for at in range(64)) + "END_SUBAPPS END_SUBAPPLICATION")
        self.assertEqual(self.check("--plans")[0], "L1.fb:1:16: TOO_LARGE: L1 has no network: it has more than 4,096 instances")

    def test_a_workbench_with_other_texts(self) -> None:
        """What it answers is shown at the nearest place that the files have."""
        for name, inner, of in (("A", "INNER", "B"), ("B", "BACK", "A")):
            self.write(f"{name}.fb", LOOP.format(name, inner, of))
        with serving(sessions=2) as port:
            self.assertEqual(run("check", ".", "--connect", f":{port}", "--replace", folder=self.folder).returncode, 0)
            (self.folder / "B.fb").unlink()
            self.write("A.fb", "SUBAPPLICATION A END_SUBAPPLICATION")
            self.edit("PLANT.fb", "LINE.PANEL ON SOUTH.SCREEN;", "")
            ran = run("check", ".", "--connect", f":{port}", "--plans", "--quiet", "--trust-server", folder=self.folder)
        self.assertEqual((ran.returncode, ran.stdout), (1, "A.fb:1:16: RECURSIVE: A contains itself\n"))

    def test_a_plan_as_json(self) -> None:
        ran = run("plan", "PLANT", "--json", "--files", ".", "--program", workbench(), folder=self.folder)
        found = json.loads(ran.stdout)
        self.assertEqual((ran.returncode, set(found), found["unit"]), (0, {"unit", "cuts", "resources"}, "PLANT"))
        self.assertEqual(found["cuts"][0], {"sort": "event", "source": "LINE.FIRST.LIFT.LIFTED", "destination": "LINE.SECOND.BELT.START"})
        screen = {"resource": "SOUTH.SCREEN", "commands": ["CREATE FB LINE.PANEL LAMP", "WRITE LINE.PANEL.DELAY T#250ms", "WRITE LINE.PANEL.TEXT 'line 1'", "START SOUTH.SCREEN"]}
        self.assertEqual(found["resources"][-1], screen)
        ran = run("plan", "PLANT", "--json", "--resource", "SOUTH.SCREEN", "--files", ".", "--program", workbench(), folder=self.folder)
        self.assertEqual(json.loads(ran.stdout), {"unit": "PLANT", "cuts": [], "resources": [screen]})

    def reasons(self, unit: str) -> list[dict]:
        ran = run("plan", unit, "--json", "--files", ".", "--program", workbench(), folder=self.folder)
        self.assertEqual((ran.returncode, ran.stderr), (1, ""))
        return json.loads(ran.stdout)["reasons"]

    def test_reasons_as_json(self) -> None:
        self.assertEqual(self.reasons("STATION"), [{"explanation": "STATION is a subapplication; only systems have plans"}])
        self.edit("PLANT.fb", "LINE.PANEL ON SOUTH.SCREEN;", "")
        self.assertEqual(self.reasons("PLANT"), [{"code": "UNMAPPED", "path": "LINE.PANEL", "explanation": "no mapping gives LINE.PANEL a resource"}])
        self.edit("FEEDER.fb", "DONE TO IDLE", "DONE TO IDEL")
        blocked = {"code": "BLOCKED", "units": ["FEEDER"], "explanation": "these units are absent or have faults: FEEDER"}
        self.assertEqual(self.reasons("PLANT"), [blocked])


class ManyTest(unittest.TestCase):
    """Chains and rings of many units, as anybody can put them."""

    def told(self, net: Net, leads_to: Callable[[int], int]) -> tuple[list[Reason], int]:
        """The reasons of all of 600 units, and how many times texts were searched for what they mention."""
        texts = {f"S{number}": f"SUBAPPLICATION S{number} SUBAPPS A : S{leads_to(number)}; END_SUBAPPS END_SUBAPPLICATION" for number in range(1, 601)}
        reasons = Reasons(Texts.of(texts))
        with patch("bench61499.language.plans.mentioned_units", wraps=plans.mentioned_units) as searched:
            return [it for unit in sorted(texts) for it in reasons.of(unit, texts[unit], net)], searched.call_count

    def test_each_text_is_searched_once(self) -> None:
        found, searched = self.told(Blocked(("S0",)), lambda number: number - 1)
        self.assertEqual((len(found), {it.start for it in found}), (600, {26, 27, 28}), "each is at its instance")
        self.assertLessEqual(searched, 601)

    def test_a_ring_is_told_in_few_words(self) -> None:
        found, searched = self.told(Recursive(tuple(f"S{number}" for number in range(1, 601))), lambda number: number % 600 + 1)
        self.assertEqual((found[0].explanation, len(found)), ("S1 contains itself", 600))
        self.assertLessEqual(searched, 601)


if __name__ == "__main__":
    unittest.main()
