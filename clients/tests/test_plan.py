"""Plans of systems, as `plan` prints them."""
from __future__ import annotations

import unittest

from support import InFolder, hosting, run, serving, workbench

from bench61499 import Session
from bench61499.cli.looking import ONLY_ASKED

SCREEN = """SOUTH.SCREEN:
  CREATE FB LINE.PANEL LAMP
  WRITE LINE.PANEL.DELAY T#250ms
  WRITE LINE.PANEL.TEXT 'line 1'
  START SOUTH.SCREEN
"""


class PlanTest(InFolder):
    def setUp(self) -> None:
        super().setUp()
        self.copy_conveyor()

    def told(self, status: int, *words: object) -> str:
        """What is printed, or on standard error where the status is not 0."""
        ran = run("plan", *words, "--files", ".", "--program", workbench(), folder=self.folder)
        self.assertEqual(ran.returncode, status, ran.stderr)
        return ran.stderr if status else ran.stdout

    def test_whole_plan(self) -> None:
        lines = self.told(0, "PLANT").splitlines()
        self.assertEqual(lines[:2], ["between resources:", "  event LINE.FIRST.LIFT.LIFTED -> LINE.SECOND.BELT.START"])
        self.assertEqual([it for it in lines[1:] if not it.startswith(" ")], ["NORTH.MOTION:", "SOUTH.MOTION:", "SOUTH.SCREEN:"])
        self.assertEqual("\n".join(lines[-5:]) + "\n", SCREEN)

    def test_one_resource(self) -> None:
        self.assertEqual(self.told(0, "plant", "--resource", "south.screen"), SCREEN)
        self.assertIn("PLANT has no resource NORTH.SCREEN; it has NORTH.MOTION", self.told(2, "PLANT", "--resource", "NORTH.SCREEN"))

    def test_no_plan(self) -> None:
        self.assertEqual(self.told(1, "STATION"), "plan: STATION is a subapplication; only systems have plans\n")
        self.edit("PLANT.fb", "LINE.PANEL ON SOUTH.SCREEN;", "LINE.LAMP ON SOUTH.SCREEN;")
        wanted = "plan: PLANT has no plan:\n  no mapping gives LINE.PANEL a resource\n  a mapping is of LINE.LAMP, which is not there\n"
        self.assertEqual(self.told(1, "PLANT"), wanted)
        self.edit("FEEDER.fb", "DONE TO IDLE", "DONE TO IDEL")
        self.assertIn("absent or have faults: FEEDER", self.told(1, "PLANT"))

    def test_texts_that_spell_no_unit(self) -> None:
        self.edit("PLANT.fb", "END_MAPPINGS", "")
        wanted = "plan: PLANT has no plan, as its text has a SYNTAX fault; check shows it\n"
        self.assertEqual(self.told(1, "PLANT"), wanted)
        with serving(sessions=2) as port:
            run("check", ".", "--connect", f":{port}", "--replace", folder=self.folder)
            self.assertEqual(run("plan", "PLANT", "--connect", f":{port}").stderr, wanted)

    def test_a_system_without_resources(self) -> None:
        self.write("NONE.fb", "SYSTEM NONE END_SYSTEM")
        ran = run("plan", "NONE", "--files", "NONE.fb", "--program", workbench(), folder=self.folder)
        self.assertEqual((ran.returncode, ran.stdout), (0, ""))
        self.assertEqual(ran.stderr, "plan: NONE has no resources, and so there is nothing to tell them\n")
        self.assertEqual(self.told(2, "NONE", "--resource", "A.B"), "plan: NONE has no resource A.B; it has none\n")

    def test_misuse(self) -> None:
        self.assertIn("no file declares the unit NOTHING", self.told(2, "NOTHING"))
        self.assertIn("--files FOLDER, or --connect", run("plan", "PLANT").stderr)
        self.assertIn("an empty word names no file or folder", run("plan", "PLANT", "--files", "").stderr)

    def test_units_that_are_in_the_workbench(self) -> None:
        with serving(sessions=2) as port:
            self.assertEqual(run("check", ".", "--connect", f":{port}", "--replace", folder=self.folder).returncode, 0)
            ran = run("plan", "PLANT", "--resource", "SOUTH.SCREEN", "--connect", f":{port}")
        self.assertEqual((ran.returncode, ran.stdout, ran.stderr), (0, SCREEN, ""))

    def test_a_workbench_that_others_use_is_only_asked(self) -> None:
        def screen(*words: str) -> tuple[int, str, str]:
            ran = run("plan", "PLANT", "--resource", "SOUTH.SCREEN", "--files", ".", "--connect", f":{port}", *words, folder=self.folder)
            return ran.returncode, ran.stdout, ran.stderr

        with serving(5) as port, Session.connect("127.0.0.1", port) as other:
            self.assertEqual(screen(), (1, "", f"{ONLY_ASKED}\nplan: the workbench has no system PLANT\n"))
            self.assertEqual(other.revision("PLANT"), 0)
            self.assertEqual(screen("--replace"), (0, SCREEN, ""))
            there = other.revision("PLANT")
            self.edit("PLANT.fb", "T#250ms", "T#1s")
            self.assertEqual(screen(), (0, SCREEN, f"{ONLY_ASKED}\n"))
            self.assertEqual(other.revision("PLANT"), there)
            self.assertEqual(screen("--replace"), (0, SCREEN.replace("T#250ms", "T#1s"), ""))

    def test_files_are_compared_with_the_texts_of_a_host(self) -> None:
        def screen(*words: str) -> tuple[int, str, str]:
            ran = run("plan", "PLANT", "--resource", "SOUTH.SCREEN", "--connect", f":{port}", *words, folder=self.folder)
            return ran.returncode, ran.stdout, ran.stderr

        def refused(words: str) -> tuple[int, str, str]:
            return 2, "", f"plan: the workbench has other texts than the files: {words}\n"

        with hosting() as port, Session.connect("127.0.0.1", port) as other:
            self.assertEqual(screen(), (1, "", "plan: the workbench has no system PLANT\n"))
            self.assertEqual(screen("--files", "."), refused("only here: FEEDER, HANDOVER, ITEM, LAMP, LIFTER, PLANT, STATION"))
            status, printed, told = screen("--files", ".", "--replace")
            self.assertEqual((status, printed), (0, SCREEN))
            self.assertRegex(told, r"^committed as session \d+, commit 1: FEEDER, HANDOVER, ITEM, LAMP, LIFTER, PLANT, STATION\n$")
            calls = other.status().calls
            self.assertEqual(screen("--files", "."), (0, SCREEN, ""))
            self.edit("PLANT.fb", "T#250ms", "T#1s")
            (self.folder / "LAMP.fb").unlink()
            self.write("OTHER.fb", "FUNCTION_BLOCK OTHER END_FUNCTION_BLOCK")
            self.assertEqual(screen("--files", "."), refused("differs: PLANT; only there: LAMP"))
            self.assertEqual(screen(), (0, SCREEN, ""))
            self.assertEqual(run("plan", "STATION", "--connect", f":{port}").stderr, "plan: STATION is a subapplication; only systems have plans\n")
            self.assertEqual(other.status().calls, calls)
            status, printed, told = screen("--files", ".", "--replace")
            self.assertRegex(told, r"^committed as session \d+, commit 2: OTHER, PLANT\n")
            self.assertEqual((status, printed, told.partition("\n")[2]), refused("only there: LAMP"))
            self.write("OTHER.fb", "FUNCTION_BLOCK OTHER\n<<<<<<< mine\n=======\n>>>>>>> theirs\nEND_FUNCTION_BLOCK")
            there = other.revision("OTHER")
            words = "plan: OTHER.fb:2: has the marked lines of a conflict, and is not committed until they are gone\n"
            self.assertEqual((screen("--files", ".", "--replace"), other.revision("OTHER")), ((2, "", words), there))

    def test_what_replace_goes_with(self) -> None:
        for words in (["--files", "."], ["--connect", ":9"]):
            ran = run("plan", "PLANT", *words, "--replace", folder=self.folder)
            self.assertEqual((ran.returncode, ran.stderr.splitlines()[-1]), (2, "plan: error: --replace goes with --connect and --files"))


if __name__ == "__main__":
    unittest.main()
