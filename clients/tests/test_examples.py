"""The examples that are programs run the workbench that BENCH61499_PROGRAM names."""
from __future__ import annotations

import os
import subprocess
import sys
import unittest
from shlex import quote

from support import CONVEYOR, InFolder, workbench


class ExamplesTest(InFolder):
    def run_example(self, name: str) -> list[str]:
        used = self.folder / "used"
        program = self.write("program", f'#!/bin/sh\ntouch {quote(str(used))}\nexec {quote(str(workbench()))} "$@"\n')
        program.chmod(0o755)
        words = [sys.executable, str(CONVEYOR / name)]
        ran = subprocess.run(words, env={**os.environ, "BENCH61499_PROGRAM": str(program)}, capture_output=True, text=True, timeout=300)
        self.assertEqual((ran.returncode, ran.stderr, used.exists()), (0, "", True))
        return ran.stdout.splitlines()

    def test_conveyor(self) -> None:
        lines = self.run_example("conveyor.py")
        self.assertEqual(lines[0], "7 units, no faults")
        self.assertIn("FEEDER    `IDLE TO MOVE`: STATE_UNKNOWN at `MOVE`", lines)

    def test_moving(self) -> None:
        self.assertIn("the plan with the second lifter on the other controller", self.run_example("moving.py"))

    def test_a_program_that_fails(self) -> None:
        """What it says is shown, and the status is its own."""
        program = self.write("program", "#!/bin/sh\necho broken >&2\nexit 3\n")
        program.chmod(0o755)
        for name in "conveyor.py", "moving.py":
            words = [sys.executable, str(CONVEYOR / name)]
            ran = subprocess.run(words, env={**os.environ, "BENCH61499_PROGRAM": str(program)}, capture_output=True, text=True, timeout=300)
            self.assertEqual((ran.returncode, ran.stdout, ran.stderr), (3, "", "broken\n"))


if __name__ == "__main__":
    unittest.main()
