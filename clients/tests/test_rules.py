"""The rules of `pyproject.toml` for the package and its tests."""
from __future__ import annotations

import shutil
import subprocess
import unittest

from support import CLIENTS


class RulesTest(unittest.TestCase):
    def hold(self, checker: str, *words: str) -> None:
        """Runs a checker, which has to find nothing."""
        if not shutil.which(checker):
            self.skipTest(f"{checker} is not installed")
        ran = subprocess.run([checker, *words], cwd=CLIENTS, stdout=subprocess.PIPE, stderr=subprocess.STDOUT, text=True)
        self.assertEqual(ran.returncode, 0, f"{checker} finds\n{ran.stdout}")

    def test_mypy(self) -> None:
        self.hold("mypy")

    def test_pyflakes(self) -> None:
        self.hold("pyflakes3", "python", "tests")

    def test_pylint(self) -> None:
        self.hold("pylint", "--score=n", "python/bench61499", *sorted(map(str, (CLIENTS / "tests").glob("*.py"))))


if __name__ == "__main__":
    unittest.main()
