"""The run of an editor, as a test."""
import subprocess
import unittest

from support import CLIENTS, workbench


class EditorTest(unittest.TestCase):
    def test_neovim(self):
        ran = subprocess.run([CLIENTS / "tests" / "editor", "--program", workbench()], capture_output=True, text=True, timeout=700)
        if ran.returncode == 77:
            self.skipTest(ran.stdout.strip())
        self.assertEqual(ran.returncode, 0, ran.stdout + ran.stderr)


if __name__ == "__main__":
    unittest.main()
