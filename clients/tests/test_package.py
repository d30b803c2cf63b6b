"""The programs as scripts of the repository, and the package as pip installs it."""
from __future__ import annotations

import ast
import os
import shutil
import subprocess
import sys
import tomllib
import unittest
from pathlib import Path

from support import CLIENTS, CONVEYOR, InFolder, run, workbench

from bench61499.board.server import read_page

PROGRAMS = sorted(it.name for it in CLIENTS.iterdir() if it.is_file() and os.access(it, os.X_OK))


class ScriptsTest(unittest.TestCase):
    def test_all_are_one_script_and_run_the_program_of_their_name(self) -> None:
        scripts = {(CLIENTS / name).read_text() for name in PROGRAMS}
        self.assertEqual(len(scripts), 1)
        for name in PROGRAMS:
            self.assertIn(f"usage: {name} ", run(name, "--help").stdout)

    def test_each_tells_the_version_of_the_package(self) -> None:
        version = tomllib.loads((CLIENTS / "pyproject.toml").read_text())["project"]["version"]
        for name in PROGRAMS:
            ran = run(name, "--version")
            self.assertEqual((ran.returncode, ran.stdout, ran.stderr), (0, f"{name} of bench61499 {version}\n", ""))

    def test_an_older_python_can_read_them_and_is_refused_in_one_sentence(self) -> None:
        words = "import runpy, sys; sys.version_info = (3, 8, 2, 'final', 0); sys.path[0] = ''; runpy.run_path(sys.argv[1], run_name='__main__')"
        for name in PROGRAMS:
            ast.parse((CLIENTS / name).read_text(), feature_version=(3, 6))
            done = subprocess.run([sys.executable, "-c", words, CLIENTS / name], capture_output=True, text=True)
            self.assertEqual((done.stdout, done.stderr, done.returncode), ("", f"{name}: needs Python 3.11 or newer; this is 3.8.2\n", 2))


def files_of(folder: Path) -> set[str]:
    return {str(it.relative_to(folder)) for it in folder.rglob("*") if it.is_file() and "__pycache__" not in it.parts}


class InstalledTest(InFolder):
    def test_pip_installs_the_library_the_programs_and_the_page_without_a_network(self) -> None:
        home = self.installed()
        checked = self.run_in(home, "bench61499-check", CONVEYOR, "--program", workbench())
        self.assertEqual((checked.stdout, checked.returncode), ("7 units, no faults\n", 0))
        for name in PROGRAMS:
            self.assertIn("usage: ", self.run_in(home, f"bench61499-{name}", "--help").stdout)
        words = "import bench61499.board.server as it; print(it.__file__); print(it.read_page(), end='')"
        file, _, page = self.run_in(home, "python", "-c", words).stdout.partition("\n")
        self.assertTrue(Path(file).is_relative_to(home), file)
        self.assertEqual(files_of(Path(file).parents[1]), files_of(CLIENTS / "python" / "bench61499"))
        self.assertEqual(page, read_page())

    def test_an_editable_one_is_used_where_it_is(self) -> None:
        home = self.installed("--editable")
        file = self.run_in(home, "python", "-c", "import bench61499; print(bench61499.__file__)").stdout.strip()
        self.assertEqual(Path(file), self.folder / "clients" / "python" / "bench61499" / "__init__.py")
        self.assertIn("usage: ", self.run_in(home, "bench61499-plan", "--help").stdout)

    def installed(self, *words: str) -> Path:
        """A new environment with nothing but the package, and pip until then."""
        home, source = self.folder / "environment", self.folder / "clients"
        subprocess.run([sys.executable, "-m", "venv", home], check=True)
        shutil.copytree(CLIENTS, source, ignore=shutil.ignore_patterns("__pycache__", "tests", "pictures"))
        done = self.run_in(home, "python", "-m", "pip", "install", "-q", "--no-index", *words, source)
        self.assertEqual(done.returncode, 0, done.stderr)
        return home

    def run_in(self, home: Path, program: str, *words: object, **surroundings: str) -> subprocess.CompletedProcess[str]:
        clean = {name: value for name, value in os.environ.items() if name != "PYTHONPATH"}
        return subprocess.run([home / "bin" / program, *map(str, words)], cwd=self.folder, env={**clean, **surroundings}, capture_output=True, text=True)


class EntryPointsTest(unittest.TestCase):
    def test_each_program_has_one(self) -> None:
        project = tomllib.loads((CLIENTS / "pyproject.toml").read_text())["project"]
        self.assertEqual(project["scripts"], {f"bench61499-{name}": f"bench61499.cli.{name}:main" for name in PROGRAMS})


if __name__ == "__main__":
    unittest.main()
