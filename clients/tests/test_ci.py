"""What build servers run: the hooks for pre-commit, and the workflow of the examples."""
from __future__ import annotations

import hashlib
import json
import os
import shutil
import subprocess
import tarfile
import unittest
from importlib import import_module
from importlib.util import find_spec
from typing import Any

from support import CLIENTS, CONVEYOR, InFolder, workbench

yaml: Any = import_module("yaml") if find_spec("yaml") else None
TOP = CLIENTS.parent


@unittest.skipUnless(yaml, "there is no PyYAML here")
class ServerTest(InFolder):
    def setUp(self) -> None:
        super().setUp()
        self.plant = self.folder / "plant"
        shutil.copytree(CONVEYOR, self.plant)
        self.surroundings = {**os.environ, "BENCH61499_PROGRAM": workbench(), "PATH": f"{CLIENTS}:{os.environ['PATH']}"}

    def spoil(self) -> None:
        """Spoils a mapping, and the layout of a unit."""
        for name, old, new in (("PLANT", "LINE.PANEL ON", "LINE.LAMP ON"), ("LAMP", "EVENT_INPUT SHOW", "EVENT_INPUT  SHOW")):
            file = self.plant / f"{name}.fb"
            file.write_text(file.read_text().replace(old, new))

    def run_words(self, *words: str) -> tuple[int, str]:
        ran = subprocess.run(words, cwd=self.folder, env=self.surroundings, capture_output=True, text=True, timeout=60)
        self.assertEqual(ran.stderr, "")
        return ran.returncode, ran.stdout


class HooksTest(ServerTest):
    def run_hooks(self) -> dict[str, tuple[int, str]]:
        """Runs each hook as pre-commit does: in the repository that is checked, with the files that have changed if it takes them."""
        changed = sorted(str(it.relative_to(self.folder)) for it in self.plant.glob("*.fb"))
        hooks = yaml.safe_load((TOP / ".pre-commit-hooks.yaml").read_text())
        self.assertTrue(all(it["language"] == "script" and it["files"] == r"\.fb$" for it in hooks))
        words = {it["id"]: [str(TOP / it["entry"]), *it.get("args", []), *(changed if it.get("pass_filenames", True) else [])] for it in hooks}
        return {name: self.run_words(*its) for name, its in words.items()}

    def test_the_example_takes_hooks_that_are_there(self) -> None:
        (example,) = yaml.safe_load((TOP / "examples" / "pre-commit-config.yaml").read_text())["repos"]
        there = {it["id"] for it in yaml.safe_load((TOP / ".pre-commit-hooks.yaml").read_text())}
        self.assertEqual({it["id"] for it in example["hooks"]}, there)
        self.assertEqual(set(example), {"repo", "rev", "hooks"})

    def test_a_sound_plant(self) -> None:
        self.assertEqual(self.run_hooks(), {"bench61499-check": (0, "7 units, no faults\nnetworks of subapplications: 1 of 1, plans of systems: 1 of 1\n"), "bench61499-format": (0, "")})

    def test_a_spoiled_plant(self) -> None:
        self.spoil()
        ran = self.run_hooks()
        self.assertEqual((ran["bench61499-check"][0], ran["bench61499-format"]), (1, (0, "plant/LAMP.fb\n")))
        self.assertEqual((self.plant / "LAMP.fb").read_text(), (CONVEYOR / "LAMP.fb").read_text())


class WorkflowTest(ServerTest):
    def steps(self) -> list[tuple[int, str]]:
        """Runs the steps that run programs of ours, as a runner does."""
        scripts = self.scripts()[1:]
        self.assertEqual(len(scripts), 3)
        return [self.run_words("bash", "-e", "-c", it) for it in scripts]

    def scripts(self) -> list[str]:
        workflow = yaml.safe_load((TOP / "examples" / "github-workflow.yml").read_text())
        return [it["run"] for it in workflow["jobs"]["check"]["steps"] if "run" in it]

    @unittest.skipUnless(shutil.which("curl"), "curl is not installed")
    def test_a_release_with_another_checksum_is_not_unpacked(self) -> None:
        with tarfile.open(self.folder / "release.tar.gz", "w:gz") as tar:
            tar.add(CLIENTS / "check", "bench61499/clients/check")
        content = (self.folder / "release.tar.gz").read_bytes()
        for sums, status in ((hashlib.sha256(content).hexdigest(), 0), ("0" * 64, 1)):
            room = self.folder / f"room{status}"
            room.mkdir()
            words = {"RELEASE": (self.folder / "release.tar.gz").as_uri(), "SHA256": sums, "RUNNER_TEMP": str(room), "GITHUB_PATH": str(room / "path")}
            ran = subprocess.run(["bash", "-e", "-c", self.scripts()[0]], env={**os.environ, **words}, capture_output=True, text=True, timeout=60)
            self.assertEqual((ran.returncode, (room / "bench61499" / "clients" / "check").exists()), (status, not status), ran.stderr)

    def test_a_sound_plant(self) -> None:
        self.assertEqual(self.steps(), [(0, ""), (0, ""), (0, "")])

    def test_a_spoiled_plant(self) -> None:
        self.spoil()
        faults, layout, sarif = self.steps()
        self.assertEqual((faults[0], len(faults[1].splitlines()), layout, sarif[0]), (1, 2, (1, "plant/LAMP.fb\n"), 0))
        self.assertEqual(len(json.loads((self.folder / "units.sarif").read_text())["runs"][0]["results"]), 2)


del ServerTest

if __name__ == "__main__":
    unittest.main()
