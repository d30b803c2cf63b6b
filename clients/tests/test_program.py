"""Which workbench the clients start: a copy of the clients is in a repository of its own."""
from __future__ import annotations

import os
import shutil
import subprocess
import sys
import time
import unittest
from pathlib import Path
from unittest.mock import patch

from editing import Editor
from support import CLIENTS, CONVEYOR, InFolder, workbench

SYSTEM = "/usr/bin:/bin"


class ProgramTest(InFolder):
    def setUp(self) -> None:
        super().setUp()
        self.top, self.bin = self.folder / "repository", self.folder / "bin"
        self.bin.mkdir()
        (self.bin / "python3").symlink_to(sys.executable)
        shutil.copytree(CLIENTS, self.top / "clients", ignore=shutil.ignore_patterns("__pycache__", "tests", "pictures"))
        self.stand_in(self.top / "run", "run")
        self.quick = self.top / "crates" / "bench61499" / "out" / "bench61499-quick"
        surroundings = {name: value for name, value in os.environ.items() if name != "BENCH61499_PROGRAM"}
        surroundings["PATH"] = f"{self.bin}:{SYSTEM}"
        surround = patch.dict(os.environ, surroundings, clear=True)
        surround.start()
        self.addCleanup(surround.stop)

    def stand_in(self, file: Path, mark: str) -> Path:
        """A program that says its mark on standard error, and then is the workbench."""
        file.parent.mkdir(parents=True, exist_ok=True)
        file.write_text(f'#!/bin/sh\necho {mark} >&2\nexec "{workbench()}" "$@"\n')
        file.chmod(0o755)
        return file

    def check(self, *words: object) -> subprocess.CompletedProcess[str]:
        return subprocess.run([self.top / "clients" / "check", CONVEYOR, *map(str, words)], capture_output=True, text=True, timeout=60)

    def test_the_first_of_option_variable_built_program_and_path_is_started(self) -> None:
        self.stand_in(self.bin / "bench61499", "on the path")
        self.assertEqual(self.check().stderr, "on the path\n")
        self.stand_in(self.quick, "quick")
        self.assertEqual(self.check().stderr.splitlines()[1:], ["quick"])
        self.stand_in(self.quick.with_name("bench61499"), "built")
        self.assertEqual(self.check().stderr, "built\n")
        os.environ["BENCH61499_PROGRAM"] = str(self.stand_in(self.folder / "variable", "variable"))
        self.assertEqual(self.check().stderr, "variable\n")
        self.assertEqual(self.check("--program", self.stand_in(self.folder / "option", "option")).stderr, "option\n")

    def test_that_the_program_is_not_proved_is_said_once_and_not_of_a_named_one(self) -> None:
        self.stand_in(self.quick, "quick")
        said = f"{self.quick} is not proved: `{self.top}/run script </dev/null` proves and builds the program, in half an hour to an hour\n"
        self.assertEqual(self.find_twice(), (f"{self.quick}\n" * 2, said))
        os.environ["BENCH61499_PROGRAM"] = str(self.quick)
        self.assertEqual(self.find_twice(), (f"{self.quick}\n" * 2, ""))

    def find_twice(self) -> tuple[str, str]:
        """What a program prints that asks the library twice which program to start."""
        words = [sys.executable, "-c", "import bench61499 as it; print(it.find_program()); print(it.find_program())"]
        surroundings = {**os.environ, "PYTHONPATH": str(self.top / "clients" / "python")}
        ran = subprocess.run(words, env=surroundings, capture_output=True, text=True, timeout=60)
        return ran.stdout, ran.stderr

    def test_without_one_check_says_how_to_build_or_name_it(self) -> None:
        how = "name it with --program or BENCH61499_PROGRAM, or put bench61499 on the path"
        ran = self.check()
        build = f"build it with `{self.top}/run --quick script </dev/null` (without `--quick` it is proved, in up to an hour)"
        expected = f"check: no workbench program found: {build}, {how}\n"
        self.assertEqual((ran.stdout, ran.stderr, ran.returncode), ("", expected, 2))
        (self.top / "run").unlink()
        self.assertEqual(self.check().stderr, f"check: no workbench program found: {how}\n")

    def test_without_one_an_editor_gets_one_message_and_answers_of_the_texts(self) -> None:
        editor = Editor(lsp=self.top / "clients" / "lsp")
        self.addCleanup(editor.close)
        editor.start(self.folder)
        editor.open(self.write("A.fb", "FUNCTION_BLOCK A EVENT_INPUT GO; END_EVENT END_FUNCTION_BLOCK"))
        self.assertIn("no workbench program found: build it with", editor.await_message())
        found = editor.request("workspace/symbol", query="")["result"]
        self.assertEqual([it["name"] for it in found], ["A"])
        self.assertEqual(editor.messages, [])
        self.assertEqual(children(editor.process.pid), [])


class RunTest(InFolder):
    """The script `run` in a repository whose tools write programs that print how they were built."""

    def setUp(self) -> None:
        super().setUp()
        shutil.copy(CLIENTS.parent / "run", self.folder)
        self.source, self.clause = (self.folder / "crates" / "fb_text" / it for it in ("src/lib.rt", "specs/Lib.antt"))
        for file in (self.folder / "crates.txt", self.folder / "crates" / "bench61499" / "src" / "main.rt", self.source, self.clause):
            file.parent.mkdir(parents=True, exist_ok=True)
            file.touch()
        for tool, name in (("prove", "bench61499"), ("build-quick", "bench61499-quick")):
            program = self.folder / "crates" / "bench61499" / "out" / name
            lines = ["#!/bin/sh", f"echo {tool} \"$@\" >&2", f"mkdir -p {program.parent}", f"echo '#!/bin/sh\necho {name} \"$@\"' > {program}", f"chmod +x {program}"]
            self.write(f"tools/{tool}", "\n".join([*lines, ""])).chmod(0o755)

    def run_it(self, *words: str) -> tuple[str, list[str]]:
        ran = subprocess.run([self.folder / "run", *words], capture_output=True, text=True, timeout=60)
        return ran.stdout, ran.stderr.splitlines()[1:]

    def change(self, file: Path) -> None:
        later = time.time() + 10
        os.utime(file, (later, later))

    def test_the_quick_program_is_built_if_code_is_newer(self) -> None:
        self.assertEqual(self.run_it("--quick", "host", "--port"), ("bench61499-quick host --port\n", ["build-quick"]))
        self.change(self.clause)
        self.assertEqual(self.run_it("--quick"), ("bench61499-quick\n", []))
        self.change(self.source)
        self.assertEqual(self.run_it("--quick"), ("bench61499-quick\n", ["build-quick"]))

    def test_the_proved_one_if_anything_of_it_is(self) -> None:
        self.assertEqual(self.run_it("script"), ("bench61499 script\n", ["prove bench61499"]))
        self.assertEqual(self.run_it("script"), ("bench61499 script\n", []))
        self.change(self.clause)
        self.assertEqual(self.run_it("script"), ("bench61499 script\n", ["prove bench61499"]))


def children(process: int) -> list[int]:
    """The processes that a process has started and that have not ended."""
    return [int(it) for task in Path(f"/proc/{process}/task").iterdir() for it in (task / "children").read_text().split()]


if __name__ == "__main__":
    unittest.main()
