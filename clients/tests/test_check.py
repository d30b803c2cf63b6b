"""check: what it prints, its status, and what it refuses."""
import json
import os
import pty
import subprocess
import unittest
from pathlib import Path
from unittest.mock import patch

from support import BREAKS, CLIENTS, CONVEYOR, InFolder, free_port, locked, run, workbench

from bench61499 import Places
from bench61499.cli.show import excerpt
from bench61499.language.units import Misuse, find_files


class ConveyorTest(InFolder):
    def check(self, *words):
        return run("check", ".", "--program", workbench(), *words, folder=self.folder)

    def test_clean(self):
        self.copy_conveyor()
        ran = self.check()
        self.assertEqual((ran.returncode, ran.stdout, ran.stderr), (0, "7 units, no faults\n", ""))

    def test_each_break(self):
        for it in BREAKS:
            if it["code"] != "NAME_DIFFERS":
                with self.subTest(it["code"]):
                    self.check_break(it)

    def check_break(self, it):
        self.copy_conveyor()
        text = (CONVEYOR / f"{it['unit']}.fb").read_text().replace(it["old"], it["new"])
        self.write(f"{it['unit']}.fb", text)
        ran = self.check("--quiet")
        self.assertEqual(ran.returncode, 1, ran.stderr)
        # The place is the last time that the words occur in what was put in.
        new = text.index(it["new"])
        for words in it["at"]:
            at = text.rindex(words, new, new + len(it["new"])) if words in it["new"] else text.index(words)
            line, column = text.count("\n", 0, at) + 1, at - (text.rfind("\n", 0, at) + 1) + 1
            self.assertIn(f"{it['unit']}.fb:{line}:{column}: {it['code']}: ", ran.stdout)
            self.assertIn(words.split(".")[-1], ran.stdout)

    def test_a_unit_of_another_name_is_that_unit(self):
        self.copy_conveyor()
        it = next(it for it in BREAKS if it["code"] == "NAME_DIFFERS")
        file = self.folder / f"{it['unit']}.fb"
        file.write_text(file.read_text().replace(it["old"], it["new"]))
        ran = self.check("--quiet")
        self.assertEqual(ran.stdout, "PLANT.fb:5:17: UNKNOWN_TYPE: there is no type LAMP; did you mean LAMPE?\n")

    def test_layout(self):
        self.copy_conveyor()
        self.write("FEEDER.fb", (CONVEYOR / "FEEDER.fb").read_text().replace("IDLE TO MOVING", "IDLE TO MOVE"))
        ran = self.check()
        expected = (
            "FEEDER.fb:16:13: STATE_UNKNOWN: no state MOVE in this chart; did you mean MOVING?\n"
            "      IDLE TO MOVE := START;\n"
            "              ^~~~\n"
            "1 fault in 1 of 7 units\n"
        )
        self.assertEqual(ran.stdout, expected)

    def test_order(self):
        self.write("b.fb", "FUNCTION_BLOCK B FBS X:Q; Y:P; END_FBS END_FUNCTION_BLOCK")
        self.write("a/z.fb", "FUNCTION_BLOCK")
        self.write("a/c.fb", "SYSTEM S APPLICATION A FBS X:NO; END_FBS END_APPLICATION END_SYSTEM")
        places = [":".join(line.split(":")[:3]) for line in self.check("--quiet").stdout.splitlines()]
        self.assertEqual(places, ["a/c.fb:1:30", "a/z.fb:1:1", "b.fb:1:24", "b.fb:1:29"])

    def test_json(self):
        self.write("a.fb", "(* ü *) FUNCTION_BLOCK A\n  EC_STATES ä")
        found = json.loads(self.check("--json").stdout)
        self.assertEqual(found["units"], 1)
        fault = {
            "file": "a.fb", "line": 2, "column": 13, "end_line": 2, "end_column": 14, "unit": "A", "code": "SYNTAX", "level": "error",
            "explanation": "expected a name or END_STATES after EC_STATES, not ä", "start": 38, "end": 40,
        }
        self.assertEqual(found["faults"], [fault])


class FilesTest(InFolder):
    def refused(self, words, *paths):
        ran = run("check", *(paths or ["."]), "--program", workbench(), folder=self.folder)
        self.assertEqual((ran.returncode, ran.stdout, ran.stderr), (2, "", f"check: {words}\n"))

    def test_two_files_with_one_unit(self):
        self.write("a.fb", "FUNCTION_BLOCK A END_FUNCTION_BLOCK")
        self.write("b.fb", "function_block a end_function_block")
        self.refused("a.fb and b.fb both declare the unit A; a unit has one text")

    def test_nothing_to_check(self):
        self.refused("no *.fb files in .")
        self.refused("nowhere: there is no such file or folder", "nowhere")

    def test_texts_that_no_unit_can_have(self):
        self.write("long.fb", "x" * 65_537)
        self.refused("long.fb: has 65,537 bytes, and the text of a unit has at most 65,536")
        self.write("long.fb", b"FUNCTION_BLOCK A\n\xe4")
        self.refused("long.fb:2: is not UTF-8: byte 17 is 0xe4")

    def test_paths_that_cant_be_looked_at(self):
        self.refused(f"{'x' * 300}: can't be read: File name too long", "x" * 300)

    def test_an_inner_folder_that_cant_be_read(self):
        self.write("a.fb", "FUNCTION_BLOCK A END_FUNCTION_BLOCK")
        inner = self.write("inner/b.fb", "FUNCTION_BLOCK B END_FUNCTION_BLOCK").parent
        with locked(inner), self.assertRaisesRegex(Misuse, f"^{inner}: can't be read: Permission denied$"):
            find_files([self.folder])

    def test_a_file_that_cant_be_looked_at(self):
        file = self.write("a.fb", "FUNCTION_BLOCK A END_FUNCTION_BLOCK")
        look = Path.stat

        def refusing(path, **words):
            if path == file:
                raise PermissionError
            return look(path, **words)

        with patch.object(Path, "stat", refusing):
            self.assertEqual(find_files([self.folder]), [file])

    def test_one_file_by_two_names(self):
        file = self.write("b.fb", "FUNCTION_BLOCK A END_FUNCTION_BLOCK")
        for name in "dac":
            (self.folder / f"{name}.fb").symlink_to(file)
        self.assertEqual(find_files([self.folder]), [self.folder / "a.fb"])

    def test_the_longest_texts(self):
        for number in range(20):
            self.write(f"u{number}.fb", f"FUNCTION_BLOCK U{number} END_FUNCTION_BLOCK".ljust(65_536))
        ran = run("check", ".", "--program", workbench(), folder=self.folder)
        self.assertEqual(ran.stdout, "20 units, no faults\n")

    def test_more_units_than_a_workbench_can_have(self):
        folder = self.folder / "many"
        folder.mkdir()
        for number in range(16_385):
            (folder / f"{number}.fb").touch()
        clients: dict[str, list[object]] = {"check": [folder], "plan": ["A", "--files", folder], "draw": ["A", "--files", folder]}
        for client, words in clients.items():
            ran = run(client, *words, "--program", "/bin/false")
            self.assertEqual((ran.returncode, ran.stdout, ran.stderr), (2, "", f"{client}: 16,385 units, and a workbench has at most 16,384\n"))

    def test_files_without_a_declaration(self):
        self.write("empty.fb", "")
        self.write("if.fb", "FUNCTION_BLOCK IF END_FUNCTION_BLOCK")
        self.write("9 - ü.fb", "// nothing\n")
        self.write("other.fb", "FUNCTION_BLOCK EMPTY")
        ran = run("check", ".", "--quiet", "--program", workbench(), folder=self.folder)
        expected = [
            "9 - ü.fb:2:1: SYNTAX: there is nothing here: a unit begins with FUNCTION_BLOCK, ADAPTER, SUBAPPLICATION, SYSTEM or TYPE",
            "empty.fb:1:1: SYNTAX: there is nothing here: a unit begins with FUNCTION_BLOCK, ADAPTER, SUBAPPLICATION, SYSTEM or TYPE",
            "if.fb:1:16: SYNTAX: expected a name after FUNCTION_BLOCK, and IF is a reserved word",
            "other.fb:1:16: SYNTAX: the text ends too early, behind EMPTY: END_FUNCTION_BLOCK is missing",
        ]
        self.assertEqual(ran.stdout.splitlines(), expected)

    def test_many_faults_in_one_line(self):
        variables = " ".join(f"V{number}:INT;" for number in range(1000))
        statements = " ".join(f"W{number}:=1;" for number in range(3500))
        text = f"FUNCTION_BLOCK A VAR {variables} END_VAR ALGORITHM B IN ST: {statements} END_ALGORITHM END_FUNCTION_BLOCK"
        self.write("a.fb", text)
        ran = run("check", ".", "--program", workbench(), folder=self.folder)
        self.assertTrue(ran.stdout.endswith("\n3,500 faults in 1 of 1 unit\n"))

    def test_one_file_twice(self):
        file = self.write("a.fb", "FUNCTION_BLOCK A END_FUNCTION_BLOCK")
        ran = run("check", ".", file, "--program", workbench(), folder=self.folder)
        self.assertEqual(ran.stdout, "1 unit, no faults\n")


class OutputTest(InFolder):
    """What is printed in place of what can't be printed."""

    def setUp(self):
        super().setUp()
        self.name = os.fsdecode(b"\xff.fb")
        self.write(self.name, "FUNCTION_BLOCK A EC_STATES ä")

    def check(self, *words, **surroundings):
        return run("check", ".", *words, "--program", workbench(), folder=self.folder, **surroundings)

    def test_an_output_without_umlauts(self):
        ran = self.check("--quiet", PYTHONIOENCODING="ascii")
        self.assertEqual((ran.returncode, ran.stdout), (1, "\\udcff.fb:1:28: SYNTAX: expected a name or END_STATES after EC_STATES, not \\xe4\n"))

    def test_names_of_files_that_are_no_utf_8(self):
        words: list[str | bytes | Path] = [CLIENTS / "check", self.name, "--quiet", "--program", workbench()]
        ran = subprocess.run(words, cwd=self.folder, env={**os.environ, "PYTHONIOENCODING": "utf-8"}, capture_output=True)
        self.assertEqual(ran.stdout, b"\xff.fb:1:28: SYNTAX: expected a name or END_STATES after EC_STATES, not \xc3\xa4\n")

    def test_json_is_sound(self):
        ran = self.check("--json", PYTHONIOENCODING="utf-8")
        (fault,) = json.loads(ran.stdout)["faults"]
        self.assertEqual((fault["file"], fault["explanation"]), (self.name, "expected a name or END_STATES after EC_STATES, not ä"))

    @unittest.skipUnless(os.path.exists("/dev/full"), "no /dev/full here")
    def test_a_full_disk(self):
        with open("/dev/full", "w", encoding="utf-8") as full:
            ran = subprocess.run([CLIENTS / "check", ".", "--program", workbench()], cwd=self.folder, stdout=full, stderr=subprocess.PIPE, text=True)
        self.assertEqual((ran.returncode, ran.stderr), (2, "check: [Errno 28] No space left on device\n"))

    def test_no_output(self):
        ran = subprocess.run(["sh", "-c", f'exec "{CLIENTS}/check" . --program "{workbench()}" >&-'], cwd=self.folder, stderr=subprocess.PIPE, text=True)
        self.assertEqual((ran.returncode, ran.stderr), (1, ""))


class TroubleTest(InFolder):
    def setUp(self):
        super().setUp()
        self.write("a.fb", "FUNCTION_BLOCK A END_FUNCTION_BLOCK")

    def refused(self, words, *options):
        ran = run("check", "a.fb", *options, folder=self.folder)
        self.assertEqual((ran.returncode, ran.stdout), (2, ""))
        self.assertRegex(ran.stderr, words)
        self.assertNotIn("Traceback", ran.stderr)

    def test_no_workbench(self):
        self.refused("^check: can't start the workbench ./nowhere: No such file or directory\n$", "--program", "./nowhere")
        self.refused("^check: no workbench at localhost:[0-9]+: ", "--connect", f"localhost:{free_port()}")
        self.refused("'here' is no HOST:PORT", "--connect", "here")
        self.refused("^check: no workbench at a..b:9: there is no such host\n$", "--connect", "a..b:9")

    def test_an_empty_word_is_no_folder(self):
        self.refused("argument FOLDER.FILE: an empty word names no file or folder", "")

    def test_a_workbench_that_dies(self):
        why = r"the workbench ended before it answered \(status 5\); perhaps it needs more memory than its limit of 2 GiB: --memory-limit raises it"
        self.refused(f"^check: {why}\n$", "--program", self.program("sys.exit(5)"))

    def test_a_workbench_that_talks_nonsense(self):
        program = self.program("sys.stdin.readline(); print('Welcome!', flush=True); sys.stdin.read()")
        self.refused("^check: the workbench sent a reply that makes no sense: Welcome!\n$", "--program", program)

    def test_a_unit_that_somebody_changes_meanwhile(self):
        for change in ('{"put":"A","base":1,"text":"SYSTEM A END_SYSTEM"}', '{"remove":"A","base":1}'):
            self.refused("^check: A was changed by somebody else while it was checked; check again\n$", "--program", self.changing(change))

    def changing(self, change):
        """A workbench in which somebody makes a change after the first question."""
        commit = f'{{"op":"commit","changes":[{change}]}}\n'
        return self.program(
            f"""
import subprocess
workbench = subprocess.Popen([{workbench()!r}, *sys.argv[1:]], stdin=subprocess.PIPE, stdout=subprocess.PIPE)
def told(line):
    workbench.stdin.write(line)
    workbench.stdin.flush()
    return workbench.stdout.readline()
for line in sys.stdin.buffer:
    reply = told(line)
    if b'"op":"ask"' in line:
        told({commit.encode()!r})
    sys.stdout.buffer.write(reply)
    sys.stdout.buffer.flush()
"""
        )

    def test_too_many_units(self):
        for number in range(3):
            self.write(f"u{number}.fb", f"FUNCTION_BLOCK U{number} END_FUNCTION_BLOCK")
        small = self.write("small", f'#!/bin/sh\nexec "{workbench()}" script --units 2\n')
        small.chmod(0o755)
        ran = run("check", ".", "--program", small, folder=self.folder)
        self.assertIn("the workbench has no room for more units", ran.stderr)


class TerminalTest(InFolder):
    def on_terminal(self, **surroundings):
        """What check prints where its output is a terminal."""
        self.write("a.fb", "FUNCTION_BLOCK A EC_TRANSITIONS B TO B := 1; END_TRANSITIONS END_FUNCTION_BLOCK")
        words = ["check", "a.fb", "--quiet", "--program", workbench()]
        child, terminal = pty.fork()
        if child == 0:
            os.chdir(self.folder)
            os.execve(CLIENTS / "check", words, {**os.environ, "TERM": "xterm", **surroundings})
        shown = b""
        try:
            while piece := os.read(terminal, 4096):
                shown += piece
        except OSError:
            pass  # So a terminal reports its end.
        os.close(terminal)
        os.waitpid(child, 0)
        return shown.decode()

    def test_colours(self):
        self.assertIn("\033[1;31mSTATE_UNKNOWN\033[0m", self.on_terminal())

    def test_no_colours(self):
        self.assertNotIn("\033", self.on_terminal(NO_COLOR="1"))


class ExcerptTest(unittest.TestCase):
    def show(self, text, words, expected):
        start = text.encode().index(words.encode())
        shown = excerpt(Places(text), start, start + len(words.encode()))
        self.assertEqual("\n".join(shown), expected)

    def test_tabs(self):
        self.show("\ta\tBAD", "BAD", "        a       BAD\n                ^~~")

    def test_wide_and_combining_characters(self):
        self.show("(* 漢字 e\u0301 *) BAD", "BAD", "(* 漢字 e\u0301 *) BAD\n             ^~~")
        self.show("漢字", "字", "漢字\n  ^~")

    def test_control_characters(self):
        self.show("\x1b[31m BAD\r\n", "BAD", "\ufffd[31m BAD\n      ^~~")

    def test_spans_of_many_lines(self):
        self.show("a (x\n+ y)", "(x\n+ y)", "a (x\n  ^~")

    def test_empty_spans(self):
        self.assertEqual(excerpt(Places("ab"), 2, 2), ("ab", "  ^"))

    def test_long_lines(self):
        line, carets = excerpt(Places("x " * 500 + "BAD" + " y" * 500), 1000, 1003)
        self.assertEqual(len(line), 122)
        self.assertEqual(line[carets.index("^") : len(carets)], "BAD")
        line, carets = excerpt(Places("漢" * 500), 900, 1500)
        self.assertEqual((len(line), len(carets)), (122, 241))


if __name__ == "__main__":
    unittest.main()
