"""Algorithms that the workbench does not read never look like checked ones: check counts and lists them, and editors and the board name them."""
from __future__ import annotations

import json
import unittest
from xml.etree import ElementTree

from editing import LspTest
from support import InFolder, run, workbench

from bench61499.language.skipped import heads, skipped

CALLS = """\
FUNCTION_BLOCK CALLS
  EVENT_INPUT REQ; END_EVENT
  VAR_INPUT X : REAL; END_VAR
  VAR_OUTPUT OUT : REAL; END_VAR
  ALGORITHM FINE IN ST:
    OUT := X;
  END_ALGORITHM
  ALGORITHM SCALED IN ST_FULL
    OUT := LIMIT(0.0, X / 10.0, 5.0);
  END_ALGORITHM
  ALGORITHM RUNGS IN LD
    ALGORITHM IS NO WORD HERE
  END_ALGORITHM
END_FUNCTION_BLOCK
"""
BROKEN = CALLS.replace("ST_FULL", "ST:")
USER = "FUNCTION_BLOCK USER\n  FBS\n    A : CALLS;\n  END_FBS\nEND_FUNCTION_BLOCK\n"


class TextTest(unittest.TestCase):
    def test_what_is_skipped(self) -> None:
        self.assertEqual([(it.name, it.language.words) for it in skipped(CALLS)], [("SCALED", "ST_FULL"), ("RUNGS", "LD")])
        self.assertEqual([it.name for it in heads(CALLS)], ["FINE", "SCALED", "RUNGS"])
        for text in ("", "FUNCTION_BLOCK ALGORITHM", "ALGORITHM A IN ST: END_ALGORITHM", "(* ALGORITHM A IN LD *)", "X := 'ALGORITHM A IN LD';"):
            self.assertEqual(skipped(text), [], text)
        self.assertEqual([it.name for it in skipped("algorithm (* b *) a in // c\nld END_ALGORITHM")], ["a"])


class CheckTest(InFolder):
    def setUp(self) -> None:
        super().setUp()
        self.write("CALLS.fb", CALLS)
        self.write("USER.fb", USER)

    def check(self, *words: str) -> str:
        ran = run("check", ".", *words, "--program", workbench(), folder=self.folder)
        self.assertEqual((ran.returncode, ran.stderr), (0, ""))
        return ran.stdout

    def test_the_last_line_counts_them(self) -> None:
        self.assertEqual(self.check(), "2 units, no faults; 2 algorithms are not checked\n")
        self.write("CALLS.fb", CALLS.replace("RUNGS IN LD\n    ALGORITHM IS NO WORD HERE", "RUNGS IN ST:"))
        self.assertEqual(self.check(), "2 units, no faults; 1 algorithm is not checked\n")
        self.assertEqual(self.check("--quiet"), "")

    def test_they_are_listed(self) -> None:
        self.assertEqual(self.check("--list-unchecked", "--quiet").splitlines(), [
            "CALLS.fb:8:3: NOT_CHECKED: the algorithm SCALED is IN ST_FULL, which the workbench does not read",
            "CALLS.fb:11:3: NOT_CHECKED: the algorithm RUNGS is IN LD, which the workbench does not read",
        ])

    def test_forms_for_programs(self) -> None:
        value = json.loads(self.check("--json"))
        self.assertEqual((value["faults"], value["notes"]), ([], []))
        self.assertEqual([(it["code"], it["level"], it["line"], it["unit"]) for it in value["algorithms"]], [("NOT_CHECKED", "note", 8, "CALLS"), ("NOT_CHECKED", "note", 11, "CALLS")])
        run_ = json.loads(self.check("--format", "sarif"))["runs"][0]
        self.assertEqual([(it["ruleId"], it["level"]) for it in run_["results"]], [("NOT_CHECKED", "note")] * 2)
        rule = run_["tool"]["driver"]["rules"][run_["results"][0]["ruleIndex"]]
        self.assertEqual((rule["id"], rule["defaultConfiguration"]), ("NOT_CHECKED", {"level": "note"}))
        suite = ElementTree.fromstring(self.check("--format", "junit"))
        self.assertEqual((suite.get("tests"), suite.get("failures")), ("2", "0"))
        self.assertEqual([it.text.count("NOT_CHECKED") for it in suite.iter("system-out")], [2])
        self.assertEqual([it.partition(" ")[0] for it in self.check("--format", "github").splitlines()], ["::notice", "::notice"])


class EditorTest(LspTest):
    def test_the_head_of_an_algorithm_has_an_information(self) -> None:
        file = self.write("CALLS.fb", CALLS)
        editor = self.started()
        editor.open(file)
        editor.await_codes(CALLS=["NOT_CHECKED", "NOT_CHECKED"])
        first = editor.shown["CALLS.fb"][0]
        self.assertEqual((first["severity"], first["message"]), (3, "the algorithm SCALED is IN ST_FULL, which the workbench does not read"))
        self.assertEqual((first["range"]["start"], first["range"]["end"]), ({"line": 7, "character": 2}, {"line": 7, "character": 29}))

    def test_an_algorithm_that_breaks_its_unit_is_kept(self) -> None:
        file, _ = self.write("CALLS.fb", BROKEN), self.write("USER.fb", USER)
        editor = self.started()
        editor.open(file)
        editor.await_codes(CALLS=["SYNTAX", "NOT_CHECKED"], USER=["UNKNOWN_TYPE"])
        shown = editor.shown["CALLS.fb"][:1]
        fix, = editor.ask("codeAction", file, range=shown[0]["range"], context={"diagnostics": shown})
        self.assertEqual(fix["title"], "Keep SCALED as IN ST_FULL, not checked by the workbench")
        (change,) = fix["edit"]["changes"][file.as_uri()] if "changes" in fix["edit"] else fix["edit"]["documentChanges"][0]["edits"]
        self.assertEqual((change["newText"], change["range"]["start"], change["range"]["end"]), ("ST_FULL", {"line": 7, "character": 22}, {"line": 7, "character": 25}))
        editor.change(file, CALLS)
        editor.await_codes(CALLS=["NOT_CHECKED", "NOT_CHECKED"], USER=[])


if __name__ == "__main__":
    unittest.main()
